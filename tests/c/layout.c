/* Each field that C sets is the one that the library sees: every field of every record is set by itself to a telling value, and an answer,
 * a frame's bytes or the record that is left shows that the library reads it there. All functions are called; the writer's two steps are tried
 * apart. RESPONSEs of every kind are opened, each from bytes that stand in layout_response.h. What takes frames is tried with each TLR CONTROL
 * in them: the answers are the same. All records are tried under both editions, with several values and with several TPTTs in read DATA and
 * RESPONSEs that arrive; what only an edition changes is in layout_edition.h. All are tried with several Initiator Response Timeouts too; reports of
 * time are in layout_time.h. Reads that start further in are in layout_start.h. Prints one line. */
#include "layout.h"
#include "layout_read.h"
#include "layout_write.h"
#include "layout_rest.h"
#include "layout_response.h"
#include "layout_edition.h"
#include "layout_time.h"
#include "layout_start.h"

int main(void) {
    unsigned i;
    for (i = 0; i < sizeof data; i++) {
        data[i] = (uint8_t)(i + 1);
    }
    for (i = 0; i < sizeof iu; i++) {
        iu[i] = (uint8_t)(i * 7 + 1);
    }
    for (i = 0; i < sizeof editions / sizeof editions[0]; i++) {
        now = editions[i];
        timed = timings[i % TIMINGS];
        transfer_fields();
        sender_fields();
        for (arriving = 0; arriving <= SSP_TLR_MOST; arriving++) {
            receiver_fields();
            writer_fields();
            target_fields();
        }
        responder_fields();
        arriving = 0;
        response_opened();
    }
    now = editions[0];
    timed = timings[0];
    header_fields();
    writer_steps();
    edition_fields();
    time_fields();
    start_fields();
    if (wrong > 0) {
        printf("%u of %u checks failed\n", wrong, checks);
        return 1;
    }
    printf("%u checks passed\n", checks);
    return 0;
}
