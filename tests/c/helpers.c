/* The version, the inline helpers and SSP_ZERO, as C99, C11 and C++11. The words below are typed from the scope paper's "Trade words" and from
 * requests K4 and K9, not from the header. Prints one line. */
#include <stdio.h>
#include <string.h>

#include "ssp.h"

static unsigned checks, wrong;

#define TRY(ok)                                          \
    do {                                                 \
        checks++;                                        \
        if (!(ok)) {                                     \
            wrong++;                                     \
            printf("line %d: not so: %s\n", __LINE__, #ok); \
        }                                                \
    } while (0)

/* ---- the version ---- */

static void version(void) {
    char text[32];
    snprintf(text, sizeof text, "%d.%d.%d", SSP_VERSION_MAJOR, SSP_VERSION_MINOR, SSP_VERSION_PATCH);
    TRY(strcmp(SSP_VERSION_STRING, text) == 0);
    TRY(SSP_VERSION == SSP_VERSION_MAJOR * 10000 + SSP_VERSION_MINOR * 100 + SSP_VERSION_PATCH);
    TRY(SSP_VERSION_MINOR < 100 && SSP_VERSION_PATCH < 100);
    TRY(ssp_version() == SSP_VERSION);
    TRY(SSP_VERSION == 10300 && ssp_interface_4() == 4);
}

/* ---- names ---- */

typedef struct named {
    int number;
    int constant;
    const char *name;
} named;

static const named numbers[] = {
    {1, SSP_BAD_REQUEST, "Bad Request"},
    {2, SSP_TRANSFER_ENDED, "Transfer Ended"},
    {3, SSP_FRAME_SPACE_SHORT, "Frame Space Short"},
    {4, SSP_ANSWER_WITHOUT_FRAME, "Answer Without Frame"},
    {5, SSP_MALFORMED_FRAME, "Malformed Frame"},
    {6, SSP_UNEXPECTED_FRAME_TYPE, "Unexpected Frame Type"},
    {7, SSP_WRONG_ADDRESS, "Wrong Address"},
    {8, SSP_UNKNOWN_TAG, "Unknown Tag"},
    {20, SSP_DATA_OFFSET_ERROR, "Data Offset Error"},
    {21, SSP_TOO_MUCH_DATA, "Too Much Data"},
    {22, SSP_INCORRECT_DATA_LENGTH, "Incorrect Data Length"},
    {23, SSP_XFER_RDY_IU_TOO_SHORT, "XFER_RDY Information Unit Too Short"},
    {24, SSP_XFER_RDY_IU_TOO_LONG, "XFER_RDY Information Unit Too Long"},
    {25, SSP_XFER_RDY_INCORRECT_WRITE_DATA_LENGTH, "XFER_RDY Incorrect Write Data Length"},
    {26, SSP_XFER_RDY_REQUESTED_OFFSET_ERROR, "XFER_RDY Requested Offset Error"},
    {27, SSP_XFER_RDY_NOT_EXPECTED, "XFER_RDY Not Expected"},
    {28, SSP_NAK_RECEIVED, "NAK Received"},
    {29, SSP_ACK_NAK_TIMEOUT, "ACK/NAK Timeout"},
    {30, SSP_CONNECTION_LOST, "Connection Lost"},
    {31, SSP_NEXUS_LOSS, "I_T Nexus Loss"},
    {32, SSP_RESPONSE_IU_TOO_SHORT, "RESPONSE Information Unit Too Short"},
    {33, SSP_INITIATOR_RESPONSE_TIMEOUT, "Initiator Response Timeout"},
    {34, SSP_RESPONSE_DATA_WRONG, "RESPONSE Data Wrong"},
};

/* `what` in the order of its values */
static const char *const whats[] = {
    "refused",      "failed",     "wait",     "frame",
    "taken",        "retry",      "unchanged", "delivered",
    "acknowledged", "discarded",  "stored",   "received",
    "next burst",   "next burst, the one before delivered",
    "repeated",     "RESPONSE",   "ready",    "parsed",
};

enum { NUMBERS = sizeof numbers / sizeof numbers[0], WHATS = sizeof whats / sizeof whats[0] };

static void names(void) {
    int n, i;
    for (n = 0; n <= 255; n++) {
        const char *want = "";
        for (i = 0; i < NUMBERS; i++) {
            if (numbers[i].number == n) {
                want = numbers[i].name;
            }
        }
        TRY(strcmp(ssp_number_name((uint8_t)n), want) == 0);
        TRY(strcmp(ssp_what_name((uint8_t)n), n < WHATS ? whats[n] : "") == 0);
    }
    for (i = 0; i < NUMBERS; i++) {
        TRY(numbers[i].constant == numbers[i].number);
    }
    TRY(strcmp(ssp_what_name(SSP_REFUSED), "refused") == 0 && strcmp(ssp_what_name(SSP_NEXT_BURST), "next burst") == 0);
    TRY(strcmp(ssp_what_name(SSP_RESPONSE), "RESPONSE") == 0 && SSP_PARSED == WHATS - 1);
}

/* ---- transfers with defaults ---- */

/* How many set-ups take the transfer: ones for a read's two, tens for a write's two, a hundred for the RESPONSE's. */
static int taken(ssp_transfer t) {
    ssp_read_target s = SSP_ZERO;
    ssp_read_initiator r = SSP_ZERO;
    ssp_write_initiator w = SSP_ZERO;
    ssp_write_target x = SSP_ZERO;
    ssp_response p = SSP_ZERO;
    return (ssp_read_target_set_up(&s, t).what == SSP_READY) + (ssp_read_initiator_set_up(&r, t).what == SSP_READY) +
           10 * ((ssp_write_initiator_set_up(&w, t).what == SSP_READY) + (ssp_write_target_set_up(&x, t).what == SSP_READY)) +
           100 * (ssp_response_set_up(&p, t, 24).what == SSP_READY);
}

static void transfers(void) {
    ssp_transfer t = ssp_read_transfer(46, 0x123456, 0xABCDEF, 0x0012);
    TRY(t.count == 46 && t.local == 0x123456 && t.remote == 0xABCDEF && t.tag == 0x0012 && !t.write);
    TRY(t.size == 1024 && t.window == 8 && t.limit == 3 && t.burst == 46 && !t.sas2 && t.value == 0 && t.irt == 0 && t.start == 0);
    TRY(SSP_DEFAULT_SIZE == 1024 && SSP_DEFAULT_WINDOW == 8 && SSP_DEFAULT_RETRY_LIMIT == 3);
    TRY(taken(t) == 102);
    t.burst = 0; /* what a read has to be kept from */
    TRY(taken(t) == 0);
    TRY(taken(ssp_read_transfer(1, 0, 0, 0)) == 102);
    TRY(taken(ssp_read_transfer(SSP_COUNT_MOST, SSP_ADDRESS_MOST, SSP_ADDRESS_MOST, 0xFFFF)) == 102);
    TRY(taken(ssp_read_transfer(0, 1, 2, 3)) == 0 && taken(ssp_read_transfer(SSP_COUNT_MOST + 1, 1, 2, 3)) == 0);
    TRY(taken(ssp_read_transfer(1, SSP_ADDRESS_MOST + 1, 2, 3)) == 0 && taken(ssp_read_transfer(1, 1, SSP_ADDRESS_MOST + 1, 3)) == 0);

    t = ssp_write_transfer(24, 0x123456, 0xABCDEF, 0x0034, 12);
    TRY(t.count == 24 && t.local == 0x123456 && t.remote == 0xABCDEF && t.tag == 0x0034 && t.write);
    TRY(t.size == 1024 && t.window == 8 && t.limit == 3 && t.burst == 12 && !t.sas2 && t.value == 0 && t.irt == 0 && t.start == 0);
    TRY(taken(t) == 120);
    TRY(taken(ssp_write_transfer(1, 0, 0, 0, 1)) == 120);
    TRY(taken(ssp_write_transfer(SSP_COUNT_MOST, SSP_ADDRESS_MOST, SSP_ADDRESS_MOST, 0xFFFF, SSP_COUNT_MOST)) == 120);
    TRY(taken(ssp_write_transfer(24, 1, 2, 3, 0)) == 0 && taken(ssp_write_transfer(24, 1, 2, 3, 25)) == 0);

    /* every Initiator Response Timeout is taken, in both directions and for the RESPONSE; ssp_sas2 leaves it */
    t.irt = 1;
    TRY(taken(t) == 120 && ssp_sas2(t, 7).irt == 1);
    t.irt = 0xFFFF;
    TRY(taken(t) == 120 && ssp_sas2(t, 0xFFFF).irt == 0xFFFF);
    t = ssp_read_transfer(46, 0x123456, 0xABCDEF, 0x0012);
    t.irt = 0xFFFF;
    TRY(taken(t) == 102);

    /* a start: in a read up to 16,777,216 less the count, in a write only 0; ssp_sas2 leaves it */
    t = ssp_read_transfer(46, 0x123456, 0xABCDEF, 0x0012);
    t.start = 16777170;
    TRY(taken(t) == 102 && ssp_sas2(t, 7).start == 16777170 && taken(ssp_sas2(t, 7)) == 102);
    t.start = 16777171;
    TRY(taken(t) == 0);
    t.start = 0xFFFFFFFF;
    TRY(taken(t) == 0);
    t = ssp_write_transfer(24, 0x123456, 0xABCDEF, 0x0034, 12);
    t.start = 1;
    TRY(taken(t) == 0 && ssp_sas2(t, 7).start == 1 && taken(ssp_sas2(t, 7)) == 0);
}

/* ---- the edition ---- */

static void editions(void) {
    static const uint16_t values[] = {0, 1, 0x00FF, 0xFF00, 0xFFFF};
    ssp_transfer read = ssp_read_transfer(46, 0x123456, 0xABCDEF, 0x0012), write = ssp_write_transfer(24, 0xABCDEF, 0x123456, 0x0034, 12);
    ssp_transfer t;
    unsigned i;
    for (i = 0; i < sizeof values / sizeof values[0]; i++) {
        t = ssp_sas2(read, values[i]);
        TRY(t.sas2 && t.value == values[i] && taken(t) == 102);
        TRY(t.count == 46 && t.local == 0x123456 && t.remote == 0xABCDEF && t.tag == 0x0012 && !t.write);
        TRY(t.size == 1024 && t.window == 8 && t.limit == 3 && t.burst == 46);
        t.sas2 = false;
        TRY(taken(t) == (values[i] == 0 ? 102 : 0));
        t = ssp_sas2(write, values[i]);
        TRY(t.sas2 && t.value == values[i] && taken(t) == 120);
        TRY(t.count == 24 && t.local == 0xABCDEF && t.remote == 0x123456 && t.tag == 0x0034 && t.write);
        TRY(t.size == 1024 && t.window == 8 && t.limit == 3 && t.burst == 12);
        t.sas2 = false;
        TRY(taken(t) == (values[i] == 0 ? 120 : 0));
        t = ssp_sas2(ssp_sas2(read, 7), values[i]);
        TRY(t.sas2 && t.value == values[i]);
    }
    TRY(!read.sas2 && read.value == 0 && !write.sas2 && write.value == 0);
}

/* ---- sense data ---- */

static void sense(void) {
    static const uint8_t taken_iu[26] = {0, 0, 0, 0, 0, 0, 0, 0, 0, 0, 2, 0x02, 0, 0, 0, 0, 0, 0, 0, 2, 0, 0, 0, 0, 0x70, 0x05};
    static const uint8_t empty_iu[24] = {0};
    uint8_t frame[SSP_FRAME_MOST], data[1];
    ssp_read_initiator r = SSP_ZERO;
    ssp_header h = SSP_ZERO;
    ssp_answer a, f;
    ssp_part p;

    a = ssp_response_iu_read(taken_iu, sizeof taken_iu);
    p = ssp_sense(a, taken_iu, sizeof taken_iu);
    TRY(a.what == SSP_PARSED && p.at == taken_iu + 24 && p.len == 2 && p.at[0] == 0x70 && p.at[1] == 0x05);
    TRY(ssp_sense(a, taken_iu, sizeof taken_iu - 1).len == 0);
    a = ssp_response_iu_read(empty_iu, sizeof empty_iu);
    TRY(a.what == SSP_PARSED && ssp_sense(a, empty_iu, sizeof empty_iu).len == 0);
    a = ssp_response_iu_read(taken_iu, 23);
    TRY(a.number == SSP_RESPONSE_IU_TOO_SHORT && ssp_sense(a, taken_iu, 23).len == 0);

    h.type = SSP_TYPE_RESPONSE;
    h.dest = 1;
    h.source = 2;
    h.tag = 3;
    f = ssp_frame_write(h, taken_iu, sizeof taken_iu, frame, sizeof frame);
    ssp_read_initiator_set_up(&r, ssp_read_transfer(1, 1, 2, 3));
    a = ssp_read_initiator_frame_received(&r, frame, f.len, data, sizeof data);
    p = ssp_sense(a, frame, f.len);
    TRY(a.what == SSP_RESPONSE && p.at == frame + 48 && p.len == 2 && p.at[1] == 0x05);
    a = ssp_read_initiator_frame_received(&r, frame, f.len, data, sizeof data);
    TRY(a.number == SSP_TRANSFER_ENDED && ssp_sense(a, frame, f.len).len == 0);
}

int main(void) {
    version();
    names();
    transfers();
    editions();
    sense();
    if (wrong > 0) {
        printf("%u of %u checks failed\n", wrong, checks);
        return 1;
    }
    printf("%u checks passed\n", checks);
    return 0;
}
