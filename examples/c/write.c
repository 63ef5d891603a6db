/* A write of 24 bytes in two bursts. The ACK of the first XFER_RDY is lost, so the target sends it again; in the second burst a DATA
 * frame is damaged. Both ports run here. WORKING.md explains each line of write.out. */
#include <stdlib.h>
#include <string.h>

#include "show.h"

enum { COUNT = 24, SIZE = 8, WINDOW = 4, LIMIT = 2, BURST = 12, IU = 42, TAG = 0x0034 };
enum { INITIATOR = 0x123456, TARGET = 0xABCDEF }; /* hashed addresses */

enum fate { WHOLE, DAMAGED };
static const char *const fate_words[] = {"whole", "damaged"};

static ssp_write_initiator initiator; /* sends DATA; static, so all zero */
static ssp_write_target target;       /* sends XFER_RDY, receives DATA */
static uint8_t sent[COUNT];           /* the initiator's data buffer */
static uint8_t received[COUNT];
static uint8_t frame[SSP_FRAME_MOST];
static size_t frame_len;

static void stop(const char *who, ssp_answer a) {
    printf("%s: %s\n", who, word(a));
    exit(1);
}

/* The target hands out its XFER_RDY, which reaches the initiator whole. */
static void xfer_rdy(void) {
    ssp_header h = SSP_ZERO;
    ssp_xfer_rdy x = SSP_ZERO;
    ssp_answer a = ssp_write_target_next_frame(&target, frame, sizeof frame);
    ssp_answer f;
    if (a.what != SSP_FRAME) {
        stop("target", a);
    }
    f = ssp_frame_read(&h, frame, a.len);
    ssp_xfer_rdy_read(&x, frame + f.start, f.len);
    printf("XFER_RDY  offset %2u  length %u  TPTT %u  RETRY DATA FRAMES %d  RETRANSMIT %d  initiator: %s\n", (unsigned)x.offset,
           (unsigned)x.len, (unsigned)h.tptt, h.retry, h.retransmit, word(ssp_write_initiator_frame_received(&initiator, frame, a.len)));
}

/* The initiator hands out a DATA frame, which meets its fate. */
static void data(enum fate fate) {
    ssp_header h = SSP_ZERO;
    ssp_answer a = ssp_write_initiator_next_frame(&initiator, sent, COUNT, frame, sizeof frame);
    ssp_answer f;
    const char *what = "nothing";
    if (a.what != SSP_FRAME) {
        stop("initiator", a);
    }
    frame_len = a.len;
    f = ssp_frame_read(&h, frame, frame_len);
    if (fate == WHOLE) {
        what = word(ssp_write_target_frame_received(&target, frame, frame_len, received, COUNT));
    }
    printf("DATA  offset %2u  bytes %u  CDP %d  TPTT %u  %-7s  target: %s\n", (unsigned)h.offset, (unsigned)f.len, h.cdp,
           (unsigned)h.tptt, fate_words[fate], what);
}

static void initiator_waits(void) {
    ssp_answer a = ssp_write_initiator_next_frame(&initiator, sent, COUNT, frame, sizeof frame);
    printf("initiator asked for a frame: %s\n", word(a));
}

/* A confirmation that reaches the initiator. */
static void report(const char *event, ssp_answer a) {
    printf("%-7s  initiator: %-9s  unanswered %u  next %2u  retries %u\n", event, word(a), (unsigned)initiator.sender.unanswered,
           (unsigned)initiator.sender.next, (unsigned)initiator.sender.retries);
    if (a.what == SSP_DELIVERED) {
        printf("report: burst delivered, %u frames handed out\n", (unsigned)a.frames);
    }
}

static void respond(ssp_transfer t) {
    /* The caller's: CHECK CONDITION with 18 bytes of sense data in fixed format, EOM at key 0h, 00h/02h: written, and the end of the tape is
     * near. */
    static const uint8_t iu[IU] = {0, 0, 0, 0, 0, 0, 0, 0, 0, 0, SSP_DATAPRES_SENSE_DATA, 0x02, 0, 0, 0, 0, 0, 0, 0, 18, 0, 0, 0, 0,
                                   0x70, 0, 0x40, 0, 0, 0, 0, 10, 0, 0, 0, 0, 0x00, 0x02};
    ssp_response responder = SSP_ZERO;
    ssp_answer a, b;
    ssp_response_set_up(&responder, t, IU);
    a = ssp_response_next_frame(&responder, iu, IU, frame, sizeof frame);
    b = ssp_write_initiator_frame_received(&initiator, frame, a.len);
    printf("RESPONSE  %u bytes  initiator: %s, IU of %u bytes from byte %u, %u frames in the last burst\n", (unsigned)a.len, word(b),
           (unsigned)b.len, (unsigned)b.start, (unsigned)b.frames);
    show_status(b, frame, a.len);
    printf("ACK of the RESPONSE: %s\n", word(ssp_response_ack_received(&responder)));
}

/* The write as one port is set up for it. Data size and window are smaller than the defaults, so that 24 bytes take several frames. */
static ssp_transfer transfer(uint32_t local, uint32_t remote) {
    ssp_transfer t = ssp_write_transfer(COUNT, local, remote, TAG, BURST);
    t.size = SIZE;
    t.window = WINDOW;
    t.limit = LIMIT;
    return t;
}

int main(void) {
    ssp_transfer at_initiator = transfer(INITIATOR, TARGET);
    ssp_transfer at_target = transfer(TARGET, INITIATOR);
    uint8_t early[SSP_FRAME_MOST];
    size_t early_len;
    unsigned i;

    if (!same_version()) {
        return 1;
    }
    for (i = 0; i < COUNT; i++) {
        sent[i] = (uint8_t)(i + 1);
    }

    printf("write: %d bytes, %d per frame, window %d, retry limit %d, bursts of %d\n", COUNT, SIZE, WINDOW, LIMIT, BURST);
    if (ssp_write_initiator_set_up(&initiator, at_initiator).what != SSP_READY ||
        ssp_write_target_set_up(&target, at_target).what != SSP_READY) {
        printf("not set up\n");
        return 1;
    }
    initiator_waits(); /* no XFER_RDY yet */

    /* The first XFER_RDY arrives, its ACK is lost. The initiator has begun already. */
    xfer_rdy();
    printf("its ACK is lost\n");
    data(WHOLE);
    memcpy(early, frame, frame_len);
    early_len = frame_len;
    report("ACK", ssp_write_initiator_ack_received(&initiator));
    printf("timeout  target: %s\n", word(ssp_write_target_ack_nak_timeout(&target)));

    /* It is sent again, and the initiator starts the burst again. */
    xfer_rdy();
    printf("ACK      target: %s\n", word(ssp_write_target_ack_received(&target)));
    printf("DATA under TPTT 0 once more: %s\n", word(ssp_write_target_frame_received(&target, early, early_len, received, COUNT)));
    data(WHOLE);
    data(WHOLE);
    initiator_waits();
    report("ACK", ssp_write_initiator_ack_received(&initiator));
    report("ACK", ssp_write_initiator_ack_received(&initiator));

    /* The second burst: its first frame is damaged. */
    xfer_rdy();
    printf("ACK      target: %s\n", word(ssp_write_target_ack_received(&target)));
    data(DAMAGED);
    data(WHOLE);
    initiator_waits();
    report("NAK", ssp_write_initiator_nak_received(&initiator));
    report("ACK", ssp_write_initiator_ack_received(&initiator));
    data(WHOLE);
    data(WHOLE);
    initiator_waits();
    report("ACK", ssp_write_initiator_ack_received(&initiator));
    report("ACK", ssp_write_initiator_ack_received(&initiator));

    printf("target asked for a frame: %s\n", word(ssp_write_target_next_frame(&target, frame, sizeof frame)));
    printf("data: %u of %d bytes as at the initiator\n", same_bytes(sent, received, COUNT), COUNT);
    respond(at_target);
    initiator_waits();
    return 0;
}
