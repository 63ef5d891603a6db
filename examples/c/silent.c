/* A write of 24 bytes whose initiator goes silent after its second DATA frame. The port layer's loop reports time, and after 100 milliseconds
 * of silence the target fails the transfer. Then the RESPONSE goes out. Both ports run here, in one burst and with no fault; write.c has several
 * bursts and retries. WORKING.md explains each line of silent.out. */
#include "show.h"

enum { COUNT = 24, SIZE = 8, TIMEOUT = 100, IU = 42, TAG = 0x0056 };
enum { INITIATOR = 0x123456, TARGET = 0xABCDEF }; /* hashed addresses */

/* What wakes the port layer, and at which millisecond: a timer every 40, the ACK of the XFER_RDY, two DATA frames. */
enum event { TICK, ACK, FRAME };
static const struct {
    uint32_t at;
    enum event event;
} events[] = {{30, ACK},    {40, TICK},  {70, FRAME}, {80, TICK},  {110, FRAME},
              {120, TICK}, {160, TICK}, {200, TICK}, {240, TICK}, {280, TICK}};

static ssp_write_initiator initiator; /* static, so all zero */
static ssp_write_target target;
static uint8_t sent[COUNT]; /* the initiator's data buffer */
static uint8_t received[COUNT];
static uint8_t frame[SSP_FRAME_MOST];
static uint32_t now;      /* a port layer reads its own counter of milliseconds */
static uint32_t reported; /* time is reported up to here: one such reading for each record */
static ssp_answer acked;  /* the initiator's answer to the last ACK */

static ssp_answer report_time(void) {
    uint32_t passed = now - reported;
    ssp_answer a = ssp_write_target_time_reported(&target, (uint16_t)(passed < 65535 ? passed : 65535));
    reported = now;
    printf("at %3u ms  %2u reported: %-9s  elapsed %2u", (unsigned)now, (unsigned)passed, word(a), (unsigned)target.elapsed);
    return a;
}

/* The initiator hands out a DATA frame, which arrives whole: the target gets it, the initiator its ACK. */
static ssp_answer data(void) {
    ssp_answer a = ssp_write_initiator_next_frame(&initiator, sent, COUNT, frame, sizeof frame);
    acked = ssp_write_initiator_ack_received(&initiator);
    return ssp_write_target_frame_received(&target, frame, a.len, received, COUNT);
}

/* One turn of the port layer's loop. It reports time first and passes on the ACK or the frame then: time that went by before a frame must not
 * count after it. Returns the last answer. */
static ssp_answer turn(enum event event) {
    ssp_answer a = report_time();
    if (a.what != SSP_FAILED && event == ACK) {
        a = ssp_write_target_ack_received(&target);
        printf("  ACK: %s", word(a));
    } else if (a.what != SSP_FAILED && event == FRAME) {
        a = data();
        printf("  DATA: %s", word(a));
    }
    printf("\n");
    return a;
}

static void respond(ssp_transfer t) {
    /* The caller's: CHECK CONDITION with 18 bytes of sense data in fixed format: ABORTED COMMAND (key Bh), INITIATOR RESPONSE TIMEOUT (4Bh/06h). */
    static const uint8_t iu[IU] = {0, 0, 0, 0, 0, 0, 0, 0, 0, 0, SSP_DATAPRES_SENSE_DATA, 0x02, 0, 0, 0, 0, 0, 0, 0, 18, 0, 0, 0, 0,
                                   0x70, 0, 0x0B, 0, 0, 0, 0, 10, 0, 0, 0, 0, 0x4B, 0x06};
    ssp_response responder = SSP_ZERO;
    ssp_answer a, b;
    if (ssp_response_set_up(&responder, t, IU).what != SSP_READY) {
        printf("RESPONSE not set up\n");
        return;
    }
    a = ssp_response_next_frame(&responder, iu, IU, frame, sizeof frame);
    b = ssp_write_initiator_frame_received(&initiator, frame, a.len);
    printf("RESPONSE  %u bytes  initiator: %s, IU of %u bytes from byte %u, %u frames in the last burst\n", (unsigned)a.len, word(b),
           (unsigned)b.len, (unsigned)b.start, (unsigned)b.frames);
    show_status(b, frame, a.len);
    printf("ACK of the RESPONSE: %s\n", word(ssp_response_ack_received(&responder)));
}

int main(void) {
    ssp_transfer at_initiator = ssp_write_transfer(COUNT, INITIATOR, TARGET, TAG, COUNT);
    ssp_transfer at_target = ssp_write_transfer(COUNT, TARGET, INITIATOR, TAG, COUNT);
    ssp_answer a = SSP_ZERO;
    unsigned i;

    if (!same_version()) {
        return 1;
    }
    for (i = 0; i < COUNT; i++) {
        sent[i] = (uint8_t)(i + 1);
    }
    at_target.size = at_initiator.size = SIZE;
    at_target.irt = TIMEOUT; /* only the target of a write uses it */

    printf("write: %d bytes, %d per frame, one burst, Initiator Response Timeout %d ms\n", COUNT, SIZE, TIMEOUT);
    if (ssp_write_initiator_set_up(&initiator, at_initiator).what != SSP_READY ||
        ssp_write_target_set_up(&target, at_target).what != SSP_READY) {
        printf("not set up\n");
        return 1;
    }
    reported = now;
    a = ssp_write_target_next_frame(&target, frame, sizeof frame);
    printf("XFER_RDY  initiator: %s\n", word(ssp_write_initiator_frame_received(&initiator, frame, a.len)));
    for (i = 0; i < sizeof events / sizeof events[0] && a.what != SSP_FAILED; i++) {
        now = events[i].at;
        a = turn(events[i].event);
    }
    printf("DATA after all: %s", word(data()));
    printf("  initiator: %s\n", word(acked)); /* the link ACKs what arrives whole: only the RESPONSE says that the write failed */
    printf("data: %u of %d bytes as at the initiator\n", same_bytes(sent, received, COUNT), COUNT);
    if (a.number == SSP_INITIATOR_RESPONSE_TIMEOUT) {
        respond(at_target);
    }
    return 0;
}
