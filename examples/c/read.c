/* A read of 46 bytes over a link that loses a frame, and damages one in the retry. Both ports run here: the target sends, the initiator
 * receives. The link is the table of fates below and a list of confirmations. WORKING.md explains each line of read.out. */
#include <stdlib.h>

#include "show.h"

enum { COUNT = 46, SIZE = 8, WINDOW = 3, LIMIT = 2, IU = 24, TAG = 0x0012 };
enum { TARGET = 0xABCDEF, INITIATOR = 0x123456 }; /* hashed addresses */

/* What the link does to the frames, in the order in which they go out; past the list they arrive whole. */
enum fate { WHOLE, DAMAGED, LOST };
static const enum fate fates[] = {WHOLE, WHOLE, WHOLE, WHOLE, LOST, WHOLE, WHOLE, DAMAGED, WHOLE};
static const char *const fate_words[] = {"whole", "damaged", "lost"};

static ssp_read_target target;       /* the sending port; static, so all zero */
static ssp_read_initiator initiator; /* the receiving port */
static uint8_t sent[COUNT];          /* the target's data buffer */
static uint8_t received[COUNT];
static uint8_t frame[SSP_FRAME_MOST];
static size_t frame_len;
static unsigned frames; /* handed out */

/* Answers on the way to the target. */
static char confirmations[SSP_WINDOW_MOST];
static unsigned waiting;

static enum fate fate_of(unsigned n) {
    return n < sizeof fates / sizeof fates[0] ? fates[n] : WHOLE;
}

/* The link carries the frame: it reaches the initiator or not, and is confirmed or not. */
static void carry(void) {
    ssp_header h = SSP_ZERO;
    ssp_answer f = ssp_frame_read(&h, frame, frame_len);
    enum fate fate = fate_of(frames);
    const char *what = "nothing";
    frames++;
    if (fate == WHOLE) {
        what = word(ssp_read_initiator_frame_received(&initiator, frame, frame_len, received, COUNT));
        confirmations[waiting++] = 'A';
    } else if (fate == DAMAGED) {
        confirmations[waiting++] = 'N';
    }
    printf("frame %2u  offset %2u  bytes %u  CDP %d  %-7s  initiator: %s\n", frames, (unsigned)h.offset, (unsigned)f.len, h.cdp,
           fate_words[fate], what);
}

/* Frames go out until the target says wait. */
static void send_all(void) {
    for (;;) {
        ssp_answer a = ssp_read_target_next_frame(&target, sent, COUNT, frame, sizeof frame);
        if (a.what == SSP_WAIT) {
            printf("target waits\n");
            return;
        }
        if (a.what != SSP_FRAME) {
            printf("target: %s\n", word(a));
            exit(1);
        }
        frame_len = a.len;
        carry();
    }
}

static void report(const char *event, ssp_answer a) {
    printf("%-7s  %-9s  unanswered %u  next %2u  balance %2u  retries %u\n", event, word(a), (unsigned)target.unanswered,
           (unsigned)target.next, (unsigned)target.balance, (unsigned)target.retries);
}

/* The confirmations reach the target in order; then a timeout if any is missing. */
static ssp_answer confirm_all(void) {
    ssp_answer a = SSP_ZERO;
    unsigned i;
    for (i = 0; i < waiting; i++) {
        if (confirmations[i] == 'A') {
            a = ssp_read_target_ack_received(&target);
            report("ACK", a);
        } else {
            a = ssp_read_target_nak_received(&target);
            report("NAK", a);
        }
    }
    waiting = 0;
    if (target.unanswered > 0) {
        a = ssp_read_target_ack_nak_timeout(&target);
        report("timeout", a);
    }
    return a;
}

static void respond(ssp_transfer t) {
    static const uint8_t iu[IU] = {0}; /* the caller's; here all zero: no data, status 00h, GOOD */
    static uint8_t out[SSP_FRAME_MOST];
    ssp_response responder = SSP_ZERO;
    ssp_answer a, b;
    ssp_response_set_up(&responder, t, IU);
    a = ssp_response_next_frame(&responder, iu, IU, out, sizeof out);
    b = ssp_read_initiator_frame_received(&initiator, out, a.len, received, COUNT);
    printf("RESPONSE  %u bytes  initiator: %s, IU of %u bytes from byte %u\n", (unsigned)a.len, word(b), (unsigned)b.len,
           (unsigned)b.start);
    show_status(b, out, a.len);
    printf("ACK of the RESPONSE: %s\n", word(ssp_response_ack_received(&responder)));
}

/* The read as one port is set up for it. Data size and window are smaller than the defaults, so that 46 bytes take several frames. */
static ssp_transfer transfer(uint32_t local, uint32_t remote) {
    ssp_transfer t = ssp_read_transfer(COUNT, local, remote, TAG);
    t.size = SIZE;
    t.window = WINDOW;
    t.limit = LIMIT;
    return t;
}

int main(void) {
    ssp_transfer at_target = transfer(TARGET, INITIATOR);
    ssp_transfer at_initiator = transfer(INITIATOR, TARGET);
    ssp_answer a;
    unsigned i;

    if (!same_version()) {
        return 1;
    }
    for (i = 0; i < COUNT; i++) {
        sent[i] = (uint8_t)(i + 1);
    }

    printf("read: %d bytes, %d per frame, window %d, retry limit %d\n", COUNT, SIZE, WINDOW, LIMIT);
    if (ssp_read_target_set_up(&target, at_target).what != SSP_READY ||
        ssp_read_initiator_set_up(&initiator, at_initiator).what != SSP_READY) {
        printf("not set up\n");
        return 1;
    }
    do {
        send_all();
        a = confirm_all();
    } while (a.what == SSP_TAKEN || a.what == SSP_RETRY);
    printf("report: %s, %u frames handed out\n", word(a), (unsigned)a.frames);
    printf("data: %u of %d bytes as at the target\n", same_bytes(sent, received, COUNT), COUNT);

    respond(at_target);

    /* Both records have ended: further calls are refused and change nothing. */
    printf("one ACK more: %s\n", word(ssp_read_target_ack_received(&target)));
    printf("frame %u once more: %s\n", frames, word(ssp_read_initiator_frame_received(&initiator, frame, frame_len, received, COUNT)));
    return 0;
}
