/* One read command that the target answers by three reads, each at its own place in the initiator's buffer. The link loses a frame of the second
 * read. Both ports run here, with a record for each read at each end. WORKING.md explains each line of parts.out. */
#include <stdlib.h>
#include <string.h>

#include "show.h"

enum { LENGTH = 48, READS = 3, SIZE = 4, WINDOW = 2, LIMIT = 2, IU = 24, TAG = 0x0078, LOST = 6 }; /* LOST: the sixth frame of all */
enum { TARGET = 0xABCDEF, INITIATOR = 0x123456 };                                                 /* hashed addresses */

/* The reads in the order in which the target sends them. Both ports know the ranges, which do not overlap. The target's buffer of a read holds
 * that read's bytes alone. */
static const struct {
    uint32_t start, count;
    uint8_t bytes[16];
} reads[READS] = {{20, 12, "in the cache"}, {4, 14, "off the medium"}, {36, 8, "the rest"}};

static ssp_read_target targets[READS];       /* the sending ports; static, so all zero */
static ssp_read_initiator initiators[READS]; /* the receiving ports */
static uint8_t received[LENGTH + 1];         /* the initiator's buffer, and a zero for printf */
static uint8_t frame[SSP_FRAME_MOST];
static unsigned frames;  /* handed out, of all reads */
static unsigned waiting; /* ACKs on the way to the target */

/* Which record gets a DATA frame? The library does not choose. The caller does, by the offset. A frame outside every range goes to the read in
 * progress, which fails with 20 or, once filled, discards it. */
static unsigned read_at(uint32_t offset, unsigned in_progress) {
    unsigned n;
    for (n = 0; n < READS; n++) {
        if (offset >= reads[n].start && offset < reads[n].start + reads[n].count) {
            return n;
        }
    }
    return in_progress;
}

/* The link carries the frame. */
static void carry(size_t len, unsigned in_progress) {
    ssp_header h = SSP_ZERO;
    ssp_answer f = ssp_frame_read(&h, frame, len);
    frames++;
    printf("frame %2u  offset %2u  bytes %u  CDP %d  ", frames, (unsigned)h.offset, (unsigned)f.len, h.cdp);
    if (frames == LOST) {
        printf("lost   initiator: nothing\n");
    } else {
        unsigned n = read_at(h.offset, in_progress);
        printf("whole  initiator, read %u: %s\n", n + 1, word(ssp_read_initiator_frame_received(&initiators[n], frame, len, received, LENGTH)));
        waiting++;
    }
}

/* Frames of read n go out until its record says wait. */
static void send_all(unsigned n) {
    for (;;) {
        ssp_answer a = ssp_read_target_next_frame(&targets[n], reads[n].bytes, reads[n].count, frame, sizeof frame);
        if (a.what == SSP_WAIT) {
            printf("target waits\n");
            return;
        }
        if (a.what != SSP_FRAME) {
            printf("target: %s\n", word(a));
            exit(1);
        }
        carry(a.len, n);
    }
}

static ssp_answer report(unsigned n, const char *event, ssp_answer a) {
    printf("%-7s  %-9s  unanswered %u  next %2u  balance %2u  retries %u\n", event, word(a), (unsigned)targets[n].unanswered,
           (unsigned)targets[n].next, (unsigned)targets[n].balance, (unsigned)targets[n].retries);
    return a;
}

/* The ACKs reach the target; then a timeout if any is missing. An ACK names no read, so only one read at a time has frames out. */
static ssp_answer confirm_all(unsigned n) {
    ssp_answer a = SSP_ZERO;
    for (; waiting > 0; waiting--) {
        a = report(n, "ACK", ssp_read_target_ack_received(&targets[n]));
    }
    if (targets[n].unanswered > 0) {
        a = report(n, "timeout", ssp_read_target_ack_nak_timeout(&targets[n]));
    }
    return a;
}

/* Read n as one port is set up for it: all have the same tag. */
static ssp_transfer transfer(unsigned n, uint32_t local, uint32_t remote) {
    ssp_transfer t = ssp_read_transfer(reads[n].count, local, remote, TAG);
    t.start = reads[n].start;
    t.size = SIZE;
    t.window = WINDOW;
    t.limit = LIMIT;
    return t;
}

/* The RESPONSE comes once, when all reads are delivered. Any record of the command takes it: here that of read n. */
static void respond(unsigned n) {
    static const uint8_t iu[IU] = {0}; /* the caller's; here all zero: no data, status 00h, GOOD */
    ssp_response responder = SSP_ZERO;
    ssp_answer a, b;
    ssp_response_set_up(&responder, targets[n].transfer, IU);
    a = ssp_response_next_frame(&responder, iu, IU, frame, sizeof frame);
    b = ssp_read_initiator_frame_received(&initiators[n], frame, a.len, received, LENGTH);
    printf("RESPONSE  %u bytes  initiator, read %u: %s, IU of %u bytes from byte %u\n", (unsigned)a.len, n + 1, word(b), (unsigned)b.len,
           (unsigned)b.start);
    show_status(b, frame, a.len);
    printf("ACK of the RESPONSE: %s\n", word(ssp_response_ack_received(&responder)));
}

int main(void) {
    unsigned n, i, count = 0, same = 0, others = 0;
    if (!same_version()) {
        return 1;
    }
    memset(received, '.', LENGTH);
    printf("one read command, %d reads into a buffer of %d bytes, %d per frame, window %d, retry limit %d\n", READS, LENGTH, SIZE, WINDOW, LIMIT);
    for (n = 0; n < READS; n++) {
        if (ssp_read_target_set_up(&targets[n], transfer(n, TARGET, INITIATOR)).what != SSP_READY ||
            ssp_read_initiator_set_up(&initiators[n], transfer(n, INITIATOR, TARGET)).what != SSP_READY) {
            printf("not set up\n");
            return 1;
        }
    }
    for (n = 0; n < READS; n++) {
        ssp_answer a;
        printf("read %u: %u bytes from %u\n", n + 1, (unsigned)reads[n].count, (unsigned)reads[n].start);
        do {
            send_all(n);
            a = confirm_all(n);
        } while (a.what == SSP_TAKEN || a.what == SSP_RETRY);
        printf("report: %s, %u frames handed out\n", word(a), (unsigned)a.frames);
        printf("buffer: %s\n", (const char *)received);
        count += reads[n].count;
        same += same_bytes(reads[n].bytes, received + reads[n].start, reads[n].count);
    }
    respond(READS - 1);

    for (i = 0; i < LENGTH; i++) {
        others += read_at(i, READS) == READS && received[i] == '.';
    }
    printf("data: %u of %u bytes as at the target, %u of %u others as before\n", same, count, others, LENGTH - count);
    return 0;
}
