/* What the parts of layout.c share: the checks, records at a start, comparisons field by field. */
#include <stdio.h>
#include <string.h>

#include "ssp.h"

static unsigned checks, wrong;

static void check(int line, const char *what, int ok) {
    checks++;
    if (!ok) {
        wrong++;
        printf("FAILED: %s (line %d)\n", what, line);
    }
}
#define TRY(what, ok) check(__LINE__, what, ok)

enum { COUNT = 46, MOST = 64 };
#define HERE 0x123456u  /* initiator's hashed address */
#define THERE 0xABCDEFu /* target's hashed address */
#define TAG 0x0012u
#define MANY 0x0123456789ABCDEFu /* a frame count with eight different bytes, below 2 to the power 60 */
#define TOO_MANY 0x1000000000000000u

static uint8_t data[MOST]; /* sent */
static uint8_t room[MOST]; /* received */
static uint8_t out[SSP_FRAME_MOST];
static uint8_t iu[SSP_FRAME_MOST];
static uint8_t arriving; /* TLR CONTROL of the frames that arrive */

/* The edition of the transfers, with their value, and the TPTT of read DATA and RESPONSEs that arrive. layout.c runs the tests under several. */
typedef struct edition {
    bool sas2;
    uint16_t value;
    uint16_t tptt;
} edition;
static edition now;

/* The Initiator Response Timeout of the transfers, and what target() has counted towards it. layout.c runs the tests under several. */
typedef struct timing {
    uint16_t irt;
    uint16_t elapsed;
} timing;
static timing timed;

/* ---- answers, all fields ---- */

static int is(ssp_answer a, int what, unsigned number, uint64_t frames, size_t start, size_t len) {
    return a.what == what && a.number == number && a.frames == frames && a.start == start && a.len == len && a.kind == 0 &&
           a.status == 0 && a.sense_len == 0;
}
/* a RESPONSE, or its IU */
static int opened(ssp_answer a, int what, uint64_t frames, size_t start, size_t len, unsigned kind, unsigned status, size_t sense) {
    return a.what == what && a.number == 0 && a.frames == frames && a.start == start && a.len == len && a.kind == kind &&
           a.status == status && a.sense_len == sense;
}
static int refused(ssp_answer a, unsigned number) { return is(a, SSP_REFUSED, number, 0, 0, 0); }
static int failed(ssp_answer a, unsigned number, uint64_t frames) { return is(a, SSP_FAILED, number, frames, 0, 0); }
static int framed(ssp_answer a, size_t len) { return is(a, SSP_FRAME, 0, 0, 0, len); }
static int says(ssp_answer a, int what) { return is(a, what, 0, 0, 0, 0); }

/* ---- records, field by field ---- */

static int same_transfer(ssp_transfer a, ssp_transfer b) {
    return a.write == b.write && a.count == b.count && a.size == b.size && a.window == b.window && a.limit == b.limit &&
           a.burst == b.burst && a.local == b.local && a.remote == b.remote && a.tag == b.tag && a.sas2 == b.sas2 &&
           a.value == b.value && a.irt == b.irt && a.start == b.start;
}
static int same_burst(ssp_burst a, ssp_burst b) {
    return a.base == b.base && a.end == b.end && a.tptt == b.tptt && a.limit == b.limit;
}
/* a sending port: ssp_read_target, and ssp_sender in ssp_write_initiator */
#define SAME_SENDER(a, b)                                                                                                            \
    (same_transfer((a).transfer, (b).transfer) && same_burst((a).burst, (b).burst) && (a).next == (b).next && (a).balance == (b).balance && \
     (a).unanswered == (b).unanswered && (a).nak == (b).nak && (a).cdp == (b).cdp && (a).retries == (b).retries &&                    \
     (a).frames == (b).frames && (a).ended == (b).ended)
/* a receiving port: ssp_read_initiator, and ssp_receiver in ssp_write_target */
#define SAME_RECEIVER(a, b)                                                                                                 \
    (same_transfer((a).transfer, (b).transfer) && (a).base == (b).base && (a).end == (b).end && (a).expected == (b).expected && \
     (a).filled == (b).filled && (a).waiting == (b).waiting && (a).ended == (b).ended)
static int same_sender(ssp_read_target a, ssp_read_target b) { return SAME_SENDER(a, b); }
static int same_receiver(ssp_read_initiator a, ssp_read_initiator b) { return SAME_RECEIVER(a, b); }
static int same_writer(ssp_write_initiator a, ssp_write_initiator b) {
    return SAME_SENDER(a.sender, b.sender) && a.reached == b.reached && a.pending == b.pending && same_burst(a.taken, b.taken);
}
static int same_target(ssp_write_target a, ssp_write_target b) {
    return SAME_RECEIVER(a.receiver, b.receiver) && a.state == b.state && a.tptt == b.tptt && a.retries == b.retries &&
           a.stored == b.stored && a.under == b.under && a.since == b.since && a.elapsed == b.elapsed;
}
static int same_responder(ssp_response a, ssp_response b) {
    return same_transfer(a.transfer, b.transfer) && a.len == b.len && a.unanswered == b.unanswered && a.retries == b.retries &&
           a.ended == b.ended;
}
static int same_header(ssp_header a, ssp_header b) {
    return a.type == b.type && a.dest == b.dest && a.source == b.source && a.retry == b.retry && a.retransmit == b.retransmit &&
           a.cdp == b.cdp && a.tlr == b.tlr && a.tag == b.tag && a.tptt == b.tptt && a.offset == b.offset;
}

/* ---- records to start from, each in the middle of a transfer, no two marks or counts that could be taken for each other ---- */

static ssp_transfer transfer(bool write, uint32_t local, uint32_t remote) {
    ssp_transfer t;
    memset(&t, 0, sizeof t);
    t.write = write;
    t.count = COUNT;
    t.size = 8;
    t.window = 3;
    t.limit = 2;
    t.burst = 10;
    t.local = local;
    t.remote = remote;
    t.tag = TAG;
    t.sas2 = now.sas2;
    t.value = now.value;
    t.irt = timed.irt;
    return t;
}

static ssp_burst burst(uint32_t base, uint32_t end, uint16_t tptt, uint32_t limit) {
    ssp_burst b;
    memset(&b, 0, sizeof b);
    b.base = base;
    b.end = end;
    b.tptt = tptt;
    b.limit = limit;
    return b;
}

static ssp_read_target sender(void) {
    ssp_read_target s;
    memset(&s, 0, sizeof s);
    s.transfer = transfer(false, THERE, HERE);
    s.burst = burst(0, COUNT, 0, 2);
    s.next = 16;
    s.balance = 8;
    s.unanswered = 2;
    s.retries = 1;
    s.frames = 5;
    return s;
}

static ssp_read_initiator receiver(void) {
    ssp_read_initiator r;
    memset(&r, 0, sizeof r);
    r.transfer = transfer(false, HERE, THERE);
    r.end = COUNT;
    r.expected = 16;
    r.filled = 24;
    return r;
}

static ssp_write_initiator writer(void) {
    ssp_write_initiator w;
    memset(&w, 0, sizeof w);
    w.sender.transfer = transfer(true, HERE, THERE);
    w.sender.burst = burst(8, 24, 0x0102, 2);
    w.sender.next = 16;
    w.sender.balance = 8;
    w.sender.unanswered = 2;
    w.sender.retries = 1;
    w.sender.frames = 5;
    w.reached = 24;
    return w;
}

static ssp_write_target target(void) {
    ssp_write_target x;
    memset(&x, 0, sizeof x);
    x.receiver.transfer = transfer(true, THERE, HERE);
    x.receiver.base = 8;
    x.receiver.end = 40;
    x.receiver.expected = 16;
    x.receiver.filled = 24;
    x.state = SSP_STATE_READY;
    x.tptt = 0x0102;
    x.retries = 1;
    x.since = 3;
    x.elapsed = timed.elapsed;
    return x;
}

static ssp_response responder(void) {
    ssp_response x;
    memset(&x, 0, sizeof x);
    x.transfer = transfer(false, THERE, HERE);
    x.len = 28;
    return x;
}

static ssp_header header(uint8_t type, uint32_t dest, uint32_t source) {
    ssp_header h;
    memset(&h, 0, sizeof h);
    h.type = type;
    h.dest = dest;
    h.source = source;
    h.tag = TAG;
    return h;
}

/* ---- calls ---- */

static ssp_answer ask(ssp_read_target *s) { return ssp_read_target_next_frame(s, data, COUNT, out, sizeof out); }
static ssp_answer ask_write(ssp_write_initiator *w) { return ssp_write_initiator_next_frame(w, data, COUNT, out, sizeof out); }
static ssp_answer ask_target(ssp_write_target *x) { return ssp_write_target_next_frame(x, out, sizeof out); }
static ssp_answer ask_response(ssp_response *x) { return ssp_response_next_frame(x, iu, 28, out, sizeof out); }

/* A DATA frame with n bytes of `data` from `offset` arrives in a read at the initiator, which is lent `len` bytes. */
static ssp_answer arrive(ssp_read_initiator *r, uint32_t offset, bool cdp, size_t n, size_t len) {
    ssp_header h = header(SSP_TYPE_DATA, HERE, THERE);
    ssp_answer f;
    h.tlr = arriving;
    h.cdp = cdp;
    h.offset = offset;
    h.tptt = now.tptt;
    f = ssp_frame_write(h, data + offset, n, out, sizeof out);
    memset(room, 0xEE, sizeof room);
    return ssp_read_initiator_frame_received(r, out, f.len, room, len);
}

/* The same in a write at the target. */
static ssp_answer arrive_target(ssp_write_target *x, uint16_t tptt, uint32_t offset, bool cdp, size_t n, size_t len) {
    ssp_header h = header(SSP_TYPE_DATA, THERE, HERE);
    ssp_answer f;
    h.tlr = arriving;
    h.cdp = cdp;
    h.offset = offset;
    h.tptt = tptt;
    f = ssp_frame_write(h, data + offset, n, out, sizeof out);
    memset(room, 0xEE, sizeof room);
    return ssp_write_target_frame_received(x, out, f.len, room, len);
}

/* An XFER_RDY arrives in a write at the initiator. */
static ssp_answer arrive_xfer_rdy(ssp_write_initiator *w, uint32_t offset, uint32_t len, bool retry, bool retransmit) {
    ssp_header h = header(SSP_TYPE_XFER_RDY, HERE, THERE);
    ssp_xfer_rdy x;
    uint8_t request[SSP_XFER_RDY_IU];
    ssp_answer f;
    x.offset = offset;
    x.len = len;
    h.tlr = arriving;
    h.retry = retry;
    h.retransmit = retransmit;
    h.tptt = 0x0506;
    ssp_xfer_rdy_write(x, request, sizeof request);
    f = ssp_frame_write(h, request, sizeof request, out, sizeof out);
    return ssp_write_initiator_frame_received(w, out, f.len);
}

/* Bytes from to end are those of `data`, all others of `room` untouched. */
static int stored(unsigned from, unsigned end) {
    unsigned i;
    for (i = 0; i < MOST; i++) {
        if (room[i] != (i >= from && i < end ? data[i] : 0xEE)) {
            return 0;
        }
    }
    return 1;
}

static uint32_t be(unsigned at, unsigned n) {
    uint32_t v = 0;
    unsigned i;
    for (i = 0; i < n; i++) {
        v = v * 256 + out[at + i];
    }
    return v;
}

/* ---- ssp_transfer, by value ---- */

/* 1 by each of the four set-ups that take a transfer of that direction, or by none. */
static int all_refuse(ssp_transfer t) {
    ssp_read_target s = sender(), s0 = s;
    ssp_read_initiator r = receiver(), r0 = r;
    ssp_write_initiator w = writer(), w0 = w;
    ssp_write_target x = target(), x0 = x;
    ssp_response p = responder(), p0 = p;
    int ok = 1;
    t.write = false;
    ok &= refused(ssp_read_target_set_up(&s, t), 1) && same_sender(s, s0);
    ok &= refused(ssp_read_initiator_set_up(&r, t), 1) && same_receiver(r, r0);
    t.write = true;
    ok &= refused(ssp_write_initiator_set_up(&w, t), 1) && same_writer(w, w0);
    ok &= refused(ssp_write_target_set_up(&x, t), 1) && same_target(x, x0);
    ok &= refused(ssp_response_set_up(&p, t, 28), 1) && same_responder(p, p0);
    return ok;
}
static int all_take(ssp_transfer t) {
    ssp_read_target s = sender();
    ssp_read_initiator r = receiver();
    ssp_write_initiator w = writer();
    ssp_write_target x = target();
    ssp_response p = responder();
    int ok = 1;
    t.write = false;
    ok &= says(ssp_read_target_set_up(&s, t), SSP_READY) && same_transfer(s.transfer, t);
    ok &= says(ssp_read_initiator_set_up(&r, t), SSP_READY) && same_transfer(r.transfer, t);
    t.write = true;
    ok &= says(ssp_write_initiator_set_up(&w, t), SSP_READY) && same_transfer(w.sender.transfer, t);
    ok &= says(ssp_write_target_set_up(&x, t), SSP_READY) && same_transfer(x.receiver.transfer, t);
    ok &= says(ssp_response_set_up(&p, t, 28), SSP_READY) && same_transfer(p.transfer, t);
    return ok;
}

#define BOUND(field, value, ok)                              \
    do {                                                     \
        ssp_transfer bound = transfer(false, HERE, THERE);   \
        bound.field = (value);                               \
        TRY("ssp_transfer." #field " = " #value, ok(bound)); \
    } while (0)
