/* Reads that start further in (request K5): part of layout.c. Marks, offsets, bytes and answers are worked out by hand from the request. The host
 * is the initiator of a read. */
#include <stdlib.h>

enum { START = 5, PAST = 51 }; /* PAST is START + COUNT */

/* ---- the host's buffer: `room`, each byte with a value of its own that is none of `data` ---- */

static uint8_t wanted[MOST]; /* as it has to be */

static void paint(void) {
    unsigned i;
    for (i = 0; i < MOST; i++) {
        room[i] = wanted[i] = (uint8_t)(0x80 + i);
    }
}
/* Every byte of it is as wanted, and those of `data` are as they were. */
static int host_is(void) {
    unsigned i;
    for (i = 0; i < MOST; i++) {
        if (room[i] != wanted[i] || data[i] != i + 1) {
            return 0;
        }
    }
    return 1;
}
/* Its bytes from to end are the sender's from - START on. No other has changed since it was painted. */
static int host_holds(unsigned from, unsigned end) {
    unsigned i;
    for (i = from; i < end; i++) {
        wanted[i] = (uint8_t)(i - START + 1);
    }
    return host_is();
}

/* ---- sender() and receiver() of a read from START to PAST ---- */

static ssp_read_target sender_at(void) {
    ssp_read_target s = sender();
    s.transfer.start = 5;
    s.burst = burst(5, 51, 0, 2);
    s.next = 21;
    s.balance = 13;
    return s;
}
static ssp_read_initiator receiver_at(void) {
    ssp_read_initiator r = receiver();
    r.transfer.start = 5;
    r.base = 5;
    r.end = 51;
    r.expected = 21;
    r.filled = 29;
    return r;
}

/* A DATA frame arrives at a host that is lent `len` painted bytes. It has the data of its place in the read, outside the read the first ones. */
static ssp_answer arrive_at(ssp_read_initiator *r, uint32_t offset, bool cdp, size_t n, size_t len) {
    ssp_header h = header(SSP_TYPE_DATA, HERE, THERE);
    ssp_answer f;
    h.cdp = cdp;
    h.offset = offset;
    h.tptt = now.tptt;
    f = ssp_frame_write(h, data + (offset >= START && offset < PAST ? offset - START : 0), n, out, sizeof out);
    paint();
    return ssp_read_initiator_frame_received(r, out, f.len, room, len);
}

/* A DATA frame of the read with that offset, n bytes from data[from] and that fill; every byte of `out` counts. blank() goes before. */
static int data_frame(ssp_answer a, uint32_t offset, bool cdp, unsigned from, unsigned n, unsigned fill) {
    uint8_t head[24] = {1, 0x12, 0x34, 0x56, 0, 0xAB, 0xCD, 0xEF, 0, 0, 0, 0, 0, 0, 0, 0, 0, 0x12}, body[12] = {0};
    head[10] = cdp;
    head[11] = (uint8_t)fill;
    head[20] = (uint8_t)(offset >> 24);
    head[21] = (uint8_t)(offset >> 16);
    head[22] = (uint8_t)(offset >> 8);
    head[23] = (uint8_t)offset;
    memcpy(body, data + from, n);
    return frame_is(a, head, now.value, body, n + fill);
}

/* ---- 46 bytes at several starts, in frames of 8: marks and offsets from the set-up to the end ---- */

typedef struct start_vector {
    uint32_t at[6]; /* of its frames; the first is the start */
    uint32_t end;
} start_vector;
static const start_vector start_vectors[] = {
    {{0x00, 0x08, 0x10, 0x18, 0x20, 0x28}, 0x2E},
    {{0x01, 0x09, 0x11, 0x19, 0x21, 0x29}, 0x2F},
    {{0xFC, 0x104, 0x10C, 0x114, 0x11C, 0x124}, 0x12A},
    {{0x010203, 0x01020B, 0x010213, 0x01021B, 0x010223, 0x01022B}, 0x010231},
    {{0xFFFFD2, 0xFFFFDA, 0xFFFFE2, 0xFFFFEA, 0xFFFFF2, 0xFFFFFA}, 0x1000000},
};

static void start_to_end(start_vector v, uint8_t *big, uint8_t *big_wanted) {
    ssp_read_target s = sender_at(), want_s = SSP_ZERO;
    ssp_read_initiator r = receiver_at(), want_r = SSP_ZERO;
    ssp_transfer t = transfer(false, THERE, HERE), u = transfer(false, HERE, THERE);
    unsigned i;
    t.start = u.start = v.at[0];
    t.window = u.window = 64;
    want_s.transfer = t;
    want_s.burst = burst(v.at[0], v.end, 0, 2);
    want_s.next = want_s.balance = v.at[0];
    want_r.transfer = u;
    want_r.base = want_r.expected = want_r.filled = v.at[0];
    want_r.end = v.end;
    TRY("a start: the target's set-up", says(ssp_read_target_set_up(&s, t), SSP_READY) && same_sender(s, want_s));
    TRY("a start: the host's set-up", says(ssp_read_initiator_set_up(&r, u), SSP_READY) && same_receiver(r, want_r));
    for (i = 0; i < 6; i++) {
        unsigned n = i < 5 ? 8 : 6;
        ssp_answer a;
        blank();
        a = ask(&s);
        want_s.next = i < 5 ? v.at[i + 1] : v.end;
        want_s.unanswered = i + 1;
        want_s.frames = i + 1;
        TRY("a start: a frame, every byte", data_frame(a, v.at[i], false, i * 8, n, 8 - n));
        TRY("a start: the target's record", same_sender(s, want_s));
        TRY("a start: a buffer shorter by one",
            refused(ssp_read_initiator_frame_received(&r, out, a.len, big, v.end - 1), 1) && same_receiver(r, want_r));
        TRY("a start: nothing is stored", memcmp(big, big_wanted, SSP_COUNT_MOST) == 0);
        want_r.expected = want_r.filled = want_s.next;
        a = ssp_read_initiator_frame_received(&r, out, a.len, big, v.end);
        TRY("a start: the host stores it", says(a, i < 5 ? SSP_STORED : SSP_RECEIVED) && same_receiver(r, want_r));
        memcpy(big_wanted + v.at[i], data + i * 8, n);
        TRY("a start: every byte of the host's buffer", memcmp(big, big_wanted, SSP_COUNT_MOST) == 0);
    }
    TRY("a start: no frame more", says(ask(&s), SSP_WAIT) && same_sender(s, want_s));
    for (i = 0; i < 5; i++) {
        want_s.unanswered = 5 - i;
        TRY("a start: an ACK", says(ssp_read_target_ack_received(&s), SSP_TAKEN) && same_sender(s, want_s));
    }
    want_s.unanswered = 0;
    want_s.balance = v.end;
    want_s.ended = true;
    TRY("a start: the last ACK", is(ssp_read_target_ack_received(&s), SSP_DELIVERED, 0, 6, 0, 0) && same_sender(s, want_s));
}

static void starts_to_end(void) {
    uint8_t *big = (uint8_t *)malloc(SSP_COUNT_MOST), *big_wanted = (uint8_t *)malloc(SSP_COUNT_MOST);
    unsigned i;
    TRY("a buffer of 16,777,216 bytes", big != NULL && big_wanted != NULL);
    if (big != NULL && big_wanted != NULL) {
        for (i = 0; i < SSP_COUNT_MOST; i++) {
            big[i] = big_wanted[i] = (uint8_t)(0x80 | (i * 31 + (i >> 8)));
        }
        for (i = 0; i < sizeof start_vectors / sizeof start_vectors[0]; i++) {
            start_to_end(start_vectors[i], big, big_wanted);
        }
    }
    free(big);
    free(big_wanted);
}

/* ---- number 1: start plus count, a write's start ---- */

typedef struct past_vector {
    uint32_t count, start;
    bool taken;
} past_vector;
static const past_vector past_vectors[] = {
    {1, 0, true}, {1, 16777215, true}, {1, 16777216, false},
    {46, 16777170, true}, {46, 16777171, false},
    {8388608, 8388608, true}, {8388608, 8388609, false}, {8388609, 8388608, false},
    {16777215, 1, true}, {16777215, 2, false},
    {16777216, 0, true}, {16777216, 1, false},
    {16777217, 0, false}, {0, 1, false}, {0, 16777216, false},
    /* sums that 32 bits cut to 0, 0, 1, 45, 0, 1, 16,777,215 and 16,777,216 */
    {1, 0xFFFFFFFF, false}, {46, 0xFFFFFFD2, false}, {46, 0xFFFFFFD3, false}, {46, 0xFFFFFFFF, false},
    {16777216, 0xFF000000, false}, {16777216, 0xFF000001, false}, {16777216, 0xFFFFFFFF, false}, {16777217, 0xFFFFFFFF, false},
};

/* 1 where the set-ups of that direction and the RESPONSE's take the transfer, 0 where each is 1 and changes nothing, else 2. */
static int set_ups(ssp_transfer t) {
    ssp_read_target s = sender_at(), s0 = s;
    ssp_read_initiator r = receiver_at(), r0 = r;
    ssp_write_initiator w = writer(), w0 = w;
    ssp_write_target x = target(), x0 = x;
    ssp_response p = responder(), p0 = p;
    ssp_answer a = t.write ? ssp_write_initiator_set_up(&w, t) : ssp_read_target_set_up(&s, t);
    ssp_answer b = t.write ? ssp_write_target_set_up(&x, t) : ssp_read_initiator_set_up(&r, t);
    ssp_answer c = ssp_response_set_up(&p, t, 28);
    if (refused(a, 1) && refused(b, 1) && refused(c, 1) && same_sender(s, s0) && same_receiver(r, r0) && same_writer(w, w0) &&
        same_target(x, x0) && same_responder(p, p0)) {
        return 0;
    }
    return says(a, SSP_READY) && says(b, SSP_READY) && says(c, SSP_READY) && same_transfer(t.write ? w.sender.transfer : s.transfer, t) &&
                   same_transfer(t.write ? x.receiver.transfer : r.transfer, t) && same_transfer(p.transfer, t)
               ? 1
               : 2;
}

static void start_limits(void) {
    static const uint8_t response[24] = {7, 0x12, 0x34, 0x56, 0, 0xAB, 0xCD, 0xEF, 0, 0, 0, 0, 0, 0, 0, 0, 0, 0x12};
    static const uint32_t starts[] = {1, 5, 0x100, 0x10000, 0xFFFFD2, 0xFFFFD3, 0x1000000, 0x80000000, 0xFFFFFFD2, 0xFFFFFFFF};
    unsigned i;
    for (i = 0; i < sizeof past_vectors / sizeof past_vectors[0]; i++) {
        past_vector v = past_vectors[i];
        ssp_transfer t = transfer(false, HERE, THERE);
        t.count = v.count;
        t.start = v.start;
        t.burst = 1;
        TRY("start plus count of a read", set_ups(t) == v.taken);
        t.write = true;
        TRY("start plus count of a write", set_ups(t) == (v.taken && v.start == 0));
    }
    for (i = 0; i < sizeof starts / sizeof starts[0]; i++) {
        ssp_write_initiator w = writer();
        ssp_write_target x = target();
        ssp_response p = responder();
        ssp_transfer t = transfer(true, HERE, THERE);
        t.start = starts[i];
        TRY("a write's start", set_ups(t) == 0);
        w.sender.transfer.start = x.receiver.transfer.start = p.transfer.start = starts[i];
        TRY("a write's start: each call on ssp_write_initiator", write_initiator_refuses(w, data, 24));
        TRY("a write's start: each call on ssp_write_target", write_target_refuses(x, data, 24));
        w.sender.ended = x.receiver.ended = true;
        TRY("a write's start: 1 before 2", write_initiator_refuses(w, data, 24) && write_target_refuses(x, data, 24));
        blank();
        TRY("a read's start: its RESPONSE, every byte",
            starts[i] <= 0xFFFFD2 ? frame_is(ask_response(&p), response, now.value, iu, 28) : response_refuses(p));
        p.transfer.write = true;
        TRY("a write's start: each call on ssp_response", response_refuses(p));
        p.unanswered = true;
        TRY("a write's start: each call on ssp_response, unanswered", response_refuses(p));
    }
}

/* ---- number 1: records that a caller made; every call, also on an ended record ---- */

#define MADE(type, start, field, value, refuses)                                \
    do {                                                                        \
        type made = start;                                                      \
        made.field = (value);                                                   \
        TRY(#type "." #field " = " #value, refuses(made, frame, 32));           \
        made.ended = true;                                                      \
        TRY(#type "." #field " = " #value ", ended", refuses(made, frame, 32)); \
    } while (0)
#define MADE_SENDER(field, value) MADE(ssp_read_target, sender_at(), field, value, read_target_refuses)
#define MADE_RECEIVER(field, value) MADE(ssp_read_initiator, receiver_at(), field, value, read_initiator_refuses)

static void start_made(void) {
    uint8_t frame[32];
    ssp_read_initiator r = receiver_at();
    arrive_at(&r, 21, false, 8, MOST);
    memcpy(frame, out, sizeof frame); /* it would be taken */
    MADE_SENDER(transfer.start, 6); /* above base */
    MADE_SENDER(transfer.start, 4); /* the end is above start plus count */
    MADE_SENDER(transfer.start, 0);
    MADE_SENDER(transfer.start, 0xFFFFD3);
    MADE_SENDER(transfer.start, 0xFFFFFFD5); /* 32 bits cut its sum to 3 */
    MADE_SENDER(transfer.start, 0xFFFFFFFF);
    MADE_SENDER(burst.base, 4);
    MADE_SENDER(burst.base, 0);
    MADE_SENDER(burst.base, 14); /* above the balance point */
    MADE_SENDER(burst.end, 52);
    MADE_SENDER(burst.end, 20); /* below the next offset */
    MADE_SENDER(burst.end, 0xFFFFFFFF);
    MADE_SENDER(balance, 4);
    MADE_SENDER(balance, 22);
    MADE_SENDER(next, 12);
    MADE_SENDER(next, 52);
    MADE_SENDER(burst, burst(4, 50, 0, 2));
    MADE_SENDER(burst, burst(6, 52, 0, 2));
    MADE_RECEIVER(transfer.start, 6);
    MADE_RECEIVER(transfer.start, 4);
    MADE_RECEIVER(transfer.start, 0);
    MADE_RECEIVER(transfer.start, 0xFFFFD3);
    MADE_RECEIVER(transfer.start, 0xFFFFFFD5);
    MADE_RECEIVER(transfer.start, 0xFFFFFFFF);
    MADE_RECEIVER(base, 4);
    MADE_RECEIVER(base, 0);
    MADE_RECEIVER(base, 22); /* above the expected offset */
    MADE_RECEIVER(end, 52);
    MADE_RECEIVER(end, 28); /* below the filled mark */
    MADE_RECEIVER(end, 0xFFFFFFFF);
    MADE_RECEIVER(expected, 4);
    MADE_RECEIVER(expected, 30);
    MADE_RECEIVER(filled, 20);
    MADE_RECEIVER(filled, 52);
}

/* ---- ssp_read_target: base 5, balance 13, next 21, end 51; the buffer is `data`, 46 bytes ---- */

#define SENDER_AT(field, value, ok)                                             \
    do {                                                                        \
        ssp_read_target s = sender_at();                                        \
        s.field = (value);                                                      \
        blank();                                                                \
        TRY("ssp_read_target at a start, " #field " = " #value ": " #ok, (ok)); \
    } while (0)
#define LENT(n) ssp_read_target_next_frame(&s, data, n, out, sizeof out)

static void start_sender(void) {
    unsigned event;
    SENDER_AT(next, 21, data_frame(ask(&s), 21, false, 16, 8, 0) && s.next == 29);
    SENDER_AT(next, 13, data_frame(ask(&s), 13, false, 8, 8, 0) && s.next == 21);
    SENDER_AT(next, 43, data_frame(ask(&s), 43, false, 38, 8, 0) && s.next == 51);
    SENDER_AT(next, 44, data_frame(ask(&s), 44, false, 39, 7, 1) && s.next == 51);
    SENDER_AT(next, 50, data_frame(ask(&s), 50, false, 45, 1, 3) && s.next == 51);
    SENDER_AT(next, 51, says(ask(&s), SSP_WAIT));
    SENDER_AT(cdp, true, data_frame(ask(&s), 21, true, 16, 8, 0) && !s.cdp);
    SENDER_AT(burst.base, 6, data_frame(ask(&s), 21, false, 16, 8, 0));
    SENDER_AT(burst.base, 13, data_frame(ask(&s), 21, false, 16, 8, 0));
    SENDER_AT(burst.end, 50, data_frame(ask(&s), 21, false, 16, 8, 0));
    SENDER_AT(burst.end, 26, data_frame(ask(&s), 21, false, 16, 5, 3) && s.next == 26);
    SENDER_AT(burst.end, 21, says(ask(&s), SSP_WAIT));
    SENDER_AT(transfer.count, 47, data_frame(LENT(47), 21, false, 16, 8, 0));
    SENDER_AT(transfer.count, 45, refused(LENT(45), 1)); /* the end is above 5 + 45 */
    /* the target's buffer has the count alone */
    SENDER_AT(next, 21, refused(LENT(45), 1) && refused(LENT(47), 1) && refused(LENT(51), 1) && refused(LENT(5), 1) && refused(LENT(0), 1) &&
                            same_sender(s, sender_at()) && put_down(out, 0, 0));
    SENDER_AT(next, 21, refused(ssp_read_target_next_frame(&s, data, COUNT, out, 31), 3) && same_sender(s, sender_at()) && put_down(out, 0, 0));
    SENDER_AT(unanswered, 1, says(ssp_read_target_ack_received(&s), SSP_TAKEN) && s.balance == 21 && s.retries == 0);
    SENDER_AT(balance, 5, says(ssp_read_target_ack_nak_timeout(&s), SSP_RETRY) && s.next == 5 && data_frame(ask(&s), 5, true, 0, 8, 0));
    SENDER_AT(balance, 12, says(ssp_read_target_ack_nak_timeout(&s), SSP_RETRY) && s.next == 12 && data_frame(ask(&s), 12, true, 7, 8, 0));
    for (event = 0; event < 3; event++) { /* a retry after a timeout, a cut, a NAK */
        ssp_read_target s = sender_at(), want;
        paint();
        s.unanswered = 1;
        want = s;
        want.next = 13;
        want.unanswered = 0;
        want.cdp = true;
        want.retries = 2;
        TRY("a retry at a start", says(event == 0   ? ssp_read_target_ack_nak_timeout(&s)
                                       : event == 1 ? ssp_read_target_connection_lost(&s)
                                                    : ssp_read_target_nak_received(&s),
                                       SSP_RETRY) && same_sender(s, want));
        blank();
        TRY("its frame, every byte", data_frame(ask(&s), 13, true, 8, 8, 0));
        TRY("the frame behind it, every byte", data_frame(ask(&s), 21, false, 16, 8, 0));
        TRY("no data buffer is touched", host_is());
    }
}

#include "layout_parts.h"

static void start_fields(void) {
    unsigned i;
    starts_to_end();
    for (i = 0; i < sizeof editions / sizeof editions[0]; i++) {
        now = editions[i];
        timed = timings[i % TIMINGS];
        start_limits();
        start_made();
        start_sender();
        start_host();
        start_moves();
        start_faults();
    }
    now = editions[0];
    timed = timings[0];
    parts_of_a_command();
}
