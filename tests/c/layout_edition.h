/* The edition and its value (request K7): part of layout.c. Frames are written out by hand; TPTT is the target port transfer tag. */

static const edition editions[] = {
    {false, 0, 0}, /* as before the request */
    {false, 0, 0x0001},
    {false, 0, 0xFFFF},
    {true, 0, 0},
    {true, 0, 0xFF00},
    {true, 0x0001, 0},
    {true, 0x0003, 0x0003}, /* the tag of the next XFER_RDY of target() */
    {true, 0x00FF, 0xFF00},
    {true, 0xFF00, 0x00FF},
    {true, 0xFFFF, 0x0001},
    {true, 0xFFFF, 0xFFFF},
};
static const uint16_t values[] = {0, 1, 3, 0x00FF, 0x0100, 0x1234, 0xFF00, 0xFFFF};
enum { VALUES = sizeof values / sizeof values[0] };

/* ---- number 1: a value under SAS-1.1 ---- */

/* Each call on the record is 1. It changes neither the record nor a byte of `out` or `room`. */
#define EACH(call, same) ok = ok && refused(call, 1) && same && untouched()
static void touchable(void) {
    memset(out, 0xEE, sizeof out);
    memset(room, 0xEE, sizeof room);
}
static int untouched(void) {
    unsigned i;
    for (i = 0; i < sizeof out; i++) {
        if (out[i] != 0xEE) {
            return 0;
        }
    }
    return stored(0, 0);
}

static int read_target_refuses(ssp_read_target s, const uint8_t *frame, size_t len) {
    ssp_read_target s0 = s;
    int ok = 1;
    touchable();
    EACH(ask(&s), same_sender(s, s0));
    EACH(ssp_read_target_ack_received(&s), same_sender(s, s0));
    EACH(ssp_read_target_nak_received(&s), same_sender(s, s0));
    EACH(ssp_read_target_ack_nak_timeout(&s), same_sender(s, s0));
    EACH(ssp_read_target_connection_lost(&s), same_sender(s, s0));
    EACH(ssp_read_target_nexus_lost(&s), same_sender(s, s0));
    EACH(ssp_read_target_frame_received(&s, frame, len), same_sender(s, s0));
    return ok;
}
static int read_initiator_refuses(ssp_read_initiator r, const uint8_t *frame, size_t len) {
    ssp_read_initiator r0 = r;
    int ok = 1;
    touchable();
    EACH(ssp_read_initiator_frame_received(&r, frame, len, room, MOST), same_receiver(r, r0)); /* longer than any read here */
    EACH(ssp_read_initiator_nexus_lost(&r), same_receiver(r, r0));
    return ok;
}
static int write_initiator_refuses(ssp_write_initiator w, const uint8_t *frame, size_t len) {
    ssp_write_initiator w0 = w;
    int ok = 1;
    touchable();
    EACH(ask_write(&w), same_writer(w, w0));
    EACH(ssp_write_initiator_ack_received(&w), same_writer(w, w0));
    EACH(ssp_write_initiator_nak_received(&w), same_writer(w, w0));
    EACH(ssp_write_initiator_ack_nak_timeout(&w), same_writer(w, w0));
    EACH(ssp_write_initiator_connection_lost(&w), same_writer(w, w0));
    EACH(ssp_write_initiator_nexus_lost(&w), same_writer(w, w0));
    EACH(ssp_write_initiator_frame_received(&w, frame, len), same_writer(w, w0));
    return ok;
}
static int write_target_refuses(ssp_write_target x, const uint8_t *frame, size_t len) {
    ssp_write_target x0 = x;
    int ok = 1;
    touchable();
    EACH(ask_target(&x), same_target(x, x0));
    EACH(ssp_write_target_ack_received(&x), same_target(x, x0));
    EACH(ssp_write_target_nak_received(&x), same_target(x, x0));
    EACH(ssp_write_target_ack_nak_timeout(&x), same_target(x, x0));
    EACH(ssp_write_target_connection_lost(&x), same_target(x, x0));
    EACH(ssp_write_target_nexus_lost(&x), same_target(x, x0));
    EACH(ssp_write_target_time_reported(&x, 0), same_target(x, x0));
    EACH(ssp_write_target_time_reported(&x, 0xFFFF), same_target(x, x0));
    EACH(ssp_write_target_frame_received(&x, frame, len, room, COUNT), same_target(x, x0));
    return ok;
}
static int response_refuses(ssp_response x) {
    ssp_response x0 = x;
    int ok = 1;
    touchable();
    EACH(ask_response(&x), same_responder(x, x0));
    EACH(ssp_response_ack_received(&x), same_responder(x, x0));
    EACH(ssp_response_nak_received(&x), same_responder(x, x0));
    EACH(ssp_response_ack_nak_timeout(&x), same_responder(x, x0));
    EACH(ssp_response_connection_lost(&x), same_responder(x, x0));
    EACH(ssp_response_nexus_lost(&x), same_responder(x, x0));
    return ok;
}
#undef EACH

/* Every set-up and every call, on records that are else in range; also on ended ones, where 1 goes before 2, and with an arriving frame that is
 * malformed or would be taken. */
static void value_under_sas11(uint16_t tptt) {
    ssp_header h = header(SSP_TYPE_RESPONSE, HERE, THERE);
    uint8_t frame[48];
    size_t len;
    unsigned ended;
    ssp_transfer t;
    now.sas2 = false;
    now.value = 0;
    h.tptt = tptt;
    iu[10] = 0; /* no data */
    ssp_frame_write(h, iu, 24, frame, sizeof frame);
    t = transfer(false, HERE, THERE);
    t.value = tptt;
    TRY("a value under SAS-1.1 at each set-up", all_refuse(t));
    t.sas2 = true;
    TRY("the same value under SAS-2 at each set-up", all_take(t));
    for (ended = 0; ended < 2; ended++) {
        for (len = 23; len <= 48; len += 25) {
            ssp_read_target s = sender();
            ssp_read_initiator r = receiver();
            ssp_write_initiator w = writer();
            ssp_write_target x = target();
            s.ended = r.ended = w.sender.ended = x.receiver.ended = ended == 1;
            s.transfer.value = r.transfer.value = w.sender.transfer.value = x.receiver.transfer.value = tptt;
            TRY("a value under SAS-1.1: each call on ssp_read_target", read_target_refuses(s, frame, len));
            TRY("a value under SAS-1.1: each call on ssp_read_initiator", read_initiator_refuses(r, frame, len));
            TRY("a value under SAS-1.1: each call on ssp_write_initiator", write_initiator_refuses(w, frame, len));
            x.state = SSP_STATE_READY;
            TRY("a value under SAS-1.1: each call on ssp_write_target, ready", write_target_refuses(x, frame, len));
            x.state = SSP_STATE_UNANSWERED;
            TRY("a value under SAS-1.1: each call on ssp_write_target, unanswered", write_target_refuses(x, frame, len));
            x.state = SSP_STATE_AGAIN;
            TRY("a value under SAS-1.1: each call on ssp_write_target, to be sent again", write_target_refuses(x, frame, len));
        }
        {
            ssp_response p = responder();
            p.ended = ended == 1;
            p.transfer.value = tptt;
            TRY("a value under SAS-1.1: each call on ssp_response", response_refuses(p));
            p.unanswered = true;
            p.transfer.write = true;
            TRY("a value under SAS-1.1: each call on ssp_response, unanswered", response_refuses(p));
        }
    }
    /* the edition alone decides: a record set up under SAS-2 */
    {
        ssp_read_target s = sender();
        s.transfer.sas2 = true;
        s.transfer.value = tptt;
        TRY("ssp_read_target.transfer.sas2 = true", framed(ask(&s), 32) && be(18, 2) == tptt);
        s.transfer.sas2 = false;
        TRY("ssp_read_target.transfer.sas2 = false", refused(ask(&s), 1));
    }
    {
        ssp_response p = responder();
        p.transfer.sas2 = true;
        p.transfer.value = tptt;
        TRY("ssp_response.transfer.sas2 = true", framed(ask_response(&p), 52) && be(18, 2) == tptt);
        p.unanswered = false;
        p.transfer.sas2 = false;
        TRY("ssp_response.transfer.sas2 = false", refused(ask_response(&p), 1));
    }
}

/* ---- frames, every byte ---- */

/* `out` has that header, with tptt in bytes 18 and 19, and n bytes behind it; nothing else was touched. */
static int frame_is(ssp_answer a, const uint8_t *head, uint16_t tptt, const uint8_t *body, size_t n) {
    size_t i;
    if (!framed(a, 24 + n) || out[18] != tptt >> 8 || out[19] != (tptt & 0xFF) || memcmp(out + 24, body, n) != 0) {
        return 0;
    }
    for (i = 0; i < 24; i++) {
        if (i != 18 && i != 19 && out[i] != head[i]) {
            return 0;
        }
    }
    for (i = 24 + n; i < sizeof out; i++) {
        if (out[i] != 0xEE) {
            return 0;
        }
    }
    return 1;
}

static void frames_of(bool sas2, uint16_t value) {
    /* type, destination, source; byte 10 flags, byte 11 fill; tag, TPTT; offset */
    static const uint8_t read_data[24] = {1, 0x12, 0x34, 0x56, 0, 0xAB, 0xCD, 0xEF, 0, 0, 0, 0, 0, 0, 0, 0, 0, 0x12, 0, 0, 0, 0, 0, 16};
    static const uint8_t read_again[24] = {1, 0x12, 0x34, 0x56, 0, 0xAB, 0xCD, 0xEF, 0, 0, 1, 0, 0, 0, 0, 0, 0, 0x12, 0, 0, 0, 0, 0, 8};
    static const uint8_t write_data[24] = {1, 0xAB, 0xCD, 0xEF, 0, 0x12, 0x34, 0x56, 0, 0, 0, 0, 0, 0, 0, 0, 0, 0x12, 0, 0, 0, 0, 0, 16};
    static const uint8_t write_again[24] = {1, 0xAB, 0xCD, 0xEF, 0, 0x12, 0x34, 0x56, 0, 0, 1, 0, 0, 0, 0, 0, 0, 0x12, 0, 0, 0, 0, 0, 8};
    static const uint8_t xfer_rdy[24] = {5, 0x12, 0x34, 0x56, 0, 0xAB, 0xCD, 0xEF, 0, 0, 6, 0, 0, 0, 0, 0, 0, 0x12, 0, 0, 0, 0, 0, 0};
    static const uint8_t xfer_rdy_iu[12] = {0, 0, 0, 8, 0, 0, 0, 32, 0, 0, 0, 0};
    static const uint8_t response[24] = {7, 0x12, 0x34, 0x56, 0, 0xAB, 0xCD, 0xEF, 0, 0, 0, 0, 0, 0, 0, 0, 0, 0x12, 0, 0, 0, 0, 0, 0};
    static const uint8_t resent[24] = {7, 0x12, 0x34, 0x56, 0, 0xAB, 0xCD, 0xEF, 0, 0, 2, 0, 0, 0, 0, 0, 0, 0x12, 0, 0, 0, 0, 0, 0};
    unsigned write, event;
    now.sas2 = sas2;
    now.value = value;
    now.tptt = 0;
    for (event = 0; event < 3; event++) { /* a retry after a timeout, a cut, a NAK */
        ssp_read_target s = sender();
        ssp_write_initiator w = writer();
        ssp_write_target x = target();
        touchable();
        s.burst.tptt = 0x0708; /* read DATA does not carry this one */
        TRY("read DATA, every byte", frame_is(ask(&s), read_data, value, data + 16, 8));
        s.unanswered = 1;
        TRY("a retry of read DATA", says(event == 0   ? ssp_read_target_ack_nak_timeout(&s)
                                         : event == 1 ? ssp_read_target_connection_lost(&s)
                                                      : ssp_read_target_nak_received(&s),
                                         SSP_RETRY));
        TRY("read DATA with CDP one, every byte", frame_is(ask(&s), read_again, value, data + 8, 8));
        TRY("the read DATA behind it, every byte", frame_is(ask(&s), read_data, value, data + 16, 8));
        TRY("their transfer stays", same_transfer(s.transfer, sender().transfer));

        touchable();
        TRY("write DATA, every byte", frame_is(ask_write(&w), write_data, 0x0102, data + 16, 8));
        w.sender.unanswered = 1;
        TRY("a retry of write DATA", says(event == 0   ? ssp_write_initiator_ack_nak_timeout(&w)
                                          : event == 1 ? ssp_write_initiator_connection_lost(&w)
                                                       : ssp_write_initiator_nak_received(&w),
                                          SSP_RETRY));
        TRY("write DATA with CDP one, every byte", frame_is(ask_write(&w), write_again, 0x0102, data + 8, 8));
        TRY("their transfer stays", same_transfer(w.sender.transfer, writer().sender.transfer));

        touchable();
        x.state = SSP_STATE_UNANSWERED;
        TRY("a retry of an XFER_RDY", says(event == 0   ? ssp_write_target_ack_nak_timeout(&x)
                                           : event == 1 ? ssp_write_target_connection_lost(&x)
                                                        : ssp_write_target_nak_received(&x),
                                           SSP_RETRY));
        TRY("an XFER_RDY, every byte", frame_is(ask_target(&x), xfer_rdy, 3, xfer_rdy_iu, 12) && x.tptt == 3);
        TRY("its transfer stays", same_transfer(x.receiver.transfer, target().receiver.transfer));
        for (write = 0; write < 2; write++) {
            ssp_response p = responder();
            unsigned again;
            p.transfer.write = write == 1;
            touchable();
            TRY("a RESPONSE, every byte", frame_is(ask_response(&p), response, value, iu, 28));
            for (again = 0; again < 2; again++) {
                TRY("a retry of a RESPONSE", says(event == 0   ? ssp_response_ack_nak_timeout(&p)
                                                  : event == 1 ? ssp_response_connection_lost(&p)
                                                               : ssp_response_nak_received(&p),
                                                  SSP_RETRY));
                TRY("a resent RESPONSE, every byte", frame_is(ask_response(&p), resent, value, iu, 28));
            }
        }
    }
}

/* ---- arrivals: read DATA, RESPONSE and what a read refuses, alike under every TPTT ---- */

/* A frame as it arrives: the header with that TPTT, n bytes of `bytes`. */
static size_t arrives(ssp_header h, uint16_t tptt, const uint8_t *bytes, size_t n) {
    h.tptt = tptt;
    memset(room, 0xEE, sizeof room);
    return ssp_frame_write(h, bytes, n, out, sizeof out).len;
}

static void arrivals_of(bool sas2, uint16_t value, uint16_t tptt) {
    static const uint8_t request[12] = {0, 0, 0, 0, 0, 0, 0, 10, 0, 0, 0, 0};
    ssp_header h = header(SSP_TYPE_DATA, HERE, THERE);
    ssp_read_target s, s0;
    ssp_read_initiator r, want;
    ssp_write_initiator w, want_w;
    ssp_write_target x;
    size_t n;
    now.sas2 = sas2;
    now.value = value;
    iu[10] = 0; /* no data */

    /* a read at the initiator */
    want = receiver();
    r = want;
    h.offset = 16;
    n = arrives(h, tptt, data + 16, 8);
    want.expected = 24;
    TRY("read DATA with any TPTT", says(ssp_read_initiator_frame_received(&r, out, n, room, COUNT), SSP_STORED));
    TRY("read DATA with any TPTT: what it leaves", same_receiver(r, want) && stored(16, 24));
    n = arrives(h, tptt, data + 16, 8);
    want.waiting = true;
    TRY("a gap with any TPTT", says(ssp_read_initiator_frame_received(&r, out, n, room, COUNT), SSP_DISCARDED));
    TRY("a gap with any TPTT: what it leaves", same_receiver(r, want) && stored(0, 0));
    h.cdp = true;
    h.offset = 20;
    n = arrives(h, tptt, data + 20, 8);
    want.expected = want.filled = 28;
    want.waiting = false;
    TRY("read DATA with CDP one and any TPTT", says(ssp_read_initiator_frame_received(&r, out, n, room, COUNT), SSP_STORED));
    TRY("read DATA with CDP one and any TPTT: what it leaves", same_receiver(r, want) && stored(20, 28));
    h.cdp = false;
    h.offset = 28;
    n = arrives(h, tptt, data + 28, 18);
    want.expected = want.filled = COUNT;
    TRY("the last read DATA with any TPTT", says(ssp_read_initiator_frame_received(&r, out, n, room, COUNT), SSP_RECEIVED));
    TRY("the last read DATA with any TPTT: what it leaves", same_receiver(r, want) && stored(28, COUNT));
    h = header(SSP_TYPE_RESPONSE, HERE, THERE);
    n = arrives(h, tptt, iu, 24);
    want.ended = true;
    TRY("a read's RESPONSE with any TPTT", opened(ssp_read_initiator_frame_received(&r, out, n, room, COUNT), SSP_RESPONSE, 0, 24, 24, 0, iu[11], 0));
    TRY("a read's RESPONSE with any TPTT: what it leaves", same_receiver(r, want) && stored(0, 0));
    h.tag = TAG + 1;
    n = arrives(h, tptt, iu, 24);
    r = receiver();
    TRY("a RESPONSE of another command with any TPTT", refused(ssp_read_initiator_frame_received(&r, out, n, room, COUNT), 8) && same_receiver(r, receiver()));
    h = header(SSP_TYPE_XFER_RDY, HERE, THERE);
    n = arrives(h, tptt, request, 12);
    TRY("an XFER_RDY in a read with any TPTT", failed(ssp_read_initiator_frame_received(&r, out, n, room, COUNT), 27, 0) && r.ended && stored(0, 0));

    /* a read at the target */
    s = s0 = sender();
    h = header(SSP_TYPE_DATA, THERE, HERE);
    n = arrives(h, tptt, data, 8);
    TRY("DATA at a read's target with any TPTT", refused(ssp_read_target_frame_received(&s, out, n), 6) && same_sender(s, s0));

    /* a write at the initiator: of a RESPONSE it is ignored, of an XFER_RDY it is the burst's */
    w = want_w = writer();
    h = header(SSP_TYPE_RESPONSE, HERE, THERE);
    n = arrives(h, tptt, iu, 24);
    want_w.sender.unanswered = 0;
    want_w.sender.ended = true;
    TRY("a write's RESPONSE with any TPTT", opened(ssp_write_initiator_frame_received(&w, out, n), SSP_RESPONSE, 5, 24, 24, 0, iu[11], 0));
    TRY("a write's RESPONSE with any TPTT: what it leaves", same_writer(w, want_w));
    TRY("a write's set-up", says(ssp_write_initiator_set_up(&w, transfer(true, HERE, THERE)), SSP_READY));
    h = header(SSP_TYPE_XFER_RDY, HERE, THERE);
    h.retry = true;
    n = arrives(h, tptt, request, 12);
    TRY("an XFER_RDY with any TPTT", says(ssp_write_initiator_frame_received(&w, out, n), SSP_NEXT_BURST));
    TRY("an XFER_RDY with any TPTT: what it leaves", same_burst(w.sender.burst, burst(0, 10, tptt, 2)));
    TRY("write DATA of that burst", framed(ask_write(&w), 32) && be(18, 2) == tptt);

    /* a write at the target: of DATA it counts */
    x = target();
    x.tptt = tptt;
    TRY("write DATA with the burst's TPTT", says(arrive_target(&x, tptt, 16, false, 8, COUNT), SSP_STORED) && stored(16, 24));
    x = target();
    x.tptt = tptt;
    TRY("write DATA with another TPTT", refused(arrive_target(&x, tptt ^ 0x0100, 16, false, 8, COUNT), 8) && stored(0, 0));
    TRY("write DATA with another TPTT", refused(arrive_target(&x, tptt ^ 1, 16, false, 8, COUNT), 8) && stored(0, 0));
}

#include "layout_commands.h"

static void edition_fields(void) {
    unsigned i, j, k;
    for (i = 1; i < VALUES; i++) {
        value_under_sas11(values[i]);
    }
    frames_of(false, 0);
    for (i = 0; i < VALUES; i++) {
        frames_of(true, values[i]);
        arrivals_of(false, 0, values[i]);
        for (j = 0; j < VALUES; j++) {
            arrivals_of(true, values[i], values[j]);
        }
    }
    /* value 0 of each end both under SAS-1.1 (k 0) and under SAS-2 */
    for (i = 0; i < VALUES; i++) {
        for (j = 0; j < VALUES; j++) {
            for (k = 0; k < 4; k++) {
                ssp_transfer t, u;
                if ((k % 2 == 0 && i > 0) || (k / 2 == 0 && j > 0)) {
                    continue;
                }
                now.sas2 = k % 2 == 1;
                now.value = values[i];
                t = transfer(false, THERE, HERE);
                now.sas2 = k / 2 == 1;
                now.value = values[j];
                u = transfer(false, HERE, THERE);
                command_read(t, u);
                command_write(t, u);
            }
        }
    }
    now = editions[0];
}
