/* The records of a write at both ends: part of layout.c. */
static void writer_fields(void) {
    {
        ssp_write_initiator w = writer(), want = w;
        TRY("a frame of a write", framed(ask_write(&w), 32) && be(18, 2) == 0x0102 && be(20, 4) == 16 && out[24] == data[16]);
        want.sender.next = 24;
        want.sender.unanswered = 3;
        want.sender.frames = 6;
        TRY("a frame of a write: the record left", same_writer(w, want));
    }
    WRITER(sender.transfer.write, false, refused(ask_write(&w), 1));
    WRITER(sender.transfer.count, 47, refused(ask_write(&w), 1));
    WRITER(sender.transfer.count, 47, framed(ssp_write_initiator_next_frame(&w, data, 47, out, sizeof out), 32));
    WRITER(sender.transfer.size, 4, framed(ask_write(&w), 28));
    WRITER(sender.transfer.window, 2, says(ask_write(&w), SSP_WAIT));
    WRITER(sender.transfer.limit, 1, refused(ask_write(&w), 1));
    WRITER(sender.transfer.burst, 47, refused(ask_write(&w), 1));
    WRITER(sender.transfer.local, 0x010203, framed(ask_write(&w), 32) && be(5, 3) == 0x010203);
    WRITER(sender.transfer.remote, 0x040506, framed(ask_write(&w), 32) && be(1, 3) == 0x040506);
    WRITER(sender.transfer.tag, 0xBEEF, framed(ask_write(&w), 32) && be(16, 2) == 0xBEEF);
    WRITER(sender.burst.base, 4, says(ssp_write_initiator_ack_nak_timeout(&w), SSP_RETRY) && w.sender.next == 4 && w.sender.balance == 4);
    WRITER(sender.burst.base, 9, refused(ask_write(&w), 1)); /* above the balance point */
    WRITER(sender.burst.end, 28, framed(ask_write(&w), 32) && failed(arrive_xfer_rdy(&w, 28, 4, true, false), 27, 6));
    WRITER(sender.burst.end, 23, refused(ask_write(&w), 1)); /* below the furthest offset */
    WRITER(sender.burst.tptt, 0xBEEF, framed(ask_write(&w), 32) && be(18, 2) == 0xBEEF);
    WRITER(sender.burst.limit, 1, failed(ssp_write_initiator_ack_nak_timeout(&w), 29, 5));
    WRITER(sender.burst.limit, 3, refused(ssp_write_initiator_ack_nak_timeout(&w), 1));
    WRITER(sender.next, 20, framed(ask_write(&w), 28) && be(20, 4) == 20);
    WRITER(sender.balance, 17, refused(ask_write(&w), 1));
    WRITER(sender.unanswered, 0, refused(ssp_write_initiator_ack_received(&w), 4) && refused(ssp_write_initiator_nak_received(&w), 4));
    WRITER(sender.unanswered, 0, refused(ssp_write_initiator_ack_nak_timeout(&w), 4) && says(ssp_write_initiator_connection_lost(&w), SSP_UNCHANGED));
    WRITER(sender.unanswered, 4, refused(ssp_write_initiator_ack_received(&w), 1));
    WRITER(sender.nak, true, says(ask_write(&w), SSP_WAIT));
    WRITER(sender.nak, false, says(ssp_write_initiator_nak_received(&w), SSP_TAKEN) && w.sender.nak && w.sender.unanswered == 1);
    WRITER(sender.cdp, true, framed(ask_write(&w), 32) && out[10] == 1 && !w.sender.cdp);
    WRITER(sender.retries, 2, failed(ssp_write_initiator_connection_lost(&w), 30, 5));
    WRITER(sender.retries, 3, refused(ssp_write_initiator_connection_lost(&w), 1));
    WRITER(sender.frames, MANY, failed(ssp_write_initiator_nexus_lost(&w), 31, MANY));
    WRITER(sender.frames, TOO_MANY, refused(ssp_write_initiator_nexus_lost(&w), 1));
    WRITER(sender.ended, true, refused(ask_write(&w), 2) && refused(ssp_write_initiator_ack_received(&w), 2) && refused(ssp_write_initiator_nak_received(&w), 2));
    WRITER(sender.ended, true, refused(ssp_write_initiator_ack_nak_timeout(&w), 2) && refused(ssp_write_initiator_connection_lost(&w), 2));
    WRITER(sender.ended, true, refused(ssp_write_initiator_nexus_lost(&w), 2) && refused(arrive_xfer_rdy(&w, 24, 4, true, false), 2));
    WRITER(reached, 15, refused(ask_write(&w), 1)); /* below the next offset */
    WRITER(reached, 25, refused(ask_write(&w), 1)); /* above the end */
    WRITER(reached, 23, failed(arrive_xfer_rdy(&w, 24, 4, true, false), 27, 5) && w.sender.ended);
    WRITER(reached, 24, is(arrive_xfer_rdy(&w, 24, 4, true, false), SSP_NEXT_BURST_DELIVERS, 0, 5, 0, 0) && w.pending);
    WRITER(reached, 16, framed(ask_write(&w), 32) && w.reached == 24);
    WRITER(pending, false, is(arrive_xfer_rdy(&w, 24, 6, true, false), SSP_NEXT_BURST_DELIVERS, 0, 5, 0, 0) && w.pending &&
                               same_burst(w.taken, burst(24, 30, 0x0506, 2)));
    WRITER(pending, false, is(arrive_xfer_rdy(&w, 24, 6, false, false), SSP_NEXT_BURST_DELIVERS, 0, 5, 0, 0) &&
                               same_burst(w.taken, burst(24, 30, 0x0506, 0)));
    WRITER(pending, false, says(arrive_xfer_rdy(&w, 8, 16, true, true), SSP_REPEATED) && w.pending &&
                               same_burst(w.taken, burst(8, 24, 0x0506, 2)));
    /* a repeat of another length than the burst's 16 */
    WRITER(pending, false, failed(arrive_xfer_rdy(&w, 8, 15, true, true), 25, 5) && w.sender.ended && !w.pending);
    WRITER(pending, false, failed(arrive_xfer_rdy(&w, 8, 17, true, true), 25, 5) && w.sender.ended && !w.pending);
    WRITER(pending, false, failed(arrive_xfer_rdy(&w, 8, 0, true, true), 25, 5));
    WRITER(sender.burst.end, 25, failed(arrive_xfer_rdy(&w, 8, 16, true, true), 25, 5));
    /* at its end: another burst */
    WRITER(pending, false, is(arrive_xfer_rdy(&w, 24, 4, true, true), SSP_NEXT_BURST_DELIVERS, 0, 5, 0, 0));
    WRITER(pending, false, failed(arrive_xfer_rdy(&w, 9, 38, true, true), 26, 5));
    WRITER(reached, 23, failed(arrive_xfer_rdy(&w, 24, 23, true, true), 27, 5));
    WRITER(pending, false, failed(arrive_xfer_rdy(&w, 8, 6, true, false), 26, 5));
    WRITER(pending, false, failed(arrive_xfer_rdy(&w, 24, 23, true, false), 25, 5));
    TAKEN(sender.unanswered, 2, says(ask_write(&w), SSP_WAIT));
    TAKEN(sender.unanswered, 2, says(ssp_write_initiator_ack_received(&w), SSP_TAKEN) && w.pending && w.sender.unanswered == 1);
    TAKEN(sender.unanswered, 2, says(ssp_write_initiator_ack_nak_timeout(&w), SSP_TAKEN) && !w.pending);
    TAKEN(sender.unanswered, 2, says(ssp_write_initiator_connection_lost(&w), SSP_TAKEN) && !w.pending);
    {
        /* the last answer starts the burst that was taken */
        ssp_write_initiator w = writer(), want;
        w.sender.unanswered = 1;
        w.pending = true;
        w.taken = burst(26, 44, 0x0304, 1);
        memset(&want, 0, sizeof want);
        want.sender.transfer = w.sender.transfer;
        want.sender.burst = w.taken;
        want.sender.next = want.sender.balance = want.reached = 26;
        TRY("ssp_write_initiator.taken starts", says(ssp_write_initiator_nak_received(&w), SSP_TAKEN));
        TRY("ssp_write_initiator.taken starts: the record left", same_writer(w, want));
    }
    TAKEN(taken.base, 28, framed(ask_write(&w), 32) && be(20, 4) == 28 && w.sender.burst.base == 28 && w.reached == 36);
    TAKEN(taken.base, 45, refused(ask_write(&w), 1)); /* above its end */
    TAKEN(taken.base, 28, says(arrive_xfer_rdy(&w, 28, 16, true, true), SSP_REPEATED) && w.sender.burst.end == 44);
    TAKEN(taken.base, 28, failed(arrive_xfer_rdy(&w, 28, 18, true, true), 25, 5));
    TAKEN(taken.end, 42, says(arrive_xfer_rdy(&w, 26, 16, true, true), SSP_REPEATED));
    TAKEN(taken.end, 42, failed(arrive_xfer_rdy(&w, 26, 18, true, true), 25, 5));
    /* the burst in service does not count, and what fails replaces nothing */
    TAKEN(sender.unanswered, 2, says(arrive_xfer_rdy(&w, 26, 18, true, true), SSP_REPEATED) &&
                                    same_burst(w.taken, burst(26, 44, 0x0506, 2)));
    TAKEN(sender.unanswered, 2, failed(arrive_xfer_rdy(&w, 26, 16, true, true), 25, 5) && w.pending &&
                                    same_burst(w.taken, burst(26, 44, 0x0304, 1)));
    TAKEN(taken.end, 30, framed(ask_write(&w), 28) && w.sender.burst.end == 30);
    TAKEN(taken.end, 25, refused(ask_write(&w), 1)); /* below its base */
    TAKEN(taken.end, 47, refused(ask_write(&w), 1)); /* above the byte count */
    TAKEN(taken.tptt, 0xBEEF, framed(ask_write(&w), 32) && be(18, 2) == 0xBEEF && w.sender.burst.tptt == 0xBEEF);
    TAKEN(taken.limit, 0, framed(ask_write(&w), 32) && failed(ssp_write_initiator_ack_nak_timeout(&w), 29, 1));
    TAKEN(taken.limit, 2, framed(ask_write(&w), 32) && says(ssp_write_initiator_ack_nak_timeout(&w), SSP_RETRY));
    TAKEN(taken.limit, 3, refused(ask_write(&w), 1)); /* above the transfer's */
    TAKEN(pending, false, framed(ask_write(&w), 32) && be(20, 4) == 16); /* the old burst is served */
    {
        /* before any burst there is none to repeat */
        ssp_write_initiator w;
        TRY("a write", says(ssp_write_initiator_set_up(&w, transfer(true, HERE, THERE)), SSP_READY));
        TRY("the first XFER_RDY, resent",
            says(arrive_xfer_rdy(&w, 0, 7, true, true), SSP_NEXT_BURST) && same_burst(w.sender.burst, burst(0, 7, 0x0506, 2)));
        TRY("it is resent once more", says(arrive_xfer_rdy(&w, 0, 7, true, true), SSP_REPEATED));
        TRY("and then for a byte more", failed(arrive_xfer_rdy(&w, 0, 8, true, true), 25, 0) && w.sender.ended);
        TRY("so no frame goes out", refused(ask_write(&w), 2));
    }
    {
        ssp_write_initiator w = writer();
        ssp_header h = header(SSP_TYPE_RESPONSE, HERE, THERE);
        ssp_answer f;
        h.tlr = arriving;
        h.tptt = now.tptt;
        iu[10] = 0x54; /* no data */
        f = ssp_frame_write(h, iu, 24, out, sizeof out);
        w.sender.frames = MANY;
        TRY("a RESPONSE in a write", opened(ssp_write_initiator_frame_received(&w, out, f.len), SSP_RESPONSE, MANY, 24, 24, 0, iu[11], 0) && w.sender.ended);
        w = writer();
        w.sender.next = 24;
        TRY("a burst delivered", says(ssp_write_initiator_ack_received(&w), SSP_TAKEN));
        TRY("a burst delivered", is(ssp_write_initiator_ack_received(&w), SSP_DELIVERED, 0, 5, 0, 0) && !w.sender.ended);
        TRY("the next burst", says(arrive_xfer_rdy(&w, 24, 4, true, false), SSP_NEXT_BURST) && w.sender.burst.end == 28);
    }
}

/* ---- ssp_write_target: a write at the target ---- */

#define TARGET(field, value, ok)                               \
    do {                                                       \
        ssp_write_target x = target();                               \
        x.field = (value);                                     \
        TRY("ssp_write_target." #field " = " #value ": " #ok, (ok)); \
    } while (0)

/* An XFER_RDY is to be sent again. */
#define AGAIN(field, value, ok)                                                   \
    do {                                                                          \
        ssp_write_target x = target();                                                  \
        x.state = SSP_STATE_AGAIN;                                                \
        x.field = (value);                                                        \
        TRY("ssp_write_target, to be sent again, " #field " = " #value ": " #ok, (ok)); \
    } while (0)

/* An XFER_RDY is unanswered. */
#define DUE(field, value, ok)                                               \
    do {                                                                    \
        ssp_write_target x = target();                                            \
        x.state = SSP_STATE_UNANSWERED;                                     \
        x.field = (value);                                                  \
        TRY("ssp_write_target, unanswered, " #field " = " #value ": " #ok, (ok)); \
    } while (0)

#define DATA_16(x) arrive_target(&(x), 0x0102, 16, false, 8, COUNT)

static void target_fields(void) {
    {
        ssp_write_target x = target(), want = x;
        TRY("DATA of a write", says(DATA_16(x), SSP_STORED) && stored(16, 24));
        want.receiver.expected = 24;
        want.stored = true;
        want.under = 0x0102;
        want.since = 0;
        want.elapsed = 0;
        TRY("DATA of a write: the record left", same_target(x, want));
    }
    TARGET(receiver.transfer.write, false, refused(DATA_16(x), 1));
    TARGET(receiver.transfer.count, 47, refused(DATA_16(x), 1));
    TARGET(receiver.transfer.count, 47, says(arrive_target(&x, 0x0102, 16, false, 8, 47), SSP_STORED));
    TARGET(receiver.transfer.size, 6, refused(DATA_16(x), 1));
    TARGET(receiver.transfer.window, 65, refused(DATA_16(x), 1));
    TARGET(receiver.transfer.local, 0xABCDEE, refused(DATA_16(x), 7));
    TARGET(receiver.transfer.remote, 0x123457, refused(DATA_16(x), 7));
    TARGET(receiver.transfer.tag, 0x0013, refused(DATA_16(x), 8));
    TARGET(receiver.transfer.limit, 1, says(arrive_target(&x, 0x0102, 24, false, 8, COUNT), SSP_DISCARDED));
    TARGET(receiver.transfer.limit, 0, refused(DATA_16(x), 1)); /* below the retries */
    TARGET(receiver.base, 17, refused(DATA_16(x), 1));
    TARGET(receiver.base, 12, failed(arrive_target(&x, 0x0102, 8, true, 8, COUNT), 20, 0) && x.receiver.ended);
    TARGET(receiver.end, 30, failed(arrive_target(&x, 0x0102, 24, true, 8, COUNT), 21, 0));
    TARGET(receiver.expected, 20, says(DATA_16(x), SSP_DISCARDED) && x.receiver.waiting);
    TARGET(receiver.expected, 25, refused(DATA_16(x), 1));
    TARGET(receiver.filled, 32, says(arrive_target(&x, 0x0102, 32, true, 8, COUNT), SSP_RECEIVED));
    TARGET(receiver.filled, 31, failed(arrive_target(&x, 0x0102, 32, true, 8, COUNT), 20, 0));
    TARGET(receiver.filled, 40, says(DATA_16(x), SSP_DISCARDED) && !x.receiver.waiting);
    TARGET(receiver.waiting, true, says(DATA_16(x), SSP_DISCARDED));
    TARGET(receiver.ended, true, refused(DATA_16(x), 2) && refused(ask_target(&x), 2) && refused(ssp_write_target_ack_received(&x), 2));
    TARGET(receiver.ended, true, refused(ssp_write_target_nak_received(&x), 2) && refused(ssp_write_target_ack_nak_timeout(&x), 2));
    TARGET(receiver.ended, true, refused(ssp_write_target_connection_lost(&x), 2) && refused(ssp_write_target_nexus_lost(&x), 2));
    TARGET(receiver.ended, true, refused(ssp_write_target_time_reported(&x, 0xFFFF), 2));
    TARGET(receiver.ended, false, failed(ssp_write_target_nexus_lost(&x), 31, 0) && x.receiver.ended);

    TARGET(state, SSP_STATE_NONE, refused(DATA_16(x), 8));
    TARGET(state, SSP_STATE_UNANSWERED, says(DATA_16(x), SSP_DISCARDED) && stored(0, 0));
    TARGET(state, SSP_STATE_UNANSWERED, says(ask_target(&x), SSP_WAIT));
    TARGET(state, SSP_STATE_AGAIN, says(DATA_16(x), SSP_DISCARDED));
    TARGET(state, SSP_STATE_READY, says(ask_target(&x), SSP_WAIT) && refused(ssp_write_target_ack_received(&x), 4));
    TARGET(state, SSP_STATE_READY, refused(ssp_write_target_nak_received(&x), 4) && refused(ssp_write_target_ack_nak_timeout(&x), 4));
    TARGET(state, SSP_STATE_READY, says(ssp_write_target_connection_lost(&x), SSP_UNCHANGED));
    TARGET(state, 4, refused(ask_target(&x), 1));
    {
        ssp_write_target x = target(), want = x;
        x.state = SSP_STATE_UNANSWERED;
        x.receiver.waiting = true;
        TRY("the XFER_RDY's ACK", says(ssp_write_target_ack_received(&x), SSP_ACKNOWLEDGED));
        want.receiver.expected = want.receiver.filled = 8;
        want.elapsed = 0;
        TRY("the XFER_RDY's ACK: the record left", same_target(x, want));
    }
    {
        ssp_write_target x = target(), want = x;
        memset(out, 0xEE, sizeof out);
        x.state = SSP_STATE_AGAIN;
        TRY("an XFER_RDY sent again", framed(ask_target(&x), 36) && out[0] == SSP_TYPE_XFER_RDY && out[10] == 6 && out[36] == 0xEE);
        TRY("an XFER_RDY sent again: its IU", be(24, 4) == 8 && be(28, 4) == 32 && be(32, 4) == 0);
        want.state = SSP_STATE_UNANSWERED;
        want.tptt = 3;
        want.since = 4;
        TRY("an XFER_RDY sent again: the record left", same_target(x, want));
    }
    {
        ssp_write_target x = target(), want = x;
        x.receiver.expected = x.receiver.filled = x.receiver.end = 32;
        TRY("the next XFER_RDY", framed(ask_target(&x), 36) && out[10] == 4 && be(18, 2) == 3 && be(24, 4) == 32 && be(28, 4) == 10);
        want.receiver.base = want.receiver.expected = want.receiver.filled = 32;
        want.receiver.end = 42;
        want.state = SSP_STATE_UNANSWERED;
        want.tptt = 3;
        want.since = 4;
        want.retries = 0;
        TRY("the next XFER_RDY: the record left", same_target(x, want));
        x = target();
        x.receiver.expected = x.receiver.filled = x.receiver.end = 32;
        x.receiver.transfer.burst = 6;
        TRY("ssp_write_target.receiver.transfer.burst = 6", framed(ask_target(&x), 36) && be(28, 4) == 6);
        x = target();
        x.state = SSP_STATE_AGAIN;
        x.retries = 0;
        x.receiver.transfer.limit = 0;
        TRY("ssp_write_target.receiver.transfer.limit = 0", framed(ask_target(&x), 36) && out[10] == 2);
    }
    AGAIN(receiver.transfer.local, 0x010203, framed(ask_target(&x), 36) && be(5, 3) == 0x010203);
    AGAIN(receiver.transfer.remote, 0x040506, framed(ask_target(&x), 36) && be(1, 3) == 0x040506);
    AGAIN(receiver.transfer.tag, 0xBEEF, framed(ask_target(&x), 36) && be(16, 2) == 0xBEEF);
    AGAIN(receiver.base, 12, framed(ask_target(&x), 36) && be(24, 4) == 12 && be(28, 4) == 28);
    AGAIN(receiver.end, 44, framed(ask_target(&x), 36) && be(24, 4) == 8 && be(28, 4) == 36);
    TARGET(tptt, 0x0103, refused(DATA_16(x), 8));
    TARGET(tptt, 0xBEEF, says(arrive_target(&x, 0xBEEF, 16, false, 8, COUNT), SSP_STORED) && x.under == 0xBEEF);
    DUE(retries, 2, failed(ssp_write_target_nak_received(&x), 28, 0));
    DUE(retries, 2, failed(ssp_write_target_ack_nak_timeout(&x), 29, 0));
    DUE(retries, 2, failed(ssp_write_target_connection_lost(&x), 30, 0));
    DUE(retries, 1, says(ssp_write_target_nak_received(&x), SSP_RETRY) && x.retries == 2 && x.state == SSP_STATE_AGAIN);
    DUE(retries, 0, says(ssp_write_target_ack_nak_timeout(&x), SSP_RETRY) && x.retries == 1 && x.state == SSP_STATE_AGAIN);
    DUE(retries, 0, says(ssp_write_target_connection_lost(&x), SSP_RETRY) && x.retries == 1);
    DUE(retries, 3, refused(ssp_write_target_nak_received(&x), 1));
    /* tags in use are those since the last store, and the one of that store: the lowest other is handed out */
    AGAIN(stored, false, framed(ask_target(&x), 36) && be(18, 2) == 3 && x.tptt == 3);
    AGAIN(stored, true, framed(ask_target(&x), 36) && be(18, 2) == 4 && x.tptt == 4);
    AGAIN(since, 5, framed(ask_target(&x), 36) && be(18, 2) == 5 && x.since == 6);
    AGAIN(since, 17, refused(ask_target(&x), 1));
    {
        ssp_write_target x = target();
        x.state = SSP_STATE_AGAIN;
        x.stored = true;
        x.under = 4;
        TRY("ssp_write_target.under = 4", framed(ask_target(&x), 36) && x.tptt == 3 && x.under == 4);
        x.state = SSP_STATE_AGAIN;
        TRY("ssp_write_target.under = 4", framed(ask_target(&x), 36) && x.tptt == 5 && x.since == 5);
    }
}

/* ---- ssp_response ---- */

#define RESPONDER(field, value, ok)                               \
    do {                                                          \
        ssp_response x = responder();                            \
        x.field = (value);                                        \
        TRY("ssp_response." #field " = " #value ": " #ok, (ok)); \
    } while (0)

/* Its answer is due. */
#define SENT(field, value, ok)                                                 \
    do {                                                                       \
        ssp_response x = responder();                                         \
        x.unanswered = true;                                                   \
        x.field = (value);                                                     \
        TRY("ssp_response, unanswered, " #field " = " #value ": " #ok, (ok)); \
    } while (0)
