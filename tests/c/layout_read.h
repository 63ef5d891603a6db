/* Transfer, sending record, receiving record: part of layout.c. */
static void transfer_fields(void) {
    ssp_read_target s = sender(), want_s;
    ssp_read_initiator r = receiver(), want_r;
    ssp_write_initiator w = writer(), want_w;
    ssp_write_target x = target(), want_x;
    ssp_transfer t = transfer(false, HERE, THERE);

    TRY("ssp_transfer.write in a read's set-up", says(ssp_read_target_set_up(&s, t), SSP_READY));
    TRY("ssp_transfer.write in a read's set-up", says(ssp_read_initiator_set_up(&r, t), SSP_READY));
    TRY("ssp_transfer.write in a write's set-up", refused(ssp_write_initiator_set_up(&w, t), 1) && same_writer(w, writer()));
    TRY("ssp_transfer.write in a write's set-up", refused(ssp_write_target_set_up(&x, t), 1) && same_target(x, target()));
    memset(&want_s, 0, sizeof want_s);
    want_s.transfer = t;
    want_s.burst = burst(0, COUNT, 0, 2);
    TRY("a read's set-up at the target", same_sender(s, want_s));
    memset(&want_r, 0, sizeof want_r);
    want_r.transfer = t;
    want_r.end = COUNT;
    TRY("a read's set-up at the initiator", same_receiver(r, want_r));

    t.write = true;
    s = sender();
    r = receiver();
    TRY("ssp_transfer.write in a read's set-up", refused(ssp_read_target_set_up(&s, t), 1) && same_sender(s, sender()));
    TRY("ssp_transfer.write in a read's set-up", refused(ssp_read_initiator_set_up(&r, t), 1) && same_receiver(r, receiver()));
    TRY("ssp_transfer.write in a write's set-up", says(ssp_write_initiator_set_up(&w, t), SSP_READY));
    TRY("ssp_transfer.write in a write's set-up", says(ssp_write_target_set_up(&x, t), SSP_READY));
    memset(&want_w, 0, sizeof want_w);
    want_w.sender.transfer = t;
    want_w.sender.burst = burst(0, 0, 0, 2);
    TRY("a write's set-up at the initiator", same_writer(w, want_w));
    memset(&want_x, 0, sizeof want_x);
    want_x.receiver.transfer = t;
    TRY("a write's set-up at the target", same_target(x, want_x));

    BOUND(count, 9, all_refuse); /* below the burst */
    BOUND(count, 10, all_take);
    BOUND(count, 16777216, all_take);
    BOUND(count, 16777217, all_refuse);
    BOUND(size, 0, all_refuse);
    BOUND(size, 4, all_take);
    BOUND(size, 6, all_refuse);
    BOUND(size, 1024, all_take);
    BOUND(size, 1028, all_refuse);
    BOUND(window, 0, all_refuse);
    BOUND(window, 1, all_take);
    BOUND(window, 64, all_take);
    BOUND(window, 65, all_refuse);
    BOUND(limit, 0, all_take);
    BOUND(limit, 15, all_take);
    BOUND(limit, 16, all_refuse);
    BOUND(burst, 0, all_refuse);
    BOUND(burst, 1, all_take);
    BOUND(burst, 46, all_take);
    BOUND(burst, 47, all_refuse);
    BOUND(local, 0, all_take);
    BOUND(local, 0xFFFFFF, all_take);
    BOUND(local, 0x1000000, all_refuse);
    BOUND(remote, 0, all_take);
    BOUND(remote, 0xFFFFFF, all_take);
    BOUND(remote, 0x1000000, all_refuse);
    BOUND(tag, 0xFFFF, all_take);
}

/* ---- ssp_read_target: a read at the target ---- */

/* Sets one field of a record, then tries the call. */
#define SENDER(field, value, ok)                               \
    do {                                                       \
        ssp_read_target s = sender();                               \
        s.field = (value);                                     \
        TRY("ssp_read_target." #field " = " #value ": " #ok, (ok)); \
    } while (0)

static void sender_fields(void) {
    {
        ssp_read_target s = sender(), want = s;
        memset(out, 0xEE, sizeof out);
        TRY("a frame of a read", framed(ask(&s), 32));
        want.next = 24;
        want.unanswered = 3;
        want.frames = 6;
        TRY("a frame of a read: the record left", same_sender(s, want));
        TRY("a frame of a read: its bytes", memcmp(out + 24, data + 16, 8) == 0 && out[32] == 0xEE);
    }
    SENDER(transfer.write, true, refused(ask(&s), 1));
    SENDER(transfer.write, true, refused(ssp_read_target_ack_received(&s), 1));
    SENDER(transfer.count, 47, refused(ask(&s), 1));
    SENDER(transfer.count, 47, framed(ssp_read_target_next_frame(&s, data, 47, out, sizeof out), 32));
    SENDER(transfer.count, 45, refused(ssp_read_target_next_frame(&s, data, 45, out, sizeof out), 1)); /* the end is above it */
    SENDER(transfer.size, 12, framed(ask(&s), 36));
    SENDER(transfer.size, 6, refused(ask(&s), 1));
    SENDER(transfer.window, 2, says(ask(&s), SSP_WAIT));
    SENDER(transfer.window, 64, framed(ask(&s), 32));
    SENDER(transfer.window, 65, refused(ask(&s), 1));
    SENDER(transfer.limit, 1, refused(ask(&s), 1)); /* the burst's is above it */
    SENDER(transfer.limit, 15, framed(ask(&s), 32));
    SENDER(transfer.limit, 16, refused(ask(&s), 1));
    SENDER(transfer.burst, 46, framed(ask(&s), 32));
    SENDER(transfer.burst, 47, refused(ask(&s), 1));
    SENDER(transfer.local, 0x010203, framed(ask(&s), 32) && be(5, 3) == 0x010203 && be(1, 3) == HERE);
    SENDER(transfer.local, 0x1000000, refused(ask(&s), 1));
    SENDER(transfer.remote, 0x040506, framed(ask(&s), 32) && be(1, 3) == 0x040506 && be(5, 3) == THERE);
    SENDER(transfer.remote, 0x1000000, refused(ask(&s), 1));
    SENDER(transfer.tag, 0xBEEF, framed(ask(&s), 32) && be(16, 2) == 0xBEEF && be(18, 2) == now.value);
    SENDER(burst.base, 8, framed(ask(&s), 32));
    SENDER(burst.base, 9, refused(ask(&s), 1)); /* above the balance point */
    SENDER(burst.end, 20, framed(ask(&s), 28));
    SENDER(burst.end, 16, says(ask(&s), SSP_WAIT));
    SENDER(burst.end, 15, refused(ask(&s), 1)); /* below the next offset */
    SENDER(burst.end, 47, refused(ask(&s), 1)); /* above the byte count */
    SENDER(burst.tptt, 0xBEEF, framed(ask(&s), 32) && be(18, 2) == now.value && s.burst.tptt == 0xBEEF);
    SENDER(burst.limit, 1, failed(ssp_read_target_ack_nak_timeout(&s), 29, 5) && s.ended);
    SENDER(burst.limit, 0, refused(ssp_read_target_ack_nak_timeout(&s), 1)); /* below the retries */
    SENDER(burst.limit, 3, refused(ssp_read_target_ack_nak_timeout(&s), 1)); /* above the transfer's */
    SENDER(next, 9, framed(ask(&s), 32) && be(20, 4) == 9 && s.next == 17 && out[24] == data[9]);
    SENDER(next, 7, refused(ask(&s), 1)); /* below the balance point */
    SENDER(next, 40, framed(ask(&s), 32) && s.next == 46 && out[11] == 2);
    SENDER(next, 46, says(ask(&s), SSP_WAIT));
    SENDER(next, 47, refused(ask(&s), 1));
    SENDER(balance, 12, says(ssp_read_target_ack_nak_timeout(&s), SSP_RETRY) && s.next == 12 && s.balance == 12);
    SENDER(balance, 17, refused(ssp_read_target_ack_nak_timeout(&s), 1));
    SENDER(unanswered, 0, refused(ssp_read_target_ack_received(&s), 4) && refused(ssp_read_target_nak_received(&s), 4) && refused(ssp_read_target_ack_nak_timeout(&s), 4));
    SENDER(unanswered, 0, says(ssp_read_target_connection_lost(&s), SSP_UNCHANGED));
    SENDER(unanswered, 1, says(ssp_read_target_ack_received(&s), SSP_TAKEN) && s.unanswered == 0 && s.balance == 16 && s.retries == 0);
    SENDER(unanswered, 3, says(ask(&s), SSP_WAIT));
    SENDER(unanswered, 4, refused(ask(&s), 1)); /* above the window */
    SENDER(nak, true, says(ask(&s), SSP_WAIT));
    SENDER(nak, false, says(ssp_read_target_ack_received(&s), SSP_TAKEN) && says(ssp_read_target_ack_received(&s), SSP_TAKEN) && s.balance == 16);
    SENDER(nak, true, says(ssp_read_target_ack_received(&s), SSP_TAKEN) && says(ssp_read_target_ack_received(&s), SSP_RETRY) && !s.nak && s.cdp);
    SENDER(nak, false, says(ssp_read_target_nak_received(&s), SSP_TAKEN) && s.nak && s.unanswered == 1);
    SENDER(cdp, true, framed(ask(&s), 32) && out[10] == 1 && be(18, 2) == now.value && !s.cdp);
    SENDER(cdp, false, framed(ask(&s), 32) && out[10] == 0);
    SENDER(retries, 0, says(ssp_read_target_ack_nak_timeout(&s), SSP_RETRY) && s.retries == 1 && s.cdp && s.unanswered == 0 && s.next == 8);
    SENDER(retries, 2, failed(ssp_read_target_ack_nak_timeout(&s), 29, 5));
    SENDER(retries, 2, failed(ssp_read_target_connection_lost(&s), 30, 5));
    SENDER(retries, 3, refused(ssp_read_target_ack_nak_timeout(&s), 1)); /* above the limit */
    SENDER(frames, MANY, failed(ssp_read_target_nexus_lost(&s), 31, MANY));
    SENDER(frames, TOO_MANY - 1, failed(ssp_read_target_nexus_lost(&s), 31, TOO_MANY - 1));
    SENDER(frames, TOO_MANY, refused(ssp_read_target_nexus_lost(&s), 1));
    SENDER(ended, true, refused(ask(&s), 2) && refused(ssp_read_target_ack_received(&s), 2) && refused(ssp_read_target_nak_received(&s), 2));
    SENDER(ended, true, refused(ssp_read_target_ack_nak_timeout(&s), 2) && refused(ssp_read_target_connection_lost(&s), 2));
    SENDER(ended, true, refused(ssp_read_target_nexus_lost(&s), 2) && refused(ssp_read_target_frame_received(&s, out, 32), 2));
    {
        /* the report: the last frame, its ACK, then nothing more */
        ssp_read_target s = sender(), want;
        s.next = COUNT;
        s.unanswered = 1;
        s.frames = MANY;
        want = s;
        TRY("ssp_read_target delivered", is(ssp_read_target_ack_received(&s), SSP_DELIVERED, 0, MANY, 0, 0));
        want.balance = COUNT;
        want.unanswered = 0;
        want.retries = 0;
        want.ended = true;
        TRY("ssp_read_target delivered: the record left", same_sender(s, want));
    }
    {
        ssp_read_target s = sender();
        TRY("an output buffer of 31 bytes", refused(ssp_read_target_next_frame(&s, data, COUNT, out, 31), 3) && same_sender(s, sender()));
        TRY("an output buffer of 32 bytes", framed(ssp_read_target_next_frame(&s, data, COUNT, out, 32), 32));
        s = sender();
        for (arriving = 0; arriving <= SSP_TLR_MOST; arriving++) {
            out[10] = (uint8_t)(arriving << 3);
            out[18] = (uint8_t)(now.tptt >> 8);
            out[19] = (uint8_t)now.tptt;
            TRY("31 bytes at a read's target", refused(ssp_read_target_frame_received(&s, out, 31), 5) && same_sender(s, sender()));
            TRY("DATA at a read's target", refused(ssp_read_target_frame_received(&s, out, 32), 6) && same_sender(s, sender()));
        }
    }
}

/* ---- ssp_read_initiator: a read at the initiator ---- */

#define RECEIVER(field, value, ok)                               \
    do {                                                         \
        ssp_read_initiator r = receiver();                             \
        r.field = (value);                                       \
        TRY("ssp_read_initiator." #field " = " #value ": " #ok, (ok)); \
    } while (0)

static void receiver_fields(void) {
    {
        ssp_read_initiator r = receiver(), want = r;
        r.waiting = true;
        TRY("DATA with CDP one", says(arrive(&r, 20, true, 8, COUNT), SSP_STORED) && stored(20, 28));
        want.expected = 28;
        want.filled = 28;
        TRY("DATA with CDP one: the record left", same_receiver(r, want));
    }
    RECEIVER(transfer.write, true, refused(arrive(&r, 16, false, 8, COUNT), 1) && stored(0, 0));
    RECEIVER(transfer.write, true, refused(ssp_read_initiator_nexus_lost(&r), 1));
    RECEIVER(transfer.count, 47, refused(arrive(&r, 16, false, 8, COUNT), 1));
    RECEIVER(transfer.count, 47, says(arrive(&r, 16, false, 8, 47), SSP_STORED));
    RECEIVER(transfer.count, 45, refused(arrive(&r, 16, false, 8, 45), 1)); /* the end is above it */
    RECEIVER(transfer.size, 1024, says(arrive(&r, 16, false, 8, COUNT), SSP_STORED));
    RECEIVER(transfer.size, 6, refused(arrive(&r, 16, false, 8, COUNT), 1));
    RECEIVER(transfer.window, 64, says(arrive(&r, 16, false, 8, COUNT), SSP_STORED));
    RECEIVER(transfer.window, 65, refused(arrive(&r, 16, false, 8, COUNT), 1));
    RECEIVER(transfer.limit, 0, failed(arrive(&r, 24, false, 8, COUNT), 20, 0)); /* retries off: not the expected offset */
    RECEIVER(transfer.limit, 1, says(arrive(&r, 24, false, 8, COUNT), SSP_DISCARDED));
    RECEIVER(transfer.limit, 16, refused(arrive(&r, 24, false, 8, COUNT), 1));
    RECEIVER(transfer.burst, 46, says(arrive(&r, 16, false, 8, COUNT), SSP_STORED));
    RECEIVER(transfer.burst, 47, refused(arrive(&r, 16, false, 8, COUNT), 1));
    RECEIVER(transfer.local, 0x123457, refused(arrive(&r, 16, false, 8, COUNT), 7));
    RECEIVER(transfer.local, 0x1000000, refused(arrive(&r, 16, false, 8, COUNT), 1));
    RECEIVER(transfer.remote, 0xABCDEE, refused(arrive(&r, 16, false, 8, COUNT), 7));
    RECEIVER(transfer.remote, 0x1000000, refused(arrive(&r, 16, false, 8, COUNT), 1));
    RECEIVER(transfer.tag, 0x0013, refused(arrive(&r, 16, false, 8, COUNT), 8));
    RECEIVER(base, 0, says(arrive(&r, 4, true, 8, COUNT), SSP_STORED) && stored(4, 12));
    RECEIVER(base, 8, failed(arrive(&r, 4, true, 8, COUNT), 20, 0) && r.ended);
    RECEIVER(base, 17, refused(arrive(&r, 16, false, 8, COUNT), 1)); /* above the expected offset */
    RECEIVER(end, 30, failed(arrive(&r, 24, true, 8, COUNT), 21, 0) && stored(0, 0));
    RECEIVER(end, 32, says(arrive(&r, 24, true, 8, COUNT), SSP_RECEIVED) && stored(24, 32));
    RECEIVER(end, 24, says(arrive(&r, 16, false, 8, COUNT), SSP_DISCARDED) && !r.waiting); /* filled */
    RECEIVER(end, 23, refused(arrive(&r, 16, false, 8, COUNT), 1));                        /* below the filled mark */
    RECEIVER(end, 47, refused(arrive(&r, 16, false, 8, COUNT), 1));                        /* above the byte count */
    RECEIVER(expected, 20, says(arrive(&r, 20, false, 8, COUNT), SSP_STORED) && r.expected == 28);
    RECEIVER(expected, 20, says(arrive(&r, 16, false, 8, COUNT), SSP_DISCARDED) && r.expected == 20 && r.waiting);
    RECEIVER(expected, 25, refused(arrive(&r, 16, false, 8, COUNT), 1)); /* above the filled mark */
    RECEIVER(filled, 27, failed(arrive(&r, 28, true, 8, COUNT), 20, 0));
    RECEIVER(filled, 28, says(arrive(&r, 28, true, 8, COUNT), SSP_STORED) && r.filled == 36);
    RECEIVER(filled, 40, says(arrive(&r, 28, true, 8, COUNT), SSP_STORED) && r.filled == 40 && r.expected == 36);
    RECEIVER(filled, 47, refused(arrive(&r, 28, true, 8, COUNT), 1));
    RECEIVER(waiting, true, says(arrive(&r, 16, false, 8, COUNT), SSP_DISCARDED) && r.waiting && stored(0, 0));
    RECEIVER(waiting, false, says(arrive(&r, 16, false, 8, COUNT), SSP_STORED) && stored(16, 24));
    RECEIVER(ended, true, refused(arrive(&r, 16, false, 8, COUNT), 2) && stored(0, 0));
    RECEIVER(ended, true, refused(ssp_read_initiator_nexus_lost(&r), 2));
    RECEIVER(ended, false, failed(ssp_read_initiator_nexus_lost(&r), 31, 0) && r.ended);
    RECEIVER(ended, false, failed(arrive(&r, 16, false, 0, COUNT), 22, 0));
    {
        ssp_read_initiator r = receiver();
        ssp_header h = header(SSP_TYPE_RESPONSE, HERE, THERE);
        ssp_answer f;
        h.tlr = arriving;
        h.tptt = now.tptt;
        iu[10] = 0x54; /* no data */
        f = ssp_frame_write(h, iu, 24, out, sizeof out);
        TRY("a RESPONSE in a read", opened(ssp_read_initiator_frame_received(&r, out, f.len, room, COUNT), SSP_RESPONSE, 0, 24, 24, 0, iu[11], 0) && r.ended);
        r = receiver();
        f = ssp_frame_write(h, iu, 23, out, sizeof out);
        TRY("a RESPONSE of 23 bytes", failed(ssp_read_initiator_frame_received(&r, out, f.len, room, COUNT), 32, 0));
    }
}

/* ---- ssp_write_initiator, ssp_burst: a write at the initiator ---- */

#define WRITER(field, value, ok)                               \
    do {                                                       \
        ssp_write_initiator w = writer();                               \
        w.field = (value);                                     \
        TRY("ssp_write_initiator." #field " = " #value ": " #ok, (ok)); \
    } while (0)

/* A burst is taken; nothing (or so much) is unanswered. */
#define TAKEN(field, value, ok)                                          \
    do {                                                                 \
        ssp_write_initiator w = writer();                                         \
        w.sender.unanswered = 0;                                         \
        w.pending = true;                                                \
        w.taken = burst(26, 44, 0x0304, 1);                              \
        w.field = (value);                                               \
        TRY("ssp_write_initiator, pending, " #field " = " #value ": " #ok, (ok)); \
    } while (0)
