/* Part of layout.c, after layout_time.h: the records that do not look at the timeout, and initiators that go silent. */

/* ---- the roles that hold the timeout and do not use it; at the target of a write, while the sum is 0, only reports of time do ---- */

static int same_answer(ssp_answer a, ssp_answer b) {
    return a.what == b.what && a.number == b.number && a.kind == b.kind && a.status == b.status && a.frames == b.frames &&
           a.start == b.start && a.len == b.len && a.sense_len == b.sense_len;
}

static ssp_answer at_read_target(ssp_read_target *s, unsigned event) {
    return event == 0   ? ask(s)
           : event == 1 ? ssp_read_target_ack_received(s)
           : event == 2 ? ssp_read_target_nak_received(s)
           : event == 3 ? ssp_read_target_ack_nak_timeout(s)
           : event == 4 ? ssp_read_target_connection_lost(s)
           : event == 5 ? ssp_read_target_nexus_lost(s)
                        : ssp_read_target_frame_received(s, data, 24);
}
static ssp_answer at_read_initiator(ssp_read_initiator *r, unsigned event) {
    return event == 0   ? arrive(r, 16, false, 8, COUNT)
           : event == 1 ? arrive(r, 24, false, 8, COUNT)
           : event == 2 ? arrive(r, 8, true, 8, COUNT)
           : event == 3 ? arrive(r, 24, true, 22, COUNT)
           : event == 4 ? arrive(r, 46, false, 8, COUNT)
           : event == 5 ? ssp_read_initiator_nexus_lost(r)
                        : ssp_read_initiator_frame_received(r, data, 23, room, COUNT);
}
static ssp_answer at_write_initiator(ssp_write_initiator *w, unsigned event) {
    return event == 0   ? ask_write(w)
           : event == 1 ? ssp_write_initiator_ack_received(w)
           : event == 2 ? ssp_write_initiator_nak_received(w)
           : event == 3 ? ssp_write_initiator_ack_nak_timeout(w)
           : event == 4 ? ssp_write_initiator_connection_lost(w)
           : event == 5 ? ssp_write_initiator_nexus_lost(w)
                        : arrive_xfer_rdy(w, 24, 4, true, false);
}
static ssp_answer at_write_target(ssp_write_target *x, unsigned event) {
    return event == 0   ? ask_target(x)
           : event == 1 ? ssp_write_target_ack_received(x)
           : event == 2 ? arrive_target(x, x->tptt, 8, false, 8, COUNT)
           : event == 3 ? arrive_target(x, x->tptt, 8, true, 32, COUNT)
           : event == 4 ? ssp_write_target_connection_lost(x)
           : event == 5 ? ssp_write_target_nexus_lost(x)
                        : ssp_write_target_nak_received(x);
}
static ssp_answer at_response(ssp_response *p, unsigned event) {
    return event == 0   ? ask_response(p)
           : event == 1 ? ssp_response_ack_received(p)
           : event == 2 ? ssp_response_nak_received(p)
           : event == 3 ? ssp_response_ack_nak_timeout(p)
           : event == 4 ? ssp_response_connection_lost(p)
           : event == 5 ? ssp_response_nexus_lost(p)
                        : ssp_response_next_frame(p, iu, 27, out, sizeof out);
}

/* Each list of three events gives the same answers, bytes and record with that timeout as without one. */
#define IGNORES(type, start, where, call, same)                                        \
    do {                                                                               \
        unsigned list, i, e, differ = 0;                                               \
        for (list = 0; list < 7 * 7 * 7; list++) {                                     \
            type with = start, without = with;                                         \
            with.where.irt = irt;                                                      \
            without.where.irt = 0;                                                     \
            for (i = 0, e = list; i < 3; i++, e /= 7) {                                \
                uint8_t wrote[SSP_FRAME_MOST], got[MOST];                              \
                ssp_answer a, b;                                                       \
                touchable();                                                           \
                a = call(&with, e % 7);                                                \
                memcpy(wrote, out, sizeof out);                                        \
                memcpy(got, room, sizeof room);                                        \
                touchable();                                                           \
                b = call(&without, e % 7);                                             \
                differ += !same_answer(a, b) || memcmp(wrote, out, sizeof out) != 0 || \
                          memcmp(got, room, sizeof room) != 0;                         \
            }                                                                          \
            differ += with.where.irt != irt || without.where.irt != 0;                 \
            without.where.irt = irt;                                                   \
            differ += !same(with, without);                                            \
        }                                                                              \
        TRY(#type ": only a report of time can use irt", differ == 0);                 \
    } while (0)

static void time_ignored(uint16_t irt) {
    ssp_write_target again = waits(0, 0);
    again.state = SSP_STATE_AGAIN;
    IGNORES(ssp_read_target, sender(), transfer, at_read_target, same_sender);
    IGNORES(ssp_read_initiator, receiver(), transfer, at_read_initiator, same_receiver);
    IGNORES(ssp_write_initiator, writer(), sender.transfer, at_write_initiator, same_writer);
    IGNORES(ssp_response, responder(), transfer, at_response, same_responder);
    IGNORES(ssp_write_target, waits(0, 0), receiver.transfer, at_write_target, same_target);
    IGNORES(ssp_write_target, again, receiver.transfer, at_write_target, same_target);
}

/* ---- whole writes: 46 bytes in bursts of 24, 8 in a frame, so three frames in the first burst and 22 bytes in the second ---- */

static ssp_write_target silent_target;
static ssp_write_initiator silent_initiator;

static int counted(uint16_t ms, uint16_t sum) {
    return says(REPORT(silent_target, ms), SSP_TAKEN) && silent_target.elapsed == sum;
}
static int not_counted(uint16_t ms) {
    ssp_write_target want = silent_target;
    return says(REPORT(silent_target, ms), SSP_UNCHANGED) && same_target(silent_target, want);
}

/* The target hands out an XFER_RDY and the initiator takes it; its ACK comes after that time. */
static void silent_xfer_rdy(uint16_t ms) {
    ssp_answer a = ask_target(&silent_target);
    TRY("an XFER_RDY", framed(a, 36) && not_counted(ms));
    TRY("an XFER_RDY is taken", ssp_write_initiator_frame_received(&silent_initiator, out, a.len).what == SSP_NEXT_BURST && not_counted(ms));
    TRY("its ACK", says(ssp_write_target_ack_received(&silent_target), SSP_ACKNOWLEDGED) && silent_target.elapsed == 0);
}

/* Both ports of a write with a timeout of 100 ms at the target; the initiator holds another one. */
static void silent_start(void) {
    ssp_transfer t = transfer(true, THERE, HERE), u = transfer(true, HERE, THERE);
    t.burst = u.burst = 24;
    t.irt = 100;
    u.irt = 1;
    memset(room, 0xEE, sizeof room);
    TRY("the set-ups of a write", says(ssp_write_target_set_up(&silent_target, t), SSP_READY) &&
                                      says(ssp_write_initiator_set_up(&silent_initiator, u), SSP_READY));
    TRY("time before the first XFER_RDY", not_counted(0) && not_counted(100) && not_counted(0xFFFF));
    silent_xfer_rdy(0xFFFF);
}

/* The initiator hands out DATA; it arrives, and the initiator gets its ACK. */
static int silent_data(int what) {
    ssp_answer a = ask_write(&silent_initiator);
    ssp_write_initiator_ack_received(&silent_initiator);
    return a.what == SSP_FRAME && says(ssp_write_target_frame_received(&silent_target, out, a.len, room, COUNT), what);
}

static void silent_after_the_second(void) {
    ssp_response p = SSP_ZERO;
    ssp_write_target want;
    silent_start();
    TRY("the first DATA frame after 99 ms", counted(99, 99) && silent_data(SSP_STORED) && silent_target.elapsed == 0);
    TRY("the second after 60 ms", counted(0, 0) && counted(60, 60) && silent_data(SSP_STORED) && silent_target.elapsed == 0);
    TRY("silence of 99 ms", counted(40, 40) && counted(40, 80) && counted(0, 80) && counted(19, 99));
    want = silent_target;
    want.receiver.ended = true;
    TRY("silence of 100 ms", failed(REPORT(silent_target, 1), 33, 0) && same_target(silent_target, want));
    TRY("the third DATA frame after all", ask_write(&silent_initiator).what == SSP_FRAME &&
                                              refused(ssp_write_target_frame_received(&silent_target, out, 32, room, COUNT), 2));
    TRY("two frames are stored", stored(0, 16) && refused(REPORT(silent_target, 0xFFFF), 2) && same_target(silent_target, want));
    iu[10] = 0; /* no data */
    TRY("a RESPONSE", says(ssp_response_set_up(&p, silent_target.receiver.transfer, 24), SSP_READY) &&
                          framed(ssp_response_next_frame(&p, iu, 24, out, sizeof out), 48));
    TRY("it is taken", ssp_write_initiator_frame_received(&silent_initiator, out, 48).what == SSP_RESPONSE);
    TRY("its ACK", says(ssp_response_ack_received(&p), SSP_DELIVERED));
}

/* The first DATA frame is lost; the second comes again and again and is discarded. */
static void silent_but_for_discards(void) {
    uint8_t second[32];
    unsigned i;
    silent_start();
    TRY("the first DATA frame is lost", framed(ask_write(&silent_initiator), 32) && counted(40, 40));
    TRY("the second is discarded", silent_data(SSP_DISCARDED) && silent_target.elapsed == 40 && silent_target.receiver.waiting);
    memcpy(second, out, sizeof second);
    for (i = 41; i < 100; i++) {
        TRY("a millisecond later again", counted(1, (uint16_t)i) &&
                                             says(ssp_write_target_frame_received(&silent_target, second, 32, room, COUNT), SSP_DISCARDED) &&
                                             silent_target.elapsed == i);
    }
    TRY("at 100 ms", failed(REPORT(silent_target, 1), 33, 0) && silent_target.elapsed == 99 && stored(0, 0));
}

/* The ACK of the first DATA frame is lost. The initiator sends it again with CDP one, so it is stored again; 99 ms go by before each frame. */
static void silent_until_the_repeat(void) {
    unsigned burst;
    silent_start();
    TRY("the first DATA frame", counted(99, 99) && framed(ask_write(&silent_initiator), 32) &&
                                    says(ssp_write_target_frame_received(&silent_target, out, 32, room, COUNT), SSP_STORED));
    TRY("its ACK is lost", counted(99, 99) && says(ssp_write_initiator_ack_nak_timeout(&silent_initiator), SSP_RETRY));
    TRY("it is stored again", silent_data(SSP_STORED) && out[10] == 1 && silent_target.elapsed == 0 && silent_target.receiver.filled == 8);
    for (burst = 0; burst < 2; burst++) {
        if (burst == 1) {
            silent_xfer_rdy(0xFFFF);
            TRY("the first DATA frame of the second burst", counted(99, 99) && silent_data(SSP_STORED));
        }
        TRY("the second DATA frame", counted(98, 98) && counted(1, 99) && silent_data(SSP_STORED) && silent_target.elapsed == 0);
        TRY("the third fills the burst", counted(99, 99) && silent_data(SSP_RECEIVED) && silent_target.elapsed == 0);
        TRY("time behind it", not_counted(0) && not_counted(99) && not_counted(0xFFFF));
    }
    TRY("all is received", says(ask_target(&silent_target), SSP_WAIT) && stored(0, COUNT) && not_counted(0xFFFF));
}
