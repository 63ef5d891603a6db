/* Part of layout.c: whole commands, each edition at each end. */
/* The RESPONSE of a command: NAKed once, so resent. */
static int answered(ssp_response *p, uint16_t value) {
    return framed(ask_response(p), 52) && be(18, 2) == value && says(ssp_response_nak_received(p), SSP_RETRY) &&
           framed(ask_response(p), 52) && be(18, 2) == value && out[10] == 2 && says(ssp_response_ack_received(p), SSP_DELIVERED);
}

static void command_read(ssp_transfer at_target, ssp_transfer at_initiator) {
    ssp_read_target s = SSP_ZERO;
    ssp_read_initiator r = SSP_ZERO;
    ssp_response p = SSP_ZERO;
    ssp_answer a = SSP_ZERO;
    unsigned rounds = 0, frames = 0, carried = 0, resent = 0;
    memset(room, 0xEE, sizeof room);
    TRY("a read's set-ups", says(ssp_read_target_set_up(&s, at_target), SSP_READY) &&
                                says(ssp_read_initiator_set_up(&r, at_initiator), SSP_READY) &&
                                says(ssp_response_set_up(&p, at_target, 28), SSP_READY));
    while (rounds++ < 40 && a.what != SSP_DELIVERED) {
        unsigned lost = 0;
        while ((a = ask(&s)).what == SSP_FRAME) {
            frames++;
            carried += be(18, 2) == at_target.value;
            resent += out[10] == 1;
            lost += frames == 2 || frames == 7; /* these frames are lost */
            if (frames != 2 && frames != 7) {
                ssp_read_initiator_frame_received(&r, out, a.len, room, COUNT);
            }
        }
        while (s.unanswered > lost) {
            a = ssp_read_target_ack_received(&s);
        }
        if (lost > 0) {
            a = ssp_read_target_ack_nak_timeout(&s);
        }
    }
    TRY("a read is delivered", is(a, SSP_DELIVERED, 0, frames, 0, 0) && r.filled == COUNT && stored(0, COUNT));
    TRY("each of its frames carries the target's value", frames > 6 && carried == frames && resent == 2);
    iu[10] = 1; /* response data, four bytes */
    memset(iu + 20, 0, 4);
    iu[23] = 4;
    TRY("its RESPONSE carries it", answered(&p, at_target.value));
    TRY("its RESPONSE is taken", ssp_read_initiator_frame_received(&r, out, 52, room, COUNT).what == SSP_RESPONSE && r.ended);
}

static void command_write(ssp_transfer at_target, ssp_transfer at_initiator) {
    ssp_write_target x = SSP_ZERO;
    ssp_write_initiator w = SSP_ZERO;
    ssp_response p = SSP_ZERO;
    ssp_answer a = SSP_ZERO;
    static const uint16_t tags[6] = {0, 1, 2, 0, 1, 0}; /* the lowest not in use, whatever the value */
    unsigned bursts = 0, asked = 0, tagged = 0, frames = 0, carried = 0, delivered = 0;
    at_target.write = at_initiator.write = true;
    memset(room, 0xEE, sizeof room);
    TRY("a write's set-ups", says(ssp_write_target_set_up(&x, at_target), SSP_READY) &&
                                 says(ssp_write_initiator_set_up(&w, at_initiator), SSP_READY) &&
                                 says(ssp_response_set_up(&p, at_target, 28), SSP_READY));
    while (asked < 6 && x.receiver.filled < COUNT) {
        a = ask_target(&x);
        tagged += be(18, 2) == tags[asked] && x.tptt == tags[asked];
        asked++;
        if (asked == 2) { /* this XFER_RDY is lost */
            ssp_write_target_ack_nak_timeout(&x);
            continue;
        }
        ssp_write_initiator_frame_received(&w, out, a.len);
        ssp_write_target_ack_received(&x);
        bursts++;
        while ((a = ask_write(&w)).what == SSP_FRAME) {
            frames++;
            carried += be(18, 2) == x.tptt;
            ssp_write_target_frame_received(&x, out, a.len, room, COUNT);
            delivered += ssp_write_initiator_ack_received(&w).what == SSP_DELIVERED;
        }
    }
    /* 46 bytes in bursts of 10, 8 in a frame */
    TRY("a write is received", bursts == 5 && asked == 6 && frames == 9 && delivered == 5 && x.receiver.filled == COUNT && stored(0, COUNT));
    TRY("its DATA carry the burst's tag, its XFER_RDYs their own", carried == frames && tagged == asked);
    TRY("its RESPONSE carries the target's value", answered(&p, at_target.value));
    TRY("its RESPONSE is taken", ssp_write_initiator_frame_received(&w, out, 52).what == SSP_RESPONSE && w.sender.ended);
}
