/* The RESPONSE's record, frame header and XFER_RDY, the writer in two steps: part of layout.c. */
static void responder_fields(void) {
    {
        ssp_response x, want = responder();
        memset(&x, 0, sizeof x);
        TRY("a RESPONSE's set-up", says(ssp_response_set_up(&x, want.transfer, 28), SSP_READY) && same_responder(x, want));
        TRY("a RESPONSE of 23 bytes", refused(ssp_response_set_up(&x, want.transfer, 23), 1));
        TRY("a RESPONSE of 1,025 bytes", refused(ssp_response_set_up(&x, want.transfer, 1025), 1));
        TRY("a RESPONSE of more than 32 bits", refused(ssp_response_set_up(&x, want.transfer, (size_t)0x10000001C), 1));
        TRY("a RESPONSE refused: the record left", same_responder(x, want));
        TRY("a RESPONSE", framed(ask_response(&x), 52) && out[0] == SSP_TYPE_RESPONSE && out[10] == 0);
        TRY("a RESPONSE: its IU", memcmp(out + 24, iu, 28) == 0 && be(18, 2) == now.value && be(20, 4) == 0);
        want.unanswered = true;
        TRY("a RESPONSE: the record left", same_responder(x, want));
    }
    RESPONDER(transfer.count, 0, refused(ask_response(&x), 1));
    RESPONDER(transfer.size, 6, refused(ask_response(&x), 1));
    RESPONDER(transfer.window, 65, refused(ask_response(&x), 1));
    RESPONDER(transfer.limit, 16, refused(ask_response(&x), 1));
    RESPONDER(transfer.burst, 47, refused(ask_response(&x), 1));
    RESPONDER(transfer.write, true, framed(ask_response(&x), 52) && be(18, 2) == now.value); /* of a read or a write */
    RESPONDER(transfer.local, 0x010203, framed(ask_response(&x), 52) && be(5, 3) == 0x010203);
    RESPONDER(transfer.remote, 0x040506, framed(ask_response(&x), 52) && be(1, 3) == 0x040506);
    RESPONDER(transfer.tag, 0xBEEF, framed(ask_response(&x), 52) && be(16, 2) == 0xBEEF);
    RESPONDER(len, 24, refused(ask_response(&x), 1));
    RESPONDER(len, 24, framed(ssp_response_next_frame(&x, iu, 24, out, sizeof out), 48));
    RESPONDER(len, 23, refused(ssp_response_next_frame(&x, iu, 23, out, sizeof out), 1));
    RESPONDER(unanswered, true, says(ask_response(&x), SSP_WAIT));
    RESPONDER(unanswered, true, says(ssp_response_ack_received(&x), SSP_DELIVERED) && x.ended && !x.unanswered);
    RESPONDER(unanswered, false, refused(ssp_response_ack_received(&x), 4) && refused(ssp_response_nak_received(&x), 4));
    RESPONDER(unanswered, false, refused(ssp_response_ack_nak_timeout(&x), 4) && says(ssp_response_connection_lost(&x), SSP_UNCHANGED));
    RESPONDER(retries, 1, framed(ask_response(&x), 52) && out[10] == 2 && be(18, 2) == now.value); /* RETRANSMIT */
    RESPONDER(retries, 3, refused(ask_response(&x), 1));
    SENT(retries, 1, says(ssp_response_nak_received(&x), SSP_RETRY) && x.retries == 2 && !x.unanswered);
    SENT(retries, 0, says(ssp_response_ack_nak_timeout(&x), SSP_RETRY) && x.retries == 1);
    SENT(retries, 0, says(ssp_response_connection_lost(&x), SSP_RETRY) && x.retries == 1);
    SENT(retries, 2, failed(ssp_response_nak_received(&x), 28, 0) && x.ended);
    SENT(retries, 2, failed(ssp_response_ack_nak_timeout(&x), 29, 0));
    SENT(retries, 2, failed(ssp_response_connection_lost(&x), 30, 0));
    SENT(transfer.limit, 0, says(ssp_response_nak_received(&x), SSP_RETRY)); /* once even with retries off */
    SENT(transfer.limit, 1, says(ssp_response_nak_received(&x), SSP_RETRY) && framed(ask_response(&x), 52) && failed(ssp_response_nak_received(&x), 28, 0));
    SENT(ended, true, refused(ask_response(&x), 2) && refused(ssp_response_ack_received(&x), 2) && refused(ssp_response_nak_received(&x), 2));
    SENT(ended, true, refused(ssp_response_ack_nak_timeout(&x), 2) && refused(ssp_response_connection_lost(&x), 2));
    SENT(ended, true, refused(ssp_response_nexus_lost(&x), 2));
    SENT(ended, false, failed(ssp_response_nexus_lost(&x), 31, 0) && x.ended && !x.unanswered);
}

/* ---- ssp_header, ssp_xfer_rdy ---- */

/* Writes a header that is zero but for one field, says where its bytes stand, and reads it back. */
#define HEADER(field, value, bytes)                                                   \
    do {                                                                              \
        ssp_header h = header(SSP_TYPE_DATA, 0, 0), back;                             \
        ssp_answer w, r;                                                              \
        h.tag = 0;                                                                    \
        h.field = (value);                                                            \
        memset(&back, 0, sizeof back);                                                \
        w = ssp_frame_write(h, iu, 0, out, sizeof out);                               \
        TRY("ssp_header." #field " = " #value ": " #bytes, framed(w, 24) && (bytes)); \
        r = ssp_frame_read(&back, out, 24);                                           \
        TRY("ssp_header." #field " = " #value " read back",                           \
            is(r, SSP_PARSED, 0, 0, 24, 0) && same_header(h, back));                  \
    } while (0)

static void header_fields(void) {
    static const uint8_t rung[24] = {0x01, 0x12, 0x34, 0x56, 0, 0xAB, 0xCD, 0xEF, 0, 0, 0, 0, 0, 0, 0, 0, 0, 0x12, 0, 0, 0, 0, 0, 4};
    ssp_header h = header(SSP_TYPE_DATA, 0x123456, 0xABCDEF), back = h, other;
    ssp_xfer_rdy x, y;

    h.offset = 4;
    TRY("the paper's header, R1", framed(ssp_frame_write(h, data, 4, out, sizeof out), 28) && memcmp(out, rung, 24) == 0);
    TRY("two data bytes, R2", framed(ssp_frame_write(h, data, 2, out, sizeof out), 28) && out[11] == 2);
    TRY("two data bytes read", is(ssp_frame_read(&back, out, 28), SSP_PARSED, 0, 0, 24, 2) && same_header(h, back));

    HEADER(type, SSP_TYPE_XFER_RDY, out[0] == 5);
    HEADER(type, SSP_TYPE_COMMAND, out[0] == 6);
    HEADER(type, SSP_TYPE_RESPONSE, out[0] == 7);
    HEADER(type, SSP_TYPE_TASK, out[0] == 0x16);
    HEADER(dest, 0x010203, be(1, 3) == 0x010203 && be(4, 4) == 0 && be(16, 4) == 0 && be(20, 4) == 0);
    HEADER(source, 0x040506, be(5, 3) == 0x040506 && be(1, 4) == 0 && be(16, 4) == 0 && be(20, 4) == 0);
    HEADER(retry, true, be(8, 4) == 0x0400);
    HEADER(retransmit, true, be(8, 4) == 0x0200);
    HEADER(cdp, true, be(8, 4) == 0x0100);
    HEADER(tlr, 1, be(8, 4) == 0x0800);
    HEADER(tlr, 2, be(8, 4) == 0x1000);
    HEADER(tlr, SSP_TLR_MOST, be(8, 4) == 0x1800);
    HEADER(tag, 0x0708, be(16, 4) == 0x07080000 && be(20, 4) == 0);
    HEADER(tptt, 0x090A, be(16, 4) == 0x090A && be(20, 4) == 0);
    HEADER(offset, 0x0B0C0D0E, be(20, 4) == 0x0B0C0D0E && be(16, 4) == 0);

    back = h;
    h.type = 2;
    TRY("ssp_header.type = 2", refused(ssp_frame_write(h, iu, 0, out, sizeof out), 1));
    h.type = SSP_TYPE_DATA;
    h.dest = 0x1000000;
    TRY("ssp_header.dest = 0x1000000", refused(ssp_frame_write(h, iu, 0, out, sizeof out), 1));
    h.dest = 0;
    h.source = 0x1000000;
    TRY("ssp_header.source = 0x1000000", refused(ssp_frame_write(h, iu, 0, out, sizeof out), 1));
    h.source = 0;
    h.tlr = 4;
    TRY("ssp_header.tlr = 4", refused(ssp_frame_write(h, iu, 0, out, sizeof out), 1));
    h.tlr = 255;
    TRY("ssp_header.tlr = 255", refused(ssp_frame_write(h, iu, 0, out, sizeof out), 1));
    h.tlr = 0;
    TRY("an IU of 1,024 bytes", framed(ssp_frame_write(h, iu, 1024, out, sizeof out), 1048));
    TRY("an IU of 1,025 bytes", refused(ssp_frame_write(h, iu, 1025, out, sizeof out), 1));
    TRY("an output buffer of 23 bytes", refused(ssp_frame_write(h, iu, 0, out, 23), 3));
    ssp_frame_write(h, iu, 0, out, sizeof out);
    out[10] = 0xF7;
    h.tlr = 2;
    h.retry = h.retransmit = h.cdp = true;
    memset(&other, 0, sizeof other);
    TRY("byte 10 = F7h read", is(ssp_frame_read(&other, out, 24), SSP_PARSED, 0, 0, 24, 0) && same_header(h, other));
    h = back;
    out[0] = 2;
    TRY("a frame of type 2", refused(ssp_frame_read(&back, out, 24), 6) && same_header(h, back));
    TRY("a frame of 23 bytes", refused(ssp_frame_read(&back, out, 23), 5) && same_header(h, back));

    memset(&y, 0, sizeof y);
    memset(out, 0xEE, sizeof out);
    x.offset = 0x01020304;
    x.len = 0x05060708;
    TRY("ssp_xfer_rdy written", framed(ssp_xfer_rdy_write(x, out, sizeof out), 12) && out[12] == 0xEE);
    TRY("ssp_xfer_rdy.offset", be(0, 4) == 0x01020304);
    TRY("ssp_xfer_rdy.len", be(4, 4) == 0x05060708 && be(8, 4) == 0);
    TRY("ssp_xfer_rdy read", ssp_xfer_rdy_read(&y, out, 12).what == SSP_PARSED);
    TRY("ssp_xfer_rdy.offset read", y.offset == 0x01020304);
    TRY("ssp_xfer_rdy.len read", y.len == 0x05060708);
    x = y;
    out[0] = 0xFF;
    TRY("an XFER_RDY's IU of 11 bytes, R10", failed(ssp_xfer_rdy_read(&y, out, 11), 23, 0) && y.offset == x.offset && y.len == x.len);
    TRY("an XFER_RDY's IU of 13 bytes, R10", failed(ssp_xfer_rdy_read(&y, out, 13), 24, 0) && y.offset == x.offset && y.len == x.len);
    TRY("an output buffer of 11 bytes", refused(ssp_xfer_rdy_write(x, out, 11), 3) && out[0] == 0xFF);
}

/* ---- the writer in two steps ---- */

/* Bytes `from` to `end` of `out` are those of `frame`, all others untouched since `blank`. */
static int put_down(const uint8_t *frame, unsigned from, unsigned end) {
    unsigned i;
    for (i = 0; i < sizeof out; i++) {
        if (out[i] != (i >= from && i < end ? frame[i] : 0xEE)) {
            return 0;
        }
    }
    return 1;
}
static void blank(void) { memset(out, 0xEE, sizeof out); }

/* Each of the three functions refuses with that number, and nothing changes. */
static int steps_refuse(ssp_header h, size_t len, size_t space, unsigned number) {
    blank();
    return refused(ssp_frame_write_data(h, iu, len, out, space), number) &&
           refused(ssp_frame_write_header(h, iu, len, out, space), number) && refused(ssp_frame_write(h, iu, len, out, space), number) &&
           put_down(out, 0, 0);
}

static void writer_steps(void) {
    /* every field but RETRANSMIT other than zero, six bytes of `data`, two of fill */
    static const uint8_t frame[32] = {0x16, 1, 2, 3, 0, 4, 5, 6, 0, 0, 0x15, 2, 0, 0, 0, 0, 7, 8, 9, 10, 11, 12, 13, 14, /* header */
                                      1, 2, 3, 4, 5, 6, 0, 0};
    ssp_header h = header(SSP_TYPE_TASK, 0x010203, 0x040506), other;
    h.retry = h.cdp = true;
    h.tlr = 2;
    h.tag = 0x0708;
    h.tptt = 0x090A;
    h.offset = 0x0B0C0D0E;

    blank();
    TRY("the data step", framed(ssp_frame_write_data(h, data, 6, out, sizeof out), 32) && put_down(frame, 24, 32));
    TRY("the data step again", framed(ssp_frame_write_data(h, data, 6, out, sizeof out), 32) && put_down(frame, 24, 32));
    TRY("data, then header", framed(ssp_frame_write_header(h, data, 6, out, sizeof out), 32) && put_down(frame, 0, 32));
    blank();
    TRY("the header step", framed(ssp_frame_write_header(h, data, 6, out, sizeof out), 32) && put_down(frame, 0, 24));
    TRY("the header step again", framed(ssp_frame_write_header(h, data, 6, out, sizeof out), 32) && put_down(frame, 0, 24));
    TRY("header, then data", framed(ssp_frame_write_data(h, data, 6, out, sizeof out), 32) && put_down(frame, 0, 32));
    blank();
    TRY("the writer", framed(ssp_frame_write(h, data, 6, out, sizeof out), 32) && put_down(frame, 0, 32));
    blank();
    TRY("the header step, another IU as long", framed(ssp_frame_write_header(h, iu, 6, out, sizeof out), 32) && put_down(frame, 0, 24));
    other = header(SSP_TYPE_DATA, 0, 0);
    other.retransmit = true;
    blank();
    TRY("the data step, another header", framed(ssp_frame_write_data(other, data, 6, out, sizeof out), 32) && put_down(frame, 24, 32));
    TRY("the header step, RETRANSMIT", framed(ssp_frame_write_header(other, data, 6, out, sizeof out), 32) && be(8, 4) == 0x0202);
    blank();
    TRY("the data step, no data", framed(ssp_frame_write_data(h, data, 0, out, 24), 24) && put_down(frame, 0, 0));
    TRY("the data step, 1,024 bytes", framed(ssp_frame_write_data(h, iu, 1024, out, 1048), 1048) && memcmp(out + 24, iu, 1024) == 0);
    TRY("the header step, 1,024 bytes", framed(ssp_frame_write_header(h, iu, 1024, out, 1048), 1048) && memcmp(out + 24, iu, 1024) == 0);

    /* refusals; in the first two the header would fit */
    TRY("four bytes in 24: 3 of each step", steps_refuse(h, 4, 24, 3));
    TRY("four bytes in 27: 3 of each step", steps_refuse(h, 4, 27, 3));
    TRY("no data in 23: 3 of each step", steps_refuse(h, 0, 23, 3));
    TRY("1,025 bytes: 1 of each step", steps_refuse(h, 1025, sizeof out, 1));
    TRY("1,025 bytes in none: 1 before 3", steps_refuse(h, 1025, 0, 1));
    other = h;
    other.type = 2;
    TRY("type 2: 1 of each step", steps_refuse(other, 4, sizeof out, 1) && steps_refuse(other, 4, 24, 1));
    other = h;
    other.dest = 0x1000000;
    TRY("a destination above 24 bits: 1 of each step", steps_refuse(other, 4, sizeof out, 1) && steps_refuse(other, 4, 24, 1));
    other = h;
    other.source = 0x1000000;
    TRY("a source above 24 bits: 1 of each step", steps_refuse(other, 4, sizeof out, 1) && steps_refuse(other, 4, 24, 1));
    other = h;
    other.tlr = 4;
    TRY("TLR CONTROL above 3: 1 of each step", steps_refuse(other, 4, sizeof out, 1) && steps_refuse(other, 4, 24, 1));
}
