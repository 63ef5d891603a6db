/* Part of layout.c, after layout_start.h: the host of a read that starts further in, whole reads, several reads of one command. */

/* ---- ssp_read_initiator: base 5, expected 21, filled 29, end 51 ---- */

#define HOST(field, value, ok)                                                     \
    do {                                                                           \
        ssp_read_initiator r = receiver_at();                                      \
        r.field = (value);                                                         \
        TRY("ssp_read_initiator at a start, " #field " = " #value ": " #ok, (ok)); \
    } while (0)
#define AT(offset, cdp, n) arrive_at(&r, offset, cdp, n, PAST)
#define KEPT (same_receiver(r, receiver_at()) && host_holds(0, 0))

static int left(ssp_read_initiator r, uint32_t expected, uint32_t filled, bool waiting, bool ended) {
    ssp_read_initiator want = receiver_at();
    want.expected = expected;
    want.filled = filled;
    want.waiting = waiting;
    want.ended = ended;
    return same_receiver(r, want);
}

static void start_host(void) {
    static const uint32_t outside[] = {0, 4, 51, 52, 60, 0x105, 0x10005, 0x1000005, 0x1000000, 0xFFFFFFFF};
    unsigned i, cdp;
    size_t len;
    for (len = 0; len <= MOST; len++) { /* every length: a shorter one is 1 */
        ssp_read_initiator r = receiver_at();
        ssp_answer a = arrive_at(&r, 21, false, 8, len);
        TRY("the host's buffer",
            len < 51 ? refused(a, 1) && KEPT : says(a, SSP_STORED) && left(r, 29, 29, false, false) && host_holds(21, 29));
    }
    HOST(end, 50, refused(arrive_at(&r, 21, false, 8, 50), 1)); /* start plus count decides, not the end */
    HOST(transfer.count, 47, refused(AT(21, false, 8), 1) && host_holds(0, 0));
    HOST(transfer.count, 47, says(arrive_at(&r, 21, false, 8, 52), SSP_STORED) && host_holds(21, 29));
    HOST(transfer.count, 45, refused(AT(21, false, 8), 1)); /* the end is above 5 + 45 */
    HOST(ended, true, refused(arrive_at(&r, 21, false, 8, 50), 1) && refused(AT(21, false, 8), 2) && host_holds(0, 0));
    /* stored at start plus i */
    HOST(waiting, true, says(AT(5, true, 8), SSP_STORED) && left(r, 13, 29, false, false) && host_holds(5, 13));
    HOST(waiting, false, says(AT(6, true, 1), SSP_STORED) && left(r, 7, 29, false, false) && host_holds(6, 7));
    HOST(waiting, false, says(AT(29, true, 8), SSP_STORED) && left(r, 37, 37, false, false) && host_holds(29, 37));
    HOST(filled, 43, says(AT(43, true, 8), SSP_RECEIVED) && left(r, 51, 51, false, false) && host_holds(43, 51));
    HOST(filled, 50, says(AT(50, true, 1), SSP_RECEIVED) && left(r, 51, 51, false, false) && host_holds(50, 51));
    HOST(waiting, false, says(AT(5, true, 13), SSP_STORED) && host_holds(5, 18));
    HOST(base, 6, failed(AT(5, true, 8), 20, 0) && host_holds(0, 0));
    /* discarded */
    HOST(waiting, false, says(AT(13, false, 8), SSP_DISCARDED) && left(r, 21, 29, true, false) && host_holds(0, 0));
    HOST(waiting, false, says(AT(43, false, 8), SSP_DISCARDED) && left(r, 21, 29, true, false) && host_holds(0, 0));
    HOST(waiting, true, says(AT(21, false, 8), SSP_DISCARDED) && left(r, 21, 29, true, false) && host_holds(0, 0));
    /* 20: outside the read; with CDP one above the filled mark; with retries off another than the expected offset */
    for (i = 0; i < sizeof outside / sizeof outside[0]; i++) {
        for (cdp = 0; cdp < 2; cdp++) {
            HOST(waiting, false, failed(AT(outside[i], cdp, 8), 20, 0) && left(r, 21, 29, false, true) && host_holds(0, 0));
            HOST(waiting, true, failed(AT(outside[i], cdp, 0), 20, 0) && left(r, 21, 29, true, true)); /* before 22 */
            HOST(transfer.limit, 0, failed(AT(outside[i], cdp, 8), 20, 0) && host_holds(0, 0));
            HOST(filled, 51, says(AT(outside[i], cdp, 8), SSP_DISCARDED) && left(r, 21, 51, false, false) && host_holds(0, 0));
        }
    }
    HOST(waiting, false, failed(AT(4, true, 60), 20, 0)); /* before 21 */
    HOST(waiting, false, failed(AT(30, true, 8), 20, 0) && host_holds(0, 0));
    HOST(transfer.limit, 0, failed(AT(29, false, 8), 20, 0) && host_holds(0, 0));
    HOST(transfer.limit, 0, says(AT(21, false, 8), SSP_STORED) && host_holds(21, 29));
    /* 21: past the end; 22: no data */
    HOST(waiting, false, failed(AT(44, false, 8), 21, 0) && left(r, 21, 29, false, true) && host_holds(0, 0));
    HOST(waiting, false, failed(AT(50, false, 2), 21, 0) && host_holds(0, 0));
    HOST(waiting, false, failed(arrive_at(&r, 44, false, 8, MOST), 21, 0) && host_holds(0, 0)); /* the buffer is longer */
    HOST(waiting, false, failed(AT(5, true, 47), 21, 0) && host_holds(0, 0));
    HOST(waiting, false, failed(AT(21, false, 0), 22, 0) && left(r, 21, 29, false, true) && host_holds(0, 0));
    {
        ssp_read_initiator r = receiver_at();
        iu[10] = 0; /* no data */
        arrives(header(SSP_TYPE_RESPONSE, HERE, THERE), now.tptt, iu, 24);
        paint();
        TRY("a RESPONSE, the buffer shorter by one", refused(ssp_read_initiator_frame_received(&r, out, 48, room, 50), 1) && KEPT);
        TRY("a RESPONSE", opened(ssp_read_initiator_frame_received(&r, out, 48, room, 51), SSP_RESPONSE, 0, 24, 24, 0, iu[11], 0) &&
                              left(r, 21, 29, false, true) && host_holds(0, 0));
    }
}

/* ---- three events in any order do the same at a start as at 0, only that far on ---- */

static ssp_answer at_host(ssp_read_initiator *r, uint32_t start, unsigned event) {
    static const uint32_t offsets[5] = {16, 24, 8, 24, 46};
    static const unsigned lengths[5] = {8, 8, 8, 22, 8};
    ssp_header h = header(SSP_TYPE_DATA, HERE, THERE);
    ssp_answer f;
    if (event > 4) {
        return event == 5 ? ssp_read_initiator_nexus_lost(r) : ssp_read_initiator_frame_received(r, data, 23, room, start + COUNT);
    }
    h.cdp = event == 2 || event == 3;
    h.offset = start + offsets[event];
    f = ssp_frame_write(h, data + offsets[event], lengths[event], out, sizeof out);
    return ssp_read_initiator_frame_received(r, out, f.len, room, start + COUNT);
}

static unsigned moved_sender(uint32_t start) {
    unsigned list, i, e, differ = 0;
    for (list = 0; list < 7 * 7 * 7; list++) {
        ssp_read_target near = sender(), far = near;
        far.transfer.start = start;
        far.burst = burst(start, start + 46, 0, 2);
        far.next = start + 16;
        far.balance = start + 8;
        for (i = 0, e = list; i < 3; i++, e /= 7) {
            uint8_t wrote[SSP_FRAME_MOST];
            ssp_answer a, b;
            blank();
            a = at_read_target(&near, e % 7);
            memcpy(wrote, out, sizeof out);
            blank();
            b = at_read_target(&far, e % 7);
            differ += !same_answer(a, b) || memcmp(wrote, out, 20) != 0 || memcmp(wrote + 24, out + 24, sizeof out - 24) != 0 ||
                      be(20, 4) != (a.what == SSP_FRAME ? start + wrote[23] : 0xEEEEEEEE);
        }
        far.transfer.start = 0;
        far.burst.base -= start;
        far.burst.end -= start;
        far.next -= start;
        far.balance -= start;
        differ += !same_sender(near, far);
    }
    return differ;
}

static unsigned moved_host(uint32_t start) {
    unsigned list, i, e, at, differ = 0;
    for (list = 0; list < 7 * 7 * 7; list++) {
        ssp_read_initiator near = receiver(), far = near;
        far.transfer.start = start;
        far.base = start;
        far.end = start + 46;
        far.expected = start + 16;
        far.filled = start + 24;
        for (i = 0, e = list; i < 3; i++, e /= 7) {
            uint8_t got[MOST];
            ssp_answer a, b;
            paint();
            a = at_host(&near, 0, e % 7);
            memcpy(got, room, sizeof room);
            paint();
            b = at_host(&far, start, e % 7);
            for (at = 0; at < COUNT; at++) { /* a byte below 80h was stored */
                wanted[start + at] = got[at] < 0x80 ? got[at] : wanted[start + at];
            }
            differ += !same_answer(a, b) || !host_is();
        }
        far.transfer.start = 0;
        far.base -= start;
        far.end -= start;
        far.expected -= start;
        far.filled -= start;
        differ += !same_receiver(near, far);
    }
    return differ;
}

static void start_moves(void) {
    static const uint32_t starts[] = {1, 5, 18, 0x100, 0xFFFFD2};
    unsigned i;
    for (i = 0; i < sizeof starts / sizeof starts[0]; i++) {
        TRY("ssp_read_target at a start as at 0", moved_sender(starts[i]) == 0);
        if (starts[i] + COUNT <= MOST) {
            TRY("ssp_read_initiator at a start as at 0", moved_host(starts[i]) == 0);
        }
    }
}

/* ---- whole reads with one fault: 46 bytes from 5, window 3, so frames at 5, 13, 21, then at 29, 37, 45; a fault repeats its three ---- */

static void start_fault(unsigned faulty, unsigned fault) {
    static const uint32_t offsets[6] = {5, 13, 21, 29, 37, 45};
    ssp_read_target s = SSP_ZERO;
    ssp_read_initiator r = SSP_ZERO;
    ssp_transfer t = transfer(false, THERE, HERE), u = transfer(false, HERE, THERE);
    ssp_answer a = SSP_ZERO;
    unsigned frames = 0, right = 0, i, group;
    t.start = u.start = START;
    TRY("the set-ups of a read", says(ssp_read_target_set_up(&s, t), SSP_READY) && says(ssp_read_initiator_set_up(&r, u), SSP_READY));
    paint();
    for (group = 0; group < 9 && a.what != SSP_DELIVERED; group++) { /* three frames, then what comes back for them */
        unsigned first = frames < 3 || (faulty < 3 && frames < 6) ? 0 : 3;
        bool again = frames == 3 + faulty / 3 * 3;
        bool bad = !again && faulty / 3 == first / 3;
        for (i = 0; i < 3; i++, frames++) {
            bool discards;
            blank();
            a = ask(&s);
            right += data_frame(a, offsets[first + i], again && i == 0, (first + i) * 8, first + i < 5 ? 8 : 6, first + i < 5 ? 0 : 2);
            if (bad && first + i == faulty && fault < 3) {
                continue; /* lost (0 and 1) or damaged (2) */
            }
            a = ssp_read_initiator_frame_received(&r, out, a.len, room, PAST);
            discards = fault < 3 ? bad && first + i > faulty : again && faulty > 2; /* behind a gap; all is filled already */
            right += says(a, discards ? SSP_DISCARDED : first + i == 5 ? SSP_RECEIVED : SSP_STORED);
            right += host_holds(START, r.filled);
        }
        right += says(ask(&s), SSP_WAIT);
        for (i = 0; i < 3; i++) {
            if (bad && first + i == faulty) {
                if (fault == 2) {
                    a = ssp_read_target_nak_received(&s);
                }
                continue;
            }
            a = ssp_read_target_ack_received(&s);
        }
        if (bad && fault != 2) { /* by a timeout or a cut; fault 3 and 4: the ACK was lost */
            a = fault % 2 == 0 ? ssp_read_target_ack_nak_timeout(&s) : ssp_read_target_connection_lost(&s);
        }
        right += bad ? says(a, SSP_RETRY) && s.next == offsets[first] && s.balance == offsets[first] : s.balance == (first == 0 ? 29 : 51);
    }
    TRY("nine frames in three groups, each as worked out", group == 3 && frames == 9 && right == (fault < 3 ? 31u : 33u));
    TRY("the read is delivered", is(a, SSP_DELIVERED, 0, 9, 0, 0) && r.filled == 51 && host_holds(5, 51));
}

static void start_faults(void) {
    unsigned faulty, fault;
    for (faulty = 0; faulty < 6; faulty++) {
        for (fault = 0; fault < 5; fault++) {
            start_fault(faulty, fault);
        }
    }
}

/* ---- one command, three reads into one host buffer: 3 to 13, 20 to 36, 40 to 47, in frames of 4 ---- */

typedef struct part {
    uint32_t start, count;
    unsigned from, frames; /* its bytes are those of `data` from there */
} part;
static const part parts[3] = {{3, 10, 0, 3}, {20, 16, 10, 4}, {40, 7, 26, 2}};
static ssp_read_target part_targets[3];
static ssp_read_initiator part_hosts[3];
static size_t part_lent[3]; /* what the host's buffer is for each */

/* The read whose range has that offset. */
static unsigned part_at(uint32_t offset) {
    unsigned p = 0;
    while (p < 3 && (offset < parts[p].start || offset >= parts[p].start + parts[p].count)) {
        p++;
    }
    return p;
}

/* A frame of that read goes out. Where it arrives, its own record stores it. Another one's fails with 20, or discards it once filled, and no
 * byte of the buffer changes by that. */
static int part_frame(unsigned p, bool lost) {
    uint32_t offset, end = parts[p].start + parts[p].count, n;
    ssp_read_initiator before[3];
    ssp_answer a;
    unsigned q;
    int ok = 1;
    memcpy(before, part_hosts, sizeof before);
    blank();
    a = ssp_read_target_next_frame(&part_targets[p], data + parts[p].from, parts[p].count, out, sizeof out);
    offset = be(20, 4);
    if (a.what != SSP_FRAME || part_at(offset) != p) {
        return 0;
    }
    if (lost) {
        return host_is();
    }
    for (q = 0; q < 3; q++) {
        ssp_read_initiator other = part_hosts[q];
        if (q != p) {
            bool filled = other.filled == parts[q].start + parts[q].count;
            ssp_answer b = ssp_read_initiator_frame_received(&other, out, a.len, room, part_lent[q]);
            ok = ok && (filled ? says(b, SSP_DISCARDED) && same_receiver(other, before[q]) : failed(b, 20, 0)) && host_is();
        }
    }
    n = end - offset < 4 ? end - offset : 4;
    memcpy(wanted + offset, data + parts[p].from + offset - parts[p].start, n);
    a = ssp_read_initiator_frame_received(&part_hosts[p], out, a.len, room, part_lent[p]);
    ok = ok && says(a, offset + n == end ? SSP_RECEIVED : SSP_STORED) && host_is() && part_hosts[p].filled == offset + n;
    for (q = 0; q < 3; q++) {
        ok = ok && (q == p || same_receiver(part_hosts[q], before[q]));
    }
    return ok;
}

/* It arrives, and so does its ACK: returns the target's answer. */
static ssp_answer part_taken(unsigned p) {
    TRY("a frame of one of three reads", part_frame(p, false));
    return ssp_read_target_ack_received(&part_targets[p]);
}

/* how: one read after the other; a frame of each in turn; one after the other, the second frame of each is lost */
static void parts_in(const unsigned *order, unsigned how) {
    unsigned i, k, frames[3] = {0, 0, 0}, delivered = 0;
    ssp_response response = SSP_ZERO;
    ssp_read_initiator before[3];
    paint();
    for (i = 0; i < 3; i++) {
        ssp_transfer t = transfer(false, THERE, HERE), u = transfer(false, HERE, THERE);
        t.start = u.start = parts[i].start;
        t.count = u.count = parts[i].count;
        t.burst = u.burst = 1;
        t.size = u.size = 4;
        part_lent[i] = how == 0 ? parts[i].start + parts[i].count : how == 1 ? 47 : MOST;
        TRY("the set-ups of one of three reads", says(ssp_read_target_set_up(&part_targets[i], t), SSP_READY) &&
                                                     says(ssp_read_initiator_set_up(&part_hosts[i], u), SSP_READY));
    }
    for (i = 0; i < 3 * 4; i++) {
        unsigned p = how == 1 ? order[i % 3] : order[i / 4];
        if (how == 2 && frames[p] == 0) {
            TRY("the second frame is lost", part_frame(p, false) && part_frame(p, true) &&
                                                says(ssp_read_target_ack_received(&part_targets[p]), SSP_TAKEN) &&
                                                says(ssp_read_target_ack_nak_timeout(&part_targets[p]), SSP_RETRY) &&
                                                part_targets[p].next == parts[p].start);
            frames[p] = 2;
        }
        if (!part_targets[p].ended) {
            ssp_answer a = part_taken(p);
            frames[p]++;
            TRY("CDP one in the first frame of a retry only", out[10] == (how == 2 && frames[p] == 3));
            k = parts[p].frames + (how == 2 ? 2 : 0);
            TRY("the ACK of a frame", frames[p] == k ? is(a, SSP_DELIVERED, 0, k, 0, 0) : says(a, SSP_TAKEN));
            delivered += a.what == SSP_DELIVERED;
        }
    }
    TRY("three reads are delivered", delivered == 3);
    for (i = 0; i < MOST; i++) {
        unsigned want = i >= 3 && i < 13 ? i - 2 : i >= 20 && i < 36 ? i - 9 : i >= 40 && i < 47 ? i - 13 : 0x80 + i;
        TRY("each byte of the host's buffer", room[i] == want);
    }
    /* the RESPONSE goes to one of the records; the others still discard DATA */
    memcpy(before, part_hosts, sizeof before);
    iu[10] = 0; /* no data */
    k = order[0];
    TRY("a RESPONSE", says(ssp_response_set_up(&response, part_targets[k].transfer, 24), SSP_READY) &&
                          framed(ssp_response_next_frame(&response, iu, 24, out, sizeof out), 48));
    TRY("it is taken", opened(ssp_read_initiator_frame_received(&part_hosts[k], out, 48, room, part_lent[k]), SSP_RESPONSE, 0, 24, 24, 0, iu[11], 0));
    TRY("its ACK", says(ssp_response_ack_received(&response), SSP_DELIVERED) && part_hosts[k].ended);
    for (i = 0; i < 3; i++) {
        if (i != k) {
            ssp_header h = header(SSP_TYPE_DATA, HERE, THERE);
            h.offset = parts[i].start;
            ssp_frame_write(h, data + 50, 4, out, sizeof out);
            TRY("DATA at another record", says(ssp_read_initiator_frame_received(&part_hosts[i], out, 28, room, part_lent[i]), SSP_DISCARDED) &&
                                              same_receiver(part_hosts[i], before[i]) && host_is());
        }
    }
}

static void parts_of_a_command(void) {
    static const unsigned orders[6][3] = {{0, 1, 2}, {0, 2, 1}, {1, 0, 2}, {1, 2, 0}, {2, 0, 1}, {2, 1, 0}};
    unsigned i, how;
    for (i = 0; i < 6; i++) {
        for (how = 0; how < 3; how++) {
            parts_in(orders[i], how);
        }
    }
}
