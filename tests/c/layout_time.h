/* The Initiator Response Timeout (request K4): part of layout.c. Sums and answers are worked out by hand from the request. target() waits for DATA: its
 * XFER_RDY had its ACK, its burst runs from 8 to 40, 24 is filled, 16 is the expected offset. */

static const timing timings[] = {{0, 0}, {1, 0}, {0x0100, 0x00FF}, {0x1234, 0x1234}, {0xFFFF, 0xFFFE}};
enum { TIMINGS = sizeof timings / sizeof timings[0] };

#define REPORT(x, ms) ssp_write_target_time_reported(&(x), ms)

/* target() with that timeout and sum. */
static ssp_write_target waits(uint16_t irt, uint16_t elapsed) {
    ssp_write_target x = target();
    x.receiver.transfer.irt = irt;
    x.elapsed = elapsed;
    return x;
}

/* What one report does, and that it changes nothing else: it is counted, and that is the sum; it is not counted; it is refused; it fails the
 * transfer, and every later report is 2. */
static int counts(ssp_write_target x, uint16_t ms, uint16_t sum) {
    ssp_write_target want = x;
    want.elapsed = sum;
    return says(REPORT(x, ms), SSP_TAKEN) && same_target(x, want);
}
static int stays(ssp_write_target x, uint16_t ms) {
    ssp_write_target want = x;
    return says(REPORT(x, ms), SSP_UNCHANGED) && same_target(x, want);
}
static int refuses(ssp_write_target x, uint16_t ms, unsigned number) {
    ssp_write_target want = x;
    return refused(REPORT(x, ms), number) && same_target(x, want);
}
static int expires(ssp_write_target x, uint16_t ms) {
    ssp_write_target want = x;
    want.receiver.ended = true;
    return failed(REPORT(x, ms), 33, 0) && same_target(x, want) && refuses(x, 0, 2) && refuses(x, 0xFFFF, 2);
}

/* ---- the sum: "If it reaches the value .. the transfer fails" ---- */

#define FAILS 0x10000
typedef struct sum_vector {
    uint16_t irt, elapsed, ms;
    uint32_t sum; /* the sum that is left, or FAILS */
} sum_vector;

static const sum_vector sum_vectors[] = {
    {1, 0, 0, 0},
    {1, 0, 1, FAILS},
    {2, 0, 1, 1},
    {2, 1, 0, 1},
    {2, 1, 1, FAILS},
    {2, 0, 2, FAILS},
    {2, 0, 3, FAILS},
    {0x00FF, 0x00FE, 0, 0x00FE},
    {0x00FF, 0x00FE, 1, FAILS},
    {0x0100, 0, 0x00FF, 0x00FF},
    {0x0100, 0x00FF, 0, 0x00FF},
    {0x0100, 0x00FF, 1, FAILS},
    {0x0101, 1, 0x00FF, 0x0100},
    {0x0101, 0x00FF, 1, 0x0100},
    {0x0101, 0x0100, 0x0100, FAILS},
    {0x1234, 0x1000, 0x0233, 0x1233},
    {0x1234, 0x1000, 0x0234, FAILS},
    {0x8000, 0x7FFF, 0, 0x7FFF},
    {0x8000, 0x7FFF, 1, FAILS},
    {0xFFFF, 0, 0xFFFE, 0xFFFE},
    {0xFFFF, 0x7FFF, 0x7FFF, 0xFFFE},
    {0xFFFF, 0x7FFF, 0x8000, FAILS},
    {0xFFFF, 0xFFFE, 1, FAILS},
    {0xFFFF, 0, 0xFFFF, FAILS},
    /* a record that a caller made: the sum is there already */
    {1, 1, 0, FAILS},
    {0x1234, 0x1234, 0, FAILS},
    {0xFFFF, 0xFFFF, 0, FAILS},
    /* sums of 17 bits; their low 16 are below the timeout */
    {0xFFFF, 0xFFFE, 2, FAILS},
    {0xFFFF, 0x8000, 0x8000, FAILS},
    {0xFFFF, 0xFFFE, 0xFFFF, FAILS},
    {2, 1, 0xFFFF, FAILS},
    {0x0100, 0x00FF, 0xFF01, FAILS},
};

static void time_sums(void) {
    unsigned i, n, wrong_reports = 0, wrong_timeouts = 0, wrong_sums = 0;
    for (i = 0; i < sizeof sum_vectors / sizeof sum_vectors[0]; i++) {
        sum_vector v = sum_vectors[i];
        ssp_write_target x = waits(v.irt, v.elapsed);
        touchable();
        TRY("a report of time", v.sum == FAILS ? expires(x, v.ms) : counts(x, v.ms, (uint16_t)v.sum));
        TRY("a report of time: no buffer is touched", untouched());
        x.receiver.transfer.limit = x.retries = 0;
        TRY("a report of time with retries off", v.sum == FAILS ? expires(x, v.ms) : counts(x, v.ms, (uint16_t)v.sum));
    }
    /* every number of milliseconds, every timeout, every sum: none can be cut to fewer bits or taken for another field */
    for (n = 0; n <= 0xFFFF; n++) {
        uint16_t v = (uint16_t)n;
        wrong_reports += v < 0x8001 ? !counts(waits(0x8001, 0), v, v) : !expires(waits(0x8001, 0), v);
        wrong_timeouts += v > 0 && !(counts(waits(v, 0), (uint16_t)(v - 1), (uint16_t)(v - 1)) && expires(waits(v, 0), v));
        wrong_sums += v < 0xFFFF ? !(counts(waits(0xFFFF, v), 0, v) && refuses(waits(v, (uint16_t)(v + 1)), 0, 1)) : !expires(waits(0xFFFF, v), 0);
    }
    TRY("every report", wrong_reports == 0);
    TRY("every timeout", wrong_timeouts == 0);
    TRY("every sum", wrong_sums == 0);
    {
        ssp_write_target x = waits(1000, 0);
        unsigned taken = 0;
        while (taken < 2000 && says(REPORT(x, 1), SSP_TAKEN)) {
            taken++;
        }
        TRY("1,000 reports of 1 ms", taken == 999 && x.receiver.ended && x.elapsed == 999);
    }
}

/* ---- the span: "Time reported outside that span changes nothing" ---- */

static void time_span(void) {
    static const uint16_t reports[] = {0, 1, 0x0100, 0xFFFF};
    unsigned i, j;
    uint8_t state;
    for (i = 0; i < TIMINGS; i++) {
        for (j = 0; j < sizeof reports / sizeof reports[0]; j++) {
            ssp_write_target x = waits(timings[i].irt, timings[i].elapsed);
            for (state = SSP_STATE_NONE; state < SSP_STATE_READY; state++) {
                x.state = state;
                TRY("time before the ACK of an XFER_RDY", stays(x, reports[j]));
            }
            x = waits(timings[i].irt, timings[i].elapsed);
            x.receiver.filled = 40;
            TRY("time after the burst is filled", stays(x, reports[j]));
            x = waits(0, 0);
            TRY("time with the timeout off", stays(x, reports[j]));
        }
    }
    {
        ssp_write_target x = waits(100, 7);
        x.receiver.filled = 39;
        TRY("one byte is missing", counts(x, 92, 99) && expires(x, 93));
        x.receiver.filled = x.receiver.expected = 8;
        TRY("no byte is there", counts(x, 92, 99) && expires(x, 93));
        x.receiver.waiting = true;
        TRY("waiting for CHANGING DATA POINTER", counts(x, 92, 99) && expires(x, 93));
        x.receiver.end = 46;
        x.receiver.filled = 40;
        TRY("a longer burst", counts(x, 92, 99) && expires(x, 93));
    }
    {
        ssp_write_target x = SSP_ZERO;
        ssp_transfer t = transfer(true, THERE, HERE);
        t.irt = 1;
        TRY("a write with a timeout", says(ssp_write_target_set_up(&x, t), SSP_READY) && x.receiver.transfer.irt == 1 && x.elapsed == 0);
        TRY("time before the first XFER_RDY", stays(x, 0xFFFF));
    }
}

/* ---- the numbers: 1, 2, then 33 ---- */

static void time_numbers(void) {
    static const timing above[] = {{0, 1}, {0, 0xFFFF}, {1, 2}, {0x00FF, 0x0100}, {0x00FF, 0xFF00}, {0xFF00, 0xFF01}, {0xFFFE, 0xFFFF}};
    uint8_t frame[32] = {0};
    unsigned i;
    uint8_t state;
    for (i = 0; i < sizeof above / sizeof above[0]; i++) {
        ssp_write_target x = waits(above[i].irt, above[i].elapsed);
        for (state = SSP_STATE_NONE; state <= SSP_STATE_READY; state++) {
            x.state = state;
            x.receiver.ended = false;
            TRY("elapsed above irt: each call", write_target_refuses(x, frame, 32));
            x.receiver.ended = true;
            TRY("elapsed above irt: 1 before 2", write_target_refuses(x, frame, 32));
        }
        x.receiver.ended = false;
        x.elapsed = above[i].irt;
        TRY("elapsed is irt: in range", says(ssp_write_target_connection_lost(&x), SSP_UNCHANGED));
    }
    {
        ssp_write_target x = waits(1, 0);
        x.receiver.ended = true;
        TRY("2 before 33", refuses(x, 1, 2) && refuses(x, 0, 2));
        x.state = SSP_STATE_UNANSWERED;
        TRY("2 outside the span", refuses(x, 1, 2));
        x = waits(1, 0);
        x.receiver.transfer.write = false;
        TRY("1 for a read's record", refuses(x, 1, 1));
        x = waits(1, 0);
        x.receiver.filled = 41;
        TRY("1 for a mark past the end", refuses(x, 1, 1));
        x = waits(1, 0);
        x.state = 4;
        TRY("1 for a state", refuses(x, 1, 1));
        x = waits(1, 0);
        x.retries = 3;
        TRY("1 for the retries", refuses(x, 1, 1));
        x = waits(1, 0);
        TRY("33, then 2 for every call", failed(REPORT(x, 1), 33, 0) && refused(DATA_16(x), 2) && refused(ask_target(&x), 2) &&
                                             refused(ssp_write_target_ack_received(&x), 2) && refused(ssp_write_target_nexus_lost(&x), 2));
        TRY("33, then 2 for every call", refused(ssp_write_target_nak_received(&x), 2) && refused(ssp_write_target_ack_nak_timeout(&x), 2) &&
                                             refused(ssp_write_target_connection_lost(&x), 2) && stored(0, 0));
        TRY("a set-up after 33", says(ssp_write_target_set_up(&x, transfer(true, THERE, HERE)), SSP_READY) && x.elapsed == 0 && !x.receiver.ended);
    }
}

/* ---- the start: "from zero at the ACK of an XFER_RDY and at each DATA frame stored, not at a discarded one" ---- */

/* That is the sum, out of 1,000 ms, and the next report goes by it. */
static int sum_is(ssp_write_target x, uint16_t sum) {
    if (x.elapsed != sum) {
        return 0;
    }
    if (x.receiver.ended) {
        return refuses(x, 0xFFFF, 2);
    }
    if (x.state != SSP_STATE_READY || x.receiver.filled == x.receiver.end) {
        return stays(x, 0xFFFF);
    }
    return counts(x, (uint16_t)(999 - sum), 999) && expires(x, (uint16_t)(1000 - sum));
}

/* Sets one field of a target that has counted 900 ms, tries the call, then looks at the sum. */
#define SUM(field, value, call, sum)                                                             \
    do {                                                                                         \
        ssp_write_target x = waits(1000, 900);                                                   \
        x.field = (value);                                                                       \
        TRY(#field " = " #value ": " #call ", then a sum of " #sum, (call) && sum_is(x, (sum))); \
    } while (0)
#define DATA(offset, cdp, n) arrive_target(&x, 0x0102, offset, cdp, n, COUNT)

static void time_starts(void) {
    SUM(state, SSP_STATE_UNANSWERED, says(ssp_write_target_ack_received(&x), SSP_ACKNOWLEDGED), 0);
    SUM(stored, false, says(DATA(16, false, 8), SSP_STORED), 0);
    SUM(stored, true, says(DATA(16, false, 1), SSP_STORED), 0);
    SUM(receiver.waiting, true, says(DATA(8, true, 8), SSP_STORED) && x.receiver.filled == 24, 0); /* bytes that are there already */
    SUM(receiver.waiting, true, says(DATA(24, true, 8), SSP_STORED) && x.receiver.filled == 32, 0);
    SUM(receiver.expected, 24, says(DATA(24, false, 16), SSP_RECEIVED), 0); /* the frame that fills */
    /* discarded */
    SUM(receiver.expected, 24, says(DATA(16, false, 8), SSP_DISCARDED), 900);
    SUM(receiver.expected, 8, says(DATA(16, false, 8), SSP_DISCARDED) && says(DATA(8, false, 8), SSP_DISCARDED), 900);
    SUM(receiver.waiting, true, says(DATA(16, false, 8), SSP_DISCARDED), 900);
    SUM(receiver.filled, 40, says(DATA(16, false, 8), SSP_DISCARDED), 900);
    SUM(state, SSP_STATE_UNANSWERED, says(DATA(16, false, 8), SSP_DISCARDED), 900);
    SUM(state, SSP_STATE_AGAIN, says(DATA(16, false, 8), SSP_DISCARDED), 900);
    /* refused: 1 (the buffer), 5, 6, 7, 8 */
    SUM(stored, true, refused(arrive_target(&x, 0x0102, 16, false, 8, COUNT + 1), 1), 900);
    SUM(stored, true, refused(ssp_write_target_frame_received(&x, data, 23, room, COUNT), 5), 900);
    SUM(stored, true, refused(arrive_target(&x, 0x0103, 16, false, 8, COUNT), 8), 900);
    SUM(receiver.transfer.tag, 0x0013, refused(DATA(16, false, 8), 8), 900);
    SUM(receiver.transfer.remote, 0x123457, refused(DATA(16, false, 8), 7), 900);
    {
        ssp_write_target x = waits(1000, 900);
        size_t n = ssp_frame_write(header(SSP_TYPE_RESPONSE, THERE, HERE), iu, 24, out, sizeof out).len;
        TRY("a RESPONSE at the target", refused(ssp_write_target_frame_received(&x, out, n, room, COUNT), 6) && x.elapsed == 900);
    }
    /* failed: 20, 21, 22, 31 */
    SUM(stored, true, failed(DATA(4, true, 8), 20, 0), 900);
    SUM(stored, true, failed(DATA(36, false, 8), 21, 0), 900);
    SUM(stored, true, failed(DATA(16, false, 0), 22, 0), 900);
    SUM(stored, true, failed(ssp_write_target_nexus_lost(&x), 31, 0), 900);
    /* all else at the target */
    SUM(stored, true, says(ask_target(&x), SSP_WAIT), 900);
    SUM(stored, true, says(ssp_write_target_connection_lost(&x), SSP_UNCHANGED), 900);
    SUM(stored, true, refused(ssp_write_target_ack_received(&x), 4), 900); /* of no XFER_RDY */
    SUM(state, SSP_STATE_AGAIN, framed(ask_target(&x), 36), 900);
    SUM(state, SSP_STATE_UNANSWERED, says(ssp_write_target_nak_received(&x), SSP_RETRY), 900);
    SUM(state, SSP_STATE_UNANSWERED, says(ssp_write_target_ack_nak_timeout(&x), SSP_RETRY), 900);
    SUM(state, SSP_STATE_UNANSWERED, says(ssp_write_target_connection_lost(&x), SSP_RETRY), 900);
}

#include "layout_silent.h"

static void time_fields(void) {
    unsigned i;
    for (i = 0; i < VALUES; i++) {
        BOUND(irt, values[i], all_take);
        time_ignored(values[i]);
    }
    time_sums();
    time_span();
    time_numbers();
    time_starts();
    silent_after_the_second();
    silent_but_for_discards();
    silent_until_the_repeat();
}
