/* One of the rarer calls, for tests/reference/count --rare: rare read|write SIZE CALL. It is made in the function `probe`; what comes before sets the
 * records up. A transfer has three frames; the last one has 1,000 bytes of 1,024, else SIZE - 4. Status 1 if the answer is another one. */
#include <stdio.h>
#include <stdlib.h>
#include <string.h>

#include "ssp.h"

enum { INITIATOR = 0x123456, TARGET = 0xABCDEF, TAG = 0x12, DEST = 3, FLAGS = 10, FILL = 11, CDP = 1 };
enum which { ASK, TAKE, ACK, NAK };

static bool writes;
static uint32_t size, count;
static uint8_t data[3 * 1024], got[3 * 1024], frame[SSP_FRAME_MOST];
static size_t len;
static ssp_read_target read_sender = SSP_ZERO;
static ssp_read_initiator read_receiver = SSP_ZERO;
static ssp_write_initiator write_sender = SSP_ZERO;
static ssp_write_target write_receiver = SSP_ZERO;

static void need(bool holds) {
    if (!holds) {
        fputs("rare: another answer\n", stderr);
        exit(1);
    }
}

/* The call; room is the length of the output buffer of a frame asked for. */
static ssp_answer make(enum which which, size_t room) {
    switch (which) {
    case ASK:
        return writes ? ssp_write_initiator_next_frame(&write_sender, data, count, frame, room)
                      : ssp_read_target_next_frame(&read_sender, data, count, frame, room);
    case TAKE:
        return writes ? ssp_write_target_frame_received(&write_receiver, frame, len, got, count)
                      : ssp_read_initiator_frame_received(&read_receiver, frame, len, got, count);
    case ACK:
        return writes ? ssp_write_initiator_ack_received(&write_sender) : ssp_read_target_ack_received(&read_sender);
    default:
        return writes ? ssp_write_initiator_nak_received(&write_sender) : ssp_read_target_nak_received(&read_sender);
    }
}

__attribute__((noinline)) ssp_answer probe(enum which which, size_t room) { return make(which, room); }

static void set_up(void) {
    ssp_transfer initiator = ssp_write_transfer(count, INITIATOR, TARGET, TAG, count), target;
    initiator.write = writes;
    initiator.size = size;
    initiator.window = 64;
    initiator.limit = 3;
    target = initiator;
    target.local = TARGET;
    target.remote = INITIATOR;
    if (!writes) {
        need(ssp_read_target_set_up(&read_sender, target).what == SSP_READY);
        need(ssp_read_initiator_set_up(&read_receiver, initiator).what == SSP_READY);
        return;
    }
    need(ssp_write_initiator_set_up(&write_sender, initiator).what == SSP_READY);
    need(ssp_write_target_set_up(&write_receiver, target).what == SSP_READY);
    len = ssp_write_target_next_frame(&write_receiver, frame, sizeof frame).len;
    need(ssp_write_initiator_frame_received(&write_sender, frame, len).what == SSP_NEXT_BURST);
    need(ssp_write_target_ack_received(&write_receiver).what == SSP_ACKNOWLEDGED);
}

static void sent(int frames) {
    for (; frames > 0; frames--) {
        len = make(ASK, sizeof frame).len;
        need(len != 0);
    }
}

/* Makes the call of this name; false if there is none. */
static bool named(const char *name) {
    ssp_answer a;
    if (strcmp(name, "discarded") == 0) {
        sent(2);
        a = probe(TAKE, 0);
        need(a.what == SSP_DISCARDED);
    } else if (strcmp(name, "refused-7") == 0) {
        sent(1);
        frame[DEST] ^= 1;
        a = probe(TAKE, 0);
        need(a.number == SSP_WRONG_ADDRESS);
    } else if (strcmp(name, "nak") == 0) {
        sent(2);
        a = probe(NAK, 0);
        need(a.what == SSP_TAKEN);
    } else if (strcmp(name, "delivered") == 0) {
        sent(3);
        need(make(ACK, 0).what == SSP_TAKEN && make(ACK, 0).what == SSP_TAKEN);
        a = probe(ACK, 0);
        need(a.what == SSP_DELIVERED);
    } else if (strcmp(name, "refused-4") == 0) {
        a = probe(ACK, 0);
        need(a.number == SSP_ANSWER_WITHOUT_FRAME);
    } else if (strcmp(name, "wait") == 0) {
        sent(3);
        a = probe(ASK, 24 + size);
        need(a.what == SSP_WAIT);
    } else if (strcmp(name, "refused-3") == 0) {
        a = probe(ASK, 24 + size - 1);
        need(a.number == SSP_FRAME_SPACE_SHORT);
    } else if (strcmp(name, "fill") == 0) {
        sent(1);
        frame[FILL] = 2;
        a = probe(TAKE, 0);
        need(a.what == SSP_STORED && memcmp(got, data, size - 2) == 0);
    } else if (strcmp(name, "cdp") == 0) {
        sent(2);
        need(make(TAKE, 0).what == SSP_DISCARDED);
        memcpy(frame + 24, data, size);
        memset(frame + 20, 0, 4);
        frame[FLAGS] |= CDP;
        a = probe(TAKE, 0);
        need(a.what == SSP_STORED && memcmp(got, data, size) == 0);
    } else if (strcmp(name, "last") == 0) {
        sent(2);
        a = probe(ASK, 24 + size);
        need(a.what == SSP_FRAME && a.len == 24 + count - 2 * size);
    } else {
        return false;
    }
    return true;
}

int main(int argc, char **argv) {
    uint32_t i;
    need(argc == 4);
    writes = strcmp(argv[1], "write") == 0;
    size = (uint32_t)atoi(argv[2]);
    need(size >= 8 && size <= 1024 && size % 4 == 0);
    count = 3 * size - (size == 1024 ? 24 : 4);
    for (i = 0; i < count; i++) {
        data[i] = (uint8_t)(i % 251);
    }
    set_up();
    need(named(argv[3]));
    return 0;
}
