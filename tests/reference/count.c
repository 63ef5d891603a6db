/* One faultless transfer of at most 64 frames, all on the way together, for tests/reference/count: count read|write SIZE FRAMES. Status 1 if the data
 * do not arrive. */
#include <stdio.h>
#include <stdlib.h>
#include <string.h>

#include "ssp.h"

enum { MOST = 64, INITIATOR = 0x123456, TARGET = 0xABCDEF, TAG = 0x12 };

static uint8_t data[MOST * 1024], got[MOST * 1024], way[MOST][SSP_FRAME_MOST];
static size_t lens[MOST];

static void need(bool holds) {
    if (!holds) {
        fputs("count: another answer than in a faultless transfer\n", stderr);
        exit(1);
    }
}

static void read_command(ssp_transfer initiator, ssp_transfer target, int frames) {
    ssp_read_target s = SSP_ZERO;
    ssp_read_initiator r = SSP_ZERO;
    int i;
    need(ssp_read_target_set_up(&s, target).what == SSP_READY && ssp_read_initiator_set_up(&r, initiator).what == SSP_READY);
    for (i = 0; i < frames; i++) {
        lens[i] = ssp_read_target_next_frame(&s, data, target.count, way[i], SSP_FRAME_MOST).len;
    }
    for (i = 0; i < frames; i++) {
        need(ssp_read_initiator_frame_received(&r, way[i], lens[i], got, initiator.count).what == (i < frames - 1 ? SSP_STORED : SSP_RECEIVED));
    }
    for (i = 0; i < frames; i++) {
        need(ssp_read_target_ack_received(&s).what == (i < frames - 1 ? SSP_TAKEN : SSP_DELIVERED));
    }
}

static void write_command(ssp_transfer initiator, ssp_transfer target, int frames) {
    ssp_write_initiator s = SSP_ZERO;
    ssp_write_target r = SSP_ZERO;
    int i;
    need(ssp_write_initiator_set_up(&s, initiator).what == SSP_READY && ssp_write_target_set_up(&r, target).what == SSP_READY);
    lens[0] = ssp_write_target_next_frame(&r, way[0], SSP_FRAME_MOST).len;
    need(ssp_write_initiator_frame_received(&s, way[0], lens[0]).what == SSP_NEXT_BURST);
    need(ssp_write_target_ack_received(&r).what == SSP_ACKNOWLEDGED);
    for (i = 0; i < frames; i++) {
        lens[i] = ssp_write_initiator_next_frame(&s, data, initiator.count, way[i], SSP_FRAME_MOST).len;
    }
    for (i = 0; i < frames; i++) {
        need(ssp_write_target_frame_received(&r, way[i], lens[i], got, target.count).what == (i < frames - 1 ? SSP_STORED : SSP_RECEIVED));
    }
    for (i = 0; i < frames; i++) {
        need(ssp_write_initiator_ack_received(&s).what == (i < frames - 1 ? SSP_TAKEN : SSP_DELIVERED));
    }
}

int main(int argc, char **argv) {
    ssp_transfer initiator, target;
    uint32_t size, count, i;
    int frames;
    need(argc == 4);
    size = (uint32_t)atoi(argv[2]);
    frames = atoi(argv[3]);
    need(size >= 4 && size <= 1024 && frames >= 1 && frames <= MOST);
    count = size * (uint32_t)frames;
    for (i = 0; i < count; i++) {
        data[i] = (uint8_t)(i % 251);
    }
    initiator = ssp_write_transfer(count, INITIATOR, TARGET, TAG, count);
    initiator.write = strcmp(argv[1], "write") == 0;
    initiator.size = size;
    initiator.window = MOST;
    target = initiator;
    target.local = TARGET;
    target.remote = INITIATOR;
    (initiator.write ? write_command : read_command)(initiator, target, frames);
    need(memcmp(got, data, count) == 0);
    return 0;
}
