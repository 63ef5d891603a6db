/* A read of eleven bytes. Both ports run in this program, over a link that loses nothing. */
#include <stdio.h>
#include "ssp.h"

enum { COUNT = 11, TAG = 0x0012, TARGET = 0xABCDEF, INITIATOR = 0x123456 }; /* the last two are hashed addresses */
static const uint8_t sent[COUNT] = "tape block";      /* the target's data buffer, with the zero at the end */
static uint8_t received[COUNT];                       /* the initiator's data buffer */
static uint8_t frame[SSP_FRAME_MOST];                 /* the frame that is on the link */
static const uint8_t iu[SSP_RESPONSE_IU_LEAST] = {0}; /* IU of the RESPONSE: no data, status 00h, GOOD */

static ssp_answer show(const char *event, ssp_answer a) {
    printf("%s: %s%s%s\n", event, ssp_what_name(a.what), a.number > 0 ? ", " : "", ssp_number_name(a.number));
    return a;
}

int main(void) {
    ssp_transfer at_target = ssp_read_transfer(COUNT, TARGET, INITIATOR, TAG);
    ssp_transfer at_initiator = ssp_read_transfer(COUNT, INITIATOR, TARGET, TAG);
    ssp_read_target target = SSP_ZERO;
    ssp_read_initiator initiator = SSP_ZERO;
    ssp_response response = SSP_ZERO;
    ssp_answer a;
    at_target.size = at_initiator.size = 4;     /* data bytes per frame; the default is 1,024 */
    at_target.window = at_initiator.window = 2; /* unanswered frames at most; the default is 8 */
    if (ssp_read_target_set_up(&target, at_target).what != SSP_READY ||
        ssp_read_initiator_set_up(&initiator, at_initiator).what != SSP_READY ||
        ssp_response_set_up(&response, at_target, sizeof iu).what != SSP_READY)
        return 1;
    do { /* frames until the target waits, then an ACK for each of them */
        while ((a = ssp_read_target_next_frame(&target, sent, COUNT, frame, sizeof frame)).what == SSP_FRAME)
            show("frame arrives", ssp_read_initiator_frame_received(&initiator, frame, a.len, received, COUNT));
        show("target asked for a frame", a);
        while (target.unanswered > 0)
            a = show("ACK arrives", ssp_read_target_ack_received(&target));
    } while (a.what == SSP_TAKEN);
    printf("%u frames, received \"%s\"\n", (unsigned)a.frames, (const char *)received);
    a = ssp_response_next_frame(&response, iu, sizeof iu, frame, sizeof frame);
    a = show("frame arrives", ssp_read_initiator_frame_received(&initiator, frame, a.len, received, COUNT));
    show("ACK arrives", ssp_response_ack_received(&response));
    return a.what == SSP_RESPONSE && a.status == 0 ? 0 : 1;
}
