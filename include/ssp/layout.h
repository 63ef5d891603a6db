/* The layout that the library was built with. A compiler that lays out a record of types.h differently stops here. ssp.h includes this. */
#ifndef SSP_LAYOUT_H
#define SSP_LAYOUT_H

#include "types.h"

#if defined(__cplusplus)
#define SSP_LAYOUT(name, holds) static_assert(holds, #name)
#elif __STDC_VERSION__ >= 201112L
#define SSP_LAYOUT(name, holds) _Static_assert(holds, #name)
#else
#define SSP_LAYOUT(name, holds) typedef char ssp_layout_##name[(holds) ? 1 : -1]
#endif
#define SSP_SIZE(record, n) SSP_LAYOUT(size_of_##record, sizeof(record) == (n))
#define SSP_AT(record, field, n) SSP_LAYOUT(record##_at_##field, offsetof(record, field) == (n))

SSP_LAYOUT(bool_size, sizeof(bool) == 1);
SSP_LAYOUT(size_t_size, sizeof(size_t) == 8);
SSP_LAYOUT(pointer_size, sizeof(void *) == 8);

SSP_SIZE(ssp_answer, 40);
SSP_AT(ssp_answer, number, 0);
SSP_AT(ssp_answer, what, 1);
SSP_AT(ssp_answer, kind, 2);
SSP_AT(ssp_answer, status, 3);
SSP_AT(ssp_answer, frames, 8);
SSP_AT(ssp_answer, start, 16);
SSP_AT(ssp_answer, len, 24);
SSP_AT(ssp_answer, sense_len, 32);

SSP_SIZE(ssp_part, 16);
SSP_AT(ssp_part, at, 0);
SSP_AT(ssp_part, len, 8);

SSP_SIZE(ssp_transfer, 40);
SSP_AT(ssp_transfer, count, 0);
SSP_AT(ssp_transfer, size, 4);
SSP_AT(ssp_transfer, window, 8);
SSP_AT(ssp_transfer, limit, 12);
SSP_AT(ssp_transfer, burst, 16);
SSP_AT(ssp_transfer, local, 20);
SSP_AT(ssp_transfer, remote, 24);
SSP_AT(ssp_transfer, tag, 28);
SSP_AT(ssp_transfer, write, 30);
SSP_AT(ssp_transfer, sas2, 31);
SSP_AT(ssp_transfer, value, 32);
SSP_AT(ssp_transfer, irt, 34);
SSP_AT(ssp_transfer, start, 36);

SSP_SIZE(ssp_burst, 16);
SSP_AT(ssp_burst, base, 0);
SSP_AT(ssp_burst, end, 4);
SSP_AT(ssp_burst, limit, 8);
SSP_AT(ssp_burst, tptt, 12);

#define SSP_SENDER(record)          \
    SSP_SIZE(record, 88);           \
    SSP_AT(record, transfer, 0);    \
    SSP_AT(record, burst, 40);      \
    SSP_AT(record, next, 56);       \
    SSP_AT(record, balance, 60);    \
    SSP_AT(record, unanswered, 64); \
    SSP_AT(record, nak, 68);        \
    SSP_AT(record, cdp, 69);        \
    SSP_AT(record, ended, 70);      \
    SSP_AT(record, retries, 72);    \
    SSP_AT(record, frames, 80)
SSP_SENDER(ssp_read_target);
SSP_SENDER(ssp_sender);

#define SSP_RECEIVER(record)      \
    SSP_SIZE(record, 60);         \
    SSP_AT(record, transfer, 0);  \
    SSP_AT(record, base, 40);     \
    SSP_AT(record, end, 44);      \
    SSP_AT(record, expected, 48); \
    SSP_AT(record, filled, 52);   \
    SSP_AT(record, waiting, 56);  \
    SSP_AT(record, ended, 57)
SSP_RECEIVER(ssp_read_initiator);
SSP_RECEIVER(ssp_receiver);

SSP_SIZE(ssp_write_initiator, 112);
SSP_AT(ssp_write_initiator, sender, 0);
SSP_AT(ssp_write_initiator, reached, 88);
SSP_AT(ssp_write_initiator, pending, 92);
SSP_AT(ssp_write_initiator, taken, 96);

SSP_SIZE(ssp_write_target, 76);
SSP_AT(ssp_write_target, receiver, 0);
SSP_AT(ssp_write_target, retries, 60);
SSP_AT(ssp_write_target, tptt, 64);
SSP_AT(ssp_write_target, under, 66);
SSP_AT(ssp_write_target, since, 68);
SSP_AT(ssp_write_target, state, 70);
SSP_AT(ssp_write_target, stored, 71);
SSP_AT(ssp_write_target, elapsed, 72);

SSP_SIZE(ssp_response, 52);
SSP_AT(ssp_response, transfer, 0);
SSP_AT(ssp_response, len, 40);
SSP_AT(ssp_response, retries, 44);
SSP_AT(ssp_response, unanswered, 48);
SSP_AT(ssp_response, ended, 49);

SSP_SIZE(ssp_header, 24);
SSP_AT(ssp_header, type, 0);
SSP_AT(ssp_header, dest, 4);
SSP_AT(ssp_header, source, 8);
SSP_AT(ssp_header, retry, 12);
SSP_AT(ssp_header, retransmit, 13);
SSP_AT(ssp_header, cdp, 14);
SSP_AT(ssp_header, tlr, 15);
SSP_AT(ssp_header, tag, 16);
SSP_AT(ssp_header, tptt, 18);
SSP_AT(ssp_header, offset, 20);

SSP_SIZE(ssp_xfer_rdy, 8);
SSP_AT(ssp_xfer_rdy, offset, 0);
SSP_AT(ssp_xfer_rdy, len, 4);

#undef SSP_RECEIVER
#undef SSP_SENDER
#undef SSP_AT
#undef SSP_SIZE
#undef SSP_LAYOUT

#endif
