/* Inline helpers for ssp.h; include that. They are plain C and not part of the archive: they are tested by tests/c/helpers.c, not proved. */
#ifndef SSP_HELPERS_H
#define SSP_HELPERS_H

#include "../ssp.h"

#ifdef __cplusplus
extern "C" {
#endif

/* Defaults that ssp_read_transfer and ssp_write_transfer set. Change a field afterwards: `transfer.window = 3;`. Both ports need the same count,
 * size, window, retry limit and start: else the initiator can discard DATA or fail while the target reports SSP_DELIVERED. The edition is
 * SAS-1.1; ssp_sas2 changes it. The Initiator Response Timeout is off: irt is 0. A read begins at the first byte of the initiator's buffer:
 * start is 0. */
enum ssp_default {
    SSP_DEFAULT_SIZE = 1024,    /* the most that a frame holds, so the fewest frames */
    SSP_DEFAULT_WINDOW = 8,     /* frames go out while confirmations of earlier ones are due */
    SSP_DEFAULT_RETRY_LIMIT = 3 /* retries on; the fourth failed attempt at the same data is a failure */
};

/* A read of count bytes at the port with the hashed address local. A set-up takes it if count is 1 to 16,777,216 and both addresses
 * fit in 24 bits. To begin further in, set `transfer.start` at both ports; start + count is at most 16,777,216. Pass each read's
 * own count: burst would be above a smaller one that is set later. burst, which a read does not use but whose limit holds, is count. */
static inline ssp_transfer ssp_read_transfer(uint32_t count, uint32_t local, uint32_t remote, uint16_t tag) {
    ssp_transfer transfer = SSP_ZERO;
    transfer.count = count;
    transfer.size = SSP_DEFAULT_SIZE;
    transfer.window = SSP_DEFAULT_WINDOW;
    transfer.limit = SSP_DEFAULT_RETRY_LIMIT;
    transfer.burst = count;
    transfer.local = local;
    transfer.remote = remote;
    transfer.tag = tag;
    transfer.write = false;
    transfer.sas2 = false;
    transfer.value = 0;
    transfer.irt = 0;
    transfer.start = 0;
    return transfer;
}

/* A write of count bytes in bursts of at most burst bytes. As for a read; burst must be 1 to count. */
static inline ssp_transfer ssp_write_transfer(uint32_t count, uint32_t local, uint32_t remote, uint16_t tag, uint32_t burst) {
    ssp_transfer transfer = ssp_read_transfer(count, local, remote, tag);
    transfer.burst = burst;
    transfer.write = true;
    return transfer;
}

/* The transfer under SAS-2 with that value: `ssp_sas2(ssp_read_transfer(count, local, remote, tag), 0x0100)`. */
static inline ssp_transfer ssp_sas2(ssp_transfer transfer, uint16_t value) {
    transfer.sas2 = true;
    transfer.value = value;
    return transfer;
}

/* The sense data of a RESPONSE, as a part of the caller's own bytes. Pass the answer of the call that took the RESPONSE and the bytes of that
 * same call: the frame of ssp_read_initiator_frame_received or ssp_write_initiator_frame_received, or the IU of ssp_response_iu_read.
 * Nothing is copied: the part is valid while those bytes do not change. The part is empty (len 0) where there are no sense data: for the other
 * kinds, after a refusal or a failure, after every other call. Do not use `at` of an empty part. */
static inline ssp_part ssp_sense(ssp_answer answer, const uint8_t *bytes, size_t bytes_len) {
    ssp_part part;
    part.at = bytes;
    part.len = 0;
    ssp_sense_data(&part, answer, bytes, bytes_len);
    return part;
}

/* Returns the paper's word for ssp_answer.number: "Bad Request" for SSP_BAD_REQUEST; "" for 0 and for every number that is not in enum
 * ssp_number. */
static inline const char *ssp_number_name(uint8_t number) {
    switch (number) {
    case SSP_BAD_REQUEST: return "Bad Request";
    case SSP_TRANSFER_ENDED: return "Transfer Ended";
    case SSP_FRAME_SPACE_SHORT: return "Frame Space Short";
    case SSP_ANSWER_WITHOUT_FRAME: return "Answer Without Frame";
    case SSP_MALFORMED_FRAME: return "Malformed Frame";
    case SSP_UNEXPECTED_FRAME_TYPE: return "Unexpected Frame Type";
    case SSP_WRONG_ADDRESS: return "Wrong Address";
    case SSP_UNKNOWN_TAG: return "Unknown Tag";
    case SSP_DATA_OFFSET_ERROR: return "Data Offset Error";
    case SSP_TOO_MUCH_DATA: return "Too Much Data";
    case SSP_INCORRECT_DATA_LENGTH: return "Incorrect Data Length";
    case SSP_XFER_RDY_IU_TOO_SHORT: return "XFER_RDY Information Unit Too Short";
    case SSP_XFER_RDY_IU_TOO_LONG: return "XFER_RDY Information Unit Too Long";
    case SSP_XFER_RDY_INCORRECT_WRITE_DATA_LENGTH: return "XFER_RDY Incorrect Write Data Length";
    case SSP_XFER_RDY_REQUESTED_OFFSET_ERROR: return "XFER_RDY Requested Offset Error";
    case SSP_XFER_RDY_NOT_EXPECTED: return "XFER_RDY Not Expected";
    case SSP_NAK_RECEIVED: return "NAK Received";
    case SSP_ACK_NAK_TIMEOUT: return "ACK/NAK Timeout";
    case SSP_CONNECTION_LOST: return "Connection Lost";
    case SSP_NEXUS_LOSS: return "I_T Nexus Loss";
    case SSP_RESPONSE_IU_TOO_SHORT: return "RESPONSE Information Unit Too Short";
    case SSP_INITIATOR_RESPONSE_TIMEOUT: return "Initiator Response Timeout";
    case SSP_RESPONSE_DATA_WRONG: return "RESPONSE Data Wrong";
    default: return "";
    }
}

/* Returns a word for ssp_answer.what: "retry" for SSP_RETRY; "" for every value that is not in enum ssp_what. */
static inline const char *ssp_what_name(uint8_t what) {
    switch (what) {
    case SSP_REFUSED: return "refused";
    case SSP_FAILED: return "failed";
    case SSP_WAIT: return "wait";
    case SSP_FRAME: return "frame";
    case SSP_TAKEN: return "taken";
    case SSP_RETRY: return "retry";
    case SSP_UNCHANGED: return "unchanged";
    case SSP_DELIVERED: return "delivered";
    case SSP_ACKNOWLEDGED: return "acknowledged";
    case SSP_DISCARDED: return "discarded";
    case SSP_STORED: return "stored";
    case SSP_RECEIVED: return "received";
    case SSP_NEXT_BURST: return "next burst";
    case SSP_NEXT_BURST_DELIVERS: return "next burst, the one before delivered";
    case SSP_REPEATED: return "repeated";
    case SSP_RESPONSE: return "RESPONSE";
    case SSP_READY: return "ready";
    case SSP_PARSED: return "parsed";
    default: return "";
    }
}

#ifdef __cplusplus
}
#endif

#endif
