/* SSP transport retries: frame reader and writer, initiator and target ports, XFER_RDY retry, RESPONSE retry, Initiator Response Timeout.
 *
 * For x86-64 with the System V calling convention; C99 or later, C++11 or later. Any other target stops at an #error.
 * Include this file and link with libssp.a. This file has the calls. ssp/types.h has the numbers and the records, ssp/helpers.h the inline
 * helpers (transfers with defaults, names of numbers, sense data), ssp/version.h the version, ssp/layout.h the layout of each record.
 * "The paper" is document 01, "SSP transport retries for initiator and target ports".
 *
 * How a call works:
 *   - The caller owns every record and every buffer. The library allocates nothing and keeps nothing between calls.
 *   - A call on a record updates it in place. It returns an ssp_answer by value.
 *   - A refusal (SSP_REFUSED) changes no record and no buffer.
 *   - A failure (SSP_FAILED) ends the record: until it is set up again, every call on it is refused. The two IU readers have no record to end.
 *   - Each comment lists the answers in the order in which the call tests them. The first condition that holds decides.
 *   - After SSP_FRAME `len` bytes were written to `out`. No byte of `out` beyond them changes.
 *
 * SSP_BAD_REQUEST is tested first. In the comments below:
 *   - "a limit is broken": a field of the transfer breaks one of the limits, which are listed at ssp_transfer.
 *   - "not in range": the record breaks one of the rules listed at its type: limits, direction, marks, counts. A record that was set up and is
 *     changed only by the calls of its role stays in range until frame 2 to the power 60.
 *
 * What the caller must ensure. No call tests it (docs/C.md, "What must the caller ensure?"):
 *   - A pointer is valid and not null, also where the length beside it is 0.
 *   - A buffer has at least as many bytes as the length beside it says.
 *   - No two buffers of one call overlap, and no buffer overlaps the record.
 *   - A bool holds 0 or 1.
 *   - One thread at a time uses a record. Nobody else uses the buffers of a call while it runs.
 *   - Frames and confirmations are passed in the order of their arrival. An ACK names no frame, no read and no command: pass it to the record
 *     whose frames are out.
 *   - Both ports have the same start and count of a read. The ranges of one command's reads do not overlap.
 *   - A timeout or a cut closes the connection. After it drop every frame and every confirmation that was still on the way, and report the cut
 *     to the port at the other end where its role has that call. A late ACK would count for a frame that was sent again: data could be reported
 *     delivered that never arrived.
 *   - Every record is set before its first use, also before a set-up or a reader: `ssp_read_target record = SSP_ZERO;`. So is every field of
 *     a transfer, a header or an answer that is passed by value.
 */
#ifndef SSP_H
#define SSP_H

#include "ssp/version.h"
#include "ssp/types.h"
#include "ssp/layout.h"

#ifdef __cplusplus
extern "C" {
#endif

/* ---- A read at the target. ------------------------------------------------------------------------------------------------------------- */

/* Sets up a read: one burst from transfer.start to transfer.start + transfer.count, no frame handed out yet.
 * Answers SSP_BAD_REQUEST (a limit is broken, or transfer.write is true); SSP_READY. */
ssp_answer ssp_read_target_set_up(ssp_read_target *record, ssp_transfer transfer);

/* Writes the next DATA frame to `out`. Its data offset is the next offset. Its data are transfer.size bytes, or what remains. They begin at byte
 * `next` - transfer.start of the caller-owned buffer `data`, which holds this read's transfer.count bytes alone. Its target port transfer tag is
 * transfer.value.
 * Answers SSP_BAD_REQUEST (not in range, or data_len is not transfer.count), SSP_TRANSFER_ENDED; SSP_WAIT if a NAK is pending, the window is
 * full or the next offset is the end; SSP_FRAME_SPACE_SHORT; SSP_FRAME. */
ssp_answer ssp_read_target_next_frame(ssp_read_target *record, const uint8_t *data, size_t data_len, uint8_t *out, size_t out_len);

/* An ACK arrived: one fewer confirmation is due. If none is due now and no NAK is pending, the balance point becomes the next offset; at the end
 * the read is delivered.
 * Answers SSP_BAD_REQUEST (not in range), SSP_TRANSFER_ENDED, SSP_ANSWER_WITHOUT_FRAME; SSP_TAKEN, SSP_DELIVERED (the record has ended),
 * SSP_RETRY (this was the last confirmation due, and a NAK is pending), or SSP_NAK_RECEIVED (the same with the retry limit used up). */
ssp_answer ssp_read_target_ack_received(ssp_read_target *record);

/* A NAK arrived: one fewer confirmation is due. The NAK stays pending; the retry begins when no confirmation is due.
 * Answers SSP_BAD_REQUEST (not in range), SSP_TRANSFER_ENDED, SSP_ANSWER_WITHOUT_FRAME; SSP_TAKEN, SSP_RETRY, or SSP_NAK_RECEIVED (retry limit
 * used up). */
ssp_answer ssp_read_target_nak_received(ssp_read_target *record);

/* The ACK/NAK timeout expired: no confirmation is due now, and the retry begins at the balance point. Drop confirmations that come late.
 * Answers SSP_BAD_REQUEST (not in range), SSP_TRANSFER_ENDED, SSP_ANSWER_WITHOUT_FRAME; SSP_RETRY, or with the retry limit used up
 * SSP_NAK_RECEIVED (a NAK is pending) or SSP_ACK_NAK_TIMEOUT. */
ssp_answer ssp_read_target_ack_nak_timeout(ssp_read_target *record);

/* The connection was cut. With frames unanswered the retry begins as at a timeout.
 * Answers SSP_BAD_REQUEST (not in range), SSP_TRANSFER_ENDED; SSP_UNCHANGED (nothing is unanswered), SSP_RETRY, or with the retry limit used up
 * SSP_NAK_RECEIVED (a NAK is pending) or SSP_CONNECTION_LOST. */
ssp_answer ssp_read_target_connection_lost(ssp_read_target *record);

/* The I_T nexus was lost. Answers SSP_BAD_REQUEST (not in range), SSP_TRANSFER_ENDED, SSP_NEXUS_LOSS. */
ssp_answer ssp_read_target_nexus_lost(ssp_read_target *record);

/* A frame arrived, any bytes. This role takes none.
 * Answers SSP_BAD_REQUEST (not in range), SSP_TRANSFER_ENDED, SSP_MALFORMED_FRAME, SSP_UNEXPECTED_FRAME_TYPE: always a refusal. */
ssp_answer ssp_read_target_frame_received(ssp_read_target *record, const uint8_t *bytes, size_t bytes_len);

/* ---- A read at the initiator. ---------------------------------------------------------------------------------------------------------- */

/* Sets up the receiving end of a read: one burst from transfer.start to transfer.start + transfer.count, nothing stored yet.
 * Answers SSP_BAD_REQUEST (a limit is broken, or transfer.write is true); SSP_READY. */
ssp_answer ssp_read_initiator_set_up(ssp_read_initiator *record, ssp_transfer transfer);

/* A frame arrived, any bytes. DATA goes to its offset in the caller-owned buffer `data`. No byte below transfer.start or from transfer.start +
 * transfer.count on changes, so several reads of one command can share the buffer. Set up a record for each of them and pass each frame to the
 * record of its own read; the library does not choose. At another read's record DATA is SSP_DISCARDED once all is filled, so it is lost though the
 * target reports its delivery; before that it is SSP_DATA_OFFSET_ERROR, which ends the record. A RESPONSE goes to one of the records. The target
 * port transfer tag is ignored.
 * Answers SSP_BAD_REQUEST (not in range, or data_len is below transfer.start + transfer.count), SSP_TRANSFER_ENDED, SSP_MALFORMED_FRAME,
 * SSP_UNEXPECTED_FRAME_TYPE, SSP_WRONG_ADDRESS, SSP_UNKNOWN_TAG; then
 *   DATA: SSP_DISCARDED (all is filled), SSP_DATA_OFFSET_ERROR, SSP_TOO_MUCH_DATA, SSP_INCORRECT_DATA_LENGTH; SSP_DISCARDED (retries on, CDP
 *     zero, and another than the expected offset or waiting for CDP one), SSP_STORED or SSP_RECEIVED. SSP_DATA_OFFSET_ERROR: the offset is
 *     outside the burst; or, retries off, not the expected one; or, retries on and CDP one, above the filled mark;
 *   XFER_RDY: SSP_XFER_RDY_IU_TOO_SHORT, SSP_XFER_RDY_IU_TOO_LONG, SSP_XFER_RDY_NOT_EXPECTED;
 *   RESPONSE: SSP_RESPONSE_IU_TOO_SHORT, SSP_RESPONSE_DATA_WRONG; SSP_RESPONSE (the record has ended), its IU read as by ssp_response_iu_read. */
ssp_answer ssp_read_initiator_frame_received(ssp_read_initiator *record, const uint8_t *bytes, size_t bytes_len, uint8_t *data,
                                             size_t data_len);

/* The I_T nexus was lost. Answers SSP_BAD_REQUEST (not in range), SSP_TRANSFER_ENDED, SSP_NEXUS_LOSS. */
ssp_answer ssp_read_initiator_nexus_lost(ssp_read_initiator *record);

/* ---- A write at the initiator. --------------------------------------------------------------------------------------------------------- */

/* Sets up a write: no burst is taken yet. Answers SSP_BAD_REQUEST (a limit is broken, or transfer.write is false); SSP_READY. */
ssp_answer ssp_write_initiator_set_up(ssp_write_initiator *record, ssp_transfer transfer);

/* Writes the next DATA frame of the burst in service to `out`. A burst that was taken starts when nothing is unanswered.
 * Answers SSP_BAD_REQUEST (not in range, or data_len is not sender.transfer.count), SSP_TRANSFER_ENDED; SSP_WAIT as in a read, and while a
 * taken burst waits for confirmations; SSP_FRAME_SPACE_SHORT; SSP_FRAME. */
ssp_answer ssp_write_initiator_next_frame(ssp_write_initiator *record, const uint8_t *data, size_t data_len, uint8_t *out, size_t out_len);

/* An ACK arrived. This and the next three are as in a read, but a retry goes back to the base of the burst, and SSP_DELIVERED is about the burst
 * and ends nothing. While a taken burst waits for confirmations, they only lower or clear the number due: SSP_TAKEN.
 * Answers SSP_BAD_REQUEST (not in range), SSP_TRANSFER_ENDED, SSP_ANSWER_WITHOUT_FRAME; SSP_TAKEN, SSP_DELIVERED, SSP_RETRY (this was the last
 * confirmation due, and a NAK is pending), or SSP_NAK_RECEIVED (the same with the retry limit used up). */
ssp_answer ssp_write_initiator_ack_received(ssp_write_initiator *record);

/* A NAK arrived. Answers SSP_BAD_REQUEST (not in range), SSP_TRANSFER_ENDED, SSP_ANSWER_WITHOUT_FRAME; SSP_TAKEN, SSP_RETRY, or SSP_NAK_RECEIVED
 * (retry limit used up). */
ssp_answer ssp_write_initiator_nak_received(ssp_write_initiator *record);

/* The ACK/NAK timeout expired. Answers SSP_BAD_REQUEST (not in range), SSP_TRANSFER_ENDED, SSP_ANSWER_WITHOUT_FRAME; SSP_TAKEN (a taken burst
 * waited), SSP_RETRY, or with the retry limit used up SSP_NAK_RECEIVED (a NAK is pending) or SSP_ACK_NAK_TIMEOUT. */
ssp_answer ssp_write_initiator_ack_nak_timeout(ssp_write_initiator *record);

/* The connection was cut. Answers SSP_BAD_REQUEST (not in range), SSP_TRANSFER_ENDED; SSP_UNCHANGED (nothing is unanswered), SSP_TAKEN (a taken
 * burst waited), SSP_RETRY, or with the retry limit used up SSP_NAK_RECEIVED (a NAK is pending) or SSP_CONNECTION_LOST. */
ssp_answer ssp_write_initiator_connection_lost(ssp_write_initiator *record);

/* The I_T nexus was lost. Answers SSP_BAD_REQUEST (not in range), SSP_TRANSFER_ENDED, SSP_NEXUS_LOSS. */
ssp_answer ssp_write_initiator_nexus_lost(ssp_write_initiator *record);

/* A frame arrived, any bytes: XFER_RDY or RESPONSE. The target port transfer tag of a RESPONSE is ignored.
 * Answers SSP_BAD_REQUEST (not in range), SSP_TRANSFER_ENDED, SSP_MALFORMED_FRAME, SSP_UNEXPECTED_FRAME_TYPE, SSP_WRONG_ADDRESS, SSP_UNKNOWN_TAG;
 * then
 *   XFER_RDY: SSP_XFER_RDY_IU_TOO_SHORT, SSP_XFER_RDY_IU_TOO_LONG, SSP_XFER_RDY_NOT_EXPECTED, SSP_XFER_RDY_REQUESTED_OFFSET_ERROR,
 *     SSP_XFER_RDY_INCORRECT_WRITE_DATA_LENGTH; SSP_NEXT_BURST, SSP_NEXT_BURST_DELIVERS or SSP_REPEATED;
 *   RESPONSE: SSP_RESPONSE_IU_TOO_SHORT, SSP_RESPONSE_DATA_WRONG; SSP_RESPONSE with the frames of the burst in service (the record has ended),
 *     its IU read as by ssp_response_iu_read.
 * SSP_XFER_RDY_INCORRECT_WRITE_DATA_LENGTH: the length is 0, or offset plus length passes the byte count; or the XFER_RDY is resent (RETRANSMIT
 * one) at the base of the burst taken last, started or not, with another length than that burst's. Before the first burst, and at the end of
 * the burst taken last, a resent XFER_RDY is for the next burst and may have any length that fits.
 * SSP_XFER_RDY_NOT_EXPECTED: it is for the next burst, and a frame of the burst taken last was not handed out yet.
 * SSP_XFER_RDY_REQUESTED_OFFSET_ERROR: the offset is neither the end of the burst taken last nor, with RETRANSMIT one, its base.
 * With RETRY DATA FRAMES zero in the XFER_RDY the burst has retry limit 0. */
ssp_answer ssp_write_initiator_frame_received(ssp_write_initiator *record, const uint8_t *bytes, size_t bytes_len);

/* ---- A write at the target. ------------------------------------------------------------------------------------------------------------ */

/* Sets up a write: no XFER_RDY is handed out yet. Answers SSP_BAD_REQUEST (a limit is broken, or transfer.write is false); SSP_READY. */
ssp_answer ssp_write_target_set_up(ssp_write_target *record, ssp_transfer transfer);

/* Writes an XFER_RDY to `out`. One is due for each burst, when the burst before is filled. After a retry the same one is due again, with
 * RETRANSMIT one and a new target port transfer tag.
 * Answers SSP_BAD_REQUEST (not in range), SSP_TRANSFER_ENDED; SSP_WAIT (none is due); SSP_FRAME_SPACE_SHORT; SSP_FRAME. */
ssp_answer ssp_write_target_next_frame(ssp_write_target *record, uint8_t *out, size_t out_len);

/* The ACK of the XFER_RDY arrived: from now on DATA of the burst is taken.
 * Answers SSP_BAD_REQUEST (not in range), SSP_TRANSFER_ENDED, SSP_ANSWER_WITHOUT_FRAME; SSP_ACKNOWLEDGED. */
ssp_answer ssp_write_target_ack_received(ssp_write_target *record);

/* A NAK of the XFER_RDY arrived. Answers SSP_BAD_REQUEST (not in range), SSP_TRANSFER_ENDED, SSP_ANSWER_WITHOUT_FRAME; SSP_RETRY, or
 * SSP_NAK_RECEIVED (retry limit used up). */
ssp_answer ssp_write_target_nak_received(ssp_write_target *record);

/* The ACK/NAK timeout of the XFER_RDY expired. Answers SSP_BAD_REQUEST (not in range), SSP_TRANSFER_ENDED, SSP_ANSWER_WITHOUT_FRAME; SSP_RETRY,
 * or SSP_ACK_NAK_TIMEOUT (retry limit used up). */
ssp_answer ssp_write_target_ack_nak_timeout(ssp_write_target *record);

/* The connection was cut. Answers SSP_BAD_REQUEST (not in range), SSP_TRANSFER_ENDED; SSP_UNCHANGED (no XFER_RDY is unanswered), SSP_RETRY,
 * or SSP_CONNECTION_LOST (retry limit used up). */
ssp_answer ssp_write_target_connection_lost(ssp_write_target *record);

/* The I_T nexus was lost. Answers SSP_BAD_REQUEST (not in range), SSP_TRANSFER_ENDED, SSP_NEXUS_LOSS. */
ssp_answer ssp_write_target_nexus_lost(ssp_write_target *record);

/* Reports time: the milliseconds since the last report to this record, 0 to 65,535; report a longer time as 65,535, which reaches every timeout.
 * The library has no clock. Call this at each tick of a timer, and before ack_received and frame_received: a report counts whole or not at all,
 * by the record at the call. It counts towards receiver.transfer.irt while the record waits for DATA: from the ACK of an XFER_RDY until its burst
 * is filled. The sum starts from 0 at that ACK and at each DATA frame stored; DATA that is discarded or refused does not restart it.
 * Answers SSP_BAD_REQUEST (not in range), SSP_TRANSFER_ENDED; SSP_UNCHANGED (receiver.transfer.irt is 0, or the record does not wait for DATA);
 * SSP_INITIATOR_RESPONSE_TIMEOUT (the sum is receiver.transfer.irt or more); SSP_TAKEN (`elapsed` is the sum). */
ssp_answer ssp_write_target_time_reported(ssp_write_target *record, uint16_t milliseconds);

/* A frame arrived, any bytes. DATA goes to its place in the caller-owned buffer `data`.
 * Answers SSP_BAD_REQUEST (not in range, or data_len is not receiver.transfer.count), SSP_TRANSFER_ENDED, SSP_MALFORMED_FRAME,
 * SSP_UNEXPECTED_FRAME_TYPE, SSP_WRONG_ADDRESS, SSP_UNKNOWN_TAG (the tag, then the target port transfer tag; so DATA before the first XFER_RDY);
 * SSP_DISCARDED (the XFER_RDY is not acknowledged yet, or the burst is filled); SSP_DATA_OFFSET_ERROR, SSP_TOO_MUCH_DATA,
 * SSP_INCORRECT_DATA_LENGTH; SSP_DISCARDED, SSP_STORED, or SSP_RECEIVED (the burst is filled: ask for the next XFER_RDY). */
ssp_answer ssp_write_target_frame_received(ssp_write_target *record, const uint8_t *bytes, size_t bytes_len, uint8_t *data, size_t data_len);

/* ---- RESPONSE at the target. -----------------------------------------------------------------------------------------------------------
 * It has a record of its own. Set it up with the command's transfer (that of any of its reads, where there are several), so that it carries the
 * same value under SAS-2. Ask for it only after all data were delivered or received, or the transfer failed. No call tests either. Keep the IU
 * until its ACK: a resend needs it again. */

/* Sets up a RESPONSE with an IU of len bytes.
 * Answers SSP_BAD_REQUEST (a limit is broken, or len is not 24 to 1,024; the direction may be either); SSP_READY. */
ssp_answer ssp_response_set_up(ssp_response *record, ssp_transfer transfer, size_t len);

/* Writes the RESPONSE with the caller-owned IU to `out`. Its target port transfer tag is transfer.value, also when it is resent.
 * Answers SSP_BAD_REQUEST (not in range, or iu_len is not record->len), SSP_TRANSFER_ENDED; SSP_WAIT (its confirmation is due);
 * SSP_FRAME_SPACE_SHORT; SSP_FRAME. */
ssp_answer ssp_response_next_frame(ssp_response *record, const uint8_t *iu, size_t iu_len, uint8_t *out, size_t out_len);

/* The ACK of the RESPONSE arrived.
 * Answers SSP_BAD_REQUEST (not in range), SSP_TRANSFER_ENDED, SSP_ANSWER_WITHOUT_FRAME; SSP_DELIVERED (the record has ended). */
ssp_answer ssp_response_ack_received(ssp_response *record);

/* A NAK of the RESPONSE arrived. It is sent again up to the retry limit, and once even with retries off, with RETRANSMIT one; likewise
 * after a timeout or a cut.
 * Answers SSP_BAD_REQUEST (not in range), SSP_TRANSFER_ENDED, SSP_ANSWER_WITHOUT_FRAME; SSP_RETRY, or SSP_NAK_RECEIVED (no resend is left). */
ssp_answer ssp_response_nak_received(ssp_response *record);

/* The ACK/NAK timeout of the RESPONSE expired. Answers SSP_BAD_REQUEST (not in range), SSP_TRANSFER_ENDED, SSP_ANSWER_WITHOUT_FRAME; SSP_RETRY, or
 * SSP_ACK_NAK_TIMEOUT (no resend is left). */
ssp_answer ssp_response_ack_nak_timeout(ssp_response *record);

/* The connection was cut. Answers SSP_BAD_REQUEST (not in range), SSP_TRANSFER_ENDED; SSP_UNCHANGED (no confirmation is due), SSP_RETRY, or
 * SSP_CONNECTION_LOST (no resend is left). */
ssp_answer ssp_response_connection_lost(ssp_response *record);

/* The I_T nexus was lost. Answers SSP_BAD_REQUEST (not in range), SSP_TRANSFER_ENDED, SSP_NEXUS_LOSS. */
ssp_answer ssp_response_nexus_lost(ssp_response *record);

/* ---- Frames by themselves: all five types. --------------------------------------------------------------------------------------------- */

/* Writes a frame to `out`: header, IU and fill.
 * Answers SSP_BAD_REQUEST (header.type is not in enum ssp_type, an address has more than 24 bits, header.tlr is above 3, or iu_len is above
 * 1,024); SSP_FRAME_SPACE_SHORT; SSP_FRAME. */
ssp_answer ssp_frame_write(ssp_header header, const uint8_t *iu, size_t iu_len, uint8_t *out, size_t out_len);

/* ssp_frame_write in two steps, for a port that has the data before the header. Each step takes what ssp_frame_write takes, refuses as it does
 * and answers the length of the whole frame. With the same header, IU and output buffer the two steps, in either order, do what ssp_frame_write
 * does. Each may be called again. */

/* The data step: writes IU and fill from byte 24 on. The first 24 bytes of `out` do not change. It tests the header as
 * ssp_frame_write does and makes no other use of it; the header step may be passed another one.
 * Answers SSP_BAD_REQUEST (as ssp_frame_write), SSP_FRAME_SPACE_SHORT; SSP_FRAME. */
ssp_answer ssp_frame_write_data(ssp_header header, const uint8_t *iu, size_t iu_len, uint8_t *out, size_t out_len);

/* The header step: writes the 24 bytes of the header. No other byte of `out` changes. It uses only the length of the IU; the pointer must be
 * valid nevertheless, and its buffer must not overlap `out` (so it is not out + 24).
 * Answers SSP_BAD_REQUEST (as ssp_frame_write), SSP_FRAME_SPACE_SHORT (also if only the header fits); SSP_FRAME. */
ssp_answer ssp_frame_write_header(ssp_header header, const uint8_t *iu, size_t iu_len, uint8_t *out, size_t out_len);

/* Reads a frame, any bytes. The IU is len bytes from start, without the fill. A header that is read and written again keeps TLR CONTROL and the
 * flags; the reserved bits 7 to 5 of byte 10 come out zero.
 * Answers SSP_MALFORMED_FRAME, SSP_UNEXPECTED_FRAME_TYPE; SSP_PARSED. */
ssp_answer ssp_frame_read(ssp_header *header, const uint8_t *bytes, size_t bytes_len);

/* Writes the IU of an XFER_RDY to `out`. Answers SSP_FRAME_SPACE_SHORT (out_len is below 12); SSP_FRAME with len 12. */
ssp_answer ssp_xfer_rdy_write(ssp_xfer_rdy xfer_rdy, uint8_t *out, size_t out_len);

/* Reads the IU of an XFER_RDY, any bytes; without SSP_PARSED *xfer_rdy stays as it was. Answers SSP_XFER_RDY_IU_TOO_SHORT, SSP_XFER_RDY_IU_TOO_LONG; SSP_PARSED. */
ssp_answer ssp_xfer_rdy_read(ssp_xfer_rdy *xfer_rdy, const uint8_t *iu, size_t iu_len);

/* Reads the IU of a RESPONSE, any bytes, without the fill: after ssp_frame_read these are `len` bytes from bytes + start.
 * Answers SSP_RESPONSE_IU_TOO_SHORT (under 24 bytes), SSP_RESPONSE_DATA_WRONG; SSP_PARSED with kind, status and sense_len; start is 0, len is
 * iu_len. SSP_RESPONSE_DATA_WRONG:
 *   - SSP_DATAPRES_NO_DATA, and the IU is not 24 bytes;
 *   - SSP_DATAPRES_RESPONSE_DATA, and the response length (bytes 20 to 23) is not 4, or the IU is not 28 bytes;
 *   - SSP_DATAPRES_SENSE_DATA, and the sense length (bytes 16 to 19) is not 1 to 1,000, or the IU is not 24 bytes plus the sense length;
 *   - DATAPRES 3.
 * It ignores a length that its kind does not name, and the other bits of byte 10. */
ssp_answer ssp_response_iu_read(const uint8_t *iu, size_t iu_len);

/* Call ssp_sense (ssp/helpers.h) instead, which uses this; its comment describes the part. This one updates *part and returns its length. Set *part to
 * { bytes, 0 } before each call: it must not hold a null pointer or a pointer to bytes that are no longer valid. With other bytes than those of the
 * answer the part has the same place in them; it is empty where they are too short. */
size_t ssp_sense_data(ssp_part *part, ssp_answer answer, const uint8_t *bytes, size_t bytes_len);

#ifdef __cplusplus
}
#endif

#include "ssp/helpers.h"

#endif
