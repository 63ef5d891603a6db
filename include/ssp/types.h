/* The numbers and records of ssp.h; include that. */
#ifndef SSP_TYPES_H
#define SSP_TYPES_H

#include <stdbool.h>
#include <stddef.h>
#include <stdint.h>

/* Sets every field of a record to zero, in C and in C++: `ssp_header header = SSP_ZERO;`. */
#ifdef __cplusplus
#define SSP_ZERO {}
#else
#define SSP_ZERO {0}
#endif

/* ssp_answer.number: the numbers of the paper's "Trade words"; 0 where an answer has none. ssp_number_name returns the words. */
enum ssp_number {
    /* refusals */
    SSP_BAD_REQUEST = 1,
    SSP_TRANSFER_ENDED = 2,
    SSP_FRAME_SPACE_SHORT = 3,
    SSP_ANSWER_WITHOUT_FRAME = 4,
    SSP_MALFORMED_FRAME = 5,
    SSP_UNEXPECTED_FRAME_TYPE = 6,
    SSP_WRONG_ADDRESS = 7,
    SSP_UNKNOWN_TAG = 8,
    /* failures */
    SSP_DATA_OFFSET_ERROR = 20,
    SSP_TOO_MUCH_DATA = 21,
    SSP_INCORRECT_DATA_LENGTH = 22,
    SSP_XFER_RDY_IU_TOO_SHORT = 23,
    SSP_XFER_RDY_IU_TOO_LONG = 24,
    SSP_XFER_RDY_INCORRECT_WRITE_DATA_LENGTH = 25,
    SSP_XFER_RDY_REQUESTED_OFFSET_ERROR = 26,
    SSP_XFER_RDY_NOT_EXPECTED = 27,
    SSP_NAK_RECEIVED = 28,
    SSP_ACK_NAK_TIMEOUT = 29,
    SSP_CONNECTION_LOST = 30,
    SSP_NEXUS_LOSS = 31,
    SSP_RESPONSE_IU_TOO_SHORT = 32,
    SSP_INITIATOR_RESPONSE_TIMEOUT = 33,
    SSP_RESPONSE_DATA_WRONG = 34
};

/* ssp_answer.what; in brackets the other fields that are set. ssp_what_name returns a word for each. */
enum ssp_what {
    SSP_REFUSED = 0,              /* [number: a refusal] nothing changed */
    SSP_FAILED = 1,               /* [number: a failure, frames] the record has ended */
    SSP_WAIT = 2,                 /* no frame is due */
    SSP_FRAME = 3,                /* [len] `len` bytes were written to `out`; after one of the writer's two steps: len of the whole frame */
    SSP_TAKEN = 4,                /* the event was taken: ask for frames again; after a report of time: it was counted */
    SSP_RETRY = 5,                /* a retry begins: ask for frames again */
    SSP_UNCHANGED = 6,            /* nothing changed: a cut with nothing unanswered, or a report of time that does not count */
    SSP_DELIVERED = 7,            /* [frames] the read, the write burst or the RESPONSE is delivered; frames is 0 for a RESPONSE */
    SSP_ACKNOWLEDGED = 8,         /* the XFER_RDY was acknowledged */
    SSP_DISCARDED = 9,            /* DATA was discarded */
    SSP_STORED = 10,              /* DATA was stored */
    SSP_RECEIVED = 11,            /* DATA was stored and filled the burst */
    SSP_NEXT_BURST = 12,          /* an XFER_RDY for the next burst was taken; there was no burst before, or its delivery was reported */
    SSP_NEXT_BURST_DELIVERS = 13, /* [frames] the same; the burst before counts as delivered, with `frames` frames */
    SSP_REPEATED = 14,            /* a resent XFER_RDY was taken: it repeats the burst taken last */
    SSP_RESPONSE = 15,            /* [start, len, kind, status, sense_len, frames] the command has ended; the RESPONSE's IU is at start */
    SSP_READY = 16,               /* a set-up was taken: the record is at its start */
    SSP_PARSED = 17               /* [start, len] a frame or an IU was read; [kind, status, sense_len] a RESPONSE's IU */
};

/* ssp_header.type: byte 0 of a frame. */
enum ssp_type {
    SSP_TYPE_DATA = 0x01,
    SSP_TYPE_XFER_RDY = 0x05,
    SSP_TYPE_COMMAND = 0x06,
    SSP_TYPE_RESPONSE = 0x07,
    SSP_TYPE_TASK = 0x16
};

/* ssp_answer.kind: DATAPRES of a RESPONSE's IU, byte 10, bits 1 and 0. */
enum ssp_datapres {
    SSP_DATAPRES_NO_DATA = 0,
    SSP_DATAPRES_RESPONSE_DATA = 1, /* four bytes from byte start + 24 of the caller's bytes; they say what happened, the status does not */
    SSP_DATAPRES_SENSE_DATA = 2     /* ssp_sense returns them */
};

/* ssp_write_target.state: how far its XFER_RDY is. */
enum ssp_state {
    SSP_STATE_NONE = 0,       /* none was handed out yet */
    SSP_STATE_UNANSWERED = 1, /* its confirmation is due */
    SSP_STATE_AGAIN = 2,      /* it has to be sent again */
    SSP_STATE_READY = 3       /* it was acknowledged: DATA is taken */
};

/* Greatest and least values of the fields below, and lengths of frames. */
enum ssp_limit {
    SSP_COUNT_MOST = 16777216, /* also the most of start + count */
    SSP_SIZE_LEAST = 4,
    SSP_SIZE_MOST = 1024,
    SSP_WINDOW_MOST = 64,
    SSP_RETRY_LIMIT_MOST = 15,
    SSP_ADDRESS_MOST = 0xffffff,
    SSP_TLR_MOST = 3,
    SSP_HEADER_BYTES = 24,
    SSP_IU_MOST = 1024,
    SSP_FRAME_MOST = 1048, /* an output buffer of this length is never too short */
    SSP_XFER_RDY_IU = 12,
    SSP_RESPONSE_IU_LEAST = 24,
    SSP_SENSE_MOST = 1000
};

/* What a call answers. A field that the case does not name is 0. So status 0 means GOOD only with SSP_RESPONSE, or with SSP_PARSED from
 * ssp_response_iu_read, and there not with SSP_DATAPRES_RESPONSE_DATA. */
typedef struct ssp_answer {
    uint8_t number;   /* one of enum ssp_number, or 0 */
    uint8_t what;     /* one of enum ssp_what */
    uint8_t kind;     /* of a RESPONSE: one of enum ssp_datapres */
    uint8_t status;   /* of a RESPONSE: the status, byte 11 of its IU */
    uint64_t frames;  /* DATA frames handed out since set-up, or since the write burst began */
    size_t start;     /* where the IU begins in the caller's bytes */
    size_t len;       /* length of the frame that was written, or of the IU */
    size_t sense_len; /* of a RESPONSE: bytes of sense data, 1 to 1,000 with SSP_DATAPRES_SENSE_DATA, else 0 */
} ssp_answer;

/* A part of a caller-owned buffer: len bytes from at. */
typedef struct ssp_part {
    const uint8_t *at;
    size_t len;
} ssp_part;

/* What both ports of a command are set up with. It never changes. The other port has local and remote the other way round. sas2 and value may
 * differ at the two ports: a receiving port ignores the TPTT (target port transfer tag) of read DATA and RESPONSE. So may irt: every record holds
 * it, only ssp_write_target uses it. "The limits" are the ranges at these fields. ssp_read_transfer and ssp_write_transfer return a transfer with
 * defaults.
 * A read fills count bytes of the initiator's buffer, from start up to start + count; the buffer is at least start + count bytes long. The target's
 * buffer holds those count bytes alone: its byte i goes to start + i. In a read every offset and mark of either record (base, end, next, balance,
 * expected, filled, the DATA frame's offset) is a place in the initiator's buffer. ssp_answer.start is something else: the place of an IU. */
typedef struct ssp_transfer {
    uint32_t count;  /* byte count: 1 to 16,777,216 */
    uint32_t size;   /* data bytes per frame: 4 to 1,024, a multiple of four */
    uint32_t window; /* unanswered frames at most: 1 to 64 */
    uint32_t limit;  /* retry limit: 0 to 15; 0 turns retries off */
    uint32_t burst;  /* bytes per write burst at most: 1 to count; the limit holds in a read too, which does not use it */
    uint32_t local;  /* hashed address of this port: 24 bits */
    uint32_t remote; /* hashed address of the other port: 24 bits */
    uint16_t tag;
    bool write;     /* the direction: true for a write command, false for a read */
    bool sas2;      /* the edition: true for SAS-2, false for SAS-1.1 */
    uint16_t value; /* the TPTT of every read DATA frame and RESPONSE of the command; under SAS-1.1 it must be 0 */
    uint16_t irt;   /* Initiator Response Timeout in milliseconds: 1 to 65,535; 0 turns it off; C cuts 65,536 to 0 */
    uint32_t start; /* where the read begins in the initiator's buffer; start + count is at most 16,777,216; in a write it must be 0 */
} ssp_transfer;

/* What one XFER_RDY asks for, or a whole read. */
typedef struct ssp_burst {
    uint32_t base;
    uint32_t end;
    uint32_t limit; /* the retry limit in force */
    uint16_t tptt;  /* target port transfer tag of the XFER_RDY; read DATA carries transfer.value instead */
} ssp_burst;

/* The target in a read command: a sending port.
 * In range: the limits hold; transfer.write is false;
 * transfer.start <= burst.base <= balance <= next <= burst.end <= transfer.start + transfer.count;
 * unanswered <= transfer.window; retries <= burst.limit <= transfer.limit; frames is below 2 to the power 60. */
typedef struct ssp_read_target {
    ssp_transfer transfer;
    ssp_burst burst;
    uint32_t next;       /* next offset */
    uint32_t balance;    /* balance point */
    uint32_t unanswered; /* frames handed out and not answered */
    bool nak;            /* a NAK is pending */
    bool cdp;            /* the next frame has CHANGING DATA POINTER one */
    bool ended;
    uint32_t retries;
    uint64_t frames; /* frames handed out since set-up */
} ssp_read_target;

/* The initiator in a read command: a receiving port.
 * In range: the limits hold; transfer.write is false;
 * transfer.start <= base <= expected <= filled <= end <= transfer.start + transfer.count. */
typedef struct ssp_read_initiator {
    ssp_transfer transfer;
    uint32_t base; /* the burst */
    uint32_t end;
    uint32_t expected; /* expected offset */
    uint32_t filled;   /* filled mark: all of the burst below it is stored */
    bool waiting;      /* for CHANGING DATA POINTER */
    bool ended;
} ssp_read_initiator;

/* The sending port inside ssp_write_initiator: the fields of ssp_read_target. It is a type of its own, so that the compiler refuses it where
 * a call wants a read's record. (C compilers before gcc 14 and clang 16 warn.) ssp_receiver below likewise. */
typedef struct ssp_sender {
    ssp_transfer transfer;
    ssp_burst burst;
    uint32_t next;
    uint32_t balance;
    uint32_t unanswered;
    bool nak;
    bool cdp;
    bool ended;
    uint32_t retries;
    uint64_t frames; /* frames handed out since the write burst began */
} ssp_sender;

/* The receiving port inside ssp_write_target: the fields of ssp_read_initiator. */
typedef struct ssp_receiver {
    ssp_transfer transfer;
    uint32_t base;
    uint32_t end;
    uint32_t expected;
    uint32_t filled;
    bool waiting;
    bool ended;
} ssp_receiver;

/* The initiator in a write command.
 * In range: sender as an ssp_read_target, but sender.transfer.write is true; sender.next <= reached <= sender.burst.end;
 * taken.base <= taken.end <= sender.transfer.count; taken.limit <= sender.transfer.limit. */
typedef struct ssp_write_initiator {
    ssp_sender sender; /* the burst in service; before the first, an empty one at 0 */
    uint32_t reached;  /* the furthest offset that was handed out in it */
    bool pending;      /* a burst is taken and not started */
    ssp_burst taken;   /* that burst; zero where there is none */
} ssp_write_initiator;

/* The target in a write command.
 * In range: receiver as an ssp_read_initiator, but receiver.transfer.write is true; state is one of enum ssp_state; receiver.base is below
 * receiver.end unless state is SSP_STATE_NONE; retries <= receiver.transfer.limit; since <= 16; elapsed <= receiver.transfer.irt. */
typedef struct ssp_write_target {
    ssp_receiver receiver; /* the burst of the last XFER_RDY handed out; before the first, an empty one at 0 */
    uint32_t retries;      /* of the XFER_RDY */
    uint16_t tptt;         /* its target port transfer tag */
    uint16_t under;        /* the tag under which DATA was last stored */
    uint16_t since;        /* tags handed out since */
    uint8_t state;         /* of the XFER_RDY: one of enum ssp_state */
    bool stored;           /* DATA was stored, last under the tag `under` */
    uint16_t elapsed;      /* milliseconds counted towards receiver.transfer.irt; a report that fails leaves it */
} ssp_write_target;

/* A RESPONSE at the target of a read or a write.
 * In range: the limits hold; len is 24 to 1,024; retries is at most transfer.limit, and at most 1 where that is 0. */
typedef struct ssp_response {
    ssp_transfer transfer;
    uint32_t len; /* length of the IU, from the set-up */
    uint32_t retries;
    bool unanswered; /* its confirmation is due */
    bool ended;
} ssp_response;

/* The header of a frame. */
typedef struct ssp_header {
    uint8_t type;    /* byte 0, one of enum ssp_type */
    uint32_t dest;   /* bytes 1-3, hashed destination address */
    uint32_t source; /* bytes 5-7, hashed source address */
    bool retry;      /* byte 10 bit 2, RETRY DATA FRAMES */
    bool retransmit; /* byte 10 bit 1, RETRANSMIT */
    bool cdp;        /* byte 10 bit 0, CHANGING DATA POINTER */
    uint8_t tlr;     /* byte 10 bits 4 and 3, TLR CONTROL, 0 to 3; the ports write 0 and ignore it on arrival */
    uint16_t tag;    /* bytes 16-17 */
    uint16_t tptt;   /* bytes 18-19, target port transfer tag */
    uint32_t offset; /* bytes 20-23, data offset */
} ssp_header;

/* The IU of an XFER_RDY. */
typedef struct ssp_xfer_rdy {
    uint32_t offset; /* requested offset */
    uint32_t len;    /* write data length */
} ssp_xfer_rdy;

#endif
