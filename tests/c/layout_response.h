/* A RESPONSE opened (request K9): IUs with their bytes, at the IU reader and at both initiators, and the sense data as a part of the caller's
 * own bytes: part of layout.c. What each IU gives is worked out by hand from the request; the status codes are SAM's, the sense data in
 * fixed format SPC's, the response codes SAS's. */

typedef struct iu_vector {
    const char *name;
    const char *bytes; /* hexadecimal */
    size_t more;       /* so many bytes EEh behind them */
    unsigned number;   /* 32 or 34, else 0 */
    unsigned kind;
    unsigned status;
    size_t sense;
} iu_vector;

/* bytes 0 to 9 of an IU, and bytes 12 to 15: reserved */
#define TEN "00 00 00 00 00 00 00 00 00 00 "
#define FOUR "00 00 00 00 "

static const iu_vector iu_vectors[] = {
    /* no data */
    {"GOOD", TEN "00 00 " FOUR "00 00 00 00 00 00 00 00", 0, 0, 0, 0x00, 0},
    {"BUSY", TEN "00 08 " FOUR "00 00 00 00 00 00 00 00", 0, 0, 0, 0x08, 0},
    {"GOOD, both lengths set", TEN "00 00 " FOUR "00 00 00 12 00 00 00 04", 0, 0, 0, 0x00, 0},
    {"BUSY, every other bit one", "FF FF FF FF FF FF FF FF FF FF FC 08 FF FF FF FF FF FF FF FF FF FF FF FF", 0, 0, 0, 0x08, 0},
    {"CHECK CONDITION, no data", TEN "00 02 " FOUR "00 00 00 00 00 00 00 00", 0, 0, 0, 0x02, 0},
    {"no data, 25 bytes", TEN "00 00 " FOUR "00 00 00 00 00 00 00 00", 1, 34, 0, 0, 0},
    {"no data, 28 bytes", TEN "00 00 " FOUR "00 00 00 00 00 00 00 04", 4, 34, 0, 0, 0},
    {"no data, 42 bytes", TEN "00 02 " FOUR "00 00 00 12 00 00 00 00", 18, 34, 0, 0, 0},
    /* response data: TASK MANAGEMENT FUNCTION COMPLETE (00h) and FAILED (05h) */
    {"response data 00h", TEN "01 00 " FOUR "00 00 00 00 00 00 00 04 00 00 00 00", 0, 0, 1, 0x00, 0},
    {"response data 05h", TEN "01 00 " FOUR "00 00 00 00 00 00 00 04 00 00 00 05", 0, 0, 1, 0x00, 0},
    {"response data, any sense length", TEN "FD 00 " FOUR "FF FF FF FF 00 00 00 04 00 00 00 05", 0, 0, 1, 0x00, 0},
    {"response data, every other bit one", "FF FF FF FF FF FF FF FF FF FF FD FF FF FF FF FF FF FF FF FF 00 00 00 04 FF FF FF FF", 0, 0, 1, 0xFF, 0},
    {"response data, length 3", TEN "01 00 " FOUR "00 00 00 00 00 00 00 03 00 00 00 00", 0, 34, 0, 0, 0},
    {"response data, length 5", TEN "01 00 " FOUR "00 00 00 00 00 00 00 05 00 00 00 00", 0, 34, 0, 0, 0},
    {"response data, length 00010004h", TEN "01 00 " FOUR "00 00 00 00 00 01 00 04 00 00 00 00", 0, 34, 0, 0, 0},
    {"response data, length 01000004h", TEN "01 00 " FOUR "00 00 00 00 01 00 00 04 00 00 00 00", 0, 34, 0, 0, 0},
    {"response data, length 04000000h", TEN "01 00 " FOUR "00 00 00 00 04 00 00 00 00 00 00 00", 0, 34, 0, 0, 0},
    {"response data, 24 bytes", TEN "01 00 " FOUR "00 00 00 00 00 00 00 04", 0, 34, 0, 0, 0},
    {"response data, 27 bytes", TEN "01 00 " FOUR "00 00 00 00 00 00 00 04 00 00 00", 0, 34, 0, 0, 0},
    {"response data, 29 bytes", TEN "01 00 " FOUR "00 00 00 00 00 00 00 04 00 00 00 00", 1, 34, 0, 0, 0},
    {"response data, the length at the sense length's place", TEN "01 00 " FOUR "00 00 00 04 00 00 00 00 00 00 00 00", 0, 34, 0, 0, 0},
    /* sense data: NOT READY, 04h/01h; MEDIUM ERROR, 11h/00h; ILLEGAL REQUEST, 24h/00h */
    {"CHECK CONDITION, NOT READY", TEN "02 02 " FOUR "00 00 00 12 00 00 00 00 70 00 02 00 00 00 00 0A 00 00 00 00 04 01 00 00 00 00", 0, 0, 2, 0x02, 18},
    {"CHECK CONDITION, MEDIUM ERROR", TEN "02 02 " FOUR "00 00 00 12 FF FF FF FF 70 00 03 00 00 00 00 0A 00 00 00 00 11 00 00 00 00 00", 0, 0, 2, 0x02, 18},
    {"CHECK CONDITION, ILLEGAL REQUEST", TEN "FE 02 " FOUR "00 00 00 12 00 00 00 04 70 00 05 00 00 00 00 0A 00 00 00 00 24 00 00 00 00 00", 0, 0, 2, 0x02, 18},
    {"GOOD, sense data", TEN "02 00 " FOUR "00 00 00 12 00 00 00 00 70 00 00 00 00 00 00 0A 00 00 00 00 00 00 00 00 00 00", 0, 0, 2, 0x00, 18},
    {"TASK SET FULL, every other bit one", "FF FF FF FF FF FF FF FF FF FF FE 28 FF FF FF FF 00 00 00 02 FF FF FF FF FF FF", 0, 0, 2, 0x28, 2},
    {"sense data of 1 byte", TEN "02 02 " FOUR "00 00 00 01 00 00 00 00 70", 0, 0, 2, 0x02, 1},
    {"sense data of 1,000 bytes", TEN "02 02 " FOUR "00 00 03 E8 00 00 00 00", 1000, 0, 2, 0x02, 1000},
    {"sense data of 1,001 bytes", TEN "02 02 " FOUR "00 00 03 E9 00 00 00 00", 1001, 34, 0, 0, 0},
    {"sense length 0, 24 bytes", TEN "02 02 " FOUR "00 00 00 00 00 00 00 00", 0, 34, 0, 0, 0},
    {"sense length 0, 25 bytes", TEN "02 02 " FOUR "00 00 00 00 00 00 00 01", 1, 34, 0, 0, 0},
    {"sense length 17, 42 bytes", TEN "02 02 " FOUR "00 00 00 11 00 00 00 12", 18, 34, 0, 0, 0},
    {"sense length 19, 42 bytes", TEN "02 02 " FOUR "00 00 00 13 00 00 00 12", 18, 34, 0, 0, 0},
    {"sense length 18, 41 bytes", TEN "02 02 " FOUR "00 00 00 12 00 00 00 11", 17, 34, 0, 0, 0},
    {"sense length 18, 43 bytes", TEN "02 02 " FOUR "00 00 00 12 00 00 00 13", 19, 34, 0, 0, 0},
    {"sense length 00010012h, 42 bytes", TEN "02 02 " FOUR "00 01 00 12 00 00 00 00", 18, 34, 0, 0, 0},
    {"sense length 01000012h, 42 bytes", TEN "02 02 " FOUR "01 00 00 12 00 00 00 00", 18, 34, 0, 0, 0},
    {"sense length 12000000h, 42 bytes", TEN "02 02 " FOUR "12 00 00 00 00 00 00 00", 18, 34, 0, 0, 0},
    {"sense data, the length at the response length's place", TEN "02 02 " FOUR "00 00 00 00 00 00 00 12", 18, 34, 0, 0, 0},
    /* reserved */
    {"kind 3, 24 bytes", TEN "03 00 " FOUR "00 00 00 00 00 00 00 00", 0, 34, 0, 0, 0},
    {"kind 3, as response data", TEN "03 00 " FOUR "00 00 00 00 00 00 00 04 00 00 00 00", 0, 34, 0, 0, 0},
    {"kind 3, as sense data", TEN "FF 02 " FOUR "00 00 00 12 00 00 00 00", 18, 34, 0, 0, 0},
    /* 32 goes first */
    {"23 bytes", TEN "03 02 " FOUR "00 00 00 12 00 00 00", 0, 32, 0, 0, 0},
    {"no byte", "", 0, 32, 0, 0, 0},
};

static uint8_t response_iu[24 + 1001 + 8];

/* Puts the bytes of a vector into response_iu and tells how many. */
static size_t response_bytes(const iu_vector *v) {
    const char *p = v->bytes;
    size_t n = 0;
    unsigned byte;
    int used;
    while (sscanf(p, "%2x%n", &byte, &used) == 1) {
        response_iu[n++] = (uint8_t)byte;
        p += used;
    }
    memset(response_iu + n, 0xEE, v->more);
    return n + v->more;
}

/* The part with the sense data: its bytes are those of `bytes` from byte `from`, in place. */
static int sensed(ssp_answer a, const uint8_t *bytes, size_t len, size_t from, size_t sense) {
    ssp_part part;
    part.at = response_iu;
    part.len = 7;
    return ssp_sense_data(&part, a, bytes, len) == sense && part.len == sense && (sense == 0 || part.at == bytes + from);
}

static void iu_read(const iu_vector *v, size_t n) {
    ssp_answer a = ssp_response_iu_read(response_iu, n);
    TRY(v->name, v->number > 0 ? failed(a, v->number, 0) : opened(a, SSP_PARSED, 0, 0, n, v->kind, v->status, v->sense));
    TRY(v->name, sensed(a, response_iu, n, 24, v->sense));
}

static void response_arrives(const iu_vector *v, size_t n) {
    ssp_header h = header(SSP_TYPE_RESPONSE, HERE, THERE);
    ssp_read_initiator r = receiver(), ended_r = receiver();
    ssp_write_initiator w = writer(), ended_w = writer();
    ssp_answer f, a;
    uint8_t before[SSP_FRAME_MOST];
    h.tptt = now.tptt;
    f = ssp_frame_write(h, response_iu, n, out, sizeof out);
    memcpy(before, out, sizeof before);
    memset(room, 0xEE, sizeof room);
    /* a read: the record has ended and is else as it was, nothing is stored */
    a = ssp_read_initiator_frame_received(&r, out, f.len, room, COUNT);
    ended_r.ended = true;
    TRY(v->name, v->number > 0 ? failed(a, v->number, 0) : opened(a, SSP_RESPONSE, 0, 24, n, v->kind, v->status, v->sense));
    TRY(v->name, sensed(a, out, f.len, 48, v->sense) && same_receiver(r, ended_r) && stored(0, 0));
    a = ssp_read_initiator_frame_received(&r, out, f.len, room, COUNT);
    TRY(v->name, refused(a, 2) && sensed(a, out, f.len, 0, 0) && same_receiver(r, ended_r));
    /* a write, with frames unanswered, a NAK pending and a burst that waits */
    w.sender.frames = ended_w.sender.frames = MANY;
    w.sender.nak = true;
    w.pending = ended_w.pending = true;
    w.taken = ended_w.taken = burst(26, 44, 0x0304, 1);
    ended_w.sender.unanswered = 0;
    ended_w.sender.ended = true;
    a = ssp_write_initiator_frame_received(&w, out, f.len);
    TRY(v->name, v->number > 0 ? failed(a, v->number, MANY) : opened(a, SSP_RESPONSE, MANY, 24, n, v->kind, v->status, v->sense));
    TRY(v->name, sensed(a, out, f.len, 48, v->sense) && same_writer(w, ended_w));
    a = ssp_write_initiator_frame_received(&w, out, f.len);
    TRY(v->name, refused(a, 2) && sensed(a, out, f.len, 0, 0) && same_writer(w, ended_w));
    /* for another command: 8, no part, the record stays */
    w = ended_w = writer();
    w.sender.transfer.tag = ended_w.sender.transfer.tag = TAG + 1;
    a = ssp_write_initiator_frame_received(&w, out, f.len);
    TRY(v->name, refused(a, 8) && sensed(a, out, f.len, 0, 0) && same_writer(w, ended_w));
    r = ended_r = receiver();
    r.transfer.tag = ended_r.transfer.tag = TAG + 1;
    a = ssp_read_initiator_frame_received(&r, out, f.len, room, COUNT);
    TRY(v->name, refused(a, 8) && sensed(a, out, f.len, 0, 0) && same_receiver(r, ended_r));
    TRY(v->name, memcmp(before, out, sizeof before) == 0 && stored(0, 0));
}

/* Each field of an answer is seen by ssp_sense_data, made-up ones too: the part is whole or empty, and inside the bytes. */
static void sense_fields(void) {
    static const uint8_t bytes[100];
    ssp_answer a = {0}, b;
    a.what = SSP_RESPONSE;
    a.kind = SSP_DATAPRES_SENSE_DATA;
    a.start = 24;
    a.len = 40;
    a.sense_len = 16;
    TRY("an answer with sense data", sensed(a, bytes, 64, 48, 16) && sensed(a, bytes, 100, 48, 16));
    TRY("bytes too short by one", sensed(a, bytes, 63, 0, 0) && sensed(a, bytes, 0, 0, 0));
#define ANSWER(field, value, ok)                                 \
    do {                                                         \
        b = a;                                                   \
        b.field = (value);                                       \
        TRY("ssp_answer." #field " = " #value ": " #ok, (ok)); \
    } while (0)
    ANSWER(what, SSP_PARSED, sensed(b, bytes, 64, 48, 16));
    ANSWER(what, SSP_REFUSED, sensed(b, bytes, 64, 0, 0));
    ANSWER(what, SSP_FAILED, sensed(b, bytes, 64, 0, 0));
    ANSWER(what, SSP_STORED, sensed(b, bytes, 64, 0, 0));
    ANSWER(what, 18, sensed(b, bytes, 64, 0, 0));
    ANSWER(kind, SSP_DATAPRES_NO_DATA, sensed(b, bytes, 64, 0, 0));
    ANSWER(kind, SSP_DATAPRES_RESPONSE_DATA, sensed(b, bytes, 64, 0, 0));
    ANSWER(kind, 3, sensed(b, bytes, 64, 0, 0));
    ANSWER(kind, 6, sensed(b, bytes, 64, 0, 0));
    ANSWER(start, 25, sensed(b, bytes, 65, 49, 16) && sensed(b, bytes, 64, 0, 0));
    ANSWER(start, (size_t)-1, sensed(b, bytes, 64, 0, 0));
    ANSWER(start, (size_t)-24, sensed(b, bytes, 64, 0, 0));
    ANSWER(len, 39, sensed(b, bytes, 64, 0, 0)); /* the IU ends before the sense data do */
    ANSWER(len, 41, sensed(b, bytes, 65, 48, 16) && sensed(b, bytes, 64, 0, 0));
    ANSWER(len, (size_t)-1, sensed(b, bytes, 64, 0, 0));
    ANSWER(sense_len, 15, sensed(b, bytes, 64, 48, 15));
    ANSWER(sense_len, 17, sensed(b, bytes, 64, 0, 0));
    ANSWER(sense_len, 0, sensed(b, bytes, 64, 0, 0));
    ANSWER(sense_len, (size_t)-8, sensed(b, bytes, 64, 0, 0));
    ANSWER(number, 34, sensed(b, bytes, 64, 48, 16));
    ANSWER(status, 8, sensed(b, bytes, 64, 48, 16));
    ANSWER(frames, MANY, sensed(b, bytes, 64, 48, 16));
#undef ANSWER
}

static void response_opened(void) {
    size_t i;
    for (i = 0; i < sizeof iu_vectors / sizeof iu_vectors[0]; i++) {
        size_t n = response_bytes(&iu_vectors[i]);
        iu_read(&iu_vectors[i], n);
        if (n <= SSP_IU_MOST) {
            response_arrives(&iu_vectors[i], n);
        }
    }
    sense_fields();
}
