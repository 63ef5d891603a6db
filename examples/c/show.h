/* Text for the answers of calls, for read.c, write.c, silent.c and parts.c. */
#ifndef SHOW_H
#define SHOW_H

#include <stdio.h>

#include "ssp.h"

/* Returns the case, and after a refusal or a failure the paper's word and number. The text is valid until the next call. */
static const char *word(ssp_answer a) {
    static char text[96];
    if (a.number == 0) {
        return ssp_what_name(a.what);
    }
    snprintf(text, sizeof text, "%s, %s (%u)", ssp_what_name(a.what), ssp_number_name(a.number), (unsigned)a.number);
    return text;
}

/* Returns 1 if header and archive have the same version. */
static int same_version(void) {
    if (ssp_version() == SSP_VERSION) {
        return 1;
    }
    printf("ssp.h is %u, libssp.a is %u\n", (unsigned)SSP_VERSION, (unsigned)ssp_version());
    return 0;
}

/* Prints the status of a RESPONSE, and its sense data with their place in the frame. */
static void show_status(ssp_answer a, const uint8_t *frame, size_t len) {
    ssp_part sense = ssp_sense(a, frame, len);
    size_t i;
    if (a.what != SSP_RESPONSE) {
        return; /* no status: 0 is not GOOD here */
    }
    printf("status %02Xh, kind %u, %u bytes of sense data", (unsigned)a.status, (unsigned)a.kind, (unsigned)sense.len);
    if (sense.len > 0) {
        printf(" from byte %u:", (unsigned)(sense.at - frame));
    }
    for (i = 0; i < sense.len; i++) {
        printf(" %02X", sense.at[i]);
    }
    printf("\n");
}

/* Returns how many bytes are the same before the first difference. */
static unsigned same_bytes(const uint8_t *a, const uint8_t *b, unsigned n) {
    unsigned i = 0;
    while (i < n && a[i] == b[i]) {
        i++;
    }
    return i;
}

#endif
