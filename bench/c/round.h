/* SPDX-License-Identifier: Apache-2.0 AND BSD-3-Clause */
/* What the two forms of the round share: the numbers that were read, what is lent, and the driver's part. */
#ifndef ROUND_H
#define ROUND_H

#include "queueledger.h"

/* The driver comes once in so many rounds, and adds as many entries. */
#define PASS 64

struct round {
    uint64_t rounds, event, regions, size, desc, avail, used, len;
    uint64_t state[QL_STATE_WORDS];
    uint64_t table[QL_TABLE_WORDS];
    /* len bytes of image; the regions cover so many of them */
    uint8_t *mem;
    uint64_t covered;
};

/* The driver: used_event, then idx, which it answers. */
uint16_t drive(struct round *r, uint16_t idx);

/* All rounds, in one of the two forms. Answers the sum. */
uint64_t all(struct round *r);

#endif
