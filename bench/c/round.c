/* SPDX-License-Identifier: Apache-2.0 AND BSD-3-Clause */
/*
 * The round over the library for C: everything but the rounds themselves, which calls.c and batch.c have. It reads eight numbers,
 * `ROUNDS EVENT REGIONS SIZE DESC AVAIL USED LEN`, and prints the sum and the image's checksum, as the other sides do.
 */
#include <ctype.h>
#include <inttypes.h>
#include <stdio.h>

#include "round.h"

/* The largest image, and the largest place, as on the other sides. */
#define MOST 65536
/* used_event is so far behind the idx that the driver found. */
#define EVENT_AFTER 31

static uint8_t image[MOST];

/* Eight numbers and nothing else, or 0. A number of more than 18 digits fits nowhere. */
static int read_numbers(uint64_t *words)
{
    char text[21];

    for (int i = 0; i < 8; i++) {
        if (scanf("%20s", text) != 1)
            return 0;
        words[i] = 0;
        for (int k = 0; text[k]; k++) {
            if (!isdigit((unsigned char)text[k]) || k == 18)
                return 0;
            words[i] = 10 * words[i] + (uint64_t)(text[k] - '0');
        }
    }
    return scanf("%20s", text) != 1;
}

static int numbers(struct round *r)
{
    uint64_t words[8];

    if (!read_numbers(words))
        return 0;
    r->rounds = words[0];
    r->event = words[1];
    r->regions = words[2];
    r->size = words[3];
    r->desc = words[4];
    r->avail = words[5];
    r->used = words[6];
    r->len = words[7];
    return r->event <= 1 && r->regions >= 1 && r->regions <= QL_REGIONS && r->size <= 65535 && r->desc <= MOST && r->avail <= MOST &&
           r->used <= MOST && r->len <= MOST;
}

/* ---- the driver writes to the image itself: guest addresses are places there, and what no region covers is not written */

static void store(struct round *r, uint64_t addr, uint64_t value, unsigned bytes)
{
    if (addr + bytes > r->covered)
        return;
    for (unsigned i = 0; i < bytes; i++)
        r->mem[addr + i] = (uint8_t)(value >> 8 * i);
}

static void lay(struct round *r)
{
    static const uint64_t flags[4] = {1, 1, 3, 2};

    for (uint64_t i = 0; i < r->size; i++) {
        uint64_t at = r->desc + 16 * i, next = (i + 1) % r->size;

        /* all of a descriptor, or nothing */
        if (at + 16 <= r->covered) {
            store(r, at, 0x8000 + 64 * i, 8);
            store(r, at + 8, 64 + i, 4);
            store(r, at + 12, flags[i % 4], 2);
            store(r, at + 14, next, 2);
        }
        store(r, r->avail + 4 + 2 * i, 4 * i % r->size, 2);
    }
}

uint16_t drive(struct round *r, uint16_t idx)
{
    store(r, r->avail + 4 + 2 * r->size, (uint16_t)(idx + EVENT_AFTER), 2);
    idx = (uint16_t)(idx + PASS);
    store(r, r->avail + 2, idx, 2);
    return idx;
}

/* ---- the device's side of things */

static void add_regions(struct round *r)
{
    uint64_t share = r->len / r->regions;

    r->covered = share * r->regions;
    for (uint64_t i = 0; i < r->regions; i++)
        ql_add_region(r->table, QL_TABLE_WORDS, r->len, i * share, share, i * share);
}

/* An address that is refused stays 0, as on the other sides. */
static int configure(struct round *r)
{
    if (ql_new(r->state, QL_STATE_WORDS, (uint16_t)r->size) != 0)
        return 0;
    ql_set_desc_table_address(r->state, QL_STATE_WORDS, 1, (uint32_t)r->desc, 0, 0);
    ql_set_avail_ring_address(r->state, QL_STATE_WORDS, 1, (uint32_t)r->avail, 0, 0);
    ql_set_used_ring_address(r->state, QL_STATE_WORDS, 1, (uint32_t)r->used, 0, 0);
    ql_set_event_idx(r->state, QL_STATE_WORDS, (uint32_t)r->event);
    ql_set_ready(r->state, QL_STATE_WORDS, 1);
    return 1;
}

static uint64_t checksum(const struct round *r)
{
    uint64_t h = 0;

    for (uint64_t i = 0; i < r->len; i++)
        h = 31 * h + r->mem[i];
    return h;
}

int main(void)
{
    static struct round r;
    uint64_t sum;

    r.mem = image;
    if (!numbers(&r)) {
        puts("refused");
        return 0;
    }
    add_regions(&r);
    lay(&r);
    if (!configure(&r)) {
        puts("refused");
        return 0;
    }
    sum = all(&r);
    printf("%" PRIu64 " %" PRIu64 "\n", sum, checksum(&r));
    return 0;
}
