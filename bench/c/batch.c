/* SPDX-License-Identifier: Apache-2.0 AND BSD-3-Clause */
/*
 * The rounds by the calls that do several things: begin once for each pass, take a chain with all its descriptors, put and ask. A
 * call that is refused adds nothing.
 */
#include "round.h"

/* Room for eight descriptors; what is left of a longer chain is walked in turns. */
#define ROOM 8

/* The end of the pass, or a refusal, in which case nothing is taken. */
static uint32_t begin(struct round *r)
{
    return ql_iter(r->state, QL_STATE_WORDS, r->table, QL_TABLE_WORDS, r->mem, r->len);
}

static uint32_t take(struct round *r, uint32_t end, uint64_t *chain, uint64_t *out)
{
    if (QL_REFUSED(end))
        return QL_NONE;
    return ql_take(r->state, QL_STATE_WORDS, chain, QL_CHAIN_WORDS, r->table, QL_TABLE_WORDS, r->mem, r->len, (uint16_t)end, out,
        ROOM * QL_DESCRIPTOR_WORDS);
}

static uint64_t round_of(struct round *r, uint32_t *end, uint64_t number)
{
    uint64_t chain[QL_CHAIN_WORDS], out[ROOM * QL_DESCRIPTOR_WORDS], sum = 0;
    uint32_t last = 0, answer, count = take(r, *end, chain, out);
    uint16_t head;

    if (count == QL_NONE) {
        /* the pass is over: a new one sees what came in meanwhile, as a pop does */
        *end = begin(r);
        count = take(r, *end, chain, out);
    }
    if (count >= QL_NONE)
        return 0;
    head = (uint16_t)chain[QL_CHAIN_HEAD_INDEX];
    while (count != 0) {
        for (const uint64_t *d = out; d != out + QL_DESCRIPTOR_WORDS * count; d += QL_DESCRIPTOR_WORDS) {
            sum += d[QL_DESCRIPTOR_ADDR] + d[QL_DESCRIPTOR_FLAGS];
            last = (uint32_t)d[QL_DESCRIPTOR_LEN];
        }
        if (count < ROOM)
            break;
        count = ql_walk(chain, QL_CHAIN_WORDS, r->table, QL_TABLE_WORDS, r->mem, r->len, out, ROOM * QL_DESCRIPTOR_WORDS);
    }
    answer = ql_put_and_ask(r->state, QL_STATE_WORDS, r->table, QL_TABLE_WORDS, r->mem, r->len, head, last);
    /* the other sides ask also after a put that was refused */
    if (QL_REFUSED(answer) && answer != QL_NOT_ANSWERED)
        answer = ql_needs_notification(r->state, QL_STATE_WORDS, r->table, QL_TABLE_WORDS, r->mem, r->len);
    return answer == 1 ? sum + number : sum;
}

uint64_t all(struct round *r)
{
    uint64_t sum = 0;
    uint32_t end = QL_QUEUE_NOT_READY;
    uint16_t idx = 0;

    for (uint64_t i = 0; i < r->rounds; i++) {
        if (i % PASS == 0) {
            idx = drive(r, idx);
            end = begin(r);
        }
        sum += round_of(r, &end, i + 1);
    }
    return sum;
}
