/* SPDX-License-Identifier: Apache-2.0 AND BSD-3-Clause */
/* The rounds call by call: pop, chain, next until there is none, put, question. A call that is refused adds nothing. */
#include "round.h"

static uint64_t round_of(struct round *r, uint64_t number)
{
    uint64_t chain[QL_CHAIN_WORDS], out[QL_DESCRIPTOR_WORDS], sum = 0;
    uint32_t last = 0, head = ql_pop(r->state, QL_STATE_WORDS, r->table, QL_TABLE_WORDS, r->mem, r->len);

    if (head >= QL_NONE)
        return 0;
    ql_chain(r->state, QL_STATE_WORDS, chain, QL_CHAIN_WORDS, (uint16_t)head);
    while (ql_next(chain, QL_CHAIN_WORDS, r->table, QL_TABLE_WORDS, r->mem, r->len, out, QL_DESCRIPTOR_WORDS) == 1) {
        sum += out[QL_DESCRIPTOR_ADDR] + out[QL_DESCRIPTOR_FLAGS];
        last = (uint32_t)out[QL_DESCRIPTOR_LEN];
    }
    ql_add_used(r->state, QL_STATE_WORDS, r->table, QL_TABLE_WORDS, r->mem, r->len, (uint16_t)head, last);
    if (ql_needs_notification(r->state, QL_STATE_WORDS, r->table, QL_TABLE_WORDS, r->mem, r->len) == 1)
        sum += number;
    return sum;
}

uint64_t all(struct round *r)
{
    uint64_t sum = 0;
    uint16_t idx = 0;

    for (uint64_t i = 0; i < r->rounds; i++) {
        if (i % PASS == 0)
            idx = drive(r, idx);
        sum += round_of(r, i + 1);
    }
    return sum;
}
