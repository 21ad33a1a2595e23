/* SPDX-License-Identifier: Apache-2.0 AND BSD-3-Clause */
/*
 * The device side of virtio's split queues, for C (C99) and C++. Link crates/queueledger_c/out/libqueueledger_c.a, which
 * `rt lib` in crates/queueledger_c proves and builds; examples/c has a device's main loop.
 *
 * The library keeps nothing between calls and allocates nothing. Everything is lent: a slice is a pointer and the number
 * of its elements. Of a state, a chain or a table that is longer than it must be, the first words count.
 *
 *   state    QL_STATE_WORDS words: the queue. ql_new fills it.
 *   chain    QL_CHAIN_WORDS words: what is left of a chain. ql_chain and ql_take fill it.
 *   regions  QL_REGION_WORDS words for each region, at most QL_REGIONS of them: which guest addresses there are. A table of
 *            zeros has no region; ql_add_region fills it.
 *   mem      the bytes of guest memory, in which the regions lie
 *   out      an array for descriptors, QL_DESCRIPTOR_WORDS words for each
 *
 * What the caller has to hold to, and nothing checks:
 *
 * - A pointer and its length describe memory that is there, aligned for its type, to be written where it is not const.
 *   An empty slice may have any pointer, also a null one: it is not looked at.
 * - Two slices of one call overlap only if both are const.
 * - Nobody else writes what is lent until the call is back: what is proved is about memory that stands still meanwhile. The
 *   library has no atomic access and no fence. Where the guest runs on, two calls write and then read without a fence in
 *   between: take ql_add_used, a full fence and ql_needs_notification in place of ql_put_and_ask, and after
 *   ql_enable_notification a full fence and ql_avail_idx.
 *
 * All the rest is checked by the call or proved of it, for every content of every slice and for all numbers. Each call
 * ends. No byte of mem changes but those of the few fields of the used ring that the call names, which lie where the
 * regions say that memory is; and no byte of mem that no region maps has a say in an answer. Which bytes are read and how
 * often is in no proof: docs/THEOREMS.md, "The audit of accesses".
 *
 * What the library does not know, and the device has to: a descriptor's address and length are the guest's word, and nothing
 * here has tested that they lie in guest memory; and a put takes any head below the size and any length.
 */
#ifndef QUEUELEDGER_H
#define QUEUELEDGER_H

#include <stddef.h>
#include <stdint.h>

#ifdef __cplusplus
extern "C" {
#endif

/* ---- how many words */

#define QL_STATE_WORDS 10
#define QL_CHAIN_WORDS 6
#define QL_DESCRIPTOR_WORDS 3
#define QL_REGION_WORDS 3

/* How many regions count; the words of a table for all of them. */
#define QL_REGIONS 8
#define QL_TABLE_WORDS (QL_REGIONS * QL_REGION_WORDS)

/* The largest size of a split queue. */
#define QL_MAX_QUEUE_SIZE 32768

/* ---- the words of the state: to be read, saved and put back. Words that hold no queue are refused by every call. */

/* The largest size that the device offers. */
#define QL_MAX_SIZE 0
/* The number, modulo 65,536, of the next entry to take from the available ring. */
#define QL_NEXT_AVAIL 1
/* The number, modulo 65,536, of the next entry to put into the used ring. */
#define QL_NEXT_USED 2
/* 1 if VIRTIO_F_EVENT_IDX was negotiated, else 0. */
#define QL_EVENT_IDX_ENABLED 3
/* The entries put since the last question that was answered with event index on, modulo 65,536. */
#define QL_NUM_ADDED 4
/* The size that the driver chose. */
#define QL_SIZE 5
/* 1 if the driver is done with configuration, else 0. */
#define QL_READY 6
/* The guest addresses of the three areas. */
#define QL_DESC_TABLE 7
#define QL_AVAIL_RING 8
#define QL_USED_RING 9

/* ---- the words of a chain */

/* The table that it is read from, and how many descriptors that has. */
#define QL_CHAIN_DESC_TABLE 0
#define QL_CHAIN_QUEUE_SIZE 1
/* The descriptor that it starts at: what ql_add_used and ql_put_and_ask are told. */
#define QL_CHAIN_HEAD_INDEX 2
/* The next descriptor, and how many may still come. */
#define QL_CHAIN_NEXT_INDEX 3
#define QL_CHAIN_TTL 4
/* The sum of the lengths so far. */
#define QL_CHAIN_YIELDED_BYTES 5

/* ---- the words of a descriptor in an array, and bits of its flags */

#define QL_DESCRIPTOR_ADDR 0
#define QL_DESCRIPTOR_LEN 1
#define QL_DESCRIPTOR_FLAGS 2

/* Another descriptor follows. */
#define QL_DESC_F_NEXT 1
/* The device writes it; without this bit the device reads it. */
#define QL_DESC_F_WRITE 2

/* ---- the words of a region: its first guest address, its length (0: no region), and where in mem it begins */

#define QL_REGION_BASE 0
#define QL_REGION_LEN 1
#define QL_REGION_OFFSET 2

/*
 * ---- answers
 *
 * Every function answers a number: below QL_NONE what was asked for, where 0 is also "done" and "no", and 1 "yes";
 * QL_NONE where there is none; above it the reason of a refusal. A refusal has changed nothing that was lent, but in two
 * cases: QL_NOT_ANSWERED, and QL_GUEST_MEMORY from ql_enable_notification.
 */
#define QL_REFUSED(answer) ((answer) > QL_NONE)

/* There is no head. */
#define QL_NONE UINT32_C(65536)

/* The state has fewer than QL_STATE_WORDS words. */
#define QL_STATE_SHORT UINT32_C(65537)
/* A word of the state is too large: above 65,535, or above 1 for a flag. Addresses may be any number. */
#define QL_STATE_FIELD UINT32_C(65538)

/* The largest size is no power of two up to QL_MAX_QUEUE_SIZE. */
#define QL_INVALID_MAX_SIZE UINT32_C(65539)
/* The size is no power of two up to the largest size. */
#define QL_INVALID_SIZE UINT32_C(65540)
/* The address is no multiple of 16, of 2, of 4. */
#define QL_INVALID_DESC_TABLE_ALIGN UINT32_C(65541)
#define QL_INVALID_AVAIL_RING_ALIGN UINT32_C(65542)
#define QL_INVALID_USED_RING_ALIGN UINT32_C(65543)
/* The queue is not ready, or its available ring has the address 0. */
#define QL_QUEUE_NOT_READY UINT32_C(65544)
/* The available ring's idx is further ahead than the queue has places: the driver is broken, or means harm. */
#define QL_INVALID_AVAIL_RING_INDEX UINT32_C(65545)
/* The head to put is not below the size. */
#define QL_INVALID_DESCRIPTOR_INDEX UINT32_C(65546)
/* A field of an area is not in guest memory. */
#define QL_GUEST_MEMORY UINT32_C(65547)
/* ql_put_and_ask: the put is done, in memory and in the state, but used_event can't be read. Don't put again. */
#define QL_NOT_ANSWERED UINT32_C(65548)

/* The chain has fewer than QL_CHAIN_WORDS words. */
#define QL_CHAIN_SHORT UINT32_C(65549)
/* A word of the chain is too large: above 65,535, or above 2^32 - 1 for the sum of lengths. */
#define QL_CHAIN_FIELD UINT32_C(65550)
/* The array has no room for a descriptor. */
#define QL_NO_ROOM UINT32_C(65551)

/* Why a region is not added, in the order of the tests: */
/* QL_REGIONS regions are there, or the table has no room for one more. */
#define QL_REGION_FULL UINT32_C(65552)
/* Its length is 0. */
#define QL_REGION_EMPTY UINT32_C(65553)
/* Its guest addresses pass 2^64. */
#define QL_REGION_PAST_TOP UINT32_C(65554)
/* It runs past the end of guest memory. */
#define QL_REGION_PAST_SLICE UINT32_C(65555)
/* It shares a guest address with another. */
#define QL_REGION_OVERLAP UINT32_C(65556)

/*
 * ---- guest memory
 */

/*
 * Adds a region to the table: the len guest addresses from base on lie in a memory of size bytes, from offset on.
 * Answers 0, or one of the reasons QL_REGION_*.
 */
uint32_t ql_add_region(uint64_t *regions, size_t regions_len, size_t size, uint64_t base, uint64_t len,
    uint64_t offset);

/*
 * ---- configuration
 *
 * Each call with a state, here and below, may also answer QL_STATE_SHORT and QL_STATE_FIELD; ql_new only the first.
 */

/* A new queue, not ready. What the words held before does not matter. Answers 0, or QL_INVALID_MAX_SIZE. */
uint32_t ql_new(uint64_t *state, size_t state_len, uint16_t max_size);

/* Everything back to the start, the largest size kept. Answers 0. */
uint32_t ql_reset(uint64_t *state, size_t state_len);

/* The size that the driver chose. Answers 0, or QL_INVALID_SIZE. */
uint32_t ql_set_size(uint64_t *state, size_t state_len, uint16_t size);

/*
 * The guest addresses of the three areas, by halves, as a driver writes them: a half whose flag has_low or has_high is 0
 * keeps its bits. Answers 0, or QL_INVALID_DESC_TABLE_ALIGN, QL_INVALID_AVAIL_RING_ALIGN, QL_INVALID_USED_RING_ALIGN.
 */
uint32_t ql_set_desc_table_address(uint64_t *state, size_t state_len, uint32_t has_low, uint32_t low, uint32_t has_high,
    uint32_t high);
uint32_t ql_set_avail_ring_address(uint64_t *state, size_t state_len, uint32_t has_low, uint32_t low, uint32_t has_high,
    uint32_t high);
uint32_t ql_set_used_ring_address(uint64_t *state, size_t state_len, uint32_t has_low, uint32_t low, uint32_t has_high,
    uint32_t high);

/* The flags: any number but 0 sets one. Answer 0. */
uint32_t ql_set_ready(uint64_t *state, size_t state_len, uint32_t ready);
uint32_t ql_set_event_idx(uint64_t *state, size_t state_len, uint32_t enabled);

/* The two positions, as for a queue that was moved here from elsewhere. Answer 0. */
uint32_t ql_set_next_avail(uint64_t *state, size_t state_len, uint16_t next_avail);
uint32_t ql_set_next_used(uint64_t *state, size_t state_len, uint16_t next_used);

/*
 * Answers 1 if the queue is ready and its three areas are whole in guest memory, else 0. No other call asks this: each
 * tests the fields that it touches.
 */
uint32_t ql_is_valid(const uint64_t *state, size_t state_len, const uint64_t *regions, size_t regions_len,
    const uint8_t *mem, size_t mem_len);

/*
 * ---- the available ring: what the driver asks for
 */

/*
 * Begin a pass. Answers the available ring's idx, where the pass ends: what ql_next_head and ql_take want as last_index.
 * Or QL_QUEUE_NOT_READY, QL_GUEST_MEMORY, QL_INVALID_AVAIL_RING_INDEX.
 */
uint32_t ql_iter(const uint64_t *state, size_t state_len, const uint64_t *regions, size_t regions_len,
    const uint8_t *mem, size_t mem_len);

/*
 * The next head of a pass. Answers the head, or QL_NONE: the pass is at its end, or the entry can't be read, and then
 * QL_NEXT_AVAIL is not at last_index. A head is the guest's word too: one that is not below the size has no descriptors.
 * Begin anew after ql_pop, ql_set_next_avail and ql_reset: the last_index from before may be passed, and then the pass has
 * up to 65,535 heads more, which nobody announced. Nothing tests this.
 */
uint32_t ql_next_head(uint64_t *state, size_t state_len, const uint64_t *regions, size_t regions_len,
    const uint8_t *mem, size_t mem_len, uint16_t last_index);

/*
 * Begin and next head in one. Answers the head, or QL_NONE, also where ql_iter would have been refused: a loop of ql_pop and
 * ql_enable_notification does not end where idx is wrong. A pass from before is not to be gone on with.
 */
uint32_t ql_pop(uint64_t *state, size_t state_len, const uint64_t *regions, size_t regions_len,
    const uint8_t *mem, size_t mem_len);

/*
 * Next head, ql_chain and ql_walk in one. Answers how many descriptors are in the array; the head is in the chain's words,
 * whatever these held before. With as many as there is room for, more may be left: ql_walk has them. Answers QL_NONE as
 * ql_next_head does; or QL_CHAIN_SHORT, QL_NO_ROOM, in this order and before any refusal of the state.
 */
uint32_t ql_take(uint64_t *state, size_t state_len, uint64_t *chain, size_t chain_len,
    const uint64_t *regions, size_t regions_len, const uint8_t *mem, size_t mem_len, uint16_t last_index,
    uint64_t *out, size_t out_len);

/* A step back: the entry taken last counts as not taken. Answers 0. */
uint32_t ql_go_to_previous_position(uint64_t *state, size_t state_len);

/* Answers the available ring's idx as it stands in memory, or QL_GUEST_MEMORY. */
uint32_t ql_avail_idx(const uint64_t *state, size_t state_len, const uint64_t *regions, size_t regions_len,
    const uint8_t *mem, size_t mem_len);

/*
 * ---- chains
 *
 * A chain ends where it has no further descriptor, and where the guest broke a rule: an index that is not below the size, a
 * descriptor that is not in guest memory or refers to an indirect table, more descriptors than the table has, or more than
 * 2^32 - 1 bytes. A device drops a chain at its end, whichever it was.
 */

/* The chain from a head on. Answers 0; or QL_CHAIN_SHORT, before any refusal of the state. */
uint32_t ql_chain(const uint64_t *state, size_t state_len, uint64_t *chain, size_t chain_len, uint16_t head);

/*
 * The next descriptor, the next one to read, the next one to write; the others are skipped. Answers 1 with the descriptor
 * in the array, or 0 at the end; or QL_CHAIN_SHORT, QL_CHAIN_FIELD, QL_NO_ROOM.
 */
uint32_t ql_next(uint64_t *chain, size_t chain_len, const uint64_t *regions, size_t regions_len,
    const uint8_t *mem, size_t mem_len, uint64_t *out, size_t out_len);
uint32_t ql_next_readable(uint64_t *chain, size_t chain_len, const uint64_t *regions, size_t regions_len,
    const uint8_t *mem, size_t mem_len, uint64_t *out, size_t out_len);
uint32_t ql_next_writable(uint64_t *chain, size_t chain_len, const uint64_t *regions, size_t regions_len,
    const uint8_t *mem, size_t mem_len, uint64_t *out, size_t out_len);

/*
 * The descriptors that are left, or as many as there is room for. Answers how many, 0 at the end; or QL_CHAIN_SHORT,
 * QL_CHAIN_FIELD, QL_NO_ROOM.
 */
uint32_t ql_walk(uint64_t *chain, size_t chain_len, const uint64_t *regions, size_t regions_len,
    const uint8_t *mem, size_t mem_len, uint64_t *out, size_t out_len);

/*
 * ---- the used ring: what the device has done
 */

/*
 * Put: the chain that starts at head is done, and the device wrote len bytes to it. Answers 0; or
 * QL_INVALID_DESCRIPTOR_INDEX, QL_GUEST_MEMORY. That the head was taken and that so much was written is not tested: the
 * device knows. A driver that is told of more than was written reads what lay in its buffer before.
 */
uint32_t ql_add_used(uint64_t *state, size_t state_len, const uint64_t *regions, size_t regions_len,
    uint8_t *mem, size_t mem_len, uint16_t head, uint32_t len);

/*
 * Put, and where that is done the question of ql_needs_notification. Answers 1 or 0 as that does; or as ql_add_used, and
 * then nothing was put and nothing asked; or QL_NOT_ANSWERED.
 */
uint32_t ql_put_and_ask(uint64_t *state, size_t state_len, const uint64_t *regions, size_t regions_len,
    uint8_t *mem, size_t mem_len, uint16_t head, uint32_t len);

/* Answers the used ring's idx as it stands in memory, or QL_GUEST_MEMORY. */
uint32_t ql_used_idx(const uint64_t *state, size_t state_len, const uint64_t *regions, size_t regions_len,
    const uint8_t *mem, size_t mem_len);

/*
 * ---- notification
 */

/*
 * The question: must the driver be notified of what was put? Answers 1 or 0, without event index always 1; or
 * QL_GUEST_MEMORY, and it can be asked again.
 */
uint32_t ql_needs_notification(uint64_t *state, size_t state_len, const uint64_t *regions, size_t regions_len,
    const uint8_t *mem, size_t mem_len);

/* Stop: the driver need not notify the device for now. Answers 0, or QL_GUEST_MEMORY. */
uint32_t ql_disable_notification(uint64_t *state, size_t state_len, const uint64_t *regions, size_t regions_len,
    uint8_t *mem, size_t mem_len);

/*
 * Ask: the driver is to notify the device of the next entry. Answers 1 if something came in meanwhile, so that another pass
 * is due, else 0. Or QL_GUEST_MEMORY: where it was the idx that can't be read, the asking stands in memory.
 */
uint32_t ql_enable_notification(uint64_t *state, size_t state_len, const uint64_t *regions, size_t regions_len,
    uint8_t *mem, size_t mem_len);

#ifdef __cplusplus
}
#endif

#endif
