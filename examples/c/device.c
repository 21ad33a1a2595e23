/* SPDX-License-Identifier: Apache-2.0 AND BSD-3-Clause */
/*
 * A device and its main loop. It answers each request with the bytes that it was given, in capitals. The driver is played
 * by this program too: it lays the image and adds requests. At the end come calls that the library has to refuse.
 */
#include <ctype.h>
#include <inttypes.h>
#include <stdio.h>
#include <stdlib.h>
#include <string.h>

#include "queueledger.h"

/* An array as the library wants it lent: pointer and number of elements. */
#define LEND(array) (array), sizeof(array) / sizeof((array)[0])

/* The guest's memory begins at this guest address; there the driver has its three areas, for SIZE descriptors. */
#define BASE UINT64_C(0x100000000)
#define DESC (BASE + 0x000)
#define AVAIL (BASE + 0x100)
#define USED (BASE + 0x200)
#define SIZE 8

/* Everything that is lent. A chain has at most as many descriptors as the queue has places, so each fits into the array. */
struct device {
    uint64_t state[QL_STATE_WORDS];
    uint64_t chain[QL_CHAIN_WORDS];
    uint64_t regions[QL_TABLE_WORDS];
    uint64_t out[SIZE * QL_DESCRIPTOR_WORDS];
    uint8_t mem[4096];
};

/* Not assert(), which a build can leave out. */
static void expect(int holds, const char *what)
{
    if (!holds) {
        printf("not as expected: %s\n", what);
        exit(1);
    }
}

/* ---- the driver */

/* Numbers stand in guest memory with their lowest byte first. */
static void store(struct device *d, uint64_t addr, uint64_t value, int bytes)
{
    for (int i = 0; i < bytes; i++)
        d->mem[addr - BASE + i] = (uint8_t)(value >> 8 * i);
}

static void descriptor(struct device *d, int i, uint64_t addr, uint32_t len, uint16_t flags, uint16_t next)
{
    store(d, DESC + 16 * i, addr, 8);
    store(d, DESC + 16 * i + 8, len, 4);
    store(d, DESC + 16 * i + 12, flags, 2);
    store(d, DESC + 16 * i + 14, next, 2);
}

/* Three chains: from descriptor 0, from 2, and from 5, whose buffer runs past the end of memory. */
static void lay(struct device *d)
{
    memcpy(d->mem + 0x800, "hello", 5);
    descriptor(d, 0, BASE + 0x800, 5, QL_DESC_F_NEXT, 1);
    descriptor(d, 1, BASE + 0x900, 16, QL_DESC_F_WRITE, 0);
    memcpy(d->mem + 0x810, "to the device", 13);
    descriptor(d, 2, BASE + 0x810, 7, QL_DESC_F_NEXT, 3);
    descriptor(d, 3, BASE + 0x817, 6, QL_DESC_F_NEXT, 4);
    descriptor(d, 4, BASE + 0x910, 16, QL_DESC_F_WRITE, 0);
    descriptor(d, 5, BASE + 4090, 16, QL_DESC_F_WRITE, 0);
    /* used_event: the driver wants to hear of entry 1 of the used ring */
    store(d, AVAIL + 4 + 2 * SIZE, 1, 2);
}

/* Makes a chain available as entry `number`: first the entry, then idx. */
static void add(struct device *d, uint16_t number, uint16_t head)
{
    store(d, AVAIL + 4 + 2 * (number % SIZE), head, 2);
    store(d, AVAIL + 2, number + 1, 2);
}

/* ---- the device */

static void configure(struct device *d)
{
    uint32_t low, high = (uint32_t)(BASE >> 32);

    memset(d->regions, 0, sizeof d->regions);
    expect(ql_add_region(LEND(d->regions), sizeof d->mem, BASE, sizeof d->mem, 0) == 0, "a region is added");
    expect(ql_new(LEND(d->state), 256) == 0, "a queue of at most 256 places");
    expect(ql_set_size(LEND(d->state), SIZE) == 0, "the size");
    low = (uint32_t)DESC;
    expect(ql_set_desc_table_address(LEND(d->state), 1, low, 1, high) == 0, "the descriptor table");
    low = (uint32_t)AVAIL;
    expect(ql_set_avail_ring_address(LEND(d->state), 1, low, 1, high) == 0, "the available ring");
    low = (uint32_t)USED;
    expect(ql_set_used_ring_address(LEND(d->state), 1, low, 1, high) == 0, "the used ring");
    expect(ql_set_event_idx(LEND(d->state), 1) == 0, "event index");
    expect(ql_set_ready(LEND(d->state), 1) == 0, "ready");
    expect(ql_is_valid(LEND(d->state), LEND(d->regions), LEND(d->mem)) == 1, "the three areas are in memory");
    printf("configured: %d places, valid\n", SIZE);
}

/*
 * The bytes of a descriptor, or NULL. Its address and length are the guest's word: the library has read them and has not
 * looked at what they say. This device has one region, at offset 0.
 */
static uint8_t *bytes(struct device *d, const uint64_t *descriptor)
{
    uint64_t addr = descriptor[QL_DESCRIPTOR_ADDR], len = descriptor[QL_DESCRIPTOR_LEN];

    if (addr < BASE || addr - BASE > sizeof d->mem || len > sizeof d->mem - (addr - BASE))
        return NULL;
    return d->mem + (addr - BASE);
}

/* Serves the chain whose descriptors are in the array, and answers how many bytes were written. */
static uint32_t serve(struct device *d, uint32_t count)
{
    char text[64];
    uint32_t have = 0, done = 0;

    for (uint32_t i = 0; i < count; i++) {
        const uint64_t *x = d->out + QL_DESCRIPTOR_WORDS * i;
        uint64_t len = x[QL_DESCRIPTOR_LEN];
        int write = (x[QL_DESCRIPTOR_FLAGS] & QL_DESC_F_WRITE) != 0;
        uint8_t *b = bytes(d, x);

        printf("    %" PRIu64 " bytes to %s at 0x%" PRIx64 "%s\n", len, write ? "write" : "read", x[QL_DESCRIPTOR_ADDR],
            b ? "" : ": not in memory");
        if (!b)
            continue;
        if (write) {
            for (uint64_t k = 0; k < len && done < have; k++)
                b[k] = (uint8_t)text[done++];
        } else {
            for (uint64_t k = 0; k < len && have < sizeof text; k++)
                text[have++] = (char)toupper(b[k]);
        }
    }
    return done;
}

/* One pass over the available ring. Answers 0 where the guest has broken the queue, and the device has to give it up. */
static int pass(struct device *d)
{
    uint32_t last = ql_iter(LEND(d->state), LEND(d->regions), LEND(d->mem));

    if (QL_REFUSED(last))
        return 0;
    printf("a pass up to idx %" PRIu32 "\n", last);
    for (;;) {
        uint32_t count = ql_take(LEND(d->state), LEND(d->chain), LEND(d->regions), LEND(d->mem), (uint16_t)last, LEND(d->out));
        uint32_t written, notify;
        uint16_t head;

        if (count == QL_NONE)
            break;
        expect(!QL_REFUSED(count), "what is lent to take is right");
        head = (uint16_t)d->chain[QL_CHAIN_HEAD_INDEX];
        printf("  taken: head %d, descriptors: %" PRIu32 "\n", head, count);
        written = serve(d, count);
        notify = ql_put_and_ask(LEND(d->state), LEND(d->regions), LEND(d->mem), head, written);
        if (QL_REFUSED(notify))
            return 0;
        printf("  put: head %d, bytes written: %" PRIu32 "%s\n", head, written, notify ? "; the driver is notified" : "");
    }
    /* An entry that can't be read also ends a pass. Without this test a guest could keep the device in its loop for ever. */
    return d->state[QL_NEXT_AVAIL] == last;
}

/* ---- refusals */

/* Makes a call that has to be refused for this reason, and to leave everything that is lent as it was. */
static struct device before;
#define TRY(what, call, reason)                                            \
    do {                                                                   \
        uint32_t answer;                                                   \
        memcpy(&before, d, sizeof before);                                 \
        answer = (call);                                                   \
        printf("  %s: %" PRIu32 ", " #reason "\n", what, answer);          \
        expect(QL_REFUSED(answer) && answer == reason, #reason);           \
        expect(memcmp(&before, d, sizeof before) == 0, "nothing changed"); \
    } while (0)

static void refusals(struct device *d)
{
    uint16_t last = (uint16_t)(d->state[QL_NEXT_AVAIL] + 1);

    printf("refused, and nothing changed:\n");
    TRY("put, a state of 9 words", ql_put_and_ask(d->state, 9, LEND(d->regions), LEND(d->mem), 0, 1), QL_STATE_SHORT);
    TRY("new, a state of 9 words", ql_new(d->state, 9, 8), QL_STATE_SHORT);
    d->state[QL_SIZE] = 70000;
    TRY("put, a size of 70,000", ql_put_and_ask(LEND(d->state), LEND(d->regions), LEND(d->mem), 0, 1), QL_STATE_FIELD);
    d->state[QL_SIZE] = SIZE;
    d->state[QL_READY] = 2;
    TRY("put, a flag of 2", ql_put_and_ask(LEND(d->state), LEND(d->regions), LEND(d->mem), 0, 1), QL_STATE_FIELD);
    d->state[QL_READY] = 1;
    TRY("begin, an empty memory", ql_iter(LEND(d->state), LEND(d->regions), NULL, 0), QL_GUEST_MEMORY);
    TRY("put, an empty memory", ql_put_and_ask(LEND(d->state), LEND(d->regions), NULL, 0, 0, 1), QL_GUEST_MEMORY);
    TRY("begin, an empty table", ql_iter(LEND(d->state), NULL, 0, LEND(d->mem)), QL_GUEST_MEMORY);
    TRY("put, an empty table", ql_put_and_ask(LEND(d->state), NULL, 0, LEND(d->mem), 0, 1), QL_GUEST_MEMORY);
    TRY("take, a chain of 5 words",
        ql_take(LEND(d->state), d->chain, 5, LEND(d->regions), LEND(d->mem), last, LEND(d->out)), QL_CHAIN_SHORT);
    TRY("take, an array of 2 words",
        ql_take(LEND(d->state), LEND(d->chain), LEND(d->regions), LEND(d->mem), last, d->out, 2), QL_NO_ROOM);
    TRY("take, nothing lent at all", ql_take(NULL, 0, NULL, 0, NULL, 0, NULL, 0, last, NULL, 0), QL_CHAIN_SHORT);
    TRY("put, a head beyond the size", ql_put_and_ask(LEND(d->state), LEND(d->regions), LEND(d->mem), SIZE, 1),
        QL_INVALID_DESCRIPTOR_INDEX);
    TRY("add a region, a table that has it", ql_add_region(LEND(d->regions), sizeof d->mem, BASE, 16, 0), QL_REGION_OVERLAP);
}

int main(void)
{
    static struct device d;

    lay(&d);
    configure(&d);
    add(&d, 0, 0);
    add(&d, 1, 2);
    /* The main loop: tell the driver that it need not notify, serve what is there, ask for notifications again. */
    for (;;) {
        uint32_t more;

        expect(ql_disable_notification(LEND(d.state), LEND(d.regions), LEND(d.mem)) == 0, "stop");
        expect(pass(&d), "the guest keeps the queue whole");
        /* The driver may add a request just now, before the device has asked to be notified. Here it does so once. */
        if (d.state[QL_NEXT_AVAIL] == 2)
            add(&d, 2, 5);
        more = ql_enable_notification(LEND(d.state), LEND(d.regions), LEND(d.mem));
        expect(!QL_REFUSED(more), "ask");
        if (!more)
            break; /* here a device waits for the driver's notification */
        printf("asked: something came in meanwhile\n");
    }
    printf("asked: nothing came in\n");
    expect(memcmp(d.mem + 0x900, "HELLO", 5) == 0, "the first answer");
    expect(memcmp(d.mem + 0x910, "TO THE DEVICE", 13) == 0, "the second answer");
    refusals(&d);
    printf("all as expected\n");
    return 0;
}
