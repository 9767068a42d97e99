/* Every call, every kind of answer and every refusal through include/damsonpouch.h, with each field of the reply and the block's
 * bytes after it. What is due is worked out by hand from documents 01 and 02; the blocks are composed byte by byte.
 * bin/test-host builds and runs this. */
#include "damsonpouch.h"

#include <stdarg.h>
#include <stdio.h>
#include <stdlib.h>
#include <string.h>

#define LENGTH DAMSONPOUCH_BLOCK_LENGTH
#define FREE DAMSONPOUCH_FREE
#define WAITING DAMSONPOUCH_WAITING
#define BLOCKED DAMSONPOUCH_BLOCKED

_Static_assert(sizeof(damsonpouch_reply) == 12, "the reply has 12 bytes");
_Static_assert(offsetof(damsonpouch_reply, serial) == 4 && offsetof(damsonpouch_reply, burnt) == 8, "where its numbers stand");
_Static_assert(offsetof(damsonpouch_reply, clashed) == 6 && offsetof(damsonpouch_reply, lowest) == 7, "where its clash stands");
_Static_assert(sizeof(damsonpouch_counts) == 8, "the counts have 8 bytes");
_Static_assert(offsetof(damsonpouch_counts, written) == 2 && offsetof(damsonpouch_counts, read) == 4 &&
                   offsetof(damsonpouch_counts, either) == 6,
    "where they stand");

static int checks, wrong;

/* ---- blocks, composed */

static uint8_t now[LENGTH], due[LENGTH];

static void put16(uint8_t *at, unsigned number) {
    at[0] = (uint8_t)(number >> 8);
    at[1] = (uint8_t)number;
}

static void fuel(uint8_t *block, int tenant, uint32_t units) {
    put16(block + 22 + 6 * (tenant - 1), units >> 16);
    put16(block + 24 + 6 * (tenant - 1), units & 0xffff);
}

static void serials(uint8_t *block, int tenant, unsigned given) { put16(block + 26 + 6 * (tenant - 1), given); }

/* A fresh state in which the first tenants have these shares; the others have none. */
static void fresh(uint8_t *block, const char *shares) {
    memset(block, 0, LENGTH);
    memcpy(block, "\x11\x00\x10", 3);
    memcpy(block + 19, "\x12\x00\x60", 3);
    memcpy(block + 118, "\x13\x01\x00", 3);
    memcpy(block + 377, "\x14\x01\x00", 3);
    memcpy(block + 636, "\x15\x06\x01", 3);
    for (size_t k = 0; shares[k] != 0; k++)
        block[3 + k] = (uint8_t)(shares[k] - '0');
}

/* One more entry at the back. No record of a list is 0 here. */
static void entry(uint8_t *block, int tenant, unsigned serial, int state, int awaited, int still_due, const char *reads,
    const char *writes) {
    uint8_t *at = block + 640 + 24 * block[639]++;
    size_t r = strlen(reads), w = strlen(writes), k;
    at[0] = (uint8_t)tenant;
    put16(at + 1, serial);
    at[3] = (uint8_t)state;
    at[4] = (uint8_t)awaited;
    at[5] = (uint8_t)still_due;
    at[6] = (uint8_t)r;
    at[7] = (uint8_t)w;
    memcpy(at + 8, reads, r);
    memcpy(at + 8 + r, writes, w);
    for (k = 0; k < r; k++)
        block[380 + (uint8_t)reads[k]]++;
    for (k = 0; k < w; k++)
        block[121 + (uint8_t)writes[k]]++;
}

static void base_meters(uint8_t *block) {
    fresh(block, "312");
    fuel(block, 1, 40);
    fuel(block, 2, 30);
    serials(block, 1, 2);
    serials(block, 2, 1);
}

/* The place of no entry. */
#define NOBODY (-1)

/* What is left of the base without the entry at this place. */
static void base_without(uint8_t *block, int place) {
    base_meters(block);
    if (place != 0)
        entry(block, 1, 1, FREE, 0, 0, "", "\x0a");
    if (place != 1)
        entry(block, 1, 2, WAITING, 2, 1, "\x14", "");
    if (place != 2)
        entry(block, 2, 1, BLOCKED, 0, 0, "\x05", "\x0a\x0c");
}

/* Tenant 1 runs 1.1 and waits with 1.2, which the second of two answers is due to; 2.1 is blocked behind 1.1. Tenant 2 holds its
 * one place; tenant 3 has places and no fuel. */
static void base(uint8_t *block) { base_without(block, NOBODY); }

/* Both blocks as the base. A test changes `now`, calls on it, and says in `due` what it shall then be. */
static void start(void) {
    base(now);
    base(due);
}

/* ---- what is checked */

static void tell(int line, const char *form, ...) {
    va_list words;
    va_start(words, form);
    fprintf(stderr, "calls.c:%d: ", line);
    vfprintf(stderr, form, words);
    fprintf(stderr, "\n");
    va_end(words);
    wrong++;
}

/* The lowest record of a clash where there is none. */
#define NONE (-1)

static void same_begun(int line, damsonpouch_reply got, int kind, int number, int state, int tenant, unsigned serial, int lowest,
    uint32_t burnt) {
    const int clashed = lowest != NONE, record = clashed ? lowest : 0;
    checks++;
    if (got.kind != kind || got.number != number || got.state != state || got.tenant != tenant || got.serial != serial ||
        got.clashed != clashed || got.lowest != record || got.burnt != burnt)
        tell(line, "the reply is %d %d %d %d %d %d %d %lu, due is %d %d %d %d %u %d %d %lu", got.kind, got.number, got.state,
            got.tenant, got.serial, got.clashed, got.lowest, (unsigned long)got.burnt, kind, number, state, tenant, serial, clashed,
            record, (unsigned long)burnt);
}

/* A reply without a clash. */
static void same_reply(int line, damsonpouch_reply got, int kind, int number, int state, int tenant, unsigned serial,
    uint32_t burnt) {
    same_begun(line, got, kind, number, state, tenant, serial, NONE, burnt);
}

static void same_counts(int line, damsonpouch_counts got, int number, int written, int read, int either) {
    checks++;
    if (got.number != number || got.written != written || got.read != read || got.either != either)
        tell(line, "held is %d %d %d %d, due is %d %d %d %d", got.number, got.written, got.read, got.either, number, written, read,
            either);
}

/* `now` is `due`. */
static void same_block(int line) {
    for (size_t at = 0; at < LENGTH; at++)
        if (now[at] != due[at]) {
            tell(line, "byte %lu of the block is %d, due is %d", (unsigned long)at, now[at], due[at]);
            return;
        }
}

#define PLAIN(call, kind) (same_reply(__LINE__, call, kind, 0, 0, 0, 0, 0), same_block(__LINE__))
#define BURNS(call, kind, burnt) (same_reply(__LINE__, call, kind, 0, 0, 0, 0, burnt), same_block(__LINE__))
#define NAMES(call, state, tenant, serial, burnt)                                                                               \
    (same_reply(__LINE__, call, DAMSONPOUCH_ENTRY, 0, state, tenant, serial, burnt), same_block(__LINE__))
#define CLASHES(call, tenant, serial, lowest, burnt)                                                                            \
    (same_begun(__LINE__, call, DAMSONPOUCH_ENTRY, 0, BLOCKED, tenant, serial, lowest, burnt), same_block(__LINE__))
#define HOLDS(written, read, either) (same_counts(__LINE__, HELD(), 0, written, read, either), same_block(__LINE__))
#define REFUSES(call, number, burnt)                                                                                            \
    (same_reply(__LINE__, call, DAMSONPOUCH_REFUSED, number, 0, 0, 0, burnt), same_block(__LINE__))
#define SOUND(verdict)                                                                                                          \
    do {                                                                                                                        \
        checks++;                                                                                                               \
        if (damsonpouch_sound(now, LENGTH) != (verdict))                                                                        \
            tell(__LINE__, "the block is %s", (verdict) ? "not sound" : "sound");                                               \
    } while (0)

/* The calls on `now`. */
#define OPEN(shares, count) damsonpouch_open(now, LENGTH, shares, count)
#define GRANT(tenant, amount) damsonpouch_grant(now, LENGTH, tenant, amount)
#define BEGIN(tenant, awaited, reads, r, writes, w)                                                                             \
    damsonpouch_begin(now, LENGTH, tenant, awaited, (const uint8_t *)(reads), r, (const uint8_t *)(writes), w)
#define FINISH(tenant, serial) damsonpouch_finish(now, LENGTH, tenant, serial)
#define RECHECK(tenant, serial) damsonpouch_recheck(now, LENGTH, tenant, serial)
#define SCAN(tenant) damsonpouch_scan(now, LENGTH, tenant)
#define PICK() damsonpouch_pick(now, LENGTH)
#define DELIVER(tenant, serial) damsonpouch_deliver(now, LENGTH, tenant, serial)
#define EVICT(tenant, serial) damsonpouch_evict(now, LENGTH, tenant, serial)
#define CANCEL(tenant, serial) damsonpouch_cancel(now, LENGTH, tenant, serial)
#define HELD() damsonpouch_held(now, LENGTH)

static const uint8_t two_two[16] = {2, 2};
static const uint8_t fours[17] = {4, 4, 4, 4, 4, 4, 4, 4, 4, 4, 4, 4, 4, 4, 4, 4, 0};
static const uint8_t sixty_five[16] = {4, 4, 4, 4, 4, 4, 4, 4, 4, 4, 4, 4, 4, 4, 4, 5};
static uint8_t long_list[300];

/* ---- the calls and their answers */

static void opens(void) {
    fresh(due, "22");
    memset(now, 0xff, LENGTH);
    PLAIN(OPEN(two_two, 16), DAMSONPOUCH_OK);
    SOUND(true);
    memset(now, 0, LENGTH);
    SOUND(false);
    PLAIN(OPEN(two_two, 16), DAMSONPOUCH_OK);
    base(now);
    PLAIN(OPEN(two_two, 16), DAMSONPOUCH_OK);
    fresh(due, "4444444444444444");
    PLAIN(OPEN(fours, 16), DAMSONPOUCH_OK);
}

static void grants(void) {
    start();
    fuel(due, 1, 45);
    PLAIN(GRANT(1, 5), DAMSONPOUCH_OK);
    fuel(due, 1, 1000000000);
    PLAIN(GRANT(1, 999999955), DAMSONPOUCH_OK);
    fuel(due, 16, 0x01020304);
    PLAIN(GRANT(16, 0x01020304), DAMSONPOUCH_OK);
    PLAIN(GRANT(2, 0), DAMSONPOUCH_OK);
}

static void begins(void) {
    start();
    fuel(due, 1, 34);
    serials(due, 1, 3);
    entry(due, 1, 3, FREE, 0, 0, "\x14", "\x1e");
    NAMES(BEGIN(1, 0, "\x14", 1, "\x1e", 1), FREE, 1, 3, 6);

    start();
    fuel(due, 1, 36);
    serials(due, 1, 3);
    entry(due, 1, 3, WAITING, 15, 15, "", "\x28");
    NAMES(BEGIN(1, 15, NULL, 0, "\x28", 1), WAITING, 1, 3, 4);

    start();
    fuel(due, 1, 34);
    serials(due, 1, 3);
    entry(due, 1, 3, BLOCKED, 2, 2, "\x0c\xff", "");
    CLASHES(BEGIN(1, 2, "\x0c\xff", 2, NULL, 0), 1, 3, 12, 6);

    /* both lists empty, and NULL */
    start();
    fuel(due, 1, 38);
    serials(due, 1, 3);
    entry(due, 1, 3, FREE, 0, 0, "", "");
    NAMES(BEGIN(1, 0, NULL, 0, NULL, 0), FREE, 1, 3, 2);

    /* eight of each */
    start();
    fuel(due, 1, 6);
    serials(due, 1, 3);
    entry(due, 1, 3, FREE, 0, 0, "\x01\x02\x03\x04\x06\x07\x08\x09", "\x65\x66\x67\x68\x69\x6a\x6b\xff");
    NAMES(BEGIN(1, 0, "\x01\x02\x03\x04\x06\x07\x08\x09", 8, "\x65\x66\x67\x68\x69\x6a\x6b\xff", 8), FREE, 1, 3, 34);

    /* the last serial, and the last unit of fuel: a dry tank can let go */
    fresh(now, "1");
    fresh(due, "1");
    fuel(now, 1, 4);
    serials(now, 1, 65534);
    serials(due, 1, 65535);
    entry(due, 1, 65535, FREE, 0, 0, "", "\x07");
    NAMES(BEGIN(1, 0, NULL, 0, "\x07", 1), FREE, 1, 65535, 4);
    fresh(due, "1");
    serials(due, 1, 65535);
    PLAIN(FINISH(1, 65535), DAMSONPOUCH_DONE);
}

/* A Begin of tenant 1 on the base, with these lists as given, is stored with those: 1.3, Free, at this price. It is admitted on a
 * tank of just the price, and refused with 9 on one unit less. */
static void reduces(int line, const char *reads, const char *writes, const char *only_read, const char *written, uint32_t price) {
    const size_t r = strlen(reads), w = strlen(writes);
    start();
    fuel(now, 1, price);
    fuel(due, 1, 0);
    serials(due, 1, 3);
    entry(due, 1, 3, FREE, 0, 0, only_read, written);
    same_reply(line, BEGIN(1, 0, reads, r, writes, w), DAMSONPOUCH_ENTRY, 0, FREE, 1, 3, price);
    same_block(line);
    start();
    fuel(now, 1, price - 1);
    fuel(due, 1, price - 2);
    same_reply(line, BEGIN(1, 0, reads, r, writes, w), DAMSONPOUCH_REFUSED, DAMSONPOUCH_FUEL_BELOW_PRICE, 0, 0, 0, 1);
    same_block(line);
}

/* Tenants 1 and 2 have two places each; 1.1 writes 7. */
static void stock(uint8_t *block, uint32_t units) {
    fresh(block, "22");
    fuel(block, 2, units);
    serials(block, 1, 1);
    entry(block, 1, 1, FREE, 0, 0, "", "\x07");
}

/* A record in both lists counts as written only: it raises Cx and not Cs, is counted once in n, and is stored among the writes
 * alone. */
static void overlaps(void) {
    static const uint8_t seven[] = {7}, eight[] = {30, 31, 32, 33, 34, 35, 36, 37};
    reduces(__LINE__, "\x07", "\x07", "", "\x07", 4);
    reduces(__LINE__, "\x07\x07", "\x07", "", "\x07", 4);
    reduces(__LINE__, "\x09\x03", "\x09", "\x03", "\x09", 6);
    reduces(__LINE__, "\x07\x15", "\x07", "\x15", "\x07", 6);
    reduces(__LINE__, "\xff\x01\xff\x02", "\x03\xff", "\x01\x02", "\x03\xff", 10);
    reduces(__LINE__, "\x06\x07\x08", "\x06\x07\x08", "", "\x06\x07\x08", 8);

    /* one list in memory for both */
    start();
    fuel(due, 1, 22);
    serials(due, 1, 3);
    entry(due, 1, 3, FREE, 0, 0, "", "\x1e\x1f\x20\x21\x22\x23\x24\x25");
    NAMES(BEGIN(1, 0, eight, 8, eight, 8), FREE, 1, 3, 18);

    /* two that read and write 7, in every mix with one that only writes it: the second is Blocked */
    for (int both = 0; both < 2; both++) {
        fresh(now, "22");
        fuel(now, 1, 4);
        fuel(now, 2, 4);
        stock(due, 4);
        NAMES(BEGIN(1, 0, seven, both, seven, 1), FREE, 1, 1, 4);
        stock(now, 4);
        stock(due, 0);
        serials(due, 2, 1);
        entry(due, 2, 1, BLOCKED, 0, 0, "", "\x07");
        CLASHES(BEGIN(2, 0, seven, both, seven, 1), 2, 1, 7, 4);
    }
    /* a reader of 7 waits behind them; one of another record, which it writes too, does not */
    stock(now, 8);
    stock(due, 4);
    serials(due, 2, 1);
    entry(due, 2, 1, BLOCKED, 0, 0, "\x07", "");
    CLASHES(BEGIN(2, 0, seven, 1, NULL, 0), 2, 1, 7, 4);
    fuel(due, 2, 0);
    serials(due, 2, 2);
    entry(due, 2, 2, FREE, 0, 0, "", "\x09");
    NAMES(BEGIN(2, 0, "\x09\x09", 2, "\x09", 1), FREE, 2, 2, 4);
}

/* Tenant 1 runs one entry with these lists; tenant 2 has a place and fuel for a request of n records. */
static void held_by_one(uint8_t *block, const uint8_t *reads, size_t r, const uint8_t *writes, size_t w, unsigned n) {
    fresh(block, "11");
    fuel(block, 2, 2 + 2 * n);
    serials(block, 1, 1);
    entry(block, 1, 1, FREE, 0, 0, "", "");
    block[646] = (uint8_t)r;
    block[647] = (uint8_t)w;
    for (size_t k = 0; k < r + w; k++) {
        const uint8_t record = k < r ? reads[k] : writes[k - r];
        block[648 + k] = record;
        block[(k < r ? 380 : 121) + record]++;
    }
}

/* Every record, by a read of what is written, a write over a write and a write over a read. Two readers do not clash. */
static void clashes_on_every_record(void) {
    for (int record = 0; record < 256; record++) {
        const uint8_t one[] = {(uint8_t)record};
        for (int way = 0; way < 4; way++) {
            const size_t held_writes = (size_t)way & 1, asked_writes = (size_t)way >> 1;
            held_by_one(now, one, 1 - held_writes, one, held_writes, 1);
            const damsonpouch_reply begun = BEGIN(2, 0, one, 1 - asked_writes, one, asked_writes);
            same_begun(__LINE__, begun, DAMSONPOUCH_ENTRY, 0, way == 0 ? FREE : BLOCKED, 2, 1, way == 0 ? NONE : record, 4);
            same_counts(__LINE__, HELD(), 0, (held_writes | asked_writes) != 0, (held_writes & asked_writes) == 0, 1);
        }
    }
}

/* What a Blocked Begin is told, and no other call tells. */
static void clashes(void) {
    static const uint8_t borders[] = {0, 63, 64, 127, 128, 191, 192, 255};
    for (size_t k = 0; k < 8; k++) {
        /* from each border on: the lowest of those asked for, in either list */
        held_by_one(now, NULL, 0, borders, 8, 8);
        same_begun(__LINE__, BEGIN(2, 0, borders + k, 8 - k, NULL, 0), 5, 0, BLOCKED, 2, 1, borders[k], (uint32_t)(18 - 2 * k));
        held_by_one(now, borders, 8, NULL, 0, 8);
        same_begun(__LINE__, BEGIN(2, 0, NULL, 0, borders + k, 8 - k), 5, 0, BLOCKED, 2, 1, borders[k], (uint32_t)(18 - 2 * k));
    }
    /* on the base: 5, 20 are read, 10 and 12 written. The lowest is among the writes, among the reads; lower ones that both read
     * or that nobody has */
    start();
    fuel(due, 1, 34);
    serials(due, 1, 3);
    entry(due, 1, 3, BLOCKED, 1, 1, "\x0c", "\x0a");
    CLASHES(BEGIN(1, 1, "\x0c", 1, "\x0a", 1), 1, 3, 10, 6);
    due[640 + 72 + 5] = 0;
    NAMES(DELIVER(1, 3), BLOCKED, 1, 3, 0);
    start();
    fuel(due, 1, 34);
    serials(due, 1, 3);
    entry(due, 1, 3, BLOCKED, 0, 0, "\x0c", "\x14");
    CLASHES(BEGIN(1, 0, "\x0c", 1, "\x14", 1), 1, 3, 12, 6);
    start();
    fuel(due, 1, 32);
    serials(due, 1, 3);
    entry(due, 1, 3, BLOCKED, 0, 0, "\x05\x0c", "\x0b");
    CLASHES(BEGIN(1, 0, "\x05\x0c", 2, "\x0b", 1), 1, 3, 12, 8);
}

/* How many records are held: none, some, as many after a Finish that leaves each to another, and with records in both counts. */
static void holds(void) {
    fresh(now, "11");
    fresh(due, "11");
    HOLDS(0, 0, 0);
    start();
    HOLDS(2, 2, 4);
    /* 1.1 leaves, and 2.1 still writes 10 */
    base_without(due, 0);
    PLAIN(FINISH(1, 1), DAMSONPOUCH_DONE);
    HOLDS(2, 2, 4);
    /* one entry; then another, which reads what it writes and writes what it reads */
    fresh(now, "12");
    serials(now, 2, 2);
    entry(now, 2, 1, FREE, 0, 0, "\x05", "\x0a\x0c");
    memcpy(due, now, LENGTH);
    HOLDS(2, 1, 3);
    entry(now, 2, 2, BLOCKED, 0, 0, "\x0a", "\x05");
    memcpy(due, now, LENGTH);
    HOLDS(3, 2, 3);
}

static void finishes_and_searches(void) {
    start();
    base_without(due, 0);
    PLAIN(FINISH(1, 1), DAMSONPOUCH_DONE);

    start();
    fuel(due, 2, 26);
    BURNS(RECHECK(2, 1), DAMSONPOUCH_STILL, 4);
    fuel(due, 2, 17);
    BURNS(SCAN(2), DAMSONPOUCH_NOTHING, 9);

    base_without(now, 0);
    base_without(due, 0);
    fuel(due, 2, 26);
    due[640 + 24 + 3] = FREE;
    NAMES(RECHECK(2, 1), FREE, 2, 1, 4);

    base_without(now, 0);
    base_without(due, 0);
    fuel(due, 1, 33);
    BURNS(SCAN(1), DAMSONPOUCH_NOTHING, 7);
    fuel(due, 2, 23);
    due[640 + 24 + 3] = FREE;
    NAMES(SCAN(2), FREE, 2, 1, 7);
}

static void picks_and_delivers(void) {
    start();
    PLAIN(PICK(), DAMSONPOUCH_NOTHING);
    due[640 + 24 + 3] = FREE;
    due[640 + 24 + 5] = 0;
    NAMES(DELIVER(1, 2), FREE, 1, 2, 0);

    start();
    now[640 + 24 + 5] = 2;
    NAMES(DELIVER(1, 2), WAITING, 1, 2, 0);

    start();
    now[640 + 48 + 4] = now[640 + 48 + 5] = due[640 + 48 + 4] = 1;
    NAMES(DELIVER(2, 1), BLOCKED, 2, 1, 0);

    fresh(now, "1");
    fresh(due, "1");
    PLAIN(PICK(), DAMSONPOUCH_NOTHING);
}

/* 1.300 in the state given, with three answers awaited and so many still due, alone in the queue. */
static void alone(uint8_t *block, int state, int still_due, uint32_t units) {
    fresh(block, "1");
    serials(block, 1, 300);
    fuel(block, 1, units);
    entry(block, 1, 300, state, 3, still_due, "\x05", "");
}

/* A promoted entry is Waiting only if an answer is still due, else Free; and then it can leave, on a dry tank too. */
static void promotes(void) {
    for (int still_due = 0; still_due <= 3; still_due++) {
        const int state = still_due > 0 ? WAITING : FREE;
        alone(now, BLOCKED, still_due, 2);
        alone(due, state, still_due, 0);
        NAMES(RECHECK(1, 300), state, 1, 300, 2);
        alone(now, BLOCKED, still_due, 3);
        NAMES(SCAN(1), state, 1, 300, 3);
        alone(now, BLOCKED, still_due, 0);
        NAMES(PICK(), state, 1, 300, 0);
        for (int left = still_due - 1; left >= 0; left--) {
            alone(due, left > 0 ? WAITING : FREE, left, 0);
            NAMES(DELIVER(1, 300), left > 0 ? WAITING : FREE, 1, 300, 0);
        }
        fresh(due, "1");
        serials(due, 1, 300);
        PLAIN(FINISH(1, 300), DAMSONPOUCH_DONE);
    }
}

static const uint8_t three_tenants[] = {1, 2, 1};
static const uint16_t three_serials[] = {1, 1, 2};

/* 1.1, 2.1 and 1.2, without the one at this place. `states` has their states as digits of three, the front's lowest. Each reads 5
 * and a record of its own, and writes one of its own. Both tenants hold all their places, and have this fuel. */
static void three(uint8_t *block, int states, int without, uint32_t units) {
    static const char *const reads[] = {"\x05\x64", "\x05\x65", "\x05\x66"}, *const writes[] = {"\x1e", "\x1f", "\x20"};
    fresh(block, "21");
    fuel(block, 1, units);
    fuel(block, 2, units);
    serials(block, 1, 2);
    serials(block, 2, 1);
    for (int k = 0; k < 3; k++, states /= 3)
        if (k != without)
            entry(block, three_tenants[k], three_serials[k], states % 3, 2, states % 3 != FREE, reads[k], writes[k]);
}

/* Every state at every place, beside all others. Evict takes any of them out, on a dry tank and on one that holds no more, and
 * burns nothing; Cancel a Blocked one, for a unit, to the last. */
static void takes_out_of_three(void) {
    static const uint32_t tanks[] = {0, 1, 1000000000};
    for (int states = 0; states < 27; states++)
        for (int k = 0; k < 3; k++) {
            const int state = k == 0 ? states % 3 : k == 1 ? states / 3 % 3 : states / 9;
            const uint8_t tenant = three_tenants[k];
            const uint16_t serial = three_serials[k];
            for (size_t tank = 0; tank < 3; tank++) {
                three(now, states, NOBODY, tanks[tank]);
                three(due, states, k, tanks[tank]);
                PLAIN(EVICT(tenant, serial), DAMSONPOUCH_DONE);
                SOUND(true);
            }
            for (size_t tank = 1; tank < 3; tank++) {
                three(now, states, NOBODY, tanks[tank]);
                three(due, states, state == BLOCKED ? k : NOBODY, tanks[tank]);
                fuel(due, tenant, tanks[tank] - 1);
                if (state == BLOCKED)
                    BURNS(CANCEL(tenant, serial), DAMSONPOUCH_DONE, 1);
                else
                    REFUSES(CANCEL(tenant, serial), DAMSONPOUCH_WRONG_STATE, 1);
                SOUND(true);
            }
        }
}

/* 64 Blocked entries, 1.700 and on, without the one at this place. Each reads a record of its own; all write 200. */
static void sixty_four(uint8_t *block, int without) {
    fresh(block, "p"); /* 64 */
    fuel(block, 1, 9);
    serials(block, 1, 900);
    for (int k = 0; k < 64; k++) {
        const char own[] = {(char)(k + 1), 0};
        if (k != without)
            entry(block, 1, 700 + (unsigned)k, BLOCKED, 0, 0, own, "\xc8");
    }
}

/* An entry is taken out by the host in any state, and a Blocked one by its tenant for a unit. Both release counters and place, and
 * refund no fuel. */
static void takes_out(void) {
    /* at the front, in the middle, last; what another entry has too is still held */
    start();
    base_without(due, 0);
    PLAIN(EVICT(1, 1), DAMSONPOUCH_DONE);
    HOLDS(2, 2, 4);
    start();
    base_without(due, 1);
    PLAIN(EVICT(1, 2), DAMSONPOUCH_DONE);
    HOLDS(2, 1, 3);
    start();
    base_without(due, 2);
    PLAIN(EVICT(2, 1), DAMSONPOUCH_DONE);
    HOLDS(1, 1, 2);
    start();
    base_without(due, 2);
    fuel(due, 2, 29);
    BURNS(CANCEL(2, 1), DAMSONPOUCH_DONE, 1);
    HOLDS(1, 1, 2);
    /* tenant 2 has its place again, and the next serial; 12 is let go */
    fuel(due, 2, 25);
    serials(due, 2, 2);
    entry(due, 2, 2, FREE, 0, 0, "", "\x0c");
    NAMES(BEGIN(2, 0, NULL, 0, "\x0c", 1), FREE, 2, 2, 4);
    fuel(due, 2, 24);
    REFUSES(BEGIN(2, 0, NULL, 0, NULL, 0), 7, 1);

    takes_out_of_three();
    for (int k = 0; k < 64; k++) {
        const uint16_t serial = (uint16_t)(700 + k);
        sixty_four(now, NOBODY);
        sixty_four(due, k);
        PLAIN(EVICT(1, serial), DAMSONPOUCH_DONE);
        sixty_four(now, NOBODY);
        fuel(due, 1, 8);
        BURNS(CANCEL(1, serial), DAMSONPOUCH_DONE, 1);
    }

    /* none, some or all answers of a Blocked one have come */
    for (int still_due = 0; still_due <= 3; still_due++) {
        fresh(due, "1");
        serials(due, 1, 300);
        alone(now, BLOCKED, still_due, 1);
        BURNS(CANCEL(1, 300), DAMSONPOUCH_DONE, 1);
        alone(now, BLOCKED, still_due, 0);
        PLAIN(EVICT(1, 300), DAMSONPOUCH_DONE);
    }
}

/* Nobody is promoted by an eviction: 2.1, behind 1.1, is still Blocked, and then the host picks it. 1.1 is nobody's name. */
static void promotes_nobody(void) {
    start();
    base_without(due, 0);
    PLAIN(EVICT(1, 1), DAMSONPOUCH_DONE);
    PLAIN(PICK(), DAMSONPOUCH_NOTHING);
    base_meters(due);
    entry(due, 2, 1, BLOCKED, 0, 0, "\x05", "\x0a\x0c");
    PLAIN(EVICT(1, 2), DAMSONPOUCH_DONE);
    due[640 + 3] = FREE;
    NAMES(PICK(), FREE, 2, 1, 0);
    fuel(due, 1, 39);
    REFUSES(FINISH(1, 1), DAMSONPOUCH_NO_SUCH_ENTRY, 1);
    REFUSES(EVICT(1, 1), 10, 0);
}

/* ---- the refusals, by their numbers */

static void refusals_1_and_2(void) {
    start();
    for (int tenant = 0; tenant < 256; tenant += tenant == 0 ? 17 : 1) {
        REFUSES(GRANT((uint8_t)tenant, 1), DAMSONPOUCH_NO_SUCH_TENANT, 0);
        REFUSES(BEGIN((uint8_t)tenant, 16, long_list, 9, NULL, 0), 1, 0);
        REFUSES(FINISH((uint8_t)tenant, 1), 1, 0);
        REFUSES(RECHECK((uint8_t)tenant, 1), 1, 0);
        REFUSES(SCAN((uint8_t)tenant), 1, 0);
        REFUSES(DELIVER((uint8_t)tenant, 1), 1, 0);
        REFUSES(EVICT((uint8_t)tenant, 1), 1, 0);
        REFUSES(CANCEL((uint8_t)tenant, 1), 1, 0);
    }
    REFUSES(BEGIN(3, 16, long_list, 9, NULL, 0), DAMSONPOUCH_DRY, 0);
    REFUSES(FINISH(3, 1), 2, 0);
    REFUSES(RECHECK(3, 1), 2, 0);
    REFUSES(SCAN(3), 2, 0);
    REFUSES(CANCEL(3, 1), 2, 0);
    /* of Cancel before 11 too; and not of Evict, which is the host's */
    REFUSES(EVICT(3, 1), DAMSONPOUCH_NO_SUCH_ENTRY, 0);
    fuel(now, 1, 0);
    fuel(due, 1, 0);
    fuel(now, 2, 0);
    fuel(due, 2, 0);
    REFUSES(CANCEL(1, 1), 2, 0);
    REFUSES(CANCEL(2, 1), 2, 0);
}

/* Burns one unit of tenant 1's 40, and changes nothing else. */
#define CHARGES(call, number) (start(), fuel(due, 1, 39), REFUSES(call, number, 1))

static void refusals_3_to_8(void) {
    CHARGES(BEGIN(1, 255, long_list, 9, NULL, 0), DAMSONPOUCH_TOO_MANY_RECORDS);
    CHARGES(BEGIN(1, 0, NULL, 0, long_list, 9), 3);
    CHARGES(BEGIN(1, 0, long_list, 300, NULL, 0), 3);
    CHARGES(BEGIN(1, 0, NULL, 0, long_list, 300), 3);
    CHARGES(BEGIN(1, 0, long_list, 256, long_list, 256), 3);
    CHARGES(BEGIN(1, 0, NULL, 0, "\x07\x07", 2), DAMSONPOUCH_NOT_RISING);
    CHARGES(BEGIN(1, 16, "\x08\x07", 2, NULL, 0), 4);
    /* with a record in both lists: 3 goes by the lists as given, 4 by the reduced ones, and 5 is no longer given */
    CHARGES(BEGIN(1, 16, long_list, 9, long_list, 8), 3);
    CHARGES(BEGIN(1, 0, "\x07\x07\x07\x07\x07\x07\x07\x07\x07", 9, "\x07", 1), 3);
    CHARGES(BEGIN(1, 16, "\x03\x09\x03", 3, "\x09", 1), 4);
    CHARGES(BEGIN(1, 16, "\x07", 1, "\x07\x07", 2), 4);
    CHARGES(BEGIN(1, 16, "\x07", 1, "\x07", 1), DAMSONPOUCH_AWAITED_TOO_HIGH);
    CHARGES(BEGIN(1, 16, NULL, 0, "\x07", 1), 6);
    CHARGES(BEGIN(1, 255, NULL, 0, NULL, 0), 6);
    start();
    fuel(due, 2, 29);
    REFUSES(BEGIN(2, 0, NULL, 0, NULL, 0), DAMSONPOUCH_SHARE_HELD, 1);
    start();
    serials(now, 1, 65535);
    serials(due, 1, 65535);
    fuel(due, 1, 39);
    REFUSES(BEGIN(1, 0, NULL, 0, "\x07", 1), DAMSONPOUCH_SERIALS_GIVEN, 1);
}

static void refusals_9_to_13(void) {
    start();
    fuel(now, 1, 3);
    fuel(due, 1, 2);
    REFUSES(BEGIN(1, 0, NULL, 0, "\x07", 1), DAMSONPOUCH_FUEL_BELOW_PRICE, 1);
    fuel(now, 2, 3);
    fuel(due, 2, 2);
    REFUSES(RECHECK(2, 1), 9, 1);
    /* 1 for the scan, 2 for 1.1, 2 for 1.2; 2.1 would cost 4 */
    fuel(now, 2, 8);
    fuel(due, 2, 3);
    REFUSES(SCAN(2), 9, 5);
    fuel(due, 2, 0);
    REFUSES(SCAN(2), 9, 3);

    CHARGES(FINISH(1, 3), DAMSONPOUCH_NO_SUCH_ENTRY);
    CHARGES(FINISH(1, 257), 10);
    CHARGES(RECHECK(1, 65535), 10);
    CHARGES(FINISH(1, 2), DAMSONPOUCH_WRONG_STATE);
    CHARGES(RECHECK(1, 1), 11);
    CHARGES(CANCEL(1, 3), 10);
    CHARGES(CANCEL(1, 0), 10);
    CHARGES(CANCEL(1, 257), 10);
    CHARGES(CANCEL(1, 65535), 10);
    CHARGES(CANCEL(1, 1), 11);
    CHARGES(CANCEL(1, 2), 11);
    /* 1.2 is there, and no 2.2: a tenant cancels its own */
    start();
    fuel(now, 2, 1);
    fuel(due, 2, 0);
    REFUSES(CANCEL(2, 2), 10, 1);

    start();
    REFUSES(EVICT(1, 3), 10, 0);
    REFUSES(EVICT(1, 0), 10, 0);
    REFUSES(EVICT(1, 257), 10, 0);
    REFUSES(EVICT(1, 65535), 10, 0);
    REFUSES(EVICT(2, 2), 10, 0);
    REFUSES(DELIVER(1, 3), 10, 0);
    REFUSES(DELIVER(1, 1), DAMSONPOUCH_NOTHING_DUE, 0);
    REFUSES(DELIVER(2, 1), 12, 0);
    REFUSES(GRANT(1, 999999961), DAMSONPOUCH_TOO_MUCH_FUEL, 0);
    REFUSES(GRANT(1, 4294967295u), 13, 0);
}

static void refusal_14(void) {
    /* the one refusal that writes: a fresh state with every share 0 */
    fresh(due, "");
    for (int garbage = 0; garbage < 2; garbage++) {
        for (int which = 0; which < 5; which++) {
            if (garbage)
                memset(now, 0xa5, LENGTH);
            else
                base(now);
            switch (which) {
            case 0: REFUSES(OPEN(sixty_five, 16), DAMSONPOUCH_BAD_SHARES, 0); break;
            case 1: REFUSES(OPEN(fours, 15), 14, 0); break;
            case 2: REFUSES(OPEN(fours, 17), 14, 0); break;
            case 3: REFUSES(OPEN(NULL, 0), 14, 0); break;
            case 4: REFUSES(OPEN(long_list, 300), 14, 0); break;
            }
            SOUND(true);
        }
    }
}

/* Every call on `now` says 15, and leaves it. */
static void refused_15(int line) {
    memcpy(due, now, LENGTH);
    same_reply(line, GRANT(0, 1), DAMSONPOUCH_REFUSED, DAMSONPOUCH_NOT_SOUND, 0, 0, 0, 0);
    same_reply(line, BEGIN(17, 16, long_list, 300, NULL, 0), 4, 15, 0, 0, 0, 0);
    same_reply(line, FINISH(1, 1), 4, 15, 0, 0, 0, 0);
    same_reply(line, RECHECK(2, 1), 4, 15, 0, 0, 0, 0);
    same_reply(line, SCAN(1), 4, 15, 0, 0, 0, 0);
    same_reply(line, PICK(), 4, 15, 0, 0, 0, 0);
    same_reply(line, DELIVER(1, 2), 4, 15, 0, 0, 0, 0);
    same_reply(line, EVICT(1, 1), 4, 15, 0, 0, 0, 0);
    same_reply(line, EVICT(17, 1), 4, 15, 0, 0, 0, 0);
    same_reply(line, CANCEL(2, 1), 4, 15, 0, 0, 0, 0);
    same_reply(line, CANCEL(17, 1), 4, 15, 0, 0, 0, 0);
    same_counts(line, HELD(), DAMSONPOUCH_NOT_SOUND, 0, 0, 0);
    if (damsonpouch_sound(now, LENGTH))
        tell(line, "the block is sound");
    same_block(line);
}

static void refusal_15(void) {
    static const struct {
        size_t at;
        uint8_t value;
    } changes[] = {
        {0, 0x12},          /* a tag */
        {637, 0},           /* a length */
        {3, 63},            /* 66 places */
        {22, 0x40},         /* fuel above 1,000,000,000 */
        {639, 65},          /* a count above 64 */
        {639, 2},           /* an entry that is not counted */
        {640, 0},           /* tenant 0 */
        {640, 17},          /* tenant 17 */
        {4, 0},             /* a tenant above its share */
        {642, 0},           /* serial 0 */
        {642, 3},           /* a serial that was not given; 1.2 stands behind it */
        {643, 3},           /* a state of 3 */
        {645, 1},           /* more due than awaited */
        {640 + 24 + 4, 16}, /* awaited above 15 */
        {640 + 24 + 4, 0},  /* Waiting, and nothing awaited */
        {640 + 24 + 5, 0},  /* Waiting, and nothing due */
        {647, 0},           /* a record that is not in a list */
        {640 + 48 + 9, 12}, /* a record twice */
        {640 + 48 + 8, 10}, /* a record in both lists */
        {640 + 48 + 3, 0},  /* Free, behind an entry that it conflicts with */
        {121 + 10, 1},      /* Cx */
        {380 + 5, 0},       /* Cs */
        {660, 1},           /* an unused record byte */
        {2175, 1},          /* an unused entry */
    };
    for (size_t k = 0; k < sizeof changes / sizeof *changes; k++) {
        base(now);
        SOUND(true);
        now[changes[k].at] = changes[k].value;
        int before = wrong;
        refused_15(__LINE__);
        if (wrong > before)
            tell(__LINE__, "so byte %lu as %d", (unsigned long)changes[k].at, changes[k].value);
    }
    memset(now, 0, LENGTH);
    refused_15(__LINE__);
    memset(now, 0xff, LENGTH);
    refused_15(__LINE__);
}

/* A block of another length is refused by Open too, before 14, and not written. */
static void wrong_lengths(void) {
    static uint8_t more[2 * LENGTH], as_it_was[2 * LENGTH];
    static const size_t lengths[] = {0, 1, 3, 640, LENGTH - 1, LENGTH + 1, 2 * LENGTH};
    base(more);
    memcpy(as_it_was, more, sizeof more);
    for (size_t k = 0; k < sizeof lengths / sizeof *lengths; k++) {
        const size_t n = lengths[k];
        same_reply(__LINE__, damsonpouch_open(more, n, two_two, 16), 4, 15, 0, 0, 0, 0);
        same_reply(__LINE__, damsonpouch_open(more, n, NULL, 0), 4, 15, 0, 0, 0, 0);
        same_reply(__LINE__, damsonpouch_grant(more, n, 1, 1), 4, 15, 0, 0, 0, 0);
        same_reply(__LINE__, damsonpouch_begin(more, n, 1, 0, NULL, 0, NULL, 0), 4, 15, 0, 0, 0, 0);
        same_reply(__LINE__, damsonpouch_finish(more, n, 1, 1), 4, 15, 0, 0, 0, 0);
        same_reply(__LINE__, damsonpouch_recheck(more, n, 2, 1), 4, 15, 0, 0, 0, 0);
        same_reply(__LINE__, damsonpouch_scan(more, n, 1), 4, 15, 0, 0, 0, 0);
        same_reply(__LINE__, damsonpouch_pick(more, n), 4, 15, 0, 0, 0, 0);
        same_reply(__LINE__, damsonpouch_deliver(more, n, 1, 2), 4, 15, 0, 0, 0, 0);
        same_reply(__LINE__, damsonpouch_evict(more, n, 1, 1), 4, 15, 0, 0, 0, 0);
        same_reply(__LINE__, damsonpouch_cancel(more, n, 2, 1), 4, 15, 0, 0, 0, 0);
        same_counts(__LINE__, damsonpouch_held(more, n), 15, 0, 0, 0);
        if (damsonpouch_sound(more, n))
            tell(__LINE__, "a block of %lu bytes is sound", (unsigned long)n);
        if (memcmp(more, as_it_was, sizeof more) != 0)
            tell(__LINE__, "a block of %lu bytes was written", (unsigned long)n);
    }
}

/* A block may begin at any address, and the bytes beside it stay. */
static void any_address(void) {
    static uint8_t room[LENGTH + 16];
    for (size_t shift = 0; shift < 16; shift++) {
        memset(room, 0xee, sizeof room);
        base(room + shift);
        same_reply(__LINE__, damsonpouch_begin(room + shift, LENGTH, 1, 0, NULL, 0, NULL, 0), 5, 0, FREE, 1, 3, 2);
        for (size_t at = 0; at < sizeof room; at++)
            if ((at < shift || at >= shift + LENGTH) && room[at] != 0xee)
                tell(__LINE__, "the byte %ld of the block was written", (long)at - (long)shift);
    }
}

int main(void) {
    for (size_t k = 0; k < sizeof long_list; k++)
        long_list[k] = (uint8_t)k;
    opens();
    grants();
    begins();
    overlaps();
    clashes_on_every_record();
    clashes();
    holds();
    finishes_and_searches();
    picks_and_delivers();
    promotes();
    takes_out();
    promotes_nobody();
    refusals_1_and_2();
    refusals_3_to_8();
    refusals_9_to_13();
    refusal_14();
    refusal_15();
    wrong_lengths();
    any_address();
    if (wrong > 0)
        return EXIT_FAILURE;
    printf("%d checks of the calls from C\n", checks);
    return EXIT_SUCCESS;
}
