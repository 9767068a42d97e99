/* The proved lock manager, for C and C++ on x86-64: link libdamsonpouch.a, which `bin/make-archive` writes to
 * target/staticlib. It needs nothing but the C library, and of that memcpy and its like.
 *
 * The host lends a block of DAMSONPOUCH_BLOCK_LENGTH bytes, which is the whole state: no call keeps anything elsewhere, so a
 * block may be copied, stored, sent and lent again at any time between two calls. docs/HOST.md has its layout, docs/CALLS.md the
 * calls, their prices and the order of their refusals.
 *
 * What a caller owes to every call:
 *   - `block` is valid to read and write for `length` bytes, and nobody else uses those bytes while the call runs;
 *   - a list is valid to read for its length, and lies outside the block. An empty list (a length of 0) may be NULL.
 * Nothing else: a call takes any bytes in the block, any length of it, any numbers and any lists, ends, and answers. It allocates
 * nothing, locks nothing and has no variable of its own, so two threads may make calls on two blocks at the same time. */

#ifndef DAMSONPOUCH_H
#define DAMSONPOUCH_H

#include <stdbool.h>
#include <stddef.h>
#include <stdint.h>

#ifdef __cplusplus
extern "C" {
#endif

/* The bytes of a block. */
#define DAMSONPOUCH_BLOCK_LENGTH 2176

/* The number of tenants, and so of shares. */
#define DAMSONPOUCH_TENANTS 16

/* What a call hands back. A field that the kind has no use for is 0. */
typedef struct damsonpouch_reply {
    uint8_t kind;    /* DAMSONPOUCH_OK to DAMSONPOUCH_ENTRY */
    uint8_t number;  /* of DAMSONPOUCH_REFUSED: which refusal, 1 to 15, and never 5 */
    uint8_t state;   /* of DAMSONPOUCH_ENTRY: the entry's state after the call */
    uint8_t tenant;  /* of DAMSONPOUCH_ENTRY: its tenant, 1 to 16 */
    uint16_t serial; /* of DAMSONPOUCH_ENTRY: its serial, 1 to 65,535 */
    uint8_t clashed; /* 1 of a Begin whose entry is Blocked, and else 0: of a Deliver to a Blocked entry too */
    uint8_t lowest;  /* where `clashed` is 1: the lowest record that the Begin clashed on, 0 to 255 */
    uint32_t burnt;  /* the units of fuel burnt, by a refused call too */
} damsonpouch_reply;

/* What damsonpouch_held hands back: how many of the 256 records are held by the entries in the queue, Blocked ones among them. */
typedef struct damsonpouch_counts {
    uint8_t number;   /* 0; or DAMSONPOUCH_NOT_SOUND, and then the counts are 0 */
    uint16_t written; /* records that some entry writes: those with Cx above 0 */
    uint16_t read;    /* records that some entry reads and does not write: those with Cs above 0 */
    uint16_t either;  /* records that some entry writes or reads */
} damsonpouch_counts;

/* The kinds of a reply. */
enum {
    DAMSONPOUCH_OK = 0,      /* of Open and Grant */
    DAMSONPOUCH_DONE = 1,    /* of Finish, Evict and Cancel: the entry has left */
    DAMSONPOUCH_STILL = 2,   /* of Recheck: the entry stays Blocked */
    DAMSONPOUCH_NOTHING = 3, /* of Scan and Pick: no entry was promoted */
    DAMSONPOUCH_REFUSED = 4, /* `number` says why */
    DAMSONPOUCH_ENTRY = 5    /* an entry's state after the call, and its name: of Begin and Deliver, and of Recheck, Scan and
                                Pick where they promote. A promoted entry is Waiting only if an answer is still due, else Free */
};

/* The states of an entry, in a reply and in the block. */
enum {
    DAMSONPOUCH_FREE = 0,    /* it runs, and may be finished */
    DAMSONPOUCH_WAITING = 1, /* it holds its locks and waits for the remote answers still due */
    DAMSONPOUCH_BLOCKED = 2  /* it conflicts with an entry that was queued before it */
};

/* The refusals. But for 14, a refusal writes nothing to the block but the fuel that it burnt. */
enum {
    DAMSONPOUCH_NO_SUCH_TENANT = 1,   /* the tenant number is not 1 to 16; burns 0 */
    DAMSONPOUCH_DRY = 2,              /* a tenant's call, and its fuel is 0; burns 0. Not given by Finish of a Free entry */
    DAMSONPOUCH_TOO_MANY_RECORDS = 3, /* more than 8 reads or more than 8 writes, as they are given; burns 1 */
    DAMSONPOUCH_NOT_RISING = 4,       /* the writes do not strictly rise, or the reads do not, without those that are written
                                         too; burns 1 */
    /* 5, once of a record in both lists, is no longer given; its number stays unused */
    DAMSONPOUCH_AWAITED_TOO_HIGH = 6, /* awaited is above 15; burns 1 */
    DAMSONPOUCH_SHARE_HELD = 7,       /* the tenant already holds as many places as its share; burns 1 */
    DAMSONPOUCH_SERIALS_GIVEN = 8,    /* the tenant has been given all 65,535 serials; burns 1 */
    DAMSONPOUCH_FUEL_BELOW_PRICE = 9, /* the fuel is below the price; burns 1. A scan cut short: burns what it had burnt */
    DAMSONPOUCH_NO_SUCH_ENTRY = 10,   /* the tenant has no such entry in the queue; burns 1, of Deliver and Evict 0 */
    DAMSONPOUCH_WRONG_STATE = 11,     /* Finish of an entry not Free, Recheck or Cancel of one not Blocked; burns 1 */
    DAMSONPOUCH_NOTHING_DUE = 12,     /* Deliver with no answer due; burns 0 */
    DAMSONPOUCH_TOO_MUCH_FUEL = 13,   /* with this Grant the fuel would pass 1,000,000,000; burns 0 */
    DAMSONPOUCH_BAD_SHARES = 14,      /* Open without exactly 16 shares, or their sum is above 64; burns 0, and the block then
                                         holds a fresh state with every share 0 */
    DAMSONPOUCH_NOT_SOUND = 15        /* the block is not sound, or has not 2,176 bytes; of Open, only the latter. Burns 0. Given
                                         before any other */
};

/* A host call: overwrites any block of the right length with a fresh state, in which tenant t has shares[t - 1] of the 64 queue
 * places, no fuel, and no serial given. Refusals, in this order: 15 (for a wrong length alone), 14. */
damsonpouch_reply damsonpouch_open(uint8_t *block, size_t length, const uint8_t *shares, size_t shares_length);

/* A host call: adds fuel to a tenant's. Refusals: 15, 1, 13. */
damsonpouch_reply damsonpouch_grant(uint8_t *block, size_t length, uint8_t tenant, uint32_t amount);

/* A tenant's call: asks for all locks of a request at once, which joins the back of the queue; burns 2 + 2n for n records, reads
 * and writes together. A record may stand in both lists. It then counts as written only, and once in n: the entry has it among
 * its writes alone. Each list has at most 8 records as given, and must strictly rise once the written ones are taken out of the
 * reads. Answers with the new entry: Blocked if it conflicts with an entry ahead, else Waiting if `awaited` is above 0, and else
 * Free. If it is Blocked, `clashed` is 1 and `lowest` the lowest record that it clashed on: one that it reads and an entry ahead
 * writes, or that it writes and an entry ahead reads or writes. Refusals: 15, 1 to 9; of these 5 is no longer given. */
damsonpouch_reply damsonpouch_begin(uint8_t *block, size_t length, uint8_t tenant, uint8_t awaited, const uint8_t *reads,
    size_t reads_length, const uint8_t *writes, size_t writes_length);

/* A tenant's call: a Free entry leaves the queue; burns 0. Refusals: 15, 1; then a Free entry leaves; 2, 10, 11. */
damsonpouch_reply damsonpouch_finish(uint8_t *block, size_t length, uint8_t tenant, uint16_t serial);

/* A tenant's call: promotes a Blocked entry if no other entry conflicts with it, ahead or behind; burns 1 + n. Refusals: 15, 1,
 * 2, 10, 11, 9. */
damsonpouch_reply damsonpouch_recheck(uint8_t *block, size_t length, uint8_t tenant, uint16_t serial);

/* A tenant's call: promotes the tenant's first Blocked entry that conflicts with none ahead; burns 1, and 1 + n for each entry
 * that it looks at, 1,089 at most. Refusals: 15, 1, 2; then 9 on its way. */
damsonpouch_reply damsonpouch_scan(uint8_t *block, size_t length, uint8_t tenant);

/* A host call: promotes the front of the queue if it is Blocked. Refusals: 15. */
damsonpouch_reply damsonpouch_pick(uint8_t *block, size_t length);

/* A host call: one remote answer of an entry has come. A Waiting entry with none left due becomes Free; a Blocked one stays
 * Blocked until it is promoted. Refusals: 15, 1, 10, 12. */
damsonpouch_reply damsonpouch_deliver(uint8_t *block, size_t length, uint8_t tenant, uint16_t serial);

/* A host call: takes an entry out, in whatever state it is, as one whose plugin hung with its lock held. The host has undone the
 * entry's writes before: no call undoes any. The entry leaves as by a Finish: its counters fall, its place is free, the others keep
 * their order and their states, and nobody is promoted. No fuel is given back, and the serial is not given again. Burns 0.
 * Refusals: 15, 1, 10. */
damsonpouch_reply damsonpouch_evict(uint8_t *block, size_t length, uint8_t tenant, uint16_t serial);

/* A tenant's call: takes out an entry of its own that is Blocked, which then leaves as by a Finish; burns 1. Of what its Begin
 * burnt nothing is given back. Refusals: 15, 1, 2, 10, 11. */
damsonpouch_reply damsonpouch_cancel(uint8_t *block, size_t length, uint8_t tenant, uint16_t serial);

/* Whether the block is sound, as every call but Open asks. It is only read. A host need not ask, since the calls do. */
bool damsonpouch_sound(const uint8_t *block, size_t length);

/* A host call: how many records are held. It burns nothing, and the block is only read. Refusals: 15. */
damsonpouch_counts damsonpouch_held(const uint8_t *block, size_t length);

#ifdef __cplusplus
}
#endif

#endif
