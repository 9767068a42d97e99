/* A sale like that of examples/sale.txt, in C: a shop counts its lamps while a seller wants to sell one, which reads the stock
 * and writes it back. In the repository's folder:
 *
 *     bin/make-archive
 *     gcc -O2 -Iinclude examples/host/sale.c target/staticlib/libdamsonpouch.a -o sale
 *     ./sale
 *
 * rust/host/examples/sale.rs is the same in Rust; examples/host/sale.stdout is what both print. */
#include "damsonpouch.h"

#include <inttypes.h>
#include <stdio.h>
#include <stdlib.h>

enum { SHOP = 1, SELLER = 2 };
enum { LAMPS = 7, TILL = 20, PRICES = 21 };

static const char *const states[] = {"free", "waiting", "blocked"};
static const char *const words[] = {"ok", "done", "still", "nothing"};

/* Prints what a call gave, and hands it back. */
static damsonpouch_reply told(const char *what, damsonpouch_reply reply) {
    printf("%-32s", what);
    switch (reply.kind) {
    case DAMSONPOUCH_ENTRY:
        printf("%s:%u.%u", states[reply.state], (unsigned)reply.tenant, (unsigned)reply.serial);
        if (reply.clashed)
            printf("@%u", (unsigned)reply.lowest);
        break;
    case DAMSONPOUCH_REFUSED:
        printf("refused:%u", (unsigned)reply.number);
        break;
    default:
        printf("%s", words[reply.kind]);
    }
    printf(" %" PRIu32 "\n", reply.burnt);
    return reply;
}

int main(void) {
    uint8_t *block = malloc(DAMSONPOUCH_BLOCK_LENGTH);
    const size_t length = DAMSONPOUCH_BLOCK_LENGTH;
    if (block == NULL)
        return EXIT_FAILURE;

    /* Memory as malloc gives it is no state; Open makes one of it. Tenant 1 gets three places, tenant 2 one. */
    const uint8_t shares[DAMSONPOUCH_TENANTS] = {3, 1};
    told("open", damsonpouch_open(block, length, shares, sizeof shares));
    told("grant the shop 60", damsonpouch_grant(block, length, SHOP, 60));
    told("grant the seller 60", damsonpouch_grant(block, length, SELLER, 60));

    const uint8_t lamps[] = {LAMPS}, till[] = {TILL}, prices[] = {PRICES}, stock[] = {LAMPS, PRICES};
    damsonpouch_reply count = told("the shop counts its lamps", damsonpouch_begin(block, length, SHOP, 0, NULL, 0, lamps, 1));
    damsonpouch_reply book = told("and books its takings", damsonpouch_begin(block, length, SHOP, 0, prices, 1, till, 1));
    /* The sale reads the lamps and writes them back. In both lists they count as written only: two records in all. */
    /* The record behind the @ is the one that it waits for. */
    damsonpouch_reply sale = told("the seller sells a lamp", damsonpouch_begin(block, length, SELLER, 0, stock, 2, lamps, 1));
    const damsonpouch_counts held = damsonpouch_held(block, length);
    printf("%-32swritten %u read %u either %u\n", "records held", (unsigned)held.written, (unsigned)held.read,
        (unsigned)held.either);

    told("the seller looks, too early", damsonpouch_scan(block, length, SELLER));
    told("it cannot finish yet", damsonpouch_finish(block, length, SELLER, sale.serial));
    told("the lamps are counted", damsonpouch_finish(block, length, SHOP, count.serial));
    told("the seller looks again", damsonpouch_scan(block, length, SELLER));
    told("the lamp is sold", damsonpouch_finish(block, length, SELLER, sale.serial));
    told("the takings are booked", damsonpouch_finish(block, length, SHOP, book.serial));
    told("nobody is left", damsonpouch_pick(block, length));

    /* Fuel stands in the block: four bytes for each tenant, the high byte first, and six bytes from one tenant to the next. */
    const uint8_t *fuel = block + 22 + 6 * (SELLER - 1);
    printf("the seller has %u units left\n", (unsigned)fuel[0] << 24 | fuel[1] << 16 | fuel[2] << 8 | fuel[3]);

    /* A host bug: a counter is overwritten. The calls say so, and touch nothing. */
    block[121 + LAMPS] = 1;
    told("a block with a wrong counter", damsonpouch_pick(block, length));
    free(block);
    return EXIT_SUCCESS;
}
