/*
 * The obligation of a bid and the tests of the two market rules, on plain numbers.
 *
 * Every function takes any numbers, keeps nothing and alters nothing.
 *
 *   side        0 buy, 1 sell
 *   price       minor units of the currency a lot, up to 10,000,000; 0 means none
 *   lots        1 to 1,000,000
 *   best_buy    the price of the first standing buy, as a price; 0 means none
 *   best_sell   the price of the first standing sell, as a price; 0 means none
 *   settlement  the settlement price, as a price; 0 means none
 *   opposite    0: the holder has no standing bid on the other side; any other number: he has one
 */
#ifndef SHELL_H
#define SHELL_H

#include <stdint.h>

#ifdef __cplusplus
extern "C" {
#endif

/* What a test answers. */
enum {
    SHELL_ADMITTED = 0,
    SHELL_BEYOND_LIMITS = 6,    /* a side above 1, or a price or lots beyond the limits */
    SHELL_NOT_WHOLE_STEPS = 21, /* the lots are not a whole number of the rule's steps */
    SHELL_OFF_BEST = 22,        /* the price is too far off the best of a queue */
    SHELL_OFF_SETTLEMENT = 23,  /* the price is too far off the settlement price */
    SHELL_OPPOSITE_BID = 24     /* the holder has a standing bid on the other side */
};

/*
 * What a bid obliges its holder to: price x lots of the currency for a priced buy, the lots for a sell.
 * 0 for a buy without a price, for a side above 1, and for a price or lots beyond the limits.
 */
uint64_t bid_obligation(uint64_t side, uint64_t price, uint64_t lots);

/* The rule of corporate securities: 0, 6, 22 or 23. */
uint64_t corporate_test(uint64_t side, uint64_t price, uint64_t lots, uint64_t best_buy, uint64_t best_sell,
                        uint64_t settlement, uint64_t opposite);

/* The rule of government bonds: 0, 6, 21, 22 or 24. */
uint64_t government_test(uint64_t side, uint64_t price, uint64_t lots, uint64_t best_buy, uint64_t best_sell,
                         uint64_t settlement, uint64_t opposite);

#ifdef __cplusplus
}
#endif

#endif
