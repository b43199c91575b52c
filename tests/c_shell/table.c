/* Prints what the functions of shell.h answer to a table of cases, one case a line. */
#include "shell.h"

#include <inttypes.h>
#include <stdio.h>

#define PRICE 10000000 /* the highest price */
#define LOTS 1000000   /* the most lots */

struct bid {
    uint64_t side, price, lots;
};

struct question {
    uint64_t side, price, lots, best_buy, best_sell, settlement, opposite;
};

static const struct bid bids[] = {
    {0, 250, 40},
    {1, 250, 40},
    {0, 0, 40},
    {1, 0, 40},
    {0, 1, 1},
    {0, PRICE, LOTS},
    {1, PRICE, LOTS},
    {2, 250, 40},
    {0, PRICE + 1, 40},
    {1, PRICE + 1, 40},
    {0, 250, 0},
    {1, 250, 0},
    {0, 250, LOTS + 1},
    {1, 250, LOTS + 1},
    {UINT64_MAX, 250, 40},
    {0, UINT64_MAX, 40},
    {0, 250, UINT64_MAX},
    /* numbers that are small again when only their lower 32 bits are read */
    {UINT64_C(1) << 32, 250, 40},
    {0, (UINT64_C(1) << 32) + 250, 40},
    {1, 250, (UINT64_C(1) << 32) + 40},
};

static const struct question questions[] = {
    /* against the best sell, 1,000 */
    {0, 1050, 10, 0, 1000, 0, 0},
    {0, 1051, 10, 0, 1000, 0, 0},
    {1, 1050, 10, 0, 1000, 0, 0},
    {1, 1051, 10, 0, 1000, 0, 0},
    {0, 1100, 10, 0, 1000, 0, 0},
    {0, 1101, 10, 0, 1000, 0, 0},
    {1, 1100, 10, 0, 1000, 0, 0},
    {1, 1101, 10, 0, 1000, 0, 0},
    /* against the best buy: 90 per cent of 1,005 are 904.5, and 95 are 954.75 */
    {0, 955, 10, 1005, 0, 0, 0},
    {0, 954, 10, 1005, 0, 0, 0},
    {0, 905, 10, 1005, 0, 0, 0},
    {0, 904, 10, 1005, 0, 0, 0},
    {1, 905, 10, 1005, 0, 0, 0},
    {1, 904, 10, 1005, 0, 0, 0},
    {0, 950, 10, 1000, 0, 0, 0},
    {0, 949, 10, 1000, 0, 0, 0},
    {1, 949, 10, 1000, 0, 0, 0},
    /* against the settlement price, 1,000 */
    {0, 850, 10, 0, 0, 1000, 0},
    {0, 849, 10, 0, 0, 1000, 0},
    {1, 1150, 10, 0, 0, 1000, 0},
    {1, 1151, 10, 0, 0, 1000, 0},
    /* off the best and off the settlement price: the best is asked first */
    {0, 800, 10, 1000, 0, 1000, 0},
    {0, 1200, 10, 0, 1000, 1000, 0},
    /* no price: every test of a price is passed */
    {0, 0, 10, 1000, 1000, 1000, 0},
    {1, 0, 10, 1000, 1000, 1000, 0},
    /* lots that are no whole tens, alone, with a price off the best, and with an opposite bid */
    {0, 950, 15, 1000, 0, 0, 0},
    {0, 100, 15, 1000, 0, 0, 0},
    {1, 1000, 1, 0, 0, 0, 1},
    /* an opposite bid, alone and with a price off the best */
    {0, 1000, 10, 1000, 0, 0, 1},
    {1, 1000, 10, 0, 1000, 0, UINT64_MAX},
    {0, 100, 10, 1000, 0, 0, 1},
    /* the limits, and one beyond each */
    {0, PRICE, LOTS, PRICE, PRICE, PRICE, 0},
    {1, 1, 10, 1, 1, 1, 0},
    {2, 100, 10, 0, 0, 0, 0},
    {0, PRICE + 1, 10, 0, 0, 0, 0},
    {0, 100, 10, PRICE + 1, 0, 0, 0},
    {0, 100, 10, 0, PRICE + 1, 0, 0},
    {0, 100, 10, 0, 0, PRICE + 1, 0},
    {0, 100, 0, 0, 0, 0, 0},
    {0, 100, LOTS + 1, 0, 0, 0, 0},
    /* beyond the limits comes before every refusal of a rule */
    {2, 1, 15, 1000, 1000, 1000, 1},
    {UINT64_MAX, UINT64_MAX, UINT64_MAX, UINT64_MAX, UINT64_MAX, UINT64_MAX, UINT64_MAX},
    {0, (UINT64_C(1) << 32) + 100, 10, 0, 0, 0, 0},
    {0, 100, (UINT64_C(1) << 32) + 10, 0, 0, 0, 0},
};

int main(void)
{
    puts("side price lots: obligation");
    for (size_t i = 0; i < sizeof bids / sizeof bids[0]; i++) {
        const struct bid b = bids[i];
        printf("%" PRIu64 " %" PRIu64 " %" PRIu64 ": %" PRIu64 "\n", b.side, b.price, b.lots,
               bid_obligation(b.side, b.price, b.lots));
    }
    puts("side price lots best-buy best-sell settlement opposite: corporate government");
    for (size_t i = 0; i < sizeof questions / sizeof questions[0]; i++) {
        const struct question q = questions[i];
        printf("%" PRIu64 " %" PRIu64 " %" PRIu64 " %" PRIu64 " %" PRIu64 " %" PRIu64 " %" PRIu64 ": %" PRIu64 " %" PRIu64 "\n",
               q.side, q.price, q.lots, q.best_buy, q.best_sell, q.settlement, q.opposite,
               corporate_test(q.side, q.price, q.lots, q.best_buy, q.best_sell, q.settlement, q.opposite),
               government_test(q.side, q.price, q.lots, q.best_buy, q.best_sell, q.settlement, q.opposite));
    }
    return 0;
}
