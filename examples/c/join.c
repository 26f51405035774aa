/*
 * Two boards with 16 pads each: every board sums its own pads without rounding,
 * and the two halves joined are the whole row. Beside them the sums that each
 * board would send as one double.
 *
 * From the repository's root, after `tools/archive.sh`:
 *
 *   cc -std=c99 -Wall -Wextra -I include examples/c/join.c \
 *      target/staticlib/libpiskorlu.a -o target/join && target/join
 */
#include <stdio.h>
#include <string.h>

#include "piskorlu.h"

#define PADS 16

/* A row sum without rounding. */
struct sum {
    uint64_t words[PISKORLU_EXACT_WORDS];
    uint32_t counts[PISKORLU_EXACT_COUNTS];
};

/* The sum as the solver takes it: each product is rounded, then each sum. */
static double rounded(double u, const double *w, const double *nu, size_t n)
{
    double sum = u;
    for (size_t j = 0; j < n; j++) {
        volatile double product = w[j] * nu[j]; /* not fused with the sum */
        sum += product;
    }
    return sum;
}

/* Adds n products, one by one; whether every call was taken. */
static int add(struct sum *sum, const double *w, const double *nu, size_t n)
{
    for (size_t j = 0; j < n; j++)
        if (piskorlu_exact_product(w[j], nu[j], sum->words, PISKORLU_EXACT_WORDS,
                                   sum->counts, PISKORLU_EXACT_COUNTS)
            != PISKORLU_ACCEPTED)
            return 0;
    return 1;
}

static uint32_t join(struct sum *sum, const struct sum *other)
{
    return piskorlu_exact_join(sum->words, PISKORLU_EXACT_WORDS,
                               sum->counts, PISKORLU_EXACT_COUNTS,
                               other->words, PISKORLU_EXACT_WORDS,
                               other->counts, PISKORLU_EXACT_COUNTS);
}

/* Prints a sum; whether both calls were taken. */
static int show(const char *name, const struct sum *sum, double beside)
{
    int8_t sign[1];
    double nearest[1];

    if (piskorlu_exact_sign(sum->words, PISKORLU_EXACT_WORDS, sign, 1) != PISKORLU_ACCEPTED
        || piskorlu_exact_nearest(sum->words, PISKORLU_EXACT_WORDS, nearest, 1)
               != PISKORLU_ACCEPTED)
        return 0;
    printf("%s: products %u, rounded sum %.17g, exact sum %.17g, sign %d\n", name,
           (unsigned)sum->counts[0], beside, nearest[0], sign[0]);
    return 1;
}

static int same(const struct sum *a, const struct sum *b)
{
    return memcmp(a->words, b->words, sizeof a->words) == 0
           && memcmp(a->counts, b->counts, sizeof a->counts) == 0;
}

int main(void)
{
    /* The second board's pads push against the first one's. */
    const double u = -0.0625;
    double w[2 * PADS], nu[2 * PADS];
    for (int j = 0; j < PADS; j++) {
        w[j] = w[2 * PADS - 1 - j] = 0.1 * (j + 1);
        nu[j] = 1000.0 / (j + 3);
        nu[2 * PADS - 1 - j] = -nu[j];
    }

    struct sum first = {{0}, {0}}, second = {{0}, {0}}, whole, other_way;
    if (piskorlu_exact_free(u, first.words, PISKORLU_EXACT_WORDS, first.counts,
                            PISKORLU_EXACT_COUNTS) != PISKORLU_ACCEPTED
        || !add(&first, w, nu, PADS) || !add(&second, w + PADS, nu + PADS, PADS)
        || piskorlu_exact_row(u, w, 2 * PADS, nu, 2 * PADS,
                              whole.words, PISKORLU_EXACT_WORDS,
                              whole.counts, PISKORLU_EXACT_COUNTS) != PISKORLU_ACCEPTED)
        return 1;

    const double half = rounded(u, w, nu, PADS);
    const double other_half = rounded(0.0, w + PADS, nu + PADS, PADS);
    if (!show("first board", &first, half) || !show("second board", &second, other_half))
        return 1;

    other_way = second;
    if (join(&other_way, &first) != PISKORLU_ACCEPTED
        || join(&first, &second) != PISKORLU_ACCEPTED
        || !show("joined", &first, half + other_half)
        || !show("whole row", &whole, rounded(u, w, nu, 2 * PADS)))
        return 1;
    printf("the halves joined are the whole row: %s\n", same(&first, &whole) ? "yes" : "no");
    printf("joined the other way round: %s\n", same(&other_way, &whole) ? "yes" : "no");

    /* The total is full: no other pad is taken, and nothing is written. */
    struct sum third = {{0}, {0}};
    if (!add(&third, w, nu, 1))
        return 1;
    const uint32_t number = join(&first, &third);
    printf("a third board with one pad: refused %u, the total as it was: %s\n",
           (unsigned)number, same(&first, &whole) ? "yes" : "no");
    return number == PISKORLU_REFUSED_EXACT_FULL ? 0 : 1;
}
