/*
 * A row sum without rounding: a load for which the rounded sum says that
 * nothing moves, though something does; and a row whose large terms cancel.
 *
 * From the repository's root, after `tools/archive.sh`:
 *
 *   cc -std=c99 -Wall -Wextra -I include examples/c/exact.c \
 *      target/staticlib/libpiskorlu.a -o target/exact && target/exact
 */
#include <math.h>
#include <stdio.h>

#include "piskorlu.h"

/* The sum as the solver takes it: each product is rounded, then each sum. */
static double rounded(double u, const double *w, const double *nu, size_t n)
{
    double sum = u;
    for (size_t j = 0; j < n; j++) {
        volatile double product = w[j] * nu[j]; /* not fused with the sum */
        sum += product;
    }
    return sum;
}

/* Prints a row's two sums; whether every call was taken. */
static int show(const char *name, double u, const double *w, const double *nu,
                size_t n)
{
    uint64_t words[PISKORLU_EXACT_WORDS];
    uint32_t counts[PISKORLU_EXACT_COUNTS];
    int8_t sign[1];
    double nearest[1];

    uint32_t number = piskorlu_exact_row(u, w, n, nu, n, words, PISKORLU_EXACT_WORDS,
                                         counts, PISKORLU_EXACT_COUNTS);
    if (number != PISKORLU_ACCEPTED) {
        printf("%s: refused %u\n", name, (unsigned)number);
        return 0;
    }
    if (piskorlu_exact_sign(words, PISKORLU_EXACT_WORDS, sign, 1) != PISKORLU_ACCEPTED
        || piskorlu_exact_nearest(words, PISKORLU_EXACT_WORDS, nearest, 1)
               != PISKORLU_ACCEPTED)
        return 0;
    printf("%s: products %u, rounded sum %g, exact sum %.17g, sign %d\n", name,
           (unsigned)counts[0], rounded(u, w, nu, n), nearest[0], sign[0]);
    return 1;
}

int main(void)
{
    /* The load is a third, cut off: three of it are 1 - 2^-54. */
    const double pad[1] = {3.0}, third[1] = {0.33333333333333331};
    const double row[3] = {1.0, 1.0, -1.0};
    const double loads[3] = {9007199254740992.0, 1.0, 9007199254740992.0};
    const double tiny[1] = {4.9406564584124654e-324};
    const double zero[1] = {0.0}, infinite[1] = {INFINITY};

    if (!show("one pad", -1.0, pad, third, 1)
        || !show("large loads", 0.25, row, loads, 3)
        || !show("smallest number squared", 0.0, tiny, tiny, 1))
        return 1;
    /* A load that is not finite is refused, whatever it is multiplied by. */
    return show("infinite load", 0.0, zero, infinite, 1) ? 1 : 0;
}
