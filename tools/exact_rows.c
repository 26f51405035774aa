/*
 * The library's exact row sums, for tools/test_exact.py: rows on standard input,
 * for each the number that the call returns and the nearest f64 in hexadecimal
 * digits. A row is its number of products as a double, the free motion, the
 * entries of the matrix and the loads.
 */
#include <inttypes.h>
#include <stdio.h>
#include <string.h>

#include "piskorlu.h"

#define MOST 40

static int values(double *to, size_t many)
{
    return fread(to, sizeof *to, many, stdin) == many;
}

int main(void)
{
    double many, free_motion, w[MOST], nu[MOST];
    while (values(&many, 1) && many <= MOST && values(&free_motion, 1) && values(w, (size_t)many) && values(nu, (size_t)many)) {
        uint64_t words[67] = {0}, bits;
        uint32_t counts[2] = {0}, number;
        double nearest[1] = {0};
        number = piskorlu_exact_row(free_motion, w, (size_t)many, nu, (size_t)many, words, 67, counts, 2);
        if (number == PISKORLU_ACCEPTED && piskorlu_exact_nearest(words, 67, nearest, 1) != PISKORLU_ACCEPTED)
            return 1;
        memcpy(&bits, nearest, sizeof bits);
        printf("%" PRIu32 " %016" PRIX64 "\n", number, bits);
    }
    return ferror(stdin) != 0;
}
