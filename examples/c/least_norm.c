/*
 * The least-norm answer of 3 x + 4 y = 5, and a square root.
 *
 * From the repository's root, with the library installed under PREFIX by
 * tools/install.sh:
 *
 *   cc -std=c99 -Wall -Wextra -I PREFIX/include examples/c/least_norm.c \
 *      -L PREFIX/lib -lpiskorlu -o least_norm && ./least_norm
 *
 * It prints
 *
 *   3 x + 4 y = 5: rank 1, x = 0.60000000000000009, y = 0.80000000000000004
 *   square root of 2: 1.4142135623730951
 */
#include <stdio.h>

#include "piskorlu.h"

int main(void)
{
    double a[2] = {3.0, 4.0};
    double b[1] = {5.0};
    double x[2];
    double workspace[PISKORLU_LEAST_NORM_WORKSPACE];
    uint32_t rank[1];

    uint32_t number = piskorlu_least_norm(a, 2, 1, 2, b, 1, x, 2, workspace,
                                          PISKORLU_LEAST_NORM_WORKSPACE, rank, 1);
    if (number != PISKORLU_ACCEPTED) {
        fprintf(stderr, "refused %u: %s\n", (unsigned)number,
                piskorlu_number_in_words(number));
        return 1;
    }
    printf("3 x + 4 y = 5: rank %u, x = %.17g, y = %.17g\n", (unsigned)rank[0], x[0], x[1]);
    printf("square root of 2: %.17g\n", piskorlu_sqrt(2.0));
    return 0;
}
