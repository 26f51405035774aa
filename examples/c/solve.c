/*
 * Two pads on a shaft: the first carries the load, the second lifts off. Then
 * two stops that cannot both be met, and a cell that gave NaN. It uses the
 * loads only where they may be used.
 *
 * From the repository's root, with the library installed under PREFIX by
 * tools/install.sh:
 *
 *   cc -std=c99 -Wall -Wextra -I PREFIX/include examples/c/solve.c \
 *      -L PREFIX/lib -lpiskorlu -o solve && ./solve
 */
#include <math.h>
#include <stdio.h>

#include "piskorlu.h"

/* Solves a problem of two pads and prints its answer; whether it was taken. */
static int show(const char *name, const double *w, const double *u_free)
{
    const double lo[2] = {0.0, 0.0}, hi[2] = {INFINITY, INFINITY};
    const double scale[2] = {1.0, 1.0};
    double nu[2] = {0.0, 0.0}, residual[1];
    double workspace[PISKORLU_SOLVE_WORKSPACE];
    uint8_t states[2];
    size_t rows[2], counts[PISKORLU_SOLVE_COUNTS];

    uint32_t number = piskorlu_solve(
        w, 4, u_free, 2, lo, 2, hi, 2, scale, 2, NULL, 0, 0.0, nu, 2, states, 2,
        rows, 2, workspace, PISKORLU_SOLVE_WORKSPACE, counts,
        PISKORLU_SOLVE_COUNTS, residual, 1);
    if (number != PISKORLU_ACCEPTED) {
        fprintf(stderr, "%s: refused %u: %s\n", name, (unsigned)number,
                piskorlu_number_in_words(number));
        return 0;
    }
    printf("%s: %s", name,
           piskorlu_outcome_in_words(counts[PISKORLU_COUNT_OUTCOME]));
    if (piskorlu_usable(counts, residual[0], nu, 2, 1e-9)) {
        for (size_t i = 0; i < 2; i++)
            printf("; pad %zu: %.17g, %s", i, nu[i],
                   piskorlu_state_in_words(states[i]));
        printf("; stopped %zu", counts[PISKORLU_COUNT_STOPPED]);
    } else {
        printf("; no loads");
        for (size_t k = 0; k < counts[PISKORLU_COUNT_LISTED]; k++)
            printf("; row %zu", rows[k]);
    }
    printf("\n");
    return 1;
}

int main(void)
{
    const double w[4] = {2.0, 1.0, 1.0, 2.0}, u_free[2] = {-3.0, 1.0};
    const double stiff[4] = {1.0, -1.0, -1.0, 1.0}, apart[2] = {-1.0, -1.0};
    const double torn[2] = {-3.0, NAN};

    if (!piskorlu_float_environment_ok()) {
        fprintf(stderr, "floating point is not as the solver needs it\n");
        return 1;
    }
    return show("two pads", w, u_free) && show("two stops", stiff, apart)
                   && show("torn wire", w, torn)
               ? 0
               : 1;
}
