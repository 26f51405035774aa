/*
 * A pull of three load steps on two pads: written as one chained bend file,
 * then read back, newest step first, and solved.
 *
 * From the repository's root, after `tools/archive.sh`:
 *
 *   cc -std=c99 -Wall -Wextra -I include examples/c/chain.c \
 *      target/staticlib/libpiskorlu.a -o target/chain && target/chain
 */
#include <math.h>
#include <stdio.h>

#include "piskorlu.h"

#define STEPS 3
#define ROWS 2
#define COORDS 1

/* w, five columns, motion and the tolerance. */
#define COUNT (ROWS * ROWS + 5 * ROWS + COORDS * ROWS + 1)

/* Link, values and trailer of each step. */
#define BYTES (STEPS * (4 + 8 * COUNT + 16))

/* The numbers of one step, in the file's order. */
static void fill(double *values, double push)
{
    const double step[COUNT] = {
        2.0, 1.0, 1.0, 2.0, -push, 1.0,          /* w, u_free */
        0.0, 0.0, INFINITY, INFINITY,            /* lo, hi */
        1.0, 1.0, 0.0, 0.0, 0.5, 0.5, 0.0,       /* scale, nu, motion, tolerance */
    };
    for (int k = 0; k < COUNT; k++)
        values[k] = step[k];
}

/* Writes the pull; the file's length, or 0 where it is refused. */
static size_t write_pull(uint8_t *file)
{
    const size_t rows[STEPS] = {ROWS, ROWS, ROWS};
    const size_t coords[STEPS] = {COORDS, COORDS, COORDS};
    const size_t counts[STEPS] = {COUNT, COUNT, COUNT};
    double values[STEPS * COUNT];
    size_t written[1] = {0};

    for (int k = 0; k < STEPS; k++)
        fill(values + k * COUNT, 1.0 + k);
    uint32_t number = piskorlu_chain_write(rows, STEPS, coords, STEPS, counts, STEPS,
                                           values, STEPS * COUNT, file, BYTES,
                                           written, 1);
    if (number != PISKORLU_ACCEPTED)
        fprintf(stderr, "not written: refused %u\n", (unsigned)number);
    return written[0];
}

/* Reads a step and prints its loads; the number of the call that refuses. */
static uint32_t show(const uint8_t *file, size_t length, size_t step)
{
    static double w[PISKORLU_MOST * PISKORLU_MOST], motion[PISKORLU_MOST_MOTION];
    static double workspace[PISKORLU_SOLVE_WORKSPACE];
    double u_free[PISKORLU_MOST], lo[PISKORLU_MOST], hi[PISKORLU_MOST];
    double scale[PISKORLU_MOST], nu[PISKORLU_MOST], tolerance[1], residual[1];
    size_t shape[2], rows[PISKORLU_MOST], counts[PISKORLU_SOLVE_COUNTS];
    uint8_t states[PISKORLU_MOST];

    uint32_t number = piskorlu_chain_step(
        file, length, step, w, PISKORLU_MOST * PISKORLU_MOST, u_free, PISKORLU_MOST,
        lo, PISKORLU_MOST, hi, PISKORLU_MOST, scale, PISKORLU_MOST, nu, PISKORLU_MOST,
        motion, PISKORLU_MOST_MOTION, shape, 2, tolerance, 1);
    if (number != PISKORLU_ACCEPTED)
        return number;
    size_t n = shape[0];
    number = piskorlu_solve(w, n * n, u_free, n, lo, n, hi, n, scale, n, motion,
                            shape[1] * n, tolerance[0], nu, n, states, n, rows, n,
                            workspace, PISKORLU_SOLVE_WORKSPACE, counts,
                            PISKORLU_SOLVE_COUNTS, residual, 1);
    if (number == PISKORLU_ACCEPTED)
        printf("step %zu: u_free %g, loads %.17g and %.17g\n", step, u_free[0],
               nu[0], nu[1]);
    return number;
}

int main(void)
{
    uint8_t file[BYTES];
    size_t steps[1], ends[PISKORLU_MOST_STEPS], length = write_pull(file);

    uint32_t number = piskorlu_chain(file, length, steps, 1, ends,
                                     PISKORLU_MOST_STEPS);
    if (number != PISKORLU_ACCEPTED) {
        fprintf(stderr, "not read: refused %u\n", (unsigned)number);
        return 1;
    }
    printf("%zu bytes, %zu steps, newest first, ending at", length, steps[0]);
    for (size_t k = 0; k < steps[0]; k++)
        printf(" %zu", ends[k]);
    printf("\n");
    for (size_t k = 0; k < steps[0]; k++)
        if (show(file, length, k) != PISKORLU_ACCEPTED)
            return 1;
    if (show(file, length, steps[0]) != PISKORLU_NO_STEP)
        return 1;
    printf("no step %zu\n", steps[0]);
    number = piskorlu_chain(file, length - 1, steps, 1, ends, PISKORLU_MOST_STEPS);
    printf("a byte cut off: refused %u\n", (unsigned)number);
    return 0;
}
