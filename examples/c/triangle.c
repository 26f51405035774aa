/*
 * The sculling rig: eighteen pads under one shaft. Its cell board sends the
 * symmetric matrix as the lower triangle by rows, which is solved as it comes.
 *
 * From the repository's root, after `tools/archive.sh`:
 *
 *   cc -std=c99 -Wall -Wextra -I include examples/c/triangle.c \
 *      target/staticlib/libpiskorlu.a -o target/triangle && target/triangle
 */
#include <math.h>
#include <stdio.h>

#include "piskorlu.h"

#define PADS 18
#define VALUES (PADS * (PADS + 1) / 2)

/* How far the shaft, held at its handle, moves at pad i for a load of 1 at pad
   j, or the other way round: j is at most i. */
static double deflection(int i, int j)
{
    double near = 1.0 + j, far = 1.0 + i;

    return near * near * (3.0 * far - near) / 1024.0;
}

int main(void)
{
    double t[VALUES], u_free[PADS], lo[PADS], hi[PADS], scale[PADS], nu[PADS];
    static double workspace[PISKORLU_SOLVE_WORKSPACE];
    double residual[1];
    size_t rows[PADS], counts[PISKORLU_SOLVE_COUNTS], place = 0;
    uint8_t states[PADS];

    for (int i = 0; i < PADS; i++) {
        for (int j = 0; j <= i; j++)
            t[place++] = deflection(i, j);
        /* The shaft's own curve: what loads of 1 on two pads of three would take
           out of it, and a gap under the third. The last is a friction stop. */
        u_free[i] = i % 3 == 0 ? 0.125 : 0.0;
        for (int j = 0; j < PADS; j++)
            if (j % 3 != 0)
                u_free[i] -= deflection(i < j ? j : i, i < j ? i : j);
        lo[i] = i == PADS - 1 ? -2.0 : 0.0;
        hi[i] = i == PADS - 1 ? 2.0 : INFINITY;
        scale[i] = 1.0;
        nu[i] = 0.0;
    }

    /* A value that got lost on the wire: refused, and nothing is changed. */
    uint32_t number = piskorlu_solve_triangle(
        t, VALUES - 1, u_free, PADS, lo, PADS, hi, PADS, scale, PADS, NULL, 0, 0.0,
        nu, PADS, states, PADS, rows, PADS, workspace, PISKORLU_SOLVE_WORKSPACE,
        counts, PISKORLU_SOLVE_COUNTS, residual, 1);
    if (number != PISKORLU_REFUSED_TRIANGLE)
        return 1;
    printf("%d values: refused %u\n", VALUES - 1, (unsigned)number);

    number = piskorlu_solve_triangle(
        t, VALUES, u_free, PADS, lo, PADS, hi, PADS, scale, PADS, NULL, 0, 0.0, nu,
        PADS, states, PADS, rows, PADS, workspace, PISKORLU_SOLVE_WORKSPACE, counts,
        PISKORLU_SOLVE_COUNTS, residual, 1);
    if (number != PISKORLU_ACCEPTED) {
        fprintf(stderr, "refused %u\n", (unsigned)number);
        return 1;
    }
    if (!piskorlu_usable(counts, residual[0], nu, PADS, 1e-9)) {
        fprintf(stderr, "no loads to be used\n");
        return 1;
    }
    printf("%d values: solved after %zu sweeps\n", VALUES,
           counts[PISKORLU_COUNT_SWEEPS]);
    for (int i = 0; i < PADS; i++)
        printf("pad %2d: %.3f%s\n", i, nu[i],
               states[i] == PISKORLU_AT_LO ? ", not touched" : "");
    return 0;
}
