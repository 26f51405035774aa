/*
 * What include/piskorlu.h says, tried: each check is a sentence of the header.
 * C99 and C++98 alike. tools/test_library.py compiles and runs it; the last
 * line is 'N passed, M failed'.
 */
#ifndef _GNU_SOURCE
#define _GNU_SOURCE
#endif
#include <fenv.h>
#include <math.h>
#include <pthread.h>
#include <signal.h>
#include <stdio.h>
#include <stdlib.h>
#include <sys/mman.h>
#include <sys/time.h>
#include <ucontext.h>
#include <unistd.h>
#include <xmmintrin.h>

#include "piskorlu.h"

static int passed, failed;

static void check(int holds, const char *what)
{
    if (holds) {
        passed++;
    } else {
        failed++;
        printf("FAILED: %s\n", what);
    }
}

/* ---- a problem with room for its answer */

typedef struct {
    size_t n, coords;
    double w[1024], u_free[32], lo[32], hi[32], scale[32], motion[64], tolerance;
    double nu[32], workspace[PISKORLU_SOLVE_WORKSPACE], residual[1];
    uint8_t states[32];
    size_t rows[32], counts[PISKORLU_SOLVE_COUNTS];
} Problem;

static uint32_t solve(Problem *p)
{
    size_t n = p->n;
    return piskorlu_solve(p->w, n * n, p->u_free, n, p->lo, n, p->hi, n, p->scale, n,
                          p->motion, p->coords * n, p->tolerance, p->nu, n, p->states, n,
                          p->rows, n, p->workspace, PISKORLU_SOLVE_WORKSPACE, p->counts,
                          PISKORLU_SOLVE_COUNTS, p->residual, 1);
}

static uint32_t tallied(Problem *p, uint32_t *tally, double *tally_residual)
{
    size_t n = p->n;
    return piskorlu_tallied(tally, PISKORLU_REPORT_COUNTS, tally_residual, 1, p->w, n * n,
                            p->u_free, n, p->lo, n, p->hi, n, p->scale, n, p->motion,
                            p->coords * n, p->tolerance, p->nu, n, p->states, n, p->rows, n,
                            p->workspace, PISKORLU_SOLVE_WORKSPACE, p->counts,
                            PISKORLU_SOLVE_COUNTS, p->residual, 1);
}

/* The lower triangle of p's matrix, by rows; how many values. */
static size_t lower(const Problem *p, double *t)
{
    size_t i, j, k = 0;
    for (i = 0; i < p->n; i++)
        for (j = 0; j <= i; j++)
            t[k++] = p->w[i * p->n + j];
    return k;
}

static uint32_t solve_triangle(Problem *p, const double *t, size_t values)
{
    size_t n = p->n;
    return piskorlu_solve_triangle(t, values, p->u_free, n, p->lo, n, p->hi, n, p->scale, n,
                                   p->motion, p->coords * n, p->tolerance, p->nu, n, p->states, n,
                                   p->rows, n, p->workspace, PISKORLU_SOLVE_WORKSPACE, p->counts,
                                   PISKORLU_SOLVE_COUNTS, p->residual, 1);
}

static uint32_t tallied_triangle(Problem *p, const double *t, size_t values, uint32_t *tally,
                                 double *tally_residual)
{
    size_t n = p->n;
    return piskorlu_tallied_triangle(tally, PISKORLU_REPORT_COUNTS, tally_residual, 1, t, values,
                                     p->u_free, n, p->lo, n, p->hi, n, p->scale, n, p->motion,
                                     p->coords * n, p->tolerance, p->nu, n, p->states, n, p->rows,
                                     n, p->workspace, PISKORLU_SOLVE_WORKSPACE, p->counts,
                                     PISKORLU_SOLVE_COUNTS, p->residual, 1);
}

/* One row: lo 0, hi infinite, scale 1, nothing watched. */
static void one_row(Problem *p, double w, double u_free)
{
    memset(p, 0, sizeof *p);
    p->n = 1;
    p->w[0] = w;
    p->u_free[0] = u_free;
    p->hi[0] = INFINITY;
    p->scale[0] = 1.0;
}

static void two_rows(Problem *p, double w00, double w01, double w10, double w11, double u0,
                     double u1)
{
    one_row(p, w00, u0);
    p->n = 2;
    p->w[1] = w01;
    p->w[2] = w10;
    p->w[3] = w11;
    p->u_free[1] = u1;
    p->hi[1] = INFINITY;
    p->scale[1] = 1.0;
}

static uint32_t seed = 1;

static double chance(void)
{
    seed = seed * 1664525u + 1013904223u;
    return (double)(seed >> 8) / 8388608.0 - 1.0;
}

/* A problem of n rows: W = B B' + a little, so that exact passes go deep. */
static void random_problem(Problem *p, size_t n)
{
    double b[1024];
    size_t i, j, k;
    memset(p, 0, sizeof *p);
    p->n = n;
    p->coords = 2;
    p->tolerance = chance() > 0 ? 1e-9 : -1.0;
    for (i = 0; i < n * n; i++)
        b[i] = chance();
    for (i = 0; i < n; i++) {
        for (j = 0; j < n; j++) {
            for (k = 0; k < n; k++)
                p->w[i * n + j] += b[i * n + k] * b[j * n + k] / 8.0;
        }
        p->w[i * n + i] += chance() > 0 ? 0.01 : 0.0;
        p->u_free[i] = 4.0 * chance();
        p->lo[i] = chance() > 0 ? 0.0 : -1.0;
        p->hi[i] = chance() > 0 ? INFINITY : 1.0;
        p->scale[i] = 1.0;
        p->nu[i] = chance();
        p->motion[i] = p->motion[n + i] = chance();
    }
}

/* ---- numbers and names */

static void refusals(void)
{
    static Problem p;
    uint32_t tally[] = PISKORLU_REPORT_OF_NO_SOLVE, counts[PISKORLU_REPORT_COUNTS];
    double residual[1] = {0.0}, v[1] = {0.0}, space[PISKORLU_LEAST_NORM_WORKSPACE];
    uint32_t rank[1], k;

    one_row(&p, 1.0, -1.0);
    check(piskorlu_solve(p.w, 1, p.u_free, 33, p.lo, 1, p.hi, 1, p.scale, 1, NULL, 0, 0.0, p.nu, 1, p.states, 1, p.rows, 1,
                         p.workspace, 2304, p.counts, PISKORLU_SOLVE_COUNTS, p.residual, 1) == PISKORLU_REFUSED_TOO_LARGE, "5");
    check(piskorlu_solve(p.w, 2, p.u_free, 1, p.lo, 1, p.hi, 1, p.scale, 1, NULL, 0, 0.0, p.nu, 1, p.states, 1, p.rows, 1,
                         p.workspace, 2304, p.counts, PISKORLU_SOLVE_COUNTS, p.residual, 1) == PISKORLU_REFUSED_NOT_SQUARE, "6");
    check(piskorlu_solve(p.w, 1, p.u_free, 1, p.lo, 0, p.hi, 1, p.scale, 1, NULL, 0, 0.0, p.nu, 1, p.states, 1, p.rows, 1,
                         p.workspace, 2304, p.counts, PISKORLU_SOLVE_COUNTS, p.residual, 1) == PISKORLU_REFUSED_UNEQUAL, "7");
    p.scale[0] = 0.0;
    check(solve(&p) == PISKORLU_REFUSED_SCALE, "8");
    two_rows(&p, 1.0, 0.0, 0.0, 1.0, -1.0, -1.0);
    check(piskorlu_solve(p.w, 4, p.u_free, 2, p.lo, 2, p.hi, 2, p.scale, 2, p.motion, 1, 0.0, p.nu, 2, p.states, 2, p.rows, 2,
                         p.workspace, 2304, p.counts, PISKORLU_SOLVE_COUNTS, p.residual, 1) == PISKORLU_REFUSED_MOTION, "9");
    check(piskorlu_solve(p.w, 4, p.u_free, 2, p.lo, 2, p.hi, 2, p.scale, 2, NULL, 0, 0.0, p.nu, 2, p.states, 2, p.rows, 2,
                         p.workspace, PISKORLU_SOLVE_WORKSPACE - 1, p.counts, PISKORLU_SOLVE_COUNTS, p.residual, 1) == PISKORLU_REFUSED_SHORT, "10");
    check(piskorlu_solve(p.w, 4, p.u_free, 2, p.lo, 2, p.hi, 2, p.scale, 2, NULL, 0, 0.0, p.nu, 2, p.states, 2, p.rows, 2,
                         p.workspace, 2304, p.counts, PISKORLU_SOLVE_COUNTS - 1, p.residual, 1) == PISKORLU_REFUSED_SHORT, "10, counts");
    tally[PISKORLU_REPORT_INCREMENTS] = 4294967295u;
    check(tallied(&p, tally, residual) == PISKORLU_REFUSED_TALLY, "11");
    check(piskorlu_least_norm(v, 1, 1, 2, v, 1, v, 1, space, 1056, rank, 1) == PISKORLU_REFUSED_LEAST_NORM, "12");
    check(piskorlu_and(tally, PISKORLU_REPORT_COUNTS, 0.0, tally, PISKORLU_REPORT_COUNTS, 0.0, counts, PISKORLU_REPORT_COUNTS, residual, 1)
              == PISKORLU_REFUSED_JOIN, "13");
    tally[PISKORLU_REPORT_INCREMENTS] = 0;
    check(piskorlu_and(tally, PISKORLU_REPORT_COUNTS, 0.0, tally, PISKORLU_REPORT_COUNTS, 0.0, counts, PISKORLU_REPORT_COUNTS, residual, 1)
              == PISKORLU_ACCEPTED, "joined, with room");
    check(piskorlu_and(tally, PISKORLU_REPORT_COUNTS - 1, 0.0, tally, PISKORLU_REPORT_COUNTS, 0.0, counts, PISKORLU_REPORT_COUNTS, residual, 1)
              == PISKORLU_REFUSED_JOIN, "13, counts");
    tally[PISKORLU_REPORT_STOPPED] = 4294967264u;
    check(tallied(&p, tally, residual) == PISKORLU_REFUSED_TALLY, "11, rows stopped");
    tally[PISKORLU_REPORT_STOPPED] = 4294967263u;
    check(tallied(&p, tally, residual) == PISKORLU_ACCEPTED, "one row stopped below");
    for (k = 0; k <= 13; k++) {
        uint32_t j;
        check(strcmp(piskorlu_number_in_words(k), piskorlu_number_in_words(0xFFFFFFFFu)) != 0, "a number has words");
        for (j = 0; j < k; j++)
            check(strcmp(piskorlu_number_in_words(k), piskorlu_number_in_words(j)) != 0, "its own words");
    }
}

static void triangles(void)
{
    static Problem full, other;
    static double t[1024];
    size_t n, values;

    for (n = 0; n <= 32; n++) {
        uint32_t tally[] = PISKORLU_REPORT_OF_NO_SOLVE, same[] = PISKORLU_REPORT_OF_NO_SOLVE;
        double residual[1] = {0.0}, same_residual[1] = {0.0};
        random_problem(&full, n);
        other = full;
        values = lower(&full, t);
        check(tallied(&full, tally, residual) == PISKORLU_ACCEPTED && solve_triangle(&other, t, values) == PISKORLU_ACCEPTED, "taken");
        check(memcmp(&full, &other, sizeof full) == 0, "a triangle is solved as its mirrored matrix, the workspace too");
        random_problem(&full, n);
        other = full;
        values = lower(&full, t);
        check(tallied(&full, tally, residual) == tallied_triangle(&other, t, values, same, same_residual), "tallied");
        check(memcmp(&full, &other, sizeof full) == 0, "a tallied one too");
        check(same[PISKORLU_REPORT_INCREMENTS] == 1 && tally[PISKORLU_REPORT_INCREMENTS] == 2, "each joins its tally");
        other = full;
        check(solve_triangle(&other, t, values + 1) == PISKORLU_REFUSED_TRIANGLE, "16, a value more");
        check(n == 0 || solve_triangle(&other, t, values - 1) == PISKORLU_REFUSED_TRIANGLE, "16, a value less");
        check(n < 2 || solve_triangle(&other, t, n * n) == PISKORLU_REFUSED_TRIANGLE, "16, as many as a whole matrix");
        check(tallied_triangle(&other, t, values + 1, same, same_residual) == PISKORLU_REFUSED_TRIANGLE && same[PISKORLU_REPORT_INCREMENTS] == 1,
              "16, tallied");
        check(memcmp(&full, &other, sizeof full) == 0, "and nothing written");
    }
    check(strcmp(piskorlu_number_in_words(PISKORLU_REFUSED_TRIANGLE), piskorlu_number_in_words(0xFFFFFFFFu)) != 0, "16 has words");
}

/* A bend file of one row, whose last 16 bytes are the trailer; its length. */
static size_t bend_file(uint8_t *out)
{
    const double values[8] = {2.0, -4.0, 0.0, INFINITY, 1.0, 0.0, 1.0, 0.0};
    const uint8_t trailer[16] = {0, 0, 0, 0, 1, 0, 1, 0, 8, 0, 0, 0, 0x42, 0x45, 0x4E, 0x44};
    memcpy(out, values, 64);
    memcpy(out + 64, trailer, 16);
    return 80;
}

static void files(void)
{
    uint8_t file[80], out[PISKORLU_BEND_ROOM];
    size_t length = bend_file(file), count, k;
    const char *want = "solved\nsweeps 1 passes 1 converged 1 exact 1 idle 0 residual 0000000000000000\nrow 0 I 4000000000000000\n";

    count = piskorlu_bend(file, length, out, sizeof out);
    check(count == strlen(want) && memcmp(out, want, count) == 0, "a bend file's lines, and no zero byte ends them");
    check(piskorlu_bend(file, 15, out, sizeof out) == 10 && memcmp(out, "refused 1\n", 10) == 0, "1");
    file[79] = 0;
    check(piskorlu_bend(file, length, out, sizeof out) == 10 && memcmp(out, "refused 2\n", 10) == 0, "2");
    bend_file(file);
    file[68] = 33;
    check(piskorlu_bend(file, length, out, sizeof out) == 10 && memcmp(out, "refused 3\n", 10) == 0, "3");
    file[68] = 2;
    check(piskorlu_bend(file, length, out, sizeof out) == 10 && memcmp(out, "refused 4\n", 10) == 0, "4");
    check(PISKORLU_REFUSED_FILE_SIZE == 1 && PISKORLU_REFUSED_FILE_MARK == 2 && PISKORLU_REFUSED_FILE_LIMITS == 3
              && PISKORLU_REFUSED_FILE_COUNT == 4, "names of 1 to 4");
    memset(out, 7, sizeof out);
    check(piskorlu_bend(file, length, out, sizeof out - 1) == 0, "an out that is too short gets 0");
    for (k = 0; k < sizeof out; k++)
        if (out[k] != 7)
            break;
    check(k == sizeof out, "and nothing");
    check(piskorlu_bend(NULL, 0, out, sizeof out) == 10, "NULL of no bytes");
}

static void places(void)
{
    static Problem p;
    uint32_t tally[] = PISKORLU_REPORT_OF_NO_SOLVE, counts[PISKORLU_REPORT_COUNTS], k;
    uint32_t a[PISKORLU_REPORT_COUNTS] = {1, 2, 3, 4, 5, 6, 7, 9, 0, 8}, b[] = PISKORLU_REPORT_OF_NO_SOLVE;
    double residual[1] = {0.0};

    /* a ray after sweep 2, beside an Idle row */
    two_rows(&p, 1.0, -(1.0 - 1e-8), -(1.0 - 1e-8), 1.0, -1.0, -1.0);
    check(solve(&p) == PISKORLU_ACCEPTED && p.counts[PISKORLU_COUNT_OUTCOME] == PISKORLU_INFEASIBLE_AFTER_SWEEP
              && p.counts[PISKORLU_COUNT_SWEEPS] == 2 && p.counts[PISKORLU_COUNT_EXACT_PASSES] == 2
              && p.counts[PISKORLU_COUNT_CONVERGED] == 0 && p.counts[PISKORLU_COUNT_LISTED] == 2 && p.rows[0] == 0 && p.rows[1] == 1,
          "infeasible after a sweep");
    one_row(&p, ldexp(1.0, -24), -1.0);
    check(solve(&p) == PISKORLU_ACCEPTED && p.counts[PISKORLU_COUNT_OUTCOME] == PISKORLU_INFEASIBLE_BY_GROWTH
              && p.counts[PISKORLU_COUNT_SWEEPS] == 1 && p.counts[PISKORLU_COUNT_EXACT_PASSES] == 0
              && p.counts[PISKORLU_COUNT_LISTED] == 1, "infeasible by growth");
    two_rows(&p, 1.0, -1.0, -1.0, 1.0, -1.0, -1.0);
    check(solve(&p) == PISKORLU_ACCEPTED && p.counts[PISKORLU_COUNT_OUTCOME] == PISKORLU_INFEASIBLE_IN_PASS, "infeasible in a pass");
    check(PISKORLU_FIGHT_BY_GROWTH == 1 && PISKORLU_FIGHT_IN_PASS == 2 && PISKORLU_FIGHT_AFTER_SWEEP == 3, "old names");
    two_rows(&p, 0.0, 0.0, 0.0, 1.0, -1.0, -1.0);
    check(solve(&p) == PISKORLU_ACCEPTED && p.counts[PISKORLU_COUNT_OUTCOME] == PISKORLU_SOLVED && p.counts[PISKORLU_COUNT_IDLE] == 1
              && p.counts[PISKORLU_COUNT_EXACT] == 1 && p.counts[PISKORLU_COUNT_LISTED] == 0 && p.states[0] == PISKORLU_IDLE
              && p.states[1] == PISKORLU_INSIDE, "an Idle row");
    one_row(&p, 1.0, 0.0);
    check(solve(&p) == PISKORLU_ACCEPTED && p.states[0] == PISKORLU_AT_LO && p.counts[PISKORLU_COUNT_STOPPED] == 0, "at lo, stopped 0");
    two_rows(&p, ldexp(1.0, -24), 0.0, 0.0, 1.0, -1.0, 4.0);
    check(solve(&p) == PISKORLU_ACCEPTED && p.counts[PISKORLU_COUNT_OUTCOME] == PISKORLU_INFEASIBLE_BY_GROWTH && p.states[0] == PISKORLU_INSIDE
              && p.states[1] == PISKORLU_INSIDE && p.counts[PISKORLU_COUNT_STOPPED] == 1, "growth, both inside, stopped 1");
    one_row(&p, 1.0, -1e308);
    p.scale[0] = 1e303;
    check(solve(&p) == PISKORLU_ACCEPTED && p.counts[PISKORLU_COUNT_CONVERGED] == 1 && p.counts[PISKORLU_COUNT_EXACT] == 0, "converged, not exact");
    for (k = 0; k < 4; k++) {
        check(strcmp(piskorlu_outcome_in_words(k), piskorlu_outcome_in_words(99)) != 0, "an outcome has words");
        check(strcmp(piskorlu_state_in_words((uint8_t)k), piskorlu_state_in_words(99)) != 0, "a state has words");
    }

    one_row(&p, 1.0, -1.0);
    check(tallied(&p, tally, residual) == PISKORLU_ACCEPTED && tally[PISKORLU_REPORT_INCREMENTS] == 1 && tally[PISKORLU_REPORT_SWEEPS] == 1
              && tally[PISKORLU_REPORT_EXACT_PASSES] == 1 && tally[PISKORLU_REPORT_CONVERGED] == 1 && tally[PISKORLU_REPORT_EXACT] == 1, "a tally");
    check(piskorlu_and(a, PISKORLU_REPORT_COUNTS, 0.5, b, PISKORLU_REPORT_COUNTS, 0.0, counts, PISKORLU_REPORT_COUNTS, residual, 1)
              == PISKORLU_ACCEPTED, "joined");
    check(counts[PISKORLU_REPORT_INCREMENTS] == 1 && counts[PISKORLU_REPORT_ITERATIONS] == 2 && counts[PISKORLU_REPORT_MOST_ITERATIONS] == 3
              && counts[PISKORLU_REPORT_REJECTED] == 4 && counts[PISKORLU_REPORT_ANCHORS] == 5 && counts[PISKORLU_REPORT_SWEEPS] == 6
              && counts[PISKORLU_REPORT_EXACT_PASSES] == 7 && counts[PISKORLU_REPORT_CONVERGED] == 1 && counts[PISKORLU_REPORT_EXACT] == 0
              && counts[PISKORLU_REPORT_STOPPED] == 8
              && residual[0] == 0.5, "the places of a report, and a flag other than 0 is yes");
    check(piskorlu_continued(a, PISKORLU_REPORT_COUNTS, 0.5, b, PISKORLU_REPORT_COUNTS, 0.0, counts, PISKORLU_REPORT_COUNTS, residual, 1) == PISKORLU_ACCEPTED
              && counts[PISKORLU_REPORT_MOST_ITERATIONS] == 2 && residual[0] == 0.0, "continued: the iterations' sum, and b's residual");
    check(piskorlu_sqrt(ldexp(1.0, -1074)) == ldexp(1.0, -537), "a square root");
}

/* ---- when the loads may be used */

static int usable(Problem *p, double most)
{
    return solve(p) == PISKORLU_ACCEPTED && piskorlu_usable(p->counts, p->residual[0], p->nu, p->n, most);
}

static void loads(void)
{
    static Problem p;
    one_row(&p, 2.0, -4.0);
    check(usable(&p, 1e-9) && p.nu[0] == 2.0, "a load that may be used");
    one_row(&p, 1.0, NAN);
    check(!usable(&p, 1e-9), "a NaN load may not");
    check(p.counts[PISKORLU_COUNT_OUTCOME] == PISKORLU_SOLVED && p.counts[PISKORLU_COUNT_CONVERGED] == 1 && p.counts[PISKORLU_COUNT_EXACT] == 1
              && p.residual[0] == 0.0 && !piskorlu_finite(p.nu[0]), "though it is solved, converged, exact, residual 0");
    two_rows(&p, 1.0, -2.0, 2.0, 1.0, -0.5, 0.0);
    p.lo[0] = p.lo[1] = -1.0;
    p.hi[0] = p.hi[1] = 1.0;
    check(!usable(&p, 10.0) && p.counts[PISKORLU_COUNT_OUTCOME] == PISKORLU_SOLVED && p.counts[PISKORLU_COUNT_CONVERGED] == 0
              && p.counts[PISKORLU_COUNT_SWEEPS] == 200, "solved may be not converged");
    two_rows(&p, 1.0, -1.0, -1.0, 1.0, -1.0, -1.0);
    check(!usable(&p, 10.0), "infeasible");
    two_rows(&p, 4.00001474754891, 2.0, 2.0, 1.0000294950978197, 6.0, -0.9999852524510902);
    p.lo[0] = p.lo[1] = -INFINITY;
    p.scale[0] = p.scale[1] = 0.001;
    check(!usable(&p, 1e-9) && p.counts[PISKORLU_COUNT_EXACT] == 1 && p.residual[0] > 1e-9, "exact, ill-conditioned, with more than 1e-9 left");
    check(piskorlu_usable(p.counts, p.residual[0], p.nu, p.n, 1e-8), "which another user may take");
    one_row(&p, 1.0, -1.0);
    p.lo[0] = 1.0;
    p.hi[0] = -1.0;
    check(!usable(&p, 1e-9) && p.counts[PISKORLU_COUNT_EXACT] == 1 && p.residual[0] == 2.0, "exact with a large residual");
    one_row(&p, 1.0, -4.0);
    p.hi[0] = NAN;
    check(usable(&p, 1e-9) && p.nu[0] == 4.0, "a NaN bound bounds nothing");
    one_row(&p, NAN, -4.0);
    check(usable(&p, 1e-9) && p.counts[PISKORLU_COUNT_IDLE] == 1, "a NaN diagonal shows as Idle alone");
    check(piskorlu_finite(DBL_MAX) && piskorlu_finite(0.0) && !piskorlu_finite(INFINITY) && !piskorlu_finite(-INFINITY) && !piskorlu_finite(NAN),
          "finite");
}

/* ---- the floating-point environment */

/* Whether the thread's operations give the answers that they should. */
static int answers_as_proved(void)
{
    static Problem p;
    double third, tiny;
    volatile double quarter = DBL_MIN / 4.0;
    one_row(&p, 3.0, -1.0);
    solve(&p);
    third = p.nu[0];
    one_row(&p, 1.0, -quarter);
    p.scale[0] = quarter;
    solve(&p);
    tiny = p.nu[0];
    return memcmp(&third, "\x55\x55\x55\x55\x55\x55\xd5\x3f", 8) == 0 && memcmp(&tiny, "\0\0\0\0\0\0\x04\0", 8) == 0;
}

static void environment(void)
{
    const int modes[3] = {FE_UPWARD, FE_DOWNWARD, FE_TOWARDZERO};
    unsigned kept = _mm_getcsr();
    int k;
    check(piskorlu_float_environment_ok() && answers_as_proved(), "the environment that a program starts with");
    for (k = 0; k < 3; k++) {
        int ok;
        fesetround(modes[k]);
        ok = piskorlu_float_environment_ok();
        fesetround(FE_TONEAREST);
        check(!ok, "another rounding mode is seen");
    }
    fesetround(FE_UPWARD);
    k = answers_as_proved();
    fesetround(FE_TONEAREST);
    check(!k, "another rounding mode gives other answers");
    for (k = 0; k < 2; k++) {
        int ok, same;
        _mm_setcsr(kept | (k ? 0x8000u : 0x0040u)); /* flush to zero; subnormals are zeros */
        ok = piskorlu_float_environment_ok();
        same = answers_as_proved();
        _mm_setcsr(kept);
        check(!ok, "flush to zero is seen");
        check(!same, "flush to zero gives other answers");
    }
    check(piskorlu_float_environment_ok() && answers_as_proved(), "and all is as before");
}

/* ---- buffers */

static void buffers(void)
{
    static Problem p, q;
    const size_t page = (size_t)sysconf(_SC_PAGESIZE), n = 2;
    double *only = (double *)mmap(NULL, page, PROT_READ | PROT_WRITE, MAP_PRIVATE | MAP_ANONYMOUS, -1, 0);
    double residual[1], space[PISKORLU_LEAST_NORM_WORKSPACE], nu[2] = {0.0, 0.0};
    size_t counts[PISKORLU_SOLVE_COUNTS];
    uint32_t rank[1] = {9}, *reports = (uint32_t *)only, joined[PISKORLU_REPORT_COUNTS];
    uint8_t out[PISKORLU_BEND_ROOM];
    const uint32_t no_solve[] = PISKORLU_REPORT_OF_NO_SOLVE;

    two_rows(&p, 2.0, 1.0, 1.0, 2.0, -3.0, 1.0);
    memcpy(only, p.w, 32);
    memcpy(only + 4, p.u_free, 16);
    memcpy(only + 6, p.lo, 16);
    memcpy(only + 8, p.hi, 16);
    memcpy(only + 10, p.scale, 16);
    mprotect(only, page, PROT_READ);
    /* motion and W overlap */
    check(piskorlu_solve(only, 4, only + 4, n, only + 6, n, only + 8, n, only + 10, n, only, 4, 0.0, nu, n, p.states, n, p.rows, n, p.workspace,
                         2304, counts, PISKORLU_SOLVE_COUNTS, residual, 1) == PISKORLU_ACCEPTED && nu[0] == 1.5 && nu[1] == 0.0, "const buffers of a solve in read-only memory, two overlapping");
    mprotect(only, page, PROT_READ | PROT_WRITE);
    memcpy(reports, no_solve, sizeof no_solve);
    mprotect(only, page, PROT_READ);
    check(piskorlu_and(reports, PISKORLU_REPORT_COUNTS, 0.0, reports, PISKORLU_REPORT_COUNTS, 0.0, joined, PISKORLU_REPORT_COUNTS, residual, 1) == PISKORLU_ACCEPTED, "of a join, and one report twice");
    mprotect(only, page, PROT_READ | PROT_WRITE);
    bend_file((uint8_t *)only);
    mprotect(only, page, PROT_READ);
    check(piskorlu_bend((uint8_t *)only, 80, out, sizeof out) > 60, "of a bend file");
    munmap(only, page);

    check(piskorlu_solve(NULL, 0, NULL, 0, NULL, 0, NULL, 0, NULL, 0, NULL, 0, 0.0, NULL, 0, NULL, 0, NULL, 0, p.workspace, 2304, counts, PISKORLU_SOLVE_COUNTS,
                         residual, 1) == PISKORLU_ACCEPTED && counts[PISKORLU_COUNT_OUTCOME] == PISKORLU_SOLVED, "NULL of no values: no rows");
    check(piskorlu_solve(NULL, 0, NULL, 0, NULL, 0, NULL, 0, NULL, 0, NULL, 0, 0.0, NULL, 0, NULL, 0, NULL, 0, NULL, 0, NULL, 0, NULL, 0)
              == PISKORLU_REFUSED_SHORT, "NULL everywhere");
    check(piskorlu_least_norm(NULL, 0, 0, 0, NULL, 0, NULL, 0, space, 1056, rank, 1) == PISKORLU_ACCEPTED && rank[0] == 0, "NULL: no rows and columns");
    check(piskorlu_and(NULL, 0, 0.0, NULL, 0, 0.0, NULL, 0, NULL, 0) == PISKORLU_REFUSED_JOIN, "NULL: reports");
    check(piskorlu_bend(NULL, 0, NULL, 0) == 0, "NULL: no file and no room");

    /* a refused call writes nothing */
    memset(&p, 0x5A, sizeof p);
    p.n = 2;
    p.coords = 0;
    q = p;
    p.scale[0] = q.scale[0] = -1.0;
    check(solve(&p) == PISKORLU_REFUSED_SCALE && memcmp(&p, &q, sizeof p) == 0, "a refused call writes nothing");
}

/* ---- stack: each call on a stack of its own, painted, with a guard page below */

#define STACK 131072
#define PAINT 0xA5

static unsigned char *stack_floor;
static unsigned char *stack_at;
static void (*stack_call)(void);
static ucontext_t stack_main, stack_other;
static Problem stack_problem;

static void call_sqrt(void) { stack_problem.nu[0] = piskorlu_sqrt(stack_problem.w[0]); }
static void call_solve(void) { solve(&stack_problem); }
static void call_tallied(void)
{
    static uint32_t tally[] = PISKORLU_REPORT_OF_NO_SOLVE;
    static double residual[1];
    tallied(&stack_problem, tally, residual);
}
static void call_triangle(void)
{
    static double t[528];
    solve_triangle(&stack_problem, t, lower(&stack_problem, t));
}
static void call_tallied_triangle(void)
{
    static uint32_t tally[] = PISKORLU_REPORT_OF_NO_SOLVE;
    static double residual[1], t[528];
    tallied_triangle(&stack_problem, t, lower(&stack_problem, t), tally, residual);
}
static void call_least_norm(void)
{
    static uint32_t rank[1];
    size_t n = stack_problem.n;
    piskorlu_least_norm(stack_problem.w, n * n, n, n, stack_problem.u_free, n, stack_problem.nu, n, stack_problem.workspace,
                        PISKORLU_LEAST_NORM_WORKSPACE, rank, 1);
}
static void call_joins(void)
{
    static const uint32_t a[] = PISKORLU_REPORT_OF_NO_SOLVE;
    static uint32_t counts[PISKORLU_REPORT_COUNTS];
    static double residual[1];
    piskorlu_and(a, PISKORLU_REPORT_COUNTS, 0.5, a, PISKORLU_REPORT_COUNTS, 0.25, counts, PISKORLU_REPORT_COUNTS, residual, 1);
    piskorlu_continued(a, PISKORLU_REPORT_COUNTS, 0.5, a, PISKORLU_REPORT_COUNTS, 0.25, counts, PISKORLU_REPORT_COUNTS, residual, 1);
}
static void call_bend(void)
{
    static uint8_t file[16384], out[PISKORLU_BEND_ROOM];
    const Problem *p = &stack_problem;
    size_t n = p->n, count = n * n + 5 * n + 2 * n + 1, at = 0;
    const uint8_t trailer[16] = {0, 0, 0, 0, (uint8_t)n, 0, 2, 0, (uint8_t)(count % 256), (uint8_t)(count / 256), 0, 0, 0x42, 0x45, 0x4E, 0x44};
    memcpy(file, p->w, 8 * n * n), at = 8 * n * n;
    memcpy(file + at, p->u_free, 8 * n), at += 8 * n;
    memcpy(file + at, p->lo, 8 * n), at += 8 * n;
    memcpy(file + at, p->hi, 8 * n), at += 8 * n;
    memcpy(file + at, p->scale, 8 * n), at += 8 * n;
    memcpy(file + at, p->nu, 8 * n), at += 8 * n;
    memcpy(file + at, p->motion, 16 * n), at += 16 * n;
    memcpy(file + at, &p->tolerance, 8), at += 8;
    memcpy(file + at, trailer, 16), at += 16;
    if (piskorlu_bend(file, at, out, sizeof out) < 20)
        check(0, "the bend file of the stack test is taken");
}

static void on_other_stack(void)
{
    unsigned char here;
    /* below this frame nothing was written yet but the call's own */
    stack_at = &here;
    stack_call();
}

/* How deep the call went, counted from the frame that made it. */
static size_t depth(void (*call)(void))
{
    size_t k;
    memset(stack_floor, PAINT, STACK);
    stack_call = call;
    getcontext(&stack_other);
    stack_other.uc_stack.ss_sp = stack_floor;
    stack_other.uc_stack.ss_size = STACK;
    stack_other.uc_link = &stack_main;
    makecontext(&stack_other, on_other_stack, 0);
    swapcontext(&stack_main, &stack_other);
    for (k = 0; k < STACK && stack_floor[k] == PAINT; k++)
        ;
    return (size_t)(stack_at - (stack_floor + k));
}

static void stacks(void)
{
    /* the frame of the test's own function is allowed 512 bytes */
    static const struct {
        const char *name;
        void (*call)(void);
        size_t most;
    } calls[] = {{"piskorlu_sqrt", call_sqrt, PISKORLU_SQRT_STACK},
                 {"piskorlu_least_norm", call_least_norm, PISKORLU_LEAST_NORM_STACK},
                 {"piskorlu_solve", call_solve, PISKORLU_SOLVE_STACK},
                 {"piskorlu_tallied", call_tallied, PISKORLU_TALLIED_STACK},
                 {"piskorlu_solve_triangle", call_triangle, PISKORLU_SOLVE_TRIANGLE_STACK},
                 {"piskorlu_tallied_triangle", call_tallied_triangle, PISKORLU_TALLIED_TRIANGLE_STACK},
                 {"piskorlu_and, piskorlu_continued", call_joins, PISKORLU_JOIN_STACK},
                 {"piskorlu_bend", call_bend, PISKORLU_BEND_STACK}};
    const size_t page = (size_t)sysconf(_SC_PAGESIZE);
    unsigned char *whole = (unsigned char *)mmap(NULL, STACK + page, PROT_READ | PROT_WRITE, MAP_PRIVATE | MAP_ANONYMOUS, -1, 0);
    size_t k, n, turn;
    mprotect(whole, page, PROT_NONE);
    stack_floor = whole + page;
    for (k = 0; k < sizeof calls / sizeof *calls; k++) {
        size_t deepest = 0;
        for (n = 1; n <= 32; n++) {
            for (turn = 0; turn < 3; turn++) {
                size_t here;
                random_problem(&stack_problem, n);
                here = depth(calls[k].call);
                deepest = here > deepest ? here : deepest;
            }
        }
        printf("stack of %s: %lu bytes with the test's own frame, %lu promised\n", calls[k].name, (unsigned long)deepest,
               (unsigned long)calls[k].most);
        check(deepest > 0 && deepest <= calls[k].most + 512, calls[k].name);
    }
    munmap(whole, STACK + page);
}

/* ---- threads and signal handlers */

static int same_answer(const Problem *a, const Problem *b)
{
    return memcmp(a->nu, b->nu, sizeof a->nu) == 0 && memcmp(a->states, b->states, a->n) == 0
           && memcmp(a->counts, b->counts, sizeof a->counts) == 0 && a->residual[0] == b->residual[0];
}

static Problem shared_start, shared_answer;

static void *many(void *wrong)
{
    static const int turns = 200;
    Problem *p = (Problem *)malloc(sizeof *p);
    int k;
    for (k = 0; k < turns; k++) {
        *p = shared_start;
        solve(p);
        if (!same_answer(p, &shared_answer))
            ++*(int *)wrong;
    }
    free(p);
    return NULL;
}

static Problem handled_start, handled_answer;
static volatile sig_atomic_t handled, handled_wrong;

static void handler(int signal_number)
{
    static Problem p;
    (void)signal_number;
    p = handled_start;
    solve(&p);
    handled++;
    if (!same_answer(&p, &handled_answer))
        handled_wrong++;
}

static void at_once(void)
{
    pthread_t threads[4];
    int wrong[4] = {0, 0, 0, 0}, k, turns;
    struct itimerval every = {{0, 300}, {0, 300}}, never = {{0, 0}, {0, 0}};
    random_problem(&shared_start, 17);
    shared_answer = shared_start;
    solve(&shared_answer);
    for (k = 0; k < 4; k++)
        pthread_create(&threads[k], NULL, many, &wrong[k]);
    for (k = 0; k < 4; k++)
        pthread_join(threads[k], NULL);
    check(wrong[0] + wrong[1] + wrong[2] + wrong[3] == 0, "four threads at once");

    random_problem(&handled_start, 9);
    handled_answer = handled_start;
    solve(&handled_answer);
    signal(SIGALRM, handler);
    setitimer(ITIMER_REAL, &every, NULL);
    for (turns = 0; turns < 20000 && handled < 100; turns++)
        many(&wrong[0]);
    setitimer(ITIMER_REAL, &never, NULL);
    check(handled >= 100 && handled_wrong == 0 && wrong[0] == 0, "calls from a signal handler, between those that it interrupts");
}

int main(void)
{
    check(strcmp(PISKORLU_VERSION, "") != 0, "a version");
    refusals();
    triangles();
    files();
    places();
    loads();
    environment();
    buffers();
    stacks();
    at_once();
    printf("%d passed, %d failed\n", passed, failed);
    return failed != 0;
}
