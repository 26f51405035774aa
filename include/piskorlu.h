/*
 * Piskorlu: box-bounded pad loads, for C and C++. docs/SPECIFICATION.md defines
 * what every call answers.
 *
 * Link with libpiskorlu.a, which tools/install.sh installs for x86-64 (in the
 * repository it is target/staticlib/libpiskorlu.a). It needs memcpy and memset
 * of the C library and nothing else. Nothing is allocated, no state is kept
 * between calls, and no call fails to return: every function ends on any
 * lengths and any values, NaN and infinities included.
 *
 * Buffers. A buffer is lent as a pointer and the number of its values. A const
 * one is only read: it may lie in read-only memory and overlap other const
 * ones. Any other one must be writable for that many values and must not
 * overlap any buffer lent in the same call. A pointer is aligned for its type.
 * Where the number is 0 the pointer is not used, and NULL will do. A call that
 * cannot be taken returns the number of its refusal and writes nothing at all.
 *
 * Threads. Calls use their buffers and their stack alone, so that any number of
 * threads may call at once, each with its own writable buffers. A call may be
 * made from a signal handler.
 *
 * Stack. A call takes at most as many bytes as the PISKORLU_.._STACK beside it
 * says (PISKORLU_CALL_STACK where there is none), whatever its input, and
 * touches them page by page, so that a guard page stops it where the stack is
 * too small.
 *
 * Floating point. The proofs are about IEEE 754 double precision, rounding to
 * nearest, with subnormal numbers. Another rounding mode, or subnormal numbers
 * taken or given as zero, gives other answers; gcc and clang switch to the
 * latter for a whole program that is linked with -Ofast or -ffast-math. Ask
 * piskorlu_float_environment_ok() once in each thread. Exceptions must be
 * masked, as they are where a program starts; their flags are changed.
 *
 * When the loads may be used. PISKORLU_ACCEPTED says only that the call was
 * taken. Use the multipliers nu only where piskorlu_usable() says so:
 *
 *   outcome     is PISKORLU_SOLVED. After an infeasible answer nu and states
 *               are where the solver stopped, and are no loads.
 *   converged   is 1. A solved answer may be one that had not settled after 200
 *               sweeps.
 *   residual    is small enough. An exact answer of an ill-conditioned problem
 *               may leave more than 1e-9.
 *   nu          is finite, every value. One NaN in u_free, in W or in the start
 *               gives NaN loads in an answer that is solved, converged and
 *               exact with residual 0.
 *
 * Two things show in the input alone: a row whose diagonal is NaN or not above
 * 0 is left out (counts[PISKORLU_COUNT_IDLE] tells how many), and a bound that
 * is NaN bounds nothing.
 */
#ifndef PISKORLU_H
#define PISKORLU_H

#include <float.h>
#include <stddef.h>
#include <stdint.h>
#include <string.h>

#ifdef __cplusplus
extern "C" {
#endif

#define PISKORLU_VERSION "3.0.5"

/* The most stack of a call that has no number of its own. */
#define PISKORLU_CALL_STACK 4096

/* A call was taken. */
#define PISKORLU_ACCEPTED 0u

/* Bend file: under 16 or over 65,536 bytes. Chained: under 16 or over 1,048,576,
 * or a link of 1 to 15. */
#define PISKORLU_REFUSED_FILE_SIZE 1u
/* Bend file: its last four bytes, or a step's, are not the mark 42 45 4E 44. */
#define PISKORLU_REFUSED_FILE_MARK 2u
/* Bend file: more than PISKORLU_MOST rows or PISKORLU_MOST_MOTION motion values;
 * in a step to write, more than 65,535 coordinates too. */
#define PISKORLU_REFUSED_FILE_LIMITS 3u
/* Bend file: its count does not fit rows and coords, or its length the count. */
#define PISKORLU_REFUSED_FILE_COUNT 4u

/* Solve: more than PISKORLU_MOST rows or PISKORLU_MOST_MOTION motion values. */
#define PISKORLU_REFUSED_TOO_LARGE 5u
/* Solve: w is not n by n. */
#define PISKORLU_REFUSED_NOT_SQUARE 6u
/* Solve: lo, hi, scale or nu has not one value for each row. */
#define PISKORLU_REFUSED_UNEQUAL 7u
/* Solve: a scale that is not finite and above 0. */
#define PISKORLU_REFUSED_SCALE 8u
/* Solve: motion is no whole number of rows of n values. */
#define PISKORLU_REFUSED_MOTION 9u
/* Solve: workspace, states, rows, counts or residual too short; chained bend
 * files and exact sums: any buffer too short. */
#define PISKORLU_REFUSED_SHORT 10u
/* Tallied solve: the tally might not hold one solve more. */
#define PISKORLU_REFUSED_TALLY 11u

/* Least norm: lengths that do not agree, or are too large or too small. */
#define PISKORLU_REFUSED_LEAST_NORM 12u

/* Joins: a count's sum above 4,294,967,295, or a buffer too short. */
#define PISKORLU_REFUSED_JOIN 13u

/* Chained bend files: no link before a step's numbers, or one above its own offset. */
#define PISKORLU_REFUSED_LINK 14u
/* Chained bend files: more than PISKORLU_MOST_STEPS steps, or none to write. */
#define PISKORLU_REFUSED_STEPS 15u
/* Triangle solve, in the place of 6: the triangle has not n(n + 1)/2 values. */
#define PISKORLU_REFUSED_TRIANGLE 16u

/* The most steps of a chained bend file. */
#define PISKORLU_MOST_STEPS 40

/* The answer where a chained bend file has no such step. It is no refusal. */
#define PISKORLU_NO_STEP 0xFFFFFFFFu

/* Exact sums: a value that is NaN or infinite. */
#define PISKORLU_REFUSED_NOT_FINITE 17u
/* Exact sums: a product after 32, or a second free motion; joined ones, too. */
#define PISKORLU_REFUSED_EXACT_FULL 18u

/* The most rows of a problem; the most rows and columns of a least-norm system. */
#define PISKORLU_MOST 32

/* The most values of a problem's motion. */
#define PISKORLU_MOST_MOTION 2048

/* The fewest values of a workspace for piskorlu_solve. */
#define PISKORLU_SOLVE_WORKSPACE 2304

/* The fewest values of a workspace for piskorlu_least_norm. */
#define PISKORLU_LEAST_NORM_WORKSPACE 1056

/*
 * The square root of v, rounded to nearest, ties to even, as IEEE 754 asks.
 * Zeros and plus infinity give themselves; NaN and negative numbers give NaN.
 */
#define PISKORLU_SQRT_STACK 256
double piskorlu_sqrt(double v);

/*
 * The x of least norm among those that minimize |A x - b|.
 *
 * a          A by rows, m rows of n values; a_len is m * n. Overwritten with
 *            the factors that the decomposition leaves.
 * b          the right-hand side; b_len is m. Overwritten.
 * x          receives the answer; x_len is n.
 * workspace  at least PISKORLU_LEAST_NORM_WORKSPACE values, of any contents.
 *            The first that many are overwritten, later ones are kept.
 * rank       receives the rank of A in rank[0]; rank_len is at least 1.
 *
 * m and n are at most PISKORLU_MOST; either may be 0, and then the rank is 0
 * and x is zero. Returns PISKORLU_ACCEPTED, or PISKORLU_REFUSED_LEAST_NORM
 * where a length is not as said here, and then nothing is written.
 */
#define PISKORLU_LEAST_NORM_STACK 2048
uint32_t piskorlu_least_norm(double *a, size_t a_len, size_t m, size_t n,
                             double *b, size_t b_len,
                             double *x, size_t x_len,
                             double *workspace, size_t workspace_len,
                             uint32_t *rank, size_t rank_len);

/*
 * The pads' loads: multipliers nu for which W nu + u_free is the motion at each
 * row; n is u_free_len. A row inside its box has no motion, one at lo none
 * below 0, and one at hi none above 0.
 *
 * A multiplier of an answer that is not exact is NaN or at least lo and at most
 * hi, where lo is at most hi. In an exact answer a row at a bound has that bound
 * as its multiplier, and one inside may lie past a bound by what the last step
 * was rounded. Where lo is above hi nothing is said of its row.
 *
 * w          W by rows, n rows of n values. A row whose diagonal is NaN or not
 *            above 0 is Idle: it starts at 0 within its box and stays.
 * u_free     the motion at each row without any load.
 * lo, hi     the boxes: -INFINITY or INFINITY where there is no limit.
 * scale      a load's size at each row, finite and above 0.
 * motion     rows of n values, one for each coordinate that is watched; the
 *            sweeps may stop where none moves by more than tolerance.
 * nu         the multipliers to start from; receives the answer. Ask
 *            piskorlu_usable() before you take them for loads.
 * states     receives each row's state: PISKORLU_INSIDE and so on. Later ones
 *            are kept.
 * rows       receives the rows of an infeasible answer at its front, rising.
 *            Later ones are kept; at least n.
 * workspace  at least PISKORLU_SOLVE_WORKSPACE values, of any contents. The
 *            first that many are overwritten, later ones are kept.
 * counts     receives PISKORLU_SOLVE_COUNTS counts, at the places
 *            PISKORLU_COUNT_OUTCOME and so on.
 * residual   receives the largest natural residual in residual[0].
 *
 * Returns PISKORLU_ACCEPTED, or one of the numbers 5 to 10, the first that
 * applies (10 at once where counts or residual is too short), and then nothing
 * is written.
 */
#define PISKORLU_SOLVE_COUNTS 8
#define PISKORLU_SOLVE_STACK 14336

/* The places of the counts: converged and exact are 0 or 1, idle is the number
   of Idle rows, listed the number of rows at the front of `rows`, stopped the
   number of row updates that the last sweep stopped at a bound (0 where no sweep
   was made). It tells how hard the stops were working. It is not the number of
   rows whose state is PISKORLU_AT_LO or PISKORLU_AT_HI: an update that comes to
   rest on its bound by itself is not stopped (one row, w 1, u_free 0, lo 0: at lo,
   stopped 0), and a row that was stopped may end elsewhere (rows w 2^-24 and 1,
   u_free -1 and 4, lo 0: growth, both inside, stopped 1). */
#define PISKORLU_COUNT_OUTCOME 0
#define PISKORLU_COUNT_SWEEPS 1
#define PISKORLU_COUNT_EXACT_PASSES 2
#define PISKORLU_COUNT_CONVERGED 3
#define PISKORLU_COUNT_EXACT 4
#define PISKORLU_COUNT_IDLE 5
#define PISKORLU_COUNT_LISTED 6
#define PISKORLU_COUNT_STOPPED 7

/* The outcome: solved, or infeasible, and how that was found. By growth: a
   multiplier passed a million times its scale, which a scale that is far too
   small gives too. In a pass or after a sweep: multipliers were found that can
   grow together without end, so that no motion meets every row. */
#define PISKORLU_SOLVED 0u
#define PISKORLU_INFEASIBLE_BY_GROWTH 1u
#define PISKORLU_INFEASIBLE_IN_PASS 2u
#define PISKORLU_INFEASIBLE_AFTER_SWEEP 3u

/* The same three by their names before version 1.0.0. */
#define PISKORLU_FIGHT_BY_GROWTH PISKORLU_INFEASIBLE_BY_GROWTH
#define PISKORLU_FIGHT_IN_PASS PISKORLU_INFEASIBLE_IN_PASS
#define PISKORLU_FIGHT_AFTER_SWEEP PISKORLU_INFEASIBLE_AFTER_SWEEP

#define PISKORLU_INSIDE 0u
#define PISKORLU_AT_LO 1u
#define PISKORLU_AT_HI 2u
#define PISKORLU_IDLE 3u

uint32_t piskorlu_solve(const double *w, size_t w_len,
                        const double *u_free, size_t u_free_len,
                        const double *lo, size_t lo_len,
                        const double *hi, size_t hi_len,
                        const double *scale, size_t scale_len,
                        const double *motion, size_t motion_len,
                        double tolerance,
                        double *nu, size_t nu_len,
                        uint8_t *states, size_t states_len,
                        size_t *rows, size_t rows_len,
                        double *workspace, size_t workspace_len,
                        size_t *counts, size_t counts_len,
                        double *residual, size_t residual_len);

/*
 * piskorlu_solve of the symmetric matrix whose lower triangle is t: every
 * answer, and what is left in every buffer, is that of piskorlu_solve with the
 * mirrored matrix as w. The matrix is mirrored inside, on the stack.
 *
 * t          the lower triangle by rows, n(n + 1)/2 values: row i has i + 1, up
 *            to its own entry. W has t[i(i + 1)/2 + j] in row i and column j and
 *            in row j and column i, for j at most i. (The upper triangle by rows
 *            is another list from n = 3 on.)
 *
 * The others are those of piskorlu_solve. Returns PISKORLU_ACCEPTED, or the
 * first that applies of 5, 16, 7, 8, 9 and 10 (10 at once where counts or
 * residual is too short), and then nothing is written.
 */
#define PISKORLU_SOLVE_TRIANGLE_STACK 24576

uint32_t piskorlu_solve_triangle(const double *t, size_t t_len,
                                 const double *u_free, size_t u_free_len,
                                 const double *lo, size_t lo_len,
                                 const double *hi, size_t hi_len,
                                 const double *scale, size_t scale_len,
                                 const double *motion, size_t motion_len,
                                 double tolerance,
                                 double *nu, size_t nu_len,
                                 uint8_t *states, size_t states_len,
                                 size_t *rows, size_t rows_len,
                                 double *workspace, size_t workspace_len,
                                 size_t *counts, size_t counts_len,
                                 double *residual, size_t residual_len);

/*
 * Whether the calling thread's floating-point operations are those that the
 * proofs are about: rounded to nearest, ties to even, subnormal numbers kept.
 * The values are volatile, so that they are computed where the call is made and
 * not by the compiler, whatever its options.
 */
static inline int piskorlu_float_environment_ok(void)
{
    volatile double one = 1.0, two = 2.0, smallest_normal = DBL_MIN;
    volatile double half_unit = DBL_EPSILON / 2.0;
    volatile double more_than_half = DBL_EPSILON * 0.75;
    volatile double next = 1.0 + DBL_EPSILON, result;

    result = one + half_unit;
    if (result != one)
        return 0;
    result = one + more_than_half;
    if (result != next)
        return 0;
    result = smallest_normal / two;
    result = result * two;
    return result == smallest_normal;
}

/* Whether v is neither NaN nor an infinity, whatever the compiler's options. */
static inline int piskorlu_finite(double v)
{
    uint64_t bits;

    memcpy(&bits, &v, sizeof bits);
    return (bits >> 52 & 0x7FFu) != 0x7FFu;
}

/*
 * Whether the loads of an accepted solve may be used: solved, converged, a
 * residual of at most most_residual (1e-9, say), and every one of the n
 * multipliers finite. Where every row should act, ask also that
 * counts[PISKORLU_COUNT_IDLE] is 0.
 */
static inline int piskorlu_usable(const size_t *counts, double residual,
                                  const double *nu, size_t n,
                                  double most_residual)
{
    size_t i;

    if (counts[PISKORLU_COUNT_OUTCOME] != PISKORLU_SOLVED
        || counts[PISKORLU_COUNT_CONVERGED] == 0 || !(residual <= most_residual))
        return 0;
    for (i = 0; i < n; i++)
        if (!piskorlu_finite(nu[i]))
            return 0;
    return 1;
}

/* The number that a call returned, in words. */
static inline const char *piskorlu_number_in_words(uint32_t number)
{
    switch (number) {
    case PISKORLU_ACCEPTED:
        return "accepted";
    case PISKORLU_REFUSED_FILE_SIZE:
        return "bend file: too few or too many bytes, or a link of 1 to 15";
    case PISKORLU_REFUSED_FILE_MARK:
        return "bend file: its last four bytes are not the mark";
    case PISKORLU_REFUSED_FILE_LIMITS:
        return "bend file: more than 32 rows or 2,048 motion values";
    case PISKORLU_REFUSED_FILE_COUNT:
        return "bend file: count or length does not fit";
    case PISKORLU_REFUSED_TOO_LARGE:
        return "solve: more than 32 rows or 2,048 motion values";
    case PISKORLU_REFUSED_NOT_SQUARE:
        return "solve: w is not n by n";
    case PISKORLU_REFUSED_UNEQUAL:
        return "solve: lo, hi, scale or nu has not one value for each row";
    case PISKORLU_REFUSED_SCALE:
        return "solve: a scale that is not finite and above 0";
    case PISKORLU_REFUSED_MOTION:
        return "solve: motion is no whole number of rows";
    case PISKORLU_REFUSED_SHORT:
        return "a buffer that was lent is too short";
    case PISKORLU_REFUSED_TALLY:
        return "tallied solve: the tally might not hold one solve more";
    case PISKORLU_REFUSED_LEAST_NORM:
        return "least norm: lengths that do not agree, or too large or too small";
    case PISKORLU_REFUSED_JOIN:
        return "joins: a count's sum too large, or a buffer too short";
    case PISKORLU_REFUSED_LINK:
        return "chained bend file: no link before a step's numbers, or one too high";
    case PISKORLU_REFUSED_STEPS:
        return "chained bend file: more than 40 steps, or none to write";
    case PISKORLU_REFUSED_TRIANGLE:
        return "triangle solve: the lower triangle has not n(n + 1)/2 values";
    case PISKORLU_REFUSED_NOT_FINITE:
        return "exact sum: a value that is NaN or infinite";
    case PISKORLU_REFUSED_EXACT_FULL:
        return "exact sum: more than 32 products, or a second free motion";
    default:
        return "not a number of this library";
    }
}

/* counts[PISKORLU_COUNT_OUTCOME] in words. */
static inline const char *piskorlu_outcome_in_words(size_t outcome)
{
    switch (outcome) {
    case PISKORLU_SOLVED:
        return "solved";
    case PISKORLU_INFEASIBLE_BY_GROWTH:
        return "infeasible: a multiplier passed a million times its scale";
    case PISKORLU_INFEASIBLE_IN_PASS:
        return "infeasible: an exact pass found multipliers that grow without end";
    case PISKORLU_INFEASIBLE_AFTER_SWEEP:
        return "infeasible: after a sweep multipliers grow without end";
    default:
        return "not an outcome of this library";
    }
}

/* A row's state in words. */
static inline const char *piskorlu_state_in_words(uint8_t state)
{
    switch (state) {
    case PISKORLU_INSIDE:
        return "inside";
    case PISKORLU_AT_LO:
        return "at lo";
    case PISKORLU_AT_HI:
        return "at hi";
    case PISKORLU_IDLE:
        return "idle";
    default:
        return "not a state of this library";
    }
}

/*
 * Reports of solves joined. A report is ten counts, at the places below, and a
 * residual. Of the flags converged and exact, 0 is no and any other value yes
 * (a joined report has 1 for yes). The report of no solve at all has the counts
 * PISKORLU_REPORT_OF_NO_SOLVE, an initializer, and residual 0.
 */
#define PISKORLU_REPORT_COUNTS 10
#define PISKORLU_REPORT_INCREMENTS 0
#define PISKORLU_REPORT_ITERATIONS 1
#define PISKORLU_REPORT_MOST_ITERATIONS 2
#define PISKORLU_REPORT_REJECTED 3
#define PISKORLU_REPORT_ANCHORS 4
#define PISKORLU_REPORT_SWEEPS 5
#define PISKORLU_REPORT_EXACT_PASSES 6
#define PISKORLU_REPORT_CONVERGED 7
#define PISKORLU_REPORT_EXACT 8
#define PISKORLU_REPORT_STOPPED 9

#define PISKORLU_REPORT_OF_NO_SOLVE {0u, 0u, 0u, 0u, 0u, 0u, 0u, 1u, 1u, 0u}

#define PISKORLU_JOIN_STACK 256

/*
 * Two reports together, as one procedure's: counts added, the larger
 * most_iterations and residual, flags that both have.
 *
 * a, b       the counts of each report, at least PISKORLU_REPORT_COUNTS.
 * counts     receives the counts in its first PISKORLU_REPORT_COUNTS places.
 * residual   receives the residual in residual[0].
 *
 * Returns PISKORLU_ACCEPTED, or PISKORLU_REFUSED_JOIN where a sum is too large
 * or a buffer too short, and then nothing is written.
 */
uint32_t piskorlu_and(const uint32_t *a, size_t a_len, double a_residual,
                      const uint32_t *b, size_t b_len, double b_residual,
                      uint32_t *counts, size_t counts_len,
                      double *residual, size_t residual_len);

/*
 * One increment begun as a reports and gone on from there as b reports: its
 * steps and sweeps added up, the larger increments, most_iterations the sum of
 * the iterations; converged and residual are b's, exact that of both.
 * Parameters and answer as for piskorlu_and.
 */
uint32_t piskorlu_continued(const uint32_t *a, size_t a_len, double a_residual,
                            const uint32_t *b, size_t b_len, double b_residual,
                            uint32_t *counts, size_t counts_len,
                            double *residual, size_t residual_len);

/*
 * A solve whose report joins a tally, as one increment with its sweeps, exact
 * passes, rows stopped, converged, exact and residual. Begin with the report of
 * no solve.
 *
 * Where the solve leaves a NaN in nu, such as from a torn cell wire, it joins
 * as neither converged nor exact, whatever its own report says, and the tally
 * has both flags 0 from then on. counts keeps the report as piskorlu_solve
 * gives it: converged and exact may be 1 there. Infinite multipliers change
 * nothing, and neither does a NaN that reaches no multiplier. piskorlu_and and
 * piskorlu_continued are not given multipliers and join flags as they are.
 *
 * tally           the tally's counts, at least PISKORLU_REPORT_COUNTS; they
 *                 are read, and receive the counts with this solve's.
 * tally_residual  its residual in tally_residual[0], likewise.
 *
 * The others are those of piskorlu_solve. Returns PISKORLU_ACCEPTED, or one of
 * the numbers 5 to 10 as piskorlu_solve (10 at once where tally or
 * tally_residual is too short, too), or else PISKORLU_REFUSED_TALLY where the
 * tally has 4,294,967,295 increments, more than 4,294,967,095 sweeps, more than
 * 4,294,967,286 exact passes or more than 4,294,967,263 rows stopped; and then
 * nothing is written.
 */
#define PISKORLU_TALLIED_STACK 14336
uint32_t piskorlu_tallied(uint32_t *tally, size_t tally_len,
                          double *tally_residual, size_t tally_residual_len,
                          const double *w, size_t w_len,
                          const double *u_free, size_t u_free_len,
                          const double *lo, size_t lo_len,
                          const double *hi, size_t hi_len,
                          const double *scale, size_t scale_len,
                          const double *motion, size_t motion_len,
                          double tolerance,
                          double *nu, size_t nu_len,
                          uint8_t *states, size_t states_len,
                          size_t *rows, size_t rows_len,
                          double *workspace, size_t workspace_len,
                          size_t *counts, size_t counts_len,
                          double *residual, size_t residual_len);

/*
 * piskorlu_tallied of the symmetric matrix whose lower triangle by rows is t,
 * as piskorlu_solve_triangle has it. Returns PISKORLU_ACCEPTED, or the first
 * that applies of 5, 16, 7, 8, 9, 10 and 11, and then nothing is written.
 */
#define PISKORLU_TALLIED_TRIANGLE_STACK 24576

uint32_t piskorlu_tallied_triangle(uint32_t *tally, size_t tally_len,
                                   double *tally_residual, size_t tally_residual_len,
                                   const double *t, size_t t_len,
                                   const double *u_free, size_t u_free_len,
                                   const double *lo, size_t lo_len,
                                   const double *hi, size_t hi_len,
                                   const double *scale, size_t scale_len,
                                   const double *motion, size_t motion_len,
                                   double tolerance,
                                   double *nu, size_t nu_len,
                                   uint8_t *states, size_t states_len,
                                   size_t *rows, size_t rows_len,
                                   double *workspace, size_t workspace_len,
                                   size_t *counts, size_t counts_len,
                                   double *residual, size_t residual_len);

/*
 * A row sum u_free + W nu without rounding, in an accumulator: a whole number
 * of 2^-2148 in words of 64 bits, the lowest first, two's complement, and two
 * counts, how many products it holds and whether it holds a free motion (0 or
 * 1; on entry any other value is yes, too). An empty one is all zeros.
 *
 * words      the words, at least PISKORLU_EXACT_WORDS; they are read, and
 *            receive the sum. Later ones are kept.
 * counts     the counts, at least PISKORLU_EXACT_COUNTS, likewise.
 *
 * Each call returns PISKORLU_ACCEPTED; or PISKORLU_REFUSED_SHORT at once where
 * words or counts is too short, else PISKORLU_REFUSED_EXACT_FULL, else
 * PISKORLU_REFUSED_NOT_FINITE, and then nothing is written.
 */
#define PISKORLU_EXACT_WORDS 67
#define PISKORLU_EXACT_COUNTS 2

/* The free motion u is added; a second one is refused, one of 0 counts. */
uint32_t piskorlu_exact_free(double u,
                             uint64_t *words, size_t words_len,
                             uint32_t *counts, size_t counts_len);

/* The product w * nu is added; a 33rd one is refused. */
uint32_t piskorlu_exact_product(double w, double nu,
                                uint64_t *words, size_t words_len,
                                uint32_t *counts, size_t counts_len);

/*
 * A whole row: from an empty accumulator the free motion u, then the products
 * w[j] * nu[j] for j rising, over the shorter of the two. More than 32 of them
 * are refused. What words and counts held before is of no account.
 */
uint32_t piskorlu_exact_row(double u,
                            const double *w, size_t w_len,
                            const double *nu, size_t nu_len,
                            uint64_t *words, size_t words_len,
                            uint32_t *counts, size_t counts_len);

/*
 * The sign of the exact sum, -1, 0 or 1, in sign[0]; sign_len is at least 1.
 * Returns PISKORLU_ACCEPTED or PISKORLU_REFUSED_SHORT.
 */
uint32_t piskorlu_exact_sign(const uint64_t *words, size_t words_len,
                             int8_t *sign, size_t sign_len);

/*
 * The accumulator in other and other_counts is joined to the one in words and
 * counts, which receive the total: the words add modulo 2^4288, the products
 * add, and a free motion of either is the total's. Any order and grouping of
 * the same terms, added or joined, gives the same words and counts, and so the
 * same sign and the same nearest double.
 *
 * other      the other one's words, at least PISKORLU_EXACT_WORDS.
 * other_counts
 *            its counts, at least PISKORLU_EXACT_COUNTS.
 *
 * Returns PISKORLU_ACCEPTED; or PISKORLU_REFUSED_SHORT at once where any of the
 * four is too short, else PISKORLU_REFUSED_EXACT_FULL where there would be more
 * than 32 products or both hold a free motion, and then nothing is written.
 */
uint32_t piskorlu_exact_join(uint64_t *words, size_t words_len,
                             uint32_t *counts, size_t counts_len,
                             const uint64_t *other, size_t other_len,
                             const uint32_t *other_counts, size_t other_counts_len);

/* The fewest bytes of a buffer for piskorlu_bend. */
#define PISKORLU_BEND_ROOM 2048
#define PISKORLU_BEND_STACK 61440

/*
 * What the program bendsolve writes for a bend file.
 *
 * file       the file's bytes; any bytes and any length will do, a file that
 *            cannot be taken is answered by a line "refused N".
 * out        receives the lines, at least PISKORLU_BEND_ROOM bytes. What lies
 *            past them is kept.
 *
 * Returns how many bytes of out the lines take; no zero byte ends them. An out
 * that is too short gets nothing, and 0 is returned.
 */
size_t piskorlu_bend(const uint8_t *file, size_t file_len,
                     uint8_t *out, size_t out_len);

/*
 * Where the steps of a chained bend file are. The whole chain is read, newest
 * step first; a refusal at any step is the whole file's.
 *
 * file       the file's bytes; any bytes and any length will do.
 * steps      receives the number of steps in steps[0]; at least 1 place.
 * ends       receives the offset at which each step's trailer ends, newest
 *            first, in its first PISKORLU_MOST_STEPS places, with 0 past the
 *            steps. Later ones are kept; at least PISKORLU_MOST_STEPS.
 *
 * Returns PISKORLU_ACCEPTED, or 1, 2, 3, 4, 14 or 15, the first rule that is
 * broken on the way (10 at once where steps or ends is too short), and then
 * nothing is written.
 */
uint32_t piskorlu_chain(const uint8_t *file, size_t file_len,
                        size_t *steps, size_t steps_len,
                        size_t *ends, size_t ends_len);

/*
 * One step of a chained bend file, counted from the newest, which is 0. The
 * whole chain is read first, so that a file that is refused gives no step.
 *
 * w          receives W by rows in its first n * n values, n being the step's
 *            rows; at least PISKORLU_MOST * PISKORLU_MOST values.
 * u_free, lo, hi, scale, nu
 *            receive the step's in their first n values; at least
 *            PISKORLU_MOST each.
 * motion     receives the step's in its first n * coordinates values; at least
 *            PISKORLU_MOST_MOTION.
 * shape      receives the rows in shape[0] and the coordinates in shape[1]; at
 *            least 2 places.
 * tolerance  receives the motion tolerance in tolerance[0]; at least 1 place.
 *
 * What lies past these is kept. Every pattern of a NaN is read as one NaN.
 *
 * Returns PISKORLU_ACCEPTED; or a number as piskorlu_chain, 10 at once where a
 * buffer is too short; or PISKORLU_NO_STEP where the file is accepted and has
 * no such step. In the last two cases nothing is written.
 */
uint32_t piskorlu_chain_step(const uint8_t *file, size_t file_len, size_t step,
                             double *w, size_t w_len,
                             double *u_free, size_t u_free_len,
                             double *lo, size_t lo_len,
                             double *hi, size_t hi_len,
                             double *scale, size_t scale_len,
                             double *nu, size_t nu_len,
                             double *motion, size_t motion_len,
                             size_t *shape, size_t shape_len,
                             double *tolerance, size_t tolerance_len);

/* The most bytes that piskorlu_chain_write writes. */
#define PISKORLU_CHAIN_ROOM 1035360

/*
 * The steps of a pull, oldest first, written as one chained bend file.
 *
 * rows       the rows of each step; rows_len is the number of steps.
 * coords     the coordinates of each step; at least rows_len.
 * counts     how many values each step has: with n rows and c coordinates
 *            n * n + 5 * n + c * n + 1; at least rows_len.
 * values     the values of the first step, then those of the next, and so on,
 *            each in a bend file's order: W by rows, u_free, lo, hi, scale, nu,
 *            motion, tolerance. Later ones are not looked at.
 * out        receives the file, 20 + 8 * counts[k] bytes for step k;
 *            PISKORLU_CHAIN_ROOM bytes are enough for every pull. What lies
 *            past the file is kept.
 * written    receives the number of bytes in written[0]; at least 1.
 *
 * Every NaN is written as 7FF8000000000000; other values keep their bits.
 *
 * Returns PISKORLU_ACCEPTED; or PISKORLU_REFUSED_SHORT at once where coords,
 * counts or written is too short; or else the first that applies of
 * PISKORLU_REFUSED_STEPS, then of each step, oldest first,
 * PISKORLU_REFUSED_FILE_LIMITS and PISKORLU_REFUSED_FILE_COUNT (values that run
 * out, too), and PISKORLU_REFUSED_SHORT where out is too short. After a refusal
 * nothing is written.
 */
uint32_t piskorlu_chain_write(const size_t *rows, size_t rows_len,
                              const size_t *coords, size_t coords_len,
                              const size_t *counts, size_t counts_len,
                              const double *values, size_t values_len,
                              uint8_t *out, size_t out_len,
                              size_t *written, size_t written_len);

/*
 * The double nearest to an exact row sum: a whole number of 2^-2148 in
 * PISKORLU_EXACT_WORDS words of 64 bits, the lowest first, two's complement.
 * It is rounded once: half way between two doubles to the one whose last digit
 * is 0, subnormals included, and from 2^1024 - 2^970 on to an infinity. A zero
 * result is plus zero, also where the sum is negative or was summed from minus
 * zeros; the sign of such a sum is read off the words.
 *
 * words      the sum's words, at least PISKORLU_EXACT_WORDS; any will do, also
 *            ones that no sum left. Later ones are not read.
 * result     receives the double in result[0]; at least 1.
 *
 * Returns PISKORLU_ACCEPTED, or PISKORLU_REFUSED_SHORT where words or result is
 * too short, and then nothing is written.
 */
uint32_t piskorlu_exact_nearest(const uint64_t *words, size_t words_len,
                                double *result, size_t result_len);

#ifdef __cplusplus
}
#endif

#endif
