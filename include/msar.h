/* msar.h: what to call in libmsar.a, which is for x86-64; `bin/firmware FOLDER` puts both into a folder. Each function
   is proved equal to its definition in Rattle; this file only says the same in C.

   Every call returns, whatever the numbers are, allocates nothing, keeps nothing between calls, and writes no memory
   but its arrays that are not const. A call uses less than 64 KiB of stack. No pointer may be null, no lent array
   may overlap another array of the same call, and behind each pointer there must be as many elements as this file
   says. A size_t must have 64 bits. Which NaN is returned is not fixed: its sign and payload may differ from call to
   call, so test for a NaN and do not compare its bits.

   The floating-point environment of the thread that calls must be what C programs start with:
     - rounding to nearest: fesetround(FE_TONEAREST);
     - subnormal numbers kept, not flushed to zero: linking with -ffast-math may have them flushed from the start;
     - exceptions masked, that is, not trapped: fedisableexcept(FE_ALL_EXCEPT) in glibc, feholdexcept in C99.
   On x86-64 all three stand in the register MXCSR, and _mm_setcsr(0x1F80) of <xmmintrin.h> sets them; on AArch64,
   were the library built for it, in FPCR, which must be 0. Under another rounding, or with subnormals flushed, the
   calls give other numbers than those proved. With traps a call may end in SIGFPE: where FE_INVALID is trapped, one
   infinite reading is enough. The exceptions' flags are not kept as they were: a call may raise any of them. */
#ifndef MSAR_H
#define MSAR_H

#include <stdbool.h>
#include <stddef.h>

#ifdef __cplusplus
extern "C" {
#endif

/* The version of the library that this file goes with; `msar --version` says it too. */
#define MSAR_VERSION "0.4.0"
#define MSAR_VERSION_MAJOR 0
#define MSAR_VERSION_MINOR 4
#define MSAR_VERSION_PATCH 0

/* ---- sizes

   A later version may give an array more places, or ask for another length of lent memory. So take both from the
   names below, and compile with the msar.h that came with the library.

   A spec is k regimes and an order, and whether the AR coefficients and the variance switch with the regime. Labels
   0 to k-1 name the regimes. A window is the labels of the last order + 1 readings; there are m = k^(order+1). Of a
   series of T readings the first `order` only start it: there are n = T - order rows, and row i is of the reading
   series[order + i]. */

/* What lies beyond these limits is refused. */
#define MSAR_MOST_REGIMES 16
#define MSAR_MOST_ORDER 7
#define MSAR_MOST_WINDOWS 256
#define MSAR_MOST_READINGS 4096

/* Lengths, constant where the arguments are: lent memory may be static. Within the limits an int holds them. 1 * (n) is
   an int where n is an enum's constant, whose product with another enum's C++20 deprecates. */
#define MSAR_ROWS(readings, order) ((readings) - (order))          /* n */
#define MSAR_WORK_FILTER(n, m) (1 * (n) * (m) + MSAR_MOST_WINDOWS) /* of work, at least: msar_loglike, msar_filter */
#define MSAR_WORK_SMOOTH(n, m) (2 * (n) * (m))                     /* of work, at least: msar_smooth, msar_fit */
#define MSAR_TABLE(n, k) (1 * (n) * (k))                           /* of filtered and of smoothed, at least */

/* The larger of the two: enough work for every call. The arguments are evaluated more than once. */
#define MSAR_WORK(n, m) \
    (MSAR_WORK_FILTER(n, m) > MSAR_WORK_SMOOTH(n, m) ? MSAR_WORK_FILTER(n, m) : MSAR_WORK_SMOOTH(n, m))

/* m, for an order up to MSAR_MOST_ORDER; the arguments are evaluated more than once. msar_windows gives it too, and
   checks k and order. 1 * (k) is an int where k is an enum's constant, which C++ would not have beside 1. */
#define MSAR_WINDOWS(k, order) \
    ((k) * MSAR_FACTOR(k, order, 1) * MSAR_FACTOR(k, order, 2) * MSAR_FACTOR(k, order, 3) * \
     MSAR_FACTOR(k, order, 4) * MSAR_FACTOR(k, order, 5) * MSAR_FACTOR(k, order, 6) * MSAR_FACTOR(k, order, 7))
#define MSAR_FACTOR(k, order, lag) ((order) < (lag) ? 1 : 1 * (k))

/* ---- the arrays

   Parameters are counts and numbers. counts[MSAR_COUNTS]: how much of numbers is used. Any values: the library
   checks them. */
#define MSAR_COUNTS 6
#define MSAR_COUNTS_MEANS 0      /* the number of means: k */
#define MSAR_COUNTS_TRANSITION 1 /* the length of the transition table: k * k */
#define MSAR_COUNTS_BLOCKS 2     /* the number of AR blocks: k where the AR coefficients switch, else 1 */
#define MSAR_COUNTS_ORDER 3      /* the order */
#define MSAR_COUNTS_AR 4         /* the length of the AR table: AR blocks times order */
#define MSAR_COUNTS_VARIANCES 5  /* the number of variances: k where the variance switches, else 1 */

/* numbers[MSAR_NUMBERS]: four parts. Each is used from its start; the rest of it is ignored. */
#define MSAR_NUMBERS 400
#define MSAR_TRANSITION 0  /* the transition table */
#define MSAR_MEANS 256     /* the means, of label i at MSAR_MEANS + i */
#define MSAR_AR 272        /* the AR coefficients */
#define MSAR_VARIANCES 384 /* the variances, of label i at MSAR_VARIANCES + i; a shared one at MSAR_VARIANCES */

/* P[now][before] of the transition table P: the probability of a label now, given the label of the reading before. A
   column, that is, every label now after one before, sums to 1. */
#define MSAR_TRANSITION_AT(k, now, before) (MSAR_TRANSITION + (now) * (k) + (before))

/* The coefficient of a block at a lag, 1 to order. Block i is label i's; a shared block is 0. */
#define MSAR_AR_AT(order, block, lag) (MSAR_AR + (block) * (order) + (lag) - 1)

/* durations and shares: of label i at i. */
#define MSAR_LABELS 16

/* The tables filtered and smoothed: the probability that a row has a label. */
#define MSAR_TABLE_AT(k, row, label) ((row) * (k) + (label))

/* The rule by which msar_loglike, msar_filter and msar_smooth predict at order 0; "calls on a series" says how. */
#define MSAR_RULE_RUST 1       /* as the Rust that the library was ported from, to compare answers with it */
#define MSAR_RULE_LITERATURE 2 /* as the literature has it: what most callers want */

/* An answer is whole[MSAR_WHOLE] and real[MSAR_REAL], of which every place is written every time. Places that a call
   has no use for are 0 and +0. */
#define MSAR_WHOLE 4
#define MSAR_WHOLE_REFUSAL 0    /* a number of enum msar_refusal */
#define MSAR_WHOLE_PLACE 1      /* the refusal's place; of msar_windows m */
#define MSAR_WHOLE_ITERATIONS 2 /* of msar_fit */
#define MSAR_WHOLE_CONVERGED 3  /* of msar_fit, 0 or 1 */
#define MSAR_REAL 2
#define MSAR_REAL_VALUE 0       /* the refusal's value */
#define MSAR_REAL_LOGLIK 1      /* the log-likelihood */

/* Why a call refuses, with the place and the value that it then carries; of several faults of a kind, the first's. */
enum msar_refusal {
    MSAR_ANSWERED = 0,              /* it does not */

    /* the spec; place: k */
    MSAR_FEW_REGIMES = 1,           /* fewer than 2 regimes */
    MSAR_MANY_WINDOWS = 2,          /* more than MSAR_MOST_WINDOWS windows */
    MSAR_MANY_REGIMES = 3,          /* more than MSAR_MOST_REGIMES regimes */

    /* the series, and lent memory */
    MSAR_SHORT_SERIES = 4,          /* at most `order` readings; place: order + 1 */
    MSAR_LONG_SERIES = 5,           /* more than MSAR_MOST_READINGS readings; place: their number */
    MSAR_BAD_READING = 6,           /* a reading is not finite; place: its index */
    MSAR_SHORT_MEMORY = 7,          /* lent memory is too short; place: the length needed */

    /* the rule */
    MSAR_OTHER_RULE = 29,           /* neither MSAR_RULE_RUST nor MSAR_RULE_LITERATURE */

    /* the parameters */
    MSAR_FEW_MEANS = 10,            /* fewer than 2 means; place: their number */
    MSAR_BAD_MEAN = 11,             /* a mean is not finite; place: its index, value: the mean */
    MSAR_BAD_LENGTH = 12,           /* a count does not fit the others; place: the count expected */
    MSAR_BAD_TRANSITION = 13,       /* an entry of P is not finite, below 0 or above 1 + 1e-8; place: now*k + before,
                                       value: the entry */
    MSAR_BAD_COLUMN = 14,           /* the sum of a column of P differs from 1 by more than 1e-8; place: its label,
                                       value: the sum */
    MSAR_BAD_AR = 15,               /* an AR coefficient is not finite; place: block*order + lag-1, value: it */
    MSAR_BAD_VARIANCE = 16,         /* a variance is not finite or not above 0; place: its index, value: it */
    MSAR_NO_AR = 17,                /* no AR block */
    MSAR_BEYOND = 18,               /* more than MSAR_MOST_REGIMES means, or an order above MSAR_MOST_ORDER; place: that
                                       number */
    MSAR_BAD_SHAPE = 20,            /* the parameters are not of the spec's shape */

    /* the run */
    MSAR_SINGULAR = 21,             /* a system of equations is singular; place: 0 shares, 1 means, 2 AR coefficients,
                                       value: its first column without a pivot, a label, or of AR coefficients lag-1 */
    MSAR_BAD_SHARE = 22,            /* a share is not finite or below -1e-9; place: its label, value: the share */
    MSAR_BAD_LIKELIHOOD = 23,       /* a row's likelihood is not finite or not above 0; place: the row */

    /* a fit */
    MSAR_ORDER_ZERO = 24,           /* its order is 0 */
    MSAR_BAD_SAMPLE_VARIANCE = 25,  /* the sample variance of the series is not finite or not above 0; value: it */
    MSAR_BAD_LOGLIKE = 26           /* its log-likelihood is not finite */
};

/* ---- calls on a spec or on parameters alone */

/* The number of windows m as the place, or refusal 1, 2 or 3. */
void msar_windows(size_t k, size_t order, size_t whole[MSAR_WHOLE], double real[MSAR_REAL]);

/* The checks of the parameters, refusals 10 to 18. */
void msar_check(const size_t counts[MSAR_COUNTS], const double numbers[MSAR_NUMBERS], size_t whole[MSAR_WHOLE],
                double real[MSAR_REAL]);

/* The expected durations of the labels, 1 / (1 - P[i][i]), after the checks of the parameters. durations: of label i
   at i, +0 past label k-1; as found on a refusal. */
void msar_durations(const size_t counts[MSAR_COUNTS], const double numbers[MSAR_NUMBERS], double durations[MSAR_LABELS],
                    size_t whole[MSAR_WHOLE], double real[MSAR_REAL]);

/* The stationary shares of the labels: the checks of the parameters, then refusals 21 and 22. shares: of label i at
   i, +0 past label k-1; as found on a refusal. */
void msar_shares(const size_t counts[MSAR_COUNTS], const double numbers[MSAR_NUMBERS], double shares[MSAR_LABELS],
                 size_t whole[MSAR_WHOLE], double real[MSAR_REAL]);

/* Whether the parameters are of the spec's shape. It only compares. */
bool msar_matches(size_t k, size_t order, bool switching_ar, bool switching_variance, const size_t counts[MSAR_COUNTS],
                  const double numbers[MSAR_NUMBERS]);

/* ---- calls on a series

   work: at least MSAR_WORK_FILTER(n, m) numbers for msar_loglike and msar_filter, at least MSAR_WORK_SMOOTH(n, m) for
   msar_smooth and msar_fit, whatever they are; as many, from the first on, are +0 afterwards. filtered and smoothed: at
   least MSAR_TABLE(n, k) numbers each; P(label of row i is j) is written at MSAR_TABLE_AT(k, i, j). What lies beyond
   these places is left as found. The checks come in this order: spec (1 to 3), series (4 to 6), lent memory (7: work,
   then the tables in their order), rule (29, not of a fit), parameters (10 to 18), shape (20), and for a fit 24 and 25.
   Where one of these refuses, all lent memory is left as found; where the run itself refuses (21 to 23, 26, and in a
   fit's own steps 11 and 13 to 16), the tables are left as found and work is cleared.

   rule: how a row after the first is predicted at order 0. From order 1 up both rules give the same bits.
     - MSAR_RULE_LITERATURE, 2: of label i the sum over j of P[i][j] times the filtered probability of label j in the
       row before. This is what most callers want.
     - MSAR_RULE_RUST, 1: column 0 of P, whatever came before, so that the smoothed numbers are no probabilities: a row
       may total more than 1 and run to infinity or NaN. It is kept so that answers can be compared with the Rust. */

/* The log-likelihood of the series. */
void msar_loglike(size_t k, size_t order, bool switching_ar, bool switching_variance, const double *series,
                  size_t series_len, const size_t counts[MSAR_COUNTS], const double numbers[MSAR_NUMBERS], double *work,
                  size_t work_len, size_t rule, size_t whole[MSAR_WHOLE], double real[MSAR_REAL]);

/* The log-likelihood, and the probabilities of the labels given the readings up to each row. */
void msar_filter(size_t k, size_t order, bool switching_ar, bool switching_variance, const double *series,
                 size_t series_len, const size_t counts[MSAR_COUNTS], const double numbers[MSAR_NUMBERS], double *work,
                 size_t work_len, double *filtered, size_t filtered_len, size_t rule, size_t whole[MSAR_WHOLE],
                 double real[MSAR_REAL]);

/* The same, and the probabilities of the labels given all readings. */
void msar_smooth(size_t k, size_t order, bool switching_ar, bool switching_variance, const double *series,
                 size_t series_len, const size_t counts[MSAR_COUNTS], const double numbers[MSAR_NUMBERS], double *work,
                 size_t work_len, double *filtered, size_t filtered_len, double *smoothed, size_t smoothed_len,
                 size_t rule, size_t whole[MSAR_WHOLE], double real[MSAR_REAL]);

/* A fit by EM from the parameters in numbers: at most max_iter passes, then a closing one at the parameters reached.
   From the second pass on it stops as converged where the log-likelihood gained at most tol; a NaN tol never stops
   it. smoothed: the probabilities of the labels given all readings, under the parameters reached. fitted: these,
   laid out as numbers and with the same counts, unused places +0; as found on a refusal. fitted may not be numbers,
   since lent arrays may not overlap. iterations: the passes begun, the stopping one included. With max_iter 0 the
   parameters are the start's. The log-likelihood is the closing pass's. */
void msar_fit(size_t k, size_t order, bool switching_ar, bool switching_variance, const double *series,
              size_t series_len, const size_t counts[MSAR_COUNTS], const double numbers[MSAR_NUMBERS], double *work,
              size_t work_len, double *smoothed, size_t smoothed_len, size_t max_iter, double tol,
              double fitted[MSAR_NUMBERS], size_t whole[MSAR_WHOLE], double real[MSAR_REAL]);

/* ---- elementary functions; they write no memory */

/* The square root, to the nearest number. Of either zero the same zero, of +infinity +infinity, of a number below
   zero, of -infinity and of a NaN a NaN. */
double msar_root(double x);

/* The natural logarithm, operation by operation as e_log.c of fdlibm 5.3. Of either zero -infinity, of +infinity
   +infinity, of a number below zero, of -infinity and of a NaN a NaN. */
double msar_log(double x);

/* The exponential, operation by operation as e_exp.c of fdlibm 5.3. +infinity above 709.782712893383973096, +0 below
   -745.13321910194110842, of +infinity +infinity, of -infinity +0, of a NaN a NaN. */
double msar_exp(double x);

/* The logarithm of the standard normal density: (-0.5 * z) * z - c, each operation rounded, c the number nearest to
   0.91893853320467274178, half the logarithm of 2 pi. Of an infinity -infinity, of a NaN a NaN. */
double msar_lnpdf(double z);

#ifdef __cplusplus
}
#endif

#endif
