/* Filters and smooths a short series with memory that the caller lends: how likely a driver is sound (label 0) or failing
   (label 1), at each reading. Readings are decibels heard less decibels sent.

       bin/firmware DIR && gcc -std=c99 -IDIR examples/smooth.c DIR/libmsar.a */
#include "msar.h"

#include <stdio.h>

enum { SOUND, FAILING, REGIMES }; /* the labels, and how many they are */
enum { ORDER = 1, READINGS = 16, ROWS = MSAR_ROWS(READINGS, ORDER), WINDOWS = MSAR_WINDOWS(REGIMES, ORDER) };
enum { WORK = MSAR_WORK_SMOOTH(ROWS, WINDOWS), TABLE = MSAR_TABLE(ROWS, REGIMES) };

/* a driver that loses some three decibels from the ninth reading on */
static const double series[READINGS] = {0.2, -0.1, 0.9, 0.1, -1.4, 0.0, 0.8, -0.2, -2.1, -3.3, -1.8, -3.6, -3.1, -1.7, -3.4, -3.0};

/* one block of AR coefficients and one variance, for both labels */
static const size_t counts[MSAR_COUNTS] = {
    [MSAR_COUNTS_MEANS] = REGIMES,
    [MSAR_COUNTS_TRANSITION] = REGIMES * REGIMES,
    [MSAR_COUNTS_BLOCKS] = 1,
    [MSAR_COUNTS_ORDER] = ORDER,
    [MSAR_COUNTS_AR] = ORDER, /* times the blocks */
    [MSAR_COUNTS_VARIANCES] = 1,
};
static const double numbers[MSAR_NUMBERS] = {
    [MSAR_TRANSITION_AT(REGIMES, SOUND, SOUND)] = 0.98,
    [MSAR_TRANSITION_AT(REGIMES, SOUND, FAILING)] = 0.05, /* sound now, failing before */
    [MSAR_TRANSITION_AT(REGIMES, FAILING, SOUND)] = 0.02,
    [MSAR_TRANSITION_AT(REGIMES, FAILING, FAILING)] = 0.95,
    [MSAR_MEANS + SOUND] = 0.0,
    [MSAR_MEANS + FAILING] = -3.0,
    [MSAR_AR_AT(ORDER, 0, 1)] = 0.25,
    [MSAR_VARIANCES] = 1.5,
};

/* what the memory is for stands in msar.h; here all of it is static, as on a processor without a heap */
static double work[WORK], filtered[TABLE], smoothed[TABLE];

static void run(size_t work_len) {
    size_t whole[MSAR_WHOLE], row;
    double real[MSAR_REAL];

    msar_smooth(REGIMES, ORDER, false, false, series, READINGS, counts, numbers, work, work_len, filtered, TABLE,
                smoothed, TABLE, MSAR_RULE_LITERATURE, whole, real);
    if (whole[MSAR_WHOLE_REFUSAL] != MSAR_ANSWERED) {
        printf("refusal %zu, place %zu, value %g\n", whole[MSAR_WHOLE_REFUSAL], whole[MSAR_WHOLE_PLACE],
               real[MSAR_REAL_VALUE]);
        return;
    }
    printf("log-likelihood %.17g\nreading  failing so far  failing, all told\n", real[MSAR_REAL_LOGLIK]);
    for (row = 0; row < ROWS; row++)
        printf("%7zu  %14.6f  %17.6f\n", row + ORDER, filtered[MSAR_TABLE_AT(REGIMES, row, FAILING)],
               smoothed[MSAR_TABLE_AT(REGIMES, row, FAILING)]);
}

int main(void) {
    run(WORK);
    /* one number too few: refusal MSAR_SHORT_MEMORY, with the length needed, and nothing is touched */
    run(WORK - 1);
    return 0;
}
