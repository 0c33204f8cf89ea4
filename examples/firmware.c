/* How a monitor in firmware calls the library: it keeps the last readings of a driver, lends the memory, and asks how likely
   the driver fails now. No heap, no files; what it prints stands for what a device would report.

       bin/firmware DIR && gcc -std=c99 -IDIR examples/firmware.c DIR/libmsar.a */
#include "msar.h"

#include <stdio.h>

enum { SOUND, FAILING, REGIMES }; /* the labels, and how many they are */
enum { ORDER = 1, READINGS = 12, ROWS = MSAR_ROWS(READINGS, ORDER), WINDOWS = MSAR_WINDOWS(REGIMES, ORDER) };
enum { WORK = MSAR_WORK_FILTER(ROWS, WINDOWS), TABLE = MSAR_TABLE(ROWS, REGIMES) };

/* All that the calls are lent. */
static double work[WORK], table[TABLE];

/* Level heard less level sent, in dB, the newest reading last. */
static double series[READINGS] = {0.1, -0.4, 0.3, 0.0, 0.5, -0.2, 0.1, -2.2, -3.1, -2.4, -3.6, -2.9};

/* One block of AR coefficients for both labels; each has its own variance. */
static const size_t counts[MSAR_COUNTS] = {
    [MSAR_COUNTS_MEANS] = REGIMES,
    [MSAR_COUNTS_TRANSITION] = REGIMES * REGIMES,
    [MSAR_COUNTS_BLOCKS] = 1,
    [MSAR_COUNTS_ORDER] = ORDER,
    [MSAR_COUNTS_AR] = ORDER, /* times the blocks */
    [MSAR_COUNTS_VARIANCES] = REGIMES,
};
static const double numbers[MSAR_NUMBERS] = {
    [MSAR_TRANSITION_AT(REGIMES, SOUND, SOUND)] = 0.97,
    [MSAR_TRANSITION_AT(REGIMES, SOUND, FAILING)] = 0.05, /* sound now, failing before */
    [MSAR_TRANSITION_AT(REGIMES, FAILING, SOUND)] = 0.03,
    [MSAR_TRANSITION_AT(REGIMES, FAILING, FAILING)] = 0.95,
    [MSAR_MEANS + SOUND] = 0.0,
    [MSAR_MEANS + FAILING] = -2.5,
    [MSAR_AR_AT(ORDER, 0, 1)] = 0.4,
    [MSAR_VARIANCES + SOUND] = 0.25,
    [MSAR_VARIANCES + FAILING] = 1.0,
};

/* Filters the series with this much of the work memory, and reports the newest row or the refusal. */
static enum msar_refusal report(size_t work_len) {
    size_t whole[MSAR_WHOLE];
    double real[MSAR_REAL];

    msar_filter(REGIMES, ORDER, false, true, series, READINGS, counts, numbers, work, work_len, table, TABLE,
                MSAR_RULE_LITERATURE, whole, real);
    if (whole[MSAR_WHOLE_REFUSAL] == MSAR_ANSWERED)
        printf("reading %d: sound %.6f, failing %.6f\n", READINGS - 1, table[MSAR_TABLE_AT(REGIMES, ROWS - 1, SOUND)],
               table[MSAR_TABLE_AT(REGIMES, ROWS - 1, FAILING)]);
    else
        printf("refusal %zu, place %zu, value %g\n", whole[MSAR_WHOLE_REFUSAL], whole[MSAR_WHOLE_PLACE],
               real[MSAR_REAL_VALUE]);
    return (enum msar_refusal)whole[MSAR_WHOLE_REFUSAL];
}

int main(void) {
    if (report(WORK) != MSAR_ANSWERED)
        return 1;
    /* too little memory: the call says how much it needs, and touches nothing */
    if (report(0) != MSAR_SHORT_MEMORY)
        return 1;
    /* a reading that is no number: the call says which */
    series[4] = 0.0 / (series[3] - series[3]);
    return report(WORK) != MSAR_BAD_READING;
}
