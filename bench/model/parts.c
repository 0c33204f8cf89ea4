/* Where the time of a filter goes: beside whole calls it times, on the same numbers, what no filter of these definitions can do
   without, n·m exponentials and 2·n·m divisions, and what this one does with memory: stores, label sums, clearing.

       gcc -O2 -Iinclude bench/model/parts.c crates/c_interface_c/out/libc_interface_c.a -lm

   Nanoseconds a window, the median of many turns, in processor time of the thread. */
#define _POSIX_C_SOURCE 200809L
#include "msar.h"

#include <math.h>
#include <stdio.h>
#include <stdlib.h>
#include <string.h>
#include <time.h>

enum { READINGS = 4096, TURNS = 25, PARTS = 7 };

static size_t k, order, rule, rows, windows, power, counts[MSAR_COUNTS];
static double series[READINGS], numbers[MSAR_NUMBERS], *work, *exponents, *copied, *table;
static volatile double sink;

static double used(void) {
    struct timespec t;
    clock_gettime(CLOCK_THREAD_CPUTIME_ID, &t);
    return (double)t.tv_sec * 1e9 + (double)t.tv_nsec;
}

/* Numbers in [0, 1), the same each run. */
static double dice(void) {
    static unsigned long long state = 42;
    state = state * 6364136223846793005u + 1442695040888963407u;
    return (double)(state >> 11) / 9007199254740992.0;
}

/* A model with one set of coefficients and a variance for each label, and a series that changes its mean now and then. */
static void draw(void) {
    double mean = 0.0;
    memset(numbers, 0, sizeof numbers);
    for (size_t i = 0; i < k; i++) {
        for (size_t j = 0; j < k; j++)
            numbers[MSAR_TRANSITION_AT(k, i, j)] = i == j ? 0.9 : 0.1 / ((double)k - 1.0);
        numbers[MSAR_MEANS + i] = (double)i - ((double)k - 1.0) / 2.0;
        numbers[MSAR_VARIANCES + i] = 0.5 + 0.1 * (double)i;
    }
    for (size_t l = 1; l <= order; l++)
        numbers[MSAR_AR_AT(order, 0, l)] = 0.3 / (double)l;
    counts[MSAR_COUNTS_MEANS] = counts[MSAR_COUNTS_VARIANCES] = k, counts[MSAR_COUNTS_TRANSITION] = k * k;
    counts[MSAR_COUNTS_BLOCKS] = 1, counts[MSAR_COUNTS_ORDER] = counts[MSAR_COUNTS_AR] = order;
    for (size_t t = 0; t < READINGS; t++) {
        double sum = 0.0;
        if (dice() < 0.1)
            mean = numbers[MSAR_MEANS + (size_t)(dice() * (double)k)];
        for (int i = 0; i < 12; i++)
            sum += dice();
        series[t] = mean + 0.8 * (sum - 6.0);
    }
}

/* The exponent of each window's density, as the filter has it but for rounding. */
static void expose(void) {
    for (size_t e = 0; e < rows * windows; e++) {
        size_t t = order + e / windows, rest = e % windows, now = rest % k;
        double mean = numbers[MSAR_MEANS + now], variance = numbers[MSAR_VARIANCES + now], z;
        for (size_t l = 1; l <= order; l++) {
            rest /= k;
            mean += numbers[MSAR_AR_AT(order, 0, l)] * (series[t - l] - numbers[MSAR_MEANS + rest % k]);
        }
        z = (series[t] - mean) / sqrt(variance);
        exponents[e] = msar_lnpdf(z) - 0.5 * log(variance);
    }
}

static void call(int filters) {
    size_t whole[MSAR_WHOLE];
    double real[MSAR_REAL];
    if (filters)
        msar_filter(k, order, false, true, series, READINGS, counts, numbers, work, MSAR_WORK_FILTER(rows, windows), table,
                    MSAR_TABLE(rows, k), rule, whole, real);
    else
        msar_loglike(k, order, false, true, series, READINGS, counts, numbers, work, MSAR_WORK_FILTER(rows, windows), rule,
                     whole, real);
    if (whole[MSAR_WHOLE_REFUSAL] != MSAR_ANSWERED)
        exit(1);
    sink = real[MSAR_REAL_LOGLIK];
}

/* A row at a time, as the filter goes: its row lies in the cache. */
static void part(int which) {
    double row[MSAR_MOST_WINDOWS] = {0.0}, other[MSAR_MOST_WINDOWS];
    for (size_t a = 0; a < windows; a++)
        other[a] = 1.0 + (double)a;
    for (size_t i = 0; i < rows; i++) {
        const double *x = exponents + i * windows;
        if (which == 2)
            for (size_t a = 0; a < windows; a++)
                row[a] = msar_exp(x[a]);
        if (which == 3) {
            for (size_t a = 0; a < windows; a++)
                row[a] = x[a] / other[a];
            for (size_t a = 0; a < windows; a++)
                row[a] = row[a] / x[0];
        }
        if (which == 4)
            memcpy(copied + i * windows, other, windows * sizeof *other);
        if (which == 5)
            for (size_t s = 0; s < k; s++) {
                double sum = 0.0;
                for (size_t j = 0; j < power; j++)
                    sum += x[s + j * k];
                table[i * k + s] = sum;
            }
        sink = row[i % windows];
    }
    if (which == 6)
        memset(work, 0, MSAR_WORK_FILTER(rows, windows) * sizeof *work);
}

static int less(const void *a, const void *b) {
    double x = *(const double *)a, y = *(const double *)b;
    return (x > y) - (x < y);
}

int main(void) {
    /* k, order and rule, which makes a difference at order 0 alone */
    static const size_t sizes[][3] = {{2, 4, 1}, {2, 7, 1}, {4, 3, 1}, {16, 1, 1}, {2, 0, 1}, {2, 0, 2}, {16, 0, 1}, {16, 0, 2}};
    puts("  k p rule   filter loglike | exponentials divisions  stores    sums clearing | bound filter/bound");
    for (size_t s = 0; s < sizeof sizes / sizeof *sizes; s++) {
        double turn[TURNS], median[PARTS];
        k = sizes[s][0], order = sizes[s][1], rule = sizes[s][2];
        rows = MSAR_ROWS(READINGS, order), windows = MSAR_WINDOWS(k, order), power = windows / k;
        work = calloc(MSAR_WORK_FILTER(rows, windows), sizeof *work), table = calloc(rows * k, sizeof *table);
        exponents = calloc(rows * windows, sizeof *exponents), copied = calloc(rows * windows, sizeof *copied);
        if (!work || !table || !exponents || !copied)
            return 1;
        draw();
        expose();
        for (int p = 0; p < PARTS; p++) {
            for (int t = 0; t < TURNS; t++) {
                double begin = used();
                if (p < 2)
                    call(p == 0);
                else
                    part(p);
                turn[t] = (used() - begin) / (double)(rows * windows);
            }
            qsort(turn, TURNS, sizeof *turn, less);
            median[p] = turn[TURNS / 2];
        }
        printf("%3zu %zu %4zu   %6.2f  %6.2f |       %6.2f    %6.2f  %6.2f  %6.2f   %6.2f |%6.2f         %4.2f\n", k, order, rule,
               median[0], median[1], median[2], median[3], median[4], median[5], median[6], median[2] + median[3],
               median[0] / (median[2] + median[3]));
        free(work), free(table), free(exponents), free(copied);
    }
    return 0;
}
