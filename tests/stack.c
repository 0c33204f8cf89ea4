/* How deep the calls go: each runs in a thread whose stack is 64 KiB and a stated allowance for the thread itself, at the
 * largest sizes. The stack is painted first; what is no longer painted afterwards was used. A call that needs more ends
 * the program by a fault, since the page below the stack cannot be touched. */
#define _GNU_SOURCE
#include <pthread.h>
#include <stdbool.h>
#include <stdio.h>
#include <stdlib.h>
#include <string.h>
#include <sys/mman.h>
#include "msar.h"

enum { LIMIT = 64 * 1024, ALLOWANCE = 16 * 1024, PAGE = 4096, PAINT = 0xA5, READINGS = MSAR_MOST_READINGS };

struct job {
    size_t k, order, rule;
    bool switching_ar;
    double *series, *work, *filtered, *smoothed;
    size_t work_len, table_len;
    size_t counts[MSAR_COUNTS], whole[MSAR_WHOLE];
    double numbers[MSAR_NUMBERS], fitted[MSAR_NUMBERS], real[MSAR_REAL];
};

static void *nothing(void *given)
{
    (void)given;
    return NULL;
}

static void *loglike(void *given)
{
    struct job *j = given;
    msar_loglike(j->k, j->order, j->switching_ar, true, j->series, READINGS, j->counts, j->numbers, j->work,
                 j->work_len, j->rule, j->whole, j->real);
    return NULL;
}

static void *filter(void *given)
{
    struct job *j = given;
    msar_filter(j->k, j->order, j->switching_ar, true, j->series, READINGS, j->counts, j->numbers, j->work, j->work_len,
                j->filtered, j->table_len, j->rule, j->whole, j->real);
    return NULL;
}

static void *smooth(void *given)
{
    struct job *j = given;
    msar_smooth(j->k, j->order, j->switching_ar, true, j->series, READINGS, j->counts, j->numbers, j->work, j->work_len,
                j->filtered, j->table_len, j->smoothed, j->table_len, j->rule, j->whole, j->real);
    return NULL;
}

/* One pass with its step, and the closing pass. */
static void *fit(void *given)
{
    struct job *j = given;
    msar_fit(j->k, j->order, j->switching_ar, true, j->series, READINGS, j->counts, j->numbers, j->work, j->work_len, j->smoothed,
             j->table_len, 1, 0.0, j->fitted, j->whole, j->real);
    return NULL;
}

static void stop(const char *what)
{
    fprintf(stderr, "stack: %s\n", what);
    exit(2);
}

/* Bytes of a fresh stack that the call used, the thread's own among them. */
static size_t depth(void *(*call)(void *), struct job *j)
{
    size_t size = LIMIT + ALLOWANCE;
    unsigned char *low = mmap(NULL, size + PAGE, PROT_READ | PROT_WRITE, MAP_PRIVATE | MAP_ANONYMOUS, -1, 0);
    pthread_attr_t attr;
    pthread_t thread;
    size_t untouched = 0;

    if (low == MAP_FAILED || mprotect(low, PAGE, PROT_NONE))
        stop("no memory for a stack");
    memset(low + PAGE, PAINT, size);
    if (pthread_attr_init(&attr) || pthread_attr_setstack(&attr, low + PAGE, size) || pthread_create(&thread, &attr, call, j))
        stop("no thread");
    pthread_join(thread, NULL);
    while (untouched < size && low[PAGE + untouched] == PAINT)
        untouched++;
    munmap(low, size + PAGE);
    return size - untouched;
}

static void *lent(size_t count)
{
    void *memory = calloc(count, sizeof(double));
    if (!memory)
        stop("no memory to lend");
    return memory;
}

/* Of the work memory of every call, what this one needs. */
static size_t need(void *(*call)(void *), size_t k, size_t order)
{
    size_t rows = MSAR_ROWS(READINGS, order), windows = MSAR_WINDOWS(k, order);

    return call == loglike || call == filter ? MSAR_WORK_FILTER(rows, windows) : MSAR_WORK_SMOOTH(rows, windows);
}

static struct job job(size_t k, size_t order, bool switching_ar, size_t rule)
{
    struct job j = {.k = k, .order = order, .rule = rule, .switching_ar = switching_ar};
    size_t rows = MSAR_ROWS(READINGS, order), blocks = switching_ar ? k : 1, i, b, lag;

    j.table_len = MSAR_TABLE(rows, k);
    j.series = lent(READINGS);
    j.work = lent(MSAR_WORK(rows, MSAR_WINDOWS(k, order)));
    j.filtered = lent(j.table_len);
    j.smoothed = lent(j.table_len);
    for (i = 0; i < READINGS; i++)
        j.series[i] = (double)(i * 2654435761u % 1000) / 250.0 - 2.0;
    j.counts[MSAR_COUNTS_MEANS] = k, j.counts[MSAR_COUNTS_TRANSITION] = k * k, j.counts[MSAR_COUNTS_BLOCKS] = blocks;
    j.counts[MSAR_COUNTS_ORDER] = order, j.counts[MSAR_COUNTS_AR] = blocks * order, j.counts[MSAR_COUNTS_VARIANCES] = k;
    for (i = 0; i < k; i++) {
        for (b = 0; b < k; b++)
            j.numbers[MSAR_TRANSITION_AT(k, i, b)] = i == b ? 0.75 : 0.25 / (double)(k - 1);
        j.numbers[MSAR_MEANS + i] = (double)i / (double)k;
        j.numbers[MSAR_VARIANCES + i] = 1.0 + 0.125 * (double)i;
    }
    for (b = 0; b < blocks; b++)
        for (lag = 1; lag <= order; lag++)
            j.numbers[MSAR_AR_AT(order, b, lag)] = 0.125;
    return j;
}

int main(void)
{
    static const struct {
        size_t k, order;
        bool switching_ar;
        size_t rule; /* not of a fit; it matters at order 0 alone */
    } sizes[] = {{2, 0, false, MSAR_RULE_RUST}, {2, 0, false, MSAR_RULE_LITERATURE},
                 {MSAR_MOST_REGIMES, 0, false, MSAR_RULE_RUST}, {MSAR_MOST_REGIMES, 0, false, MSAR_RULE_LITERATURE},
                 {2, MSAR_MOST_ORDER, false, MSAR_RULE_LITERATURE}, {4, 3, false, MSAR_RULE_LITERATURE},
                 {MSAR_MOST_REGIMES, 1, false, MSAR_RULE_LITERATURE}, {2, MSAR_MOST_ORDER, true, MSAR_RULE_LITERATURE},
                 {4, 3, true, MSAR_RULE_LITERATURE}, {MSAR_MOST_REGIMES, 1, true, MSAR_RULE_LITERATURE}};
    static void *(*const calls[])(void *) = {loglike, filter, smooth, fit};
    static const char *const names[] = {"loglike", "filter", "smooth", "fit"};
    size_t own = depth(nothing, NULL), deepest[2] = {0, 0}, s, c;

    for (s = 0; s < sizeof sizes / sizeof *sizes; s++) {
        struct job j = job(sizes[s].k, sizes[s].order, sizes[s].switching_ar, sizes[s].rule);
        for (c = 0; c < sizeof calls / sizeof *calls; c++) {
            size_t used;
            j.work_len = need(calls[c], j.k, j.order);
            used = depth(calls[c], &j) - own;
            /* a fit of order 0 is refused */
            if (j.whole[MSAR_WHOLE_REFUSAL] != (calls[c] == fit && j.order == 0 ? MSAR_ORDER_ZERO : MSAR_ANSWERED))
                stop("a call refused");
            printf("stack: %s, k = %zu, order %zu, ", names[c], j.k, j.order);
            if (calls[c] != fit)
                printf("rule %zu, ", j.rule);
            printf("%s coefficients, %d readings: %zu bytes\n", j.switching_ar ? "switching" : "shared", READINGS, used);
            if (used > deepest[calls[c] == fit])
                deepest[calls[c] == fit] = used;
        }
        free(j.series), free(j.work), free(j.filtered), free(j.smoothed);
    }
    printf("stack: of %d bytes the fit uses %zu at most, the other calls %zu; a thread by itself uses %zu\n", LIMIT, deepest[1],
           deepest[0], own);
    return deepest[0] <= LIMIT && deepest[1] <= LIMIT ? 0 : 1;
}
