/* Times the library's root, logarithm and exponential beside the same algorithms in Rust and the C library's functions.

   Throughput: all of an array of arguments, one after the other, none waiting for another. Latency: each argument depends
   on the result before it. Every function is called through a pointer, so that none is inlined. The three take turns and
   the least time of each counts: what else runs on the machine disturbs all alike, and only ever adds. */
#include <math.h>
#include <stdbool.h>
#include <stdint.h>
#include <stdio.h>
#include <string.h>
#include <time.h>

#include "msar.h"

enum { ARGUMENTS = 4096, TURNS = 1000, OURS = 0, RUST = 1, C = 2, RIVALS = 3 };

double same_root(double x);
double same_log(double x);
double same_exp(double x);

typedef double function(double);

struct row {
    const char *name, *range;
    double low, high; /* equal: numbers above zero of every exponent */
    function *rival[RIVALS];
};

static double argument[ARGUMENTS], result[RIVALS][ARGUMENTS];

static uint64_t random_bits(void)
{
    static uint64_t state = 1;
    uint64_t z = state += UINT64_C(0x9E3779B97F4A7C15);
    z = (z ^ (z >> 30)) * UINT64_C(0xBF58476D1CE4E5B9);
    z = (z ^ (z >> 27)) * UINT64_C(0x94D049BB133111EB);
    return z ^ (z >> 31);
}

static void draw(const struct row *row)
{
    for (int i = 0; i < ARGUMENTS; i++) {
        uint64_t bits = random_bits();
        if (row->low < row->high) {
            argument[i] = row->low + (row->high - row->low) * ((double)(bits >> 11) * 0x1p-53);
        } else {
            bits = (bits & UINT64_C(0x000fffffffffffff)) | (1 + (bits >> 52) % 2046) << 52;
            memcpy(&argument[i], &bits, sizeof bits);
        }
    }
}

static double nanoseconds(void)
{
    struct timespec now;
    clock_gettime(CLOCK_MONOTONIC, &now);
    return (double)now.tv_sec * 1e9 + (double)now.tv_nsec;
}

static __attribute__((noipa)) double throughput(function *f, double *out)
{
    double start = nanoseconds();
    for (int i = 0; i < ARGUMENTS; i++)
        out[i] = f(argument[i]);
    return (nanoseconds() - start) / ARGUMENTS;
}

/* `none` is 0, which the compiler does not know: the argument's bits stay as they are and still wait for the result's. */
static __attribute__((noipa)) double latency(function *f, double *out, uint64_t none)
{
    uint64_t bits, last = 0;
    double x, y = 0, start = nanoseconds();
    for (int i = 0; i < ARGUMENTS; i++) {
        memcpy(&bits, &argument[i], sizeof bits);
        bits ^= last & none;
        memcpy(&x, &bits, sizeof x);
        y = f(x);
        memcpy(&last, &y, sizeof last);
    }
    *out = y;
    return (nanoseconds() - start) / ARGUMENTS;
}

static void least(const struct row *row, bool waits, double best[RIVALS])
{
    for (int r = 0; r < RIVALS; r++)
        best[r] = INFINITY;
    for (int turn = 0; turn < TURNS; turn++)
        for (int r = 0; r < RIVALS; r++) {
            double t = waits ? latency(row->rival[r], result[r], 0) : throughput(row->rival[r], result[r]);
            if (t < best[r])
                best[r] = t;
        }
}

static void print(const double best[RIVALS])
{
    printf("  %8.2f %8.2f %8.2f %10.2f", best[OURS], best[RUST], best[C], best[OURS] / best[RUST]);
}

int main(void)
{
    static const struct row rows[] = {
        {"exp", "[-40, 0]", -40, 0, {msar_exp, same_exp, exp}},
        {"exp", "[-1, 1]", -1, 1, {msar_exp, same_exp, exp}},
        {"exp", "[-700, 700]", -700, 700, {msar_exp, same_exp, exp}},
        {"log", "[0, 1]", 0, 1, {msar_log, same_log, log}},
        {"log", "wide", 0, 0, {msar_log, same_log, log}},
        {"root", "[0, 10]", 0, 10, {msar_root, same_root, sqrt}},
        {"root", "wide", 0, 0, {msar_root, same_root, sqrt}},
    };
    double best[RIVALS];

    printf("%-17s     %-37s     %s\n", "", "throughput, ns a call", "latency, ns a call");
    printf("%-17s", "");
    for (int i = 0; i < 2; i++)
        printf("  %8s %8s %8s %10s", "ours", "Rust", "C", "ours/Rust");
    printf("\n");
    for (size_t i = 0; i < sizeof rows / sizeof rows[0]; i++) {
        draw(&rows[i]);
        least(&rows[i], false, best);
        if (memcmp(result[OURS], result[RUST], sizeof result[OURS]) != 0) {
            printf("%s over %s: our results and the Rust's differ, so their times would compare nothing\n",
                   rows[i].name, rows[i].range);
            return 1;
        }
        printf("%-4s %-12s", rows[i].name, rows[i].range);
        print(best);
        least(&rows[i], true, best);
        print(best);
        printf("\n");
    }
    return 0;
}
