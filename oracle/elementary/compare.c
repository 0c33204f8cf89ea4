/* Reads Stream's records and compares each answer with the library's, bit for bit, a NaN being equal to a NaN.
   lnpdf is compared with the same three operations in C, since Java has no such function.
   compare COUNT < records; status 1 where anything differs or the records are not COUNT. */
#include <inttypes.h>
#include <stdint.h>
#include <stdio.h>
#include <stdlib.h>
#include <string.h>

#include "msar.h"

enum { ROOT, LOG, EXP, LNPDF, FUNCTIONS };

enum { SHOWN = 10, BLOCK = 4096 };

static const char *const name[FUNCTIONS] = {"root", "log", "exp", "lnpdf"};
static uint64_t differ[FUNCTIONS];

static double number(uint64_t bits)
{
    double x;
    memcpy(&x, &bits, sizeof x);
    return x;
}

/* The language leaves the bits of a NaN open, so all count as one. */
static uint64_t pattern(double x)
{
    uint64_t bits;
    if (x != x)
        return UINT64_C(0x7ff8000000000000);
    memcpy(&bits, &x, sizeof bits);
    return bits;
}

static void same(int function, uint64_t x, double ours, uint64_t theirs)
{
    if (pattern(ours) == theirs)
        return;
    if (differ[function]++ < SHOWN)
        printf("%-5s of %016" PRIx64 ": ours %016" PRIx64 ", expected %016" PRIx64 "\n", name[function], x,
               pattern(ours), theirs);
}

int main(int argc, char **argv)
{
    static uint64_t record[BLOCK][4];
    uint64_t count = 0, nans = 0, bad = 0;
    size_t got;

    if (argc != 2) {
        fprintf(stderr, "usage: compare COUNT < records\n");
        return 2;
    }
    while ((got = fread(record, sizeof record[0], BLOCK, stdin)) > 0) {
        for (size_t i = 0; i < got; i++) {
            double x = number(record[i][0]);
            same(ROOT, record[i][0], msar_root(x), record[i][1]);
            same(LOG, record[i][0], msar_log(x), record[i][2]);
            same(EXP, record[i][0], msar_exp(x), record[i][3]);
            same(LNPDF, record[i][0], msar_lnpdf(x), pattern((-0.5 * x) * x - 0.91893853320467274178));
            nans += x != x;
        }
        count += got;
    }
    printf("%" PRIu64 " arguments, %" PRIu64 " of them NaN\n", count, nans);
    for (int f = 0; f < FUNCTIONS; f++) {
        printf("%-5s %" PRIu64 " differences\n", name[f], differ[f]);
        bad += differ[f];
    }
    if (count != strtoull(argv[1], NULL, 10)) {
        printf("expected %s arguments: the stream was cut off\n", argv[1]);
        bad++;
    }
    return bad != 0;
}
