// The answers of C's strtod and printf, in the form of crates/run_decimals: standard input has lines of 95 bytes, each a number and spaces.
// Only lines that crates/text_decimal_read takes come here. On standard error it says for how many numbers C's `%.*g`, which rounds once,
// gives another short text; it ends in 1 where one of them is no half of the 17 digits.
#include <stdio.h>
#include <stdlib.h>
#include <string.h>
#include <stdint.h>
#include <math.h>

static long lines, others, wrong;

// t is the number as `%.16e` writes it. printf rounds its 17 digits to n, as a whole number that a long double holds exactly; with their
// exponent put right it lays them out: a long double has 18 digits and more.
static void shorten(const char *t, int n, char *out, size_t room) {
    char digits[32], rounded[64], again[96];
    const char *d = t + (*t == '-');
    snprintf(digits, sizeof digits, "%c%.16s", d[0], d + 2);
    snprintf(rounded, sizeof rounded, "%.*Le", n - 1, (long double)strtoull(digits, 0, 10));
    char *e = strchr(rounded, 'e');
    int tens = atoi(strchr(t, 'e') + 1) + atoi(e + 1) - 16;
    *e = 0;
    snprintf(again, sizeof again, "%s%se%d", *t == '-' ? "-" : "", rounded, tens);
    snprintf(out, room, "%.*Lg", n, strtold(again, 0));
}

// Whether a 5 and zeros follow the n-th of the 17 digits: two roundings differ from one only there.
static int halfway(const char *t, int n) {
    char digits[32];
    const char *d = t + (*t == '-');
    snprintf(digits, sizeof digits, "%c%.16s", d[0], d + 2);
    return n < 17 && digits[n] == '5' && strspn(digits + n + 1, "0") == strlen(digits + n + 1);
}

static void put(double x) {
    uint64_t b;
    int n = lines % 19;
    n = n < 1 ? 1 : n > 17 ? 17 : n;
    memcpy(&b, &x, 8);
    if (isnan(x)) { printf("7ff8000000000000 nan nan\n"); return; }
    printf("%016llx ", (unsigned long long)b);
    if (isinf(x)) { printf(x < 0 ? "-inf -inf\n" : "inf inf\n"); return; }
    char t[64], out[64], once[64];
    snprintf(t, sizeof t, "%.16e", x);
    shorten(t, n, out, sizeof out);
    snprintf(once, sizeof once, "%.*g", n, x);
    if (strcmp(out, once)) {
        others++;
        wrong += !halfway(t, n);
    }
    char *e = strchr(t, 'e');
    *e = 0;
    // the exponent with three digits
    printf("%se%c%03d %s\n", t, e[1], atoi(e + 2), out);
}

int main(void) {
    char line[128];
    for (; fgets(line, sizeof line, stdin); lines++) {
        line[strcspn(line, " \n")] = 0;
        if (line[0] == '0' && line[1] == 'x') {
            uint64_t b = strtoull(line + 2, 0, 16);
            double x;
            memcpy(&x, &b, 8);
            put(x);
        } else {
            put(strtod(line, 0));
        }
    }
    fprintf(stderr, "%ld of %ld numbers: %%.*g, which rounds once, gives another short text; %ld of them are no halves\n", others, lines, wrong);
    return wrong != 0;
}
