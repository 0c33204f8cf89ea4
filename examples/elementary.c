/* Calls the proved functions from C: for each number given, or for some of its own, its root, logarithm, exponential and
   normal log density, with 17 digits and with the bits.

       bin/firmware DIR && gcc -std=c99 -IDIR examples/elementary.c DIR/libmsar.a */
#include "msar.h"

#include <inttypes.h>
#include <stdio.h>
#include <stdlib.h>
#include <string.h>

static void show(const char *name, double value) {
    uint64_t bits;
    memcpy(&bits, &value, sizeof bits);
    printf("  %-6s % .17g  %016" PRIx64 "\n", name, value, bits);
}

static void all(double x) {
    printf("%.17g\n", x);
    show("root", msar_root(x));
    show("log", msar_log(x));
    show("exp", msar_exp(x));
    show("lnpdf", msar_lnpdf(x));
}

int main(int count, char **words) {
    if (count == 1) {
        all(2.0);
        all(0.25);
        all(-1.0);
        return 0;
    }
    for (int i = 1; i < count; i++) {
        char *end;
        double x = strtod(words[i], &end);
        if (end == words[i] || *end != '\0') {
            fprintf(stderr, "elementary: not a number: %s\n", words[i]);
            return 1;
        }
        all(x);
    }
    return 0;
}
