/* Answers the oracle's cases through the C interface of the library, and holds every call to what document 01, and document 02
   in, promise of lent memory and of the rule: candidate [again] <cases >answers. README.md has the lines. With `again`
   each model call is made again: with each lent memory one place short, and from order one up with the other rule.

   Whatever is lent holds a pattern that no call writes, and so do GUARD places before and behind it. */
#define _POSIX_C_SOURCE 200809L
#include <inttypes.h>
#include <stdbool.h>
#include <stdint.h>
#include <stdio.h>
#include <stdlib.h>
#include <string.h>
#include "msar.h"

enum { GUARD = 8, PARTS = 4, NUMBERS = 400, LABELS = 16, MOST_LENT = 3 };

static const uint64_t PATTERN = 0x4330123456789abc;
static const uint64_t ONE_NAN = 0x7ff8000000000000;
static const uint64_t UNUSED = 0x7ff8dead00000000; /* a NaN: no answer may depend on it */

/* ---- numbers and their patterns */

static double of_bits(uint64_t bits) {
    double x;
    memcpy(&x, &bits, sizeof x);
    return x;
}

static uint64_t raw(double x) {
    uint64_t bits;
    memcpy(&bits, &x, sizeof bits);
    return bits;
}

static void show_numbers(const double *v, size_t n) {
    for (size_t i = 0; i < n; i++) printf(" %016" PRIx64, v[i] != v[i] ? ONE_NAN : raw(v[i]));
    putchar('\n');
}

static void broken(const char *what) { printf("broken %s\n", what); }

static void *room(size_t bytes) {
    void *p = malloc(bytes ? bytes : 1);
    if (!p) {
        fputs("candidate: no memory\n", stderr);
        exit(2);
    }
    return p;
}

/* ---- lent memory */

struct lent {
    double *all; /* GUARD places, `length` places, GUARD places */
    size_t length;
};

static struct lent lend(size_t length) {
    struct lent m = {room((length + 2 * GUARD) * sizeof(double)), length};
    for (size_t i = 0; i < length + 2 * GUARD; i++) m.all[i] = of_bits(PATTERN + i);
    return m;
}

static double *places(struct lent m) { return m.all + GUARD; }

/* Whether all is as found from place `used` on, and the guards too. */
static bool as_found(struct lent m, size_t used) {
    for (size_t i = 0; i < m.length + 2 * GUARD; i++) {
        bool inside = i >= GUARD && i < GUARD + used;
        if (!inside && raw(m.all[i]) != PATTERN + i) return false;
    }
    return true;
}

/* Every NaN is the same number here. */
static bool same_numbers(const double *a, const double *b, size_t n) {
    for (size_t i = 0; i < n; i++)
        if (raw(a[i]) != raw(b[i]) && !(a[i] != a[i] && b[i] != b[i])) return false;
    return true;
}

static bool is_zero(struct lent m, size_t from, size_t to) {
    for (size_t i = from; i < to && i < m.length; i++)
        if (raw(places(m)[i]) != 0) return false;
    return true;
}

/* ---- a case */

struct parameters {
    size_t counts[6];
    double numbers[NUMBERS];
};

static struct {
    char id[64], call[16];
    size_t k, p;
    bool switching_ar, switching_variance;
    size_t memory[MOST_LENT];
    size_t readings;
    double *y;
    struct parameters q;
    size_t rule, max_iter;
    double tol;
} c;

static char *rest; /* what is left of the line */

static char *word(void) {
    char *w = strtok_r(NULL, " \n", &rest);
    if (!w) {
        fprintf(stderr, "candidate: a line of case %s is too short\n", c.id);
        exit(2);
    }
    return w;
}

static size_t whole(void) { return strtoull(word(), NULL, 10); }
static double number(void) { return of_bits(strtoull(word(), NULL, 16)); }

static void begin(void) {
    snprintf(c.id, sizeof c.id, "%s", word());
    snprintf(c.call, sizeof c.call, "%s", word());
    c.rule = 0; /* none: a model call without its line is refused */
    for (size_t i = 0; i < NUMBERS; i++) c.q.numbers[i] = of_bits(UNUSED + i);
}

static void read_spec(void) {
    c.k = whole();
    c.p = whole();
    c.switching_ar = whole() == 1;
    c.switching_variance = whole() == 1;
}

static void read_series(void) {
    free(c.y);
    c.readings = whole();
    c.y = room(c.readings * sizeof *c.y);
    for (size_t i = 0; i < c.readings; i++) c.y[i] = number();
}

static void read_part(size_t *count, size_t at, size_t most) {
    *count = whole();
    for (size_t i = 0; i < *count && i < most; i++) c.q.numbers[at + i] = number();
}

/* Whether the line ends a case. */
static bool read_line(const char *name) {
    if (!strcmp(name, "case")) begin();
    else if (!strcmp(name, "spec")) read_spec();
    else if (!strcmp(name, "memory")) for (size_t i = 0; i < MOST_LENT; i++) c.memory[i] = whole();
    else if (!strcmp(name, "y")) read_series();
    else if (!strcmp(name, "means")) read_part(&c.q.counts[0], 256, 16);
    else if (!strcmp(name, "trans")) read_part(&c.q.counts[1], 0, 256);
    else if (!strcmp(name, "ar")) {
        c.q.counts[2] = whole();
        c.q.counts[3] = whole();
        read_part(&c.q.counts[4], 272, 112);
    } else if (!strcmp(name, "var")) read_part(&c.q.counts[5], 384, 16);
    else if (!strcmp(name, "rule")) c.rule = whole();
    else if (!strcmp(name, "fit")) {
        c.max_iter = whole();
        c.tol = number();
    } else return !strcmp(name, "run");
    return false;
}

/* ---- an answer, with places around it that no call may write */

struct answer {
    size_t before, whole[4], between;
    double real[2], after;
};

static struct answer blank(void) {
    struct answer a = {91, {92, 93, 94, 95}, 96, {97.0, 98.0}, 99.0};
    return a;
}

static bool is_call(const char *name) { return !strcmp(c.call, name); }

/* Holds the fields that this call has no use for to zero. */
static void hold_fields(const struct answer *a, bool has_place, bool has_loglik) {
    if (a->before != 91 || a->between != 96 || a->after != 99.0) broken("places beside the answer");
    if ((a->whole[0] || !is_call("fit")) && (a->whole[2] || a->whole[3])) broken("iterations and converged");
    if (!a->whole[0] && ((a->whole[1] && !has_place) || raw(a->real[0]))) broken("refusal fields of an answer");
    if ((a->whole[0] || !has_loglik) && raw(a->real[1])) broken("log-likelihood of a call that gives none");
}

static void show_refusal(const struct answer *a) {
    printf("refusal %zu %zu", a->whole[0], a->whole[1]);
    show_numbers(&a->real[0], 1);
}

/* ---- model calls */

/* Whether the call is lent work memory (0), a filtered table (1), a smoothed table (2). */
static bool takes(size_t i) {
    static const struct {
        const char *name;
        bool lent[MOST_LENT];
    } calls[] = {{"loglike", {true}}, {"filter", {true, true}}, {"smooth", {true, true, true}}, {"fit", {true, false, true}}};
    for (size_t j = 0; j < sizeof calls / sizeof *calls; j++)
        if (is_call(calls[j].name)) return calls[j].lent[i];
    return false;
}

/* The lengths that the call needs, zeros where spec and series have none. */
static void needs(size_t need[MOST_LENT]) {
    size_t m = c.k, n = c.readings > c.p ? c.readings - c.p : 0;
    for (size_t l = 0; l < c.p && m > 1 && m <= 256; l++) m *= c.k;
    bool any = c.k >= 2 && c.k <= 16 && m <= 256 && n > 0 && c.readings <= 4096;
    need[0] = !any ? 0 : is_call("loglike") || is_call("filter") ? n * m + 256 : 2 * n * m;
    need[1] = need[2] = any ? n * c.k : 0;
}

static void call_model(const struct parameters *q, struct lent m[MOST_LENT], struct lent fitted, struct answer *a) {
    if (is_call("loglike"))
        msar_loglike(c.k, c.p, c.switching_ar, c.switching_variance, c.y, c.readings, q->counts, q->numbers,
                     places(m[0]), m[0].length, c.rule, a->whole, a->real);
    if (is_call("filter"))
        msar_filter(c.k, c.p, c.switching_ar, c.switching_variance, c.y, c.readings, q->counts, q->numbers,
                    places(m[0]), m[0].length, places(m[1]), m[1].length, c.rule, a->whole, a->real);
    if (is_call("smooth"))
        msar_smooth(c.k, c.p, c.switching_ar, c.switching_variance, c.y, c.readings, q->counts, q->numbers,
                    places(m[0]), m[0].length, places(m[1]), m[1].length, places(m[2]), m[2].length, c.rule, a->whole,
                    a->real);
    if (is_call("fit"))
        msar_fit(c.k, c.p, c.switching_ar, c.switching_variance, c.y, c.readings, q->counts, q->numbers, places(m[0]),
                 m[0].length, places(m[2]), m[2].length, c.max_iter, c.tol, places(fitted), a->whole, a->real);
}

/* Whether the needed work memory is +0, and all behind it as found. */
static bool is_cleared(struct lent work, size_t need) {
    return need > 0 && need <= work.length && as_found(work, need) && is_zero(work, 0, need);
}

/* After an answer the needed work memory is +0. After a refusal it is that or as found; which of the two, the comparison
   tells. A table is written by an answer alone, and only as far as it needs. */
static void hold_memory(struct lent m[MOST_LENT], const size_t need[MOST_LENT], size_t refused) {
    static const char *names[MOST_LENT] = {"work memory", "filtered table", "smoothed table"};
    for (size_t i = 1; i < MOST_LENT; i++)
        if (takes(i) && !as_found(m[i], refused ? 0 : need[i])) broken(names[i]);
    if (!is_cleared(m[0], need[0]) && !(refused && as_found(m[0], 0))) broken(names[0]);
}

/* Fitted parameters are as found after a refusal; in an answer the places past their counts are +0. */
static void hold_fitted(struct lent fitted, size_t refused) {
    static const size_t part[PARTS + 1] = {0, 256, 272, 384, NUMBERS};
    const size_t count[PARTS] = {c.q.counts[1], c.q.counts[0], c.q.counts[4], c.q.counts[5]};
    if (!as_found(fitted, refused ? 0 : NUMBERS)) broken("fitted parameters");
    for (size_t i = 0; i < PARTS && !refused; i++)
        if (!is_zero(fitted, part[i] + count[i], part[i + 1])) broken("places past the fitted parameters");
}

/* Makes the call with memory of these lengths, and holds it to its promises. */
static struct answer run_model(const size_t length[MOST_LENT], struct lent m[MOST_LENT], struct lent fitted) {
    struct parameters given = c.q;
    struct answer a = blank();
    size_t need[MOST_LENT];
    needs(need);
    double *y = room(c.readings * sizeof *y);
    memcpy(y, c.y, c.readings * sizeof *y);
    for (size_t i = 0; i < MOST_LENT; i++) m[i] = lend(length[i]);
    call_model(&given, m, fitted, &a);
    hold_fields(&a, false, true);
    hold_memory(m, need, a.whole[0]);
    if (is_call("fit")) hold_fitted(fitted, a.whole[0]);
    if (memcmp(&given, &c.q, sizeof given)) broken("parameters");
    if (memcmp(y, c.y, c.readings * sizeof *y)) broken("series");
    free(y);
    return a;
}

static void give_back(struct lent m[MOST_LENT]) {
    for (size_t i = 0; i < MOST_LENT; i++) free(m[i].all);
}

static void show_table(const char *name, struct lent m, size_t need) {
    size_t shown = need < m.length ? need : m.length;
    printf("%s %zu %zu", name, c.readings - c.p, c.k);
    show_numbers(places(m), shown);
}

static void show_part(const char *name, const double *numbers, size_t count) {
    printf("%s %zu", name, count);
    show_numbers(numbers, count);
}

/* What a fit answers beside log-likelihood and table. */
static void show_fit(const struct answer *a, const double *fitted) {
    printf("iterations %zu\nconverged %zu\n", a->whole[2], a->whole[3]);
    show_part("means", fitted + 256, c.q.counts[0]);
    show_part("trans", fitted, c.q.counts[1]);
    printf("ar %zu %zu", c.q.counts[2], c.q.counts[3]);
    show_part("", fitted + 272, c.q.counts[4]);
    show_part("var", fitted + 384, c.q.counts[5]);
}

/* From order one up the two rules give the same answer and leave the same memory: this is what was with the case's rule. */
static void try_other_rule(const struct answer *was, struct lent left[MOST_LENT]) {
    static const char *names[MOST_LENT] = {"work memory by the other rule", "filtered table by the other rule",
                                           "smoothed table by the other rule"};
    struct lent m[MOST_LENT], fitted = lend(NUMBERS);
    c.rule = 3 - c.rule;
    struct answer a = run_model(c.memory, m, fitted);
    printf("other %zu\n", c.rule);
    c.rule = 3 - c.rule;
    if (memcmp(a.whole, was->whole, sizeof a.whole) || !same_numbers(a.real, was->real, MSAR_REAL))
        broken("answer by the other rule");
    for (size_t i = 0; i < MOST_LENT; i++)
        if (!same_numbers(m[i].all, left[i].all, m[i].length + 2 * GUARD)) broken(names[i]);
    give_back(m);
    free(fitted.all);
}

static void answer_model(bool again) {
    struct lent m[MOST_LENT], fitted = lend(NUMBERS);
    size_t need[MOST_LENT];
    needs(need);
    struct answer a = run_model(c.memory, m, fitted);
    if (a.whole[0]) {
        show_refusal(&a);
        if (is_cleared(m[0], need[0])) puts("running");
    } else {
        printf("loglik");
        show_numbers(&a.real[1], 1);
        if (is_call("fit")) show_fit(&a, places(fitted));
        if (takes(1)) show_table("filtered", m[1], need[1]);
        if (takes(2)) show_table("smoothed", m[2], need[2]);
    }
    if (again && !is_call("fit") && c.p > 0 && (c.rule == 1 || c.rule == 2)) try_other_rule(&a, m);
    give_back(m);
    free(fitted.all);
}

static void answer_short(void) {
    static const char *names[MOST_LENT] = {"work", "filtered", "smoothed"};
    size_t need[MOST_LENT];
    needs(need);
    for (size_t i = 0; i < MOST_LENT; i++) {
        if (!takes(i) || need[i] == 0) continue;
        struct lent m[MOST_LENT], fitted = lend(NUMBERS);
        size_t length[MOST_LENT] = {need[0], need[1], need[2]};
        length[i]--;
        struct answer a = run_model(length, m, fitted);
        if (is_cleared(m[0], need[0])) broken("work memory of a call that is lent too little");
        printf("short %s %zu %zu", names[i], a.whole[0], a.whole[1]);
        show_numbers(&a.real[0], 1);
        give_back(m);
        free(fitted.all);
    }
}

/* ---- the other calls */

static void answer_labels(void (*call)(const size_t *, const double *, double *, size_t *, double *)) {
    struct answer a = blank();
    struct lent values = lend(LABELS);
    struct parameters given = c.q;
    call(given.counts, given.numbers, places(values), a.whole, a.real);
    hold_fields(&a, false, false);
    if (memcmp(&given, &c.q, sizeof given)) broken("parameters");
    if (!as_found(values, a.whole[0] ? 0 : LABELS)) broken("places of the labels");
    if (a.whole[0]) show_refusal(&a);
    else {
        size_t k = c.q.counts[0];
        if (!is_zero(values, k, LABELS)) broken("places past the labels");
        printf("%s %zu", c.call, k);
        show_numbers(places(values), k);
    }
    free(values.all);
}

static void answer_check(void) {
    struct answer a = blank();
    msar_check(c.q.counts, c.q.numbers, a.whole, a.real);
    hold_fields(&a, false, false);
    if (a.whole[0]) show_refusal(&a);
}

static void answer_windows(void) {
    struct answer a = blank();
    msar_windows(c.k, c.p, a.whole, a.real);
    hold_fields(&a, true, false);
    if (a.whole[0]) show_refusal(&a);
    else printf("windows %zu\n", a.whole[1]);
}

static void answer_matches(void) {
    printf("matches %d\n", msar_matches(c.k, c.p, c.switching_ar, c.switching_variance, c.q.counts, c.q.numbers));
}

static void answer(bool again) {
    printf("answer %s\n", c.id);
    if (takes(0)) answer_model(again);
    else if (is_call("windows")) answer_windows();
    else if (is_call("check")) answer_check();
    else if (is_call("durations")) answer_labels(msar_durations);
    else if (is_call("shares")) answer_labels(msar_shares);
    else if (is_call("matches")) answer_matches();
    if (again) answer_short();
    puts("end");
}

int main(int count, char **words) {
    bool again = count > 1 && !strcmp(words[1], "again");
    char *line = NULL;
    size_t size = 0;
    while (getline(&line, &size, stdin) > 0) {
        char *name = strtok_r(line, " \n", &rest);
        if (name && read_line(name)) answer(again);
    }
    free(line);
    free(c.y);
    return 0;
}
