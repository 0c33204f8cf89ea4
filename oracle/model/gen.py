"""Cases of every call but fit, which fits.py has.
A quarter are short series and a quarter small counts, drawn from lists that hold every one of them, so that from COUNT = 38,400
on all are there; the others come from the families below, over every (k, p) by turns."""
import itertools
import math

import chains
from protocol import HUGE, MODEL_CALLS, RULES, Case

INF, NAN = float('inf'), float('nan')
TINY, LARGEST = 5e-324, 1.7976931348623157e308
PAIRS = [(k, p) for k in range(2, 17) for p in range(8) if k ** (p + 1) <= 256]
USUAL_PAIRS = [(2, 0), (2, 1), (2, 2), (2, 3), (2, 4), (3, 1), (3, 2), (4, 1)]
OTHER_CALLS = ('windows', 'check', 'durations', 'shares', 'matches')


# ---- a model and a series that it could have made

def simulated(r, c, columns, length):
    """Readings of the case's model."""
    label, labels, y = r.randrange(c.k), [], []
    for t in range(length):
        label = r.choices(range(c.k), [max(x, 0.0) for x in columns[label]])[0]
        labels.append(label)
        mean = c.means[label]
        for lag in range(1, min(c.p, t) + 1):
            phi = c.ar[(label if c.sar else 0) * c.p + lag - 1]
            mean += phi * (y[t - lag] - c.means[labels[t - lag]])
        y.append(mean + r.gauss(0, 1) * math.sqrt(c.var[label if c.svar else 0]))
    return y


def benign(r, k, p, chain=None, length=None):
    sar, svar = r.random() < 0.5, r.random() < 0.5
    columns = (chain or r.choice(chains.BENIGN))(r, k)
    means = [r.gauss(0, 2) for _ in range(k)]
    ar = [r.uniform(-0.8, 0.8) / max(1, p) for _ in range((k if sar else 1) * p)]
    var = [r.uniform(0.2, 2.5) for _ in range(k if svar else 1)]
    c = Case(r.choice(MODEL_CALLS), k, p, sar, svar, [], means, chains.flat(columns), ar, var)
    c.y = simulated(r, c, columns, length if length is not None else drawn_length(r, k, p))
    return c


def with_flags(r, k, p, sar, svar):
    while True:
        c = benign(r, k, p, length=p + 1 + r.randrange(12))
        if (c.sar, c.svar) == (sar, svar):
            return c


def drawn_length(r, k, p):
    """Mostly short, often the shortest; longer where there are few windows."""
    rare = r.random()
    if rare < 0.1:
        return p + 1
    if rare < 0.2:
        return p + 2
    most = 300 if k ** (p + 1) <= 32 else 60
    return p + 1 + int(most * r.random() ** 2)


# ---- families of cases that a model call answers, or refuses while it runs

def any_chain(r, k, p):
    return benign(r, k, p, r.choice(chains.ALL))


def long_series(r, k, p):
    """Up to 4,096 readings; with many windows seldom."""
    k, p = r.choice(USUAL_PAIRS) if k ** (p + 1) > 64 and r.random() < 0.9 else (k, p)
    return benign(r, k, p, chains.sticky, r.choice([4096, r.randint(300, 4096)]))


def any_variance(r, k, p):
    c = benign(r, k, p)
    edges = [TINY, 1e-308, 2.2250738585072014e-308, LARGEST, 1e-150, 1e150]
    c.var = [10.0 ** r.uniform(-40, 40) if r.random() < 0.7 else r.choice(edges) for _ in c.var]
    return c


def scaled(r, k, p):
    c = benign(r, k, p)
    s = 10.0 ** r.choice([r.uniform(-160, 154), -162, -161, -155, -150, 150, 152, 153, 154])
    c.y, c.means = [v * s for v in c.y], [v * s for v in c.means]
    c.var = [max(TINY, min(LARGEST, v * s * s)) for v in c.var]
    return c


def outliers(r, k, p):
    c = benign(r, k, p)
    for _ in range(r.randint(1, 3)):
        c.y[r.randrange(len(c.y))] *= 10.0 ** r.uniform(1, 12)
    if r.random() < 0.3:
        c.y[r.randrange(len(c.y))] = r.choice([1e300, -1e308, LARGEST, TINY, -TINY, 1e-310])
    return c


def on_the_means(r, k, p):
    """Readings that are means, and variances of any size: weights of 0 and 1, huge densities."""
    c = benign(r, k, p)
    unit = 10.0 ** r.choice([-300, -150, -20, -3, 0, 0, 3, 20, 100, 150])
    c.means = [(j + r.choice([0, 1])) * unit for j in range(k)]
    c.y = [r.choice(c.means) for _ in c.y]
    c.var = [r.choice([TINY, 1e-308, 1e-300, 1e-200, 1e-30, 1e-8, 1.0, 1e10, 1e200, 1e307]) for _ in c.var]
    if r.random() < 0.6:
        c.ar = [r.choice([0.0, 0.0, 1.0, -1.0, 0.5]) for _ in c.ar]
    return c


def constant(r, k, p):
    c = benign(r, k, p)
    c.y = [r.choice([0.0, -0.0, 1.0, 0.1, -3.5, 1e-200, 1e200, TINY, 1e308])] * len(c.y)
    return c


def subnormal(r, k, p):
    c = benign(r, k, p)
    c.y = [r.choice([TINY, -TINY, 1e-310, 1e-308, 0.0, -0.0, 1e-300, 1e-160]) * r.choice([1, 1, 2, 3]) for _ in c.y]
    c.means = [r.choice([TINY, 0.0, -0.0, 1e-309, 1e-160]) for _ in c.means]
    c.var = [r.choice([TINY, 1e-310, 1e-320, 1e-300]) for _ in c.var]
    return c


def big(r, k, p):
    c = benign(r, k, p)
    size = 10.0 ** r.choice([100, 140, 150, 152, 153, 154, 155, 200, 300, 307])
    c.y = [r.choice([-1, 1, 0.5, 0.0, 0.25]) * size for _ in c.y]
    c.means = [r.choice([0.0, size, -size, size / 2]) for _ in c.means]
    c.var = [r.choice([1e-308, 1.0, 1e200, 1e300, 1.7e308]) for _ in c.var]
    if r.random() < 0.5:
        c.ar = [r.choice([0.0, 1.0, -1.0, 2.0, 1e5, 1e155, -1e300]) for _ in c.ar]
    return c


def unvisited(r, k, p):
    """A label that explains no reading."""
    c = benign(r, k, p)
    c.means[r.randrange(k)] = r.choice([1e3, 1e6, 1e12, -1e9])
    if r.random() < 0.5:
        c.var = [r.choice([1e-3, 1e-6, v]) for v in c.var]
    return c


def negative_shares(r, k, p):
    """Weights of both signs, or refusal 22."""
    k, p = r.choice([(k, p), (2, p), (2, 1), (3, 1), (4, 2)])
    c = benign(r, k, p, r.choice([chains.above_one, chains.closed_and_off]))
    if r.random() < 0.5:
        c.means[1], c.var = r.choice(c.y), [v * 1e-3 for v in c.var]
    return c


def order_zero(r, k, p):
    """The Rust's smoothed numbers at order 0 are no probabilities: they run away with the series."""
    c = benign(r, k, 0, r.choice([chains.sticky, chains.nearly_closed, chains.tiny, chains.spread]),
               1 + int(1000 * r.random() ** 2))
    if r.random() < 0.5:
        c.means, c.y = [5.0 * v for v in c.means], [5.0 * v for v in c.y]
    return c


def jump(r, k, p):
    """A course that one reading all but rules out and the next makes certain: smoothed weights overflow."""
    a, b, far = r.uniform(0.3, 0.9), r.uniform(0.3, 0.9), r.uniform(37.0, 38.5)
    c = benign(r, 3, r.choice([1, 1, 2]), chains.dyadic, r.randint(4, 25))
    c.trans = chains.flat([[a, 0.0, 1.0 - a], [1.0 - b, b, 0.0], [0.0, 1.0, 0.0]])
    c.means, c.ar = [0.0, far, r.choice([-30.0, 80.0, far])], [0.0] * len(c.ar)
    c.var = [0.25, 1.0, 0.25][:len(c.var)]
    c.y = [r.choice([0.0, far]) + r.gauss(0, 0.02) for _ in c.y[2:]] + [0.0, far]
    return c


def zero_times_infinity(r, k, p):
    """A lag term of 0 times infinity: the row is refused though another window explains it."""
    size = r.choice([1e308, 1.7e308, 9e307])
    c = benign(r, r.choice([2, 2, 3]), r.choice([1, 1, 2]), r.choice([chains.dyadic, chains.absorbing, chains.same]), r.randint(3, 8))
    c.means = [size] + [r.choice([-size, -size, size]) for _ in c.means[1:]]
    c.y = [size if r.random() < 0.8 else 0.5 * size for _ in c.y]
    c.ar = [r.choice([0.0, 0.0, -0.0, 0.5, -1.0]) for _ in c.ar]
    c.var = [r.choice([1e306, 1.0, 1e308]) for _ in c.var]
    return c


# ---- families of refusals of what is handed in

def not_finite(r):
    return r.choice([NAN, INF, -INF])


def spoil(r, values, bad):
    if values:
        values[r.randrange(len(values))] = bad


def few_regimes(r, c):
    c.k, c.p = r.choice([(0, c.p), (1, c.p), (1, 9), (0, HUGE), (1, HUGE)])


def many_windows(r, c):
    c.k, c.p = r.choice([(2, 8), (2, 11), (2, 12), (2, 64), (2, HUGE), (3, 5), (7, 2), (16, 2), (17, 1), (257, 0), (4096, 0), (5000, 0),
                         (1000000, 9), (HUGE, 0)])


def many_regimes(r, c):
    c.k, c.p = r.choice([17, 18, 100, 255, 256]), 0


def few_readings(r, c):
    c.y = c.y[:r.choice([0, c.p, r.randint(0, c.p)])]


def many_readings(r, c):
    length = r.choice([4097, 4097, 4100])
    c.y = (c.y * (length // len(c.y) + 1))[:length] if c.y else c.y


def bad_reading(r, c):
    for _ in range(r.choice([1, 1, 2])):
        spoil(r, c.y, not_finite(r))


def few_means(r, c):
    c.means = c.means[:r.randint(0, 1)]


def many_means(r, c):
    c.said['means'] = r.choice([17, 18, 1000, HUGE])


def bad_mean(r, c):
    spoil(r, c.means, not_finite(r))


def transition_length(r, c):
    c.said['trans'] = r.choice([0, len(c.trans) - 1, len(c.trans) + 1, len(c.trans) + c.k, 256, 257, HUGE])


def bad_transition(r, c):
    spoil(r, c.trans, r.choice([NAN, INF, -INF, -1e-300, -TINY, 1.00000001, 1.0000000100000002, 1.00000002, 2.0, -0.1, -0.0]))


def bad_column(r, c):
    if c.trans:
        i = r.randrange(len(c.trans))
        c.trans[i] = abs(c.trans[i] + r.choice([1.0000001e-8, -1.0000001e-8, 0.99e-8, -0.99e-8, 1e-3, -1e-3]))


def zero_columns(r, c):
    """All sums are zeros: refusal 14 carries +0."""
    c.trans = [r.choice([0.0, -0.0])] * len(c.trans)


def no_blocks(r, c):
    c.blocks = 0


def wrong_blocks(r, c):
    c.blocks = r.choice([len(c.means) + 1, 2 if c.k != 2 else 3, 17, HUGE])
    c.said['ar'] = c.blocks * c.order


def ar_length(r, c):
    c.said['ar'] = r.choice([0, len(c.ar) + 1, max(0, len(c.ar) - 1), 112, 113, HUGE])


def bad_ar(r, c):
    spoil(r, c.ar, not_finite(r))


def wrong_order(r, c):
    """Above 7, or another than the spec's: 18 or 20."""
    c.order = r.choice([0, 1, 2, 7, 8, 9, HUGE])
    c.ar = [0.25] * (min(c.order, 9) * min(c.blocks, 17))


def variance_count(r, c):
    c.said['var'] = r.choice([0, c.k + 1, 2 if c.k != 2 else 3, 16 if c.k != 16 else 15, 17, HUGE])


def bad_variance(r, c):
    spoil(r, c.var, r.choice([0.0, -0.0, -1.0, NAN, INF, -INF, -TINY]))


def other_flags(r, c):
    c.sar, c.svar = r.choice([(not c.sar, c.svar), (c.sar, not c.svar), (not c.sar, not c.svar)])


def other_regimes(r, c):
    """A spec that has its own k, where the series still fits."""
    c.k = r.choice([k for k, p in PAIRS if p == c.p] or [c.k])


FAULTS = [few_regimes, many_windows, many_regimes, few_readings, bad_reading, few_means, many_means, bad_mean, transition_length,
          bad_transition, bad_column, zero_columns, no_blocks, wrong_blocks, ar_length, bad_ar, wrong_order, variance_count,
          bad_variance, other_flags, other_regimes]


def at_fault(r, k, p):
    c = benign(r, k, p, length=p + 1 + r.randrange(12))
    for fault in r.sample(FAULTS, r.choice([1, 1, 1, 2])):
        fault(r, c)
    if r.random() < 0.02:
        many_readings(r, c)
    return c


def short_memory(r, k, p, call=None):
    """None, half, one less, just enough or one more of each that the call needs; the call is drawn unless given. Now and then
    with a fault beside it."""
    c = benign(r, k, p)
    c.call = call or c.call
    if r.random() < 0.3:
        r.choice(FAULTS)(r, c)
    needs = c.head().needs() or (0, 0, 0)
    c.memory = tuple(r.choice([0, need // 2, max(0, need - 1), need, need, need + 1]) for need in needs)
    return c


OTHER_RULES = [0, 3, HUGE]


def other_rule(r, k, p):
    """29; but faults of spec and series and a short memory come first, and it comes before a fault of the parameters."""
    c = r.choice([benign, at_fault, short_memory])(r, k, p)
    c.rule = r.choice(OTHER_RULES)
    return c


def other_call(r, k, p):
    """Windows, check, durations, shares, matches."""
    c = benign(r, k, p, r.choice(chains.ALL), p + 1)
    c.call = r.choice(OTHER_CALLS)
    if r.random() < 0.4:
        r.choice(FAULTS)(r, c)
    return c


# ---- every short series, every small count

READINGS = [0.0, 1.0, -1.0, 1e308, -0.0, NAN, INF]
SHORT_MODELS = [  # columns, means, AR coefficients of both labels, variances
    ([[0.75, 0.25], [0.5, 0.5]], [0.0, 1.0], [0.5, -0.25], [1.0, 2.0]),
    ([[1.0, 0.0], [0.5, 0.5]], [-1.0, 1e308], [0.0, 1.0], [1e-300, 1e300]),
    ([[0.0, 1.0], [1.0, 0.0]], [1.0, -0.0], [-1.0, 0.0], [TINY, 1.0]),
]


def short_series():
    """Up to three readings out of seven, two labels, orders 0 and 1, all flags, three models."""
    calls = itertools.cycle(MODEL_CALLS)
    for length in range(4):
        for y in itertools.product(READINGS, repeat=length):
            for p, sar, svar in itertools.product((0, 1), (False, True), (False, True)):
                for columns, means, ar, var in SHORT_MODELS:
                    yield Case(next(calls), 2, p, sar, svar, list(y), list(means), chains.flat(columns),
                               ar[:2 if sar else 1] if p else [], var[:2 if svar else 1])


def small_counts():
    """0 to 3 of every count, and for the tables also what fits; two labels, order 1."""
    calls = itertools.cycle(MODEL_CALLS + ('check', 'durations', 'shares', 'matches'))
    flags = itertools.cycle(itertools.product((False, True), repeat=2))
    for k, blocks, order, variances in itertools.product(range(4), repeat=4):
        for transition in sorted({0, 1, 2, 3, k * k}):
            for ar in sorted({0, 1, 2, 3, blocks * order}):
                c = Case(next(calls), 2, 1, *next(flags), [0.5, -0.5, 1.5], [0.0, 1.0, -1.0][:k],
                         [1.0 / max(k, 1)] * transition, [0.25] * ar, [1.0] * variances)
                c.blocks, c.order = blocks, order
                yield c


# ---- all together

FAMILIES = ([benign] * 5 + [any_chain] * 7 + [at_fault] * 10 + [short_memory] * 3 + [other_rule] * 3 + [other_call] * 4
            + [on_the_means, big, negative_shares, order_zero] * 2
            + [any_variance, scaled, outliers, constant, subnormal, unvisited, jump, zero_times_infinity])
LONG_ONE_IN = 150


def each_rule(r):
    """Each rule at order zero and above from each call, each other rule from each call: alone, with a short memory, with a fault of
    the parameters."""
    for call, rule, p in itertools.product(MODEL_CALLS, RULES, (0, 1)):
        c = benign(r, 3, p)
        c.call, c.rule = call, rule
        yield c
    for call, rule, beside in itertools.product(MODEL_CALLS, OTHER_RULES, (None, 'memory', 'parameters')):
        c = benign(r, *r.choice(USUAL_PAIRS))
        c.call, c.rule = call, rule
        if beside == 'memory':
            c.memory = tuple(need - 1 for need in c.head().needs())
        if beside == 'parameters':
            bad_mean(r, c)
        yield c


def one_of_each(r):
    """A benign case for each pair, one for each fault alone, and the rules."""
    for k, p in PAIRS:
        yield benign(r, k, p)
    for fault in FAULTS + [many_readings]:
        c = benign(r, 3, 2)
        fault(r, c)
        yield c
    yield from each_rule(r)


def from_families(r, count):
    for i in range(count):
        k, p = PAIRS[i // 2 % len(PAIRS)] if i % 2 else r.choice(USUAL_PAIRS)
        family = long_series if r.randrange(LONG_ONE_IN) == 0 else r.choice(FAMILIES)
        c = family(r, k, p)
        c.id = family.__name__
        yield c


def sampled(r, name, all_of_them, most):
    all_of_them = list(all_of_them)
    sample = r.sample(all_of_them, min(most, len(all_of_them)))
    for c in sample:
        c.id = name
    return sample


def lend(r, c):
    """Enough memory: just as much, or some more."""
    needs = c.head().needs() or (6, 6, 6)
    c.memory = tuple(need + r.choice([0, 0, 1, r.randrange(9)]) for need in needs)


def cases(r, count):
    listed = sampled(r, 'each', one_of_each(r), count)
    listed += sampled(r, 'short', short_series(), count // 4)
    listed += sampled(r, 'counts', small_counts(), count // 4)
    yield from listed
    yield from from_families(r, count - len(listed))
