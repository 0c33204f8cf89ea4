"""Cases of fit: small ones for each refusal of a run, families that a fit answers, or refuses while it runs, and families that
it refuses at once. A family is given (k, p); some have their own."""
import itertools

import chains
import gen
from gen import INF, LARGEST, NAN, TINY
from protocol import HUGE, Case

PAIRS = [(k, p) for k, p in gen.PAIRS if p > 0]
USUAL_PAIRS = [(k, p) for k, p in gen.USUAL_PAIRS if p > 0]
SMALL_PAIRS = [(2, 1), (2, 2), (3, 1)]
USUAL_TOLS = [1e-8, 1e-6, 1e-4, 1e-2, 1.0]
TOLS = USUAL_TOLS + [0.0, 0.0, -0.0, -1e-9, -1.0, TINY, NAN, INF, -INF]
PASSES = [0, 1, 1, 2, 2, 3, 4, 5, 8, 12, 20, 35, 50]
MOST_CELLS = 40000  # windows of all rows of all passes


def with_passes(r, c, passes=None):
    """A count of passes that does not take long, and a tolerance."""
    c.call = 'fit'
    cells = max(1, len(c.y) * c.k ** (c.p + 1)) if c.k <= 16 and c.p <= 7 else 1
    c.max_iter = min(r.choice(passes or PASSES), max(1, MOST_CELLS // cells))
    c.tol = r.choice(TOLS)
    return c


# ---- a small fit for each refusal of a run, and for some slips: found by a search over the families below, then made shorter

EVEN = [[0.75, 0.25], [0.25, 0.75]]
KNOWN = [  # columns, means, AR coefficients, variances, readings, passes
    # 11: a coefficient of -1e300 makes the means' right side infinite; the variance that follows is infinite too, so that the next
    # equations are zeros and keep these means
    (EVEN, [-1e140, 1e140], [-1e300], [1.0, 1.7e308], [1e140, 0.0], 1),
    # 13: a prediction so small that its quotient overflows, and infinity over infinity
    (EVEN, [1e150, 2e150], [1.0, 0.0], [TINY, 1e307], [2e150, 2e150, 1e150, 1.0], 1),
    # 13 in the third step, an entry below zero: the table before it was nearly closed, so a share fell below zero
    ([[0.609375, 0.203125, 0.1875], [0.234375, 0.625, 0.140625], [0.203125, 0.203125, 0.59375]], [1.0, -1.93, -3.0],
     [0.6, 0.421424489188, -0.8], [1.0], [0.0, -1.0, -4.20213], 3),
    # 13 from a NaN count, which divides
    ([[0.6985298, 0.0, 0.3014702], [0.65540216, 0.34459784, 0.0], [0.0, 1.0, 0.0]], [0.0, 38.0, 80.0], [0.0], [1.0, 1.0, 1.0],
     [0.0, 0.0, 40.0], 1),
    # 15: a reading that one coefficient explains at a tiny variance, so that the right side overflows
    (EVEN, [0.0, 0.0], [2.0 ** 28], [1e-303], [0.5, 2.0 ** 27], 1),
    # 16 with 0, in the first step and in the third: the floor is 0, since the sample variance is below 1e-312
    (EVEN, [0.0, 0.0], [0.5], [2e-314], [1e-157, 5e-158], 1),
    (EVEN, [0.0, 1e-160], [-1.0], [5e-321], [1e-160, -1e-160], 3),
    # 16 with infinity: coefficients that are kept, and a residual whose square overflows
    (EVEN, [0.0, 0.0], [0.0, 1e155], [1e200, 1e300], [0.0, -1e100, 0.0, 0.0], 2),
    (EVEN, [0.0, 0.0], [2.0 ** 17], [1e-200, 1.7e308], [2.0 ** 481, 2.0 ** 498, 0.0], 1),
    # 21 at place 0, of the start and of the first step's table, which is the identity
    ([[1.0, 0.0], [0.0, 1.0]], [0.0, 1.0], [0.5], [1.0], [0.0, 1.0], 0),
    (EVEN, [0.0, 1e140], [2.0, 0.0], [1.0, 1e300], [5e139, 1e140], 1),
    (EVEN, [0.0, 1e140], [2.0, 0.0], [1.0, 1e300], [5e139, 1e140], 2),
    # 21 at place 1: weights over a variance are below 1e-300
    (EVEN, [0.0, 1.0], [0.5], [1e306], [1.0, 0.0], 1),
    # 21 at place 2: squares of the readings are below 1e-300; in the second step a label is all but without weight
    (EVEN, [0.0, 1.0], [0.5], [1.0], [1e-155, 0.0, 2e-155], 1),
    ([[0.9, 0.1], [0.9, 0.1]], [2.17, -1.67], [0.4, 0.09], [0.02], [2.2, -1.7], 2),
    # 22, of the start and of the first step's table, which is all but closed
    ([[1.000000005, 0.0], [0.5, 0.5]], [0.0, 1.0], [0.5], [1.0], [0.0, 1.0], 0),
    ([[1.0 - 2.0 ** -53, 5e-17, 0.0], [5e-17, 1.0 - 2.0 ** -53, 0.0], [0.0, 5e-17, 1.0]], [0.0, 0.0, 0.0], [0.0], [1.0],
     [0.0, 1.0], 1),
    # 23, of the start and of the first step's parameters, in the closing pass and in the second
    (EVEN, [0.0, 0.0], [1e5], [1.0], [1.0, 0.0], 0),
    (EVEN, [1.0, 0.0], [1.0], [0.009], [0.0, 2.4], 1),
    (EVEN, [1.0, 0.0], [1.0], [0.009], [0.0, 2.4], 2),
    # answered: weights of both signs over the least variance, infinity less infinity: a NaN on the means' diagonal, first or second
    ([[1.0000000004, 1e-09], [0.5, 0.5]], [1.5, 0.0], [0.0], [TINY, 1.0], [0.0, 1.5], 1),
    ([[0.5, 0.5, 0.0], [1e-10, 1.0000000005, 0.0], [0.0, 0.9, 0.1]], [2.0, 1.0, 3.0], [0.0], [1.0, TINY, 1.0], [0.0, 1.0], 1),
]
# 21 at a column above 0: the order, and the rest as above
LATER_COLUMNS = [
    # place 1: weights over a variance are below 1e-300, of the second regime and of the third
    (1, EVEN, [0.0, 1.0], [0.0], [1e290, 1e305], [1.0, 0.0], 1),
    (1, [[0.5, 0.25, 0.25], [0.25, 0.5, 0.25], [0.25, 0.25, 0.5]], [0.0, 1.0, 2.0], [0.0], [1e290, 1e290, 1e305], [1.0, 0.0], 1),
    # place 2: one row, so that the lags' products are multiples of each other, and a ridge below 1e-300; coefficients that the
    # regimes share, and their own
    (2, EVEN, [0.0, 0.0], [0.5, 0.25], [1.0], [1e-147, 2e-147, 4e-147], 1),
    (2, EVEN, [0.0, 0.0], [0.5, 0.25, 0.5, 0.25], [1.0], [1e-147, 2e-147, 4e-147], 1),
]
# 14: a share below zero, and a count of a column that two rows cancel but for some 1e-10, so that the column's two sums differ by
# more than 1e-8. A bisection over one reading or mean finds such a count. Second mean, and the rest as above; the first is 0.
CANCELLED = [
    ([[1.0000000005, 9e-09], [0.75, 0.25]], -2.303216765194085, [2.393288135857979, 0.5820707727953854],
     [0.3277140698470864, 0.7811700629033379], [0.22528706579494084, 0.41867356096450037, 1.6926303673688934]),
    ([[1.0000000002, 1e-09], [0.9, 0.09999999999999998]], -0.3348965201885594, [0.7052296648673444],
     [0.03272865591280137, 0.236310080363157], [-0.9007392216460786, 2.5510504851036435, 0.9390364334828454, -1.4112837630668964]),
    ([[1.0000000005, 1e-09], [0.75, 0.25]], 2.9324491875772662, [0.7264586812992057], [0.10113433756323612],
     [-0.15263042728255405, 1.7042622203483218, 1.889999879483002]),
    ([[1.0000000001, 1e-09], [0.9, 0.09999999999999998]], -1.9131929831850238, [-0.9875574829033225, -1.3475168897054273],
     [0.3451723460637792], [-0.6025193705357905, 0.7385675793594504, -1.074779793707402]),
]


def small(columns, means, ar, var, y, passes, tol=0.0, p=1):
    """A fit; what switches is seen from the counts."""
    c = Case('fit', len(means), p, len(ar) > p, len(var) > 1, list(y), list(means), chains.flat(columns), list(ar), list(var))
    c.max_iter, c.tol = passes, tol
    return c


def known():
    for one in KNOWN:
        yield small(*one)
    for columns, mean, ar, var, y in CANCELLED:
        yield small(columns, [0.0, mean], ar, var, y, 1)


def later_columns():
    for p, *one in LATER_COLUMNS:
        yield small(*one, p=p)


def cancelled(r, k, p):
    """One of those that give 14, in other units: powers of two keep the digits."""
    columns, mean, ar, var, y = r.choice(CANCELLED)
    unit = 2.0 ** r.randint(-30, 30)
    c = small(columns, [0.0, mean * unit], ar, [v * unit * unit for v in var], [v * unit for v in y], 1)
    return with_passes(r, c, [1, 1, 2, 5])


# ---- fits that come to an end

def to_the_end(r, k, p):
    """As many passes as it takes: every gain but the last is above a tolerance above 0, so they are not many."""
    c = gen.benign(r, *r.choice(SMALL_PAIRS), length=r.randint(4, 40))
    c.call, c.max_iter, c.tol = 'fit', r.choice([HUGE, HUGE, HUGE - 1, 2 ** 63, 2 ** 32, 1000000]), r.choice(USUAL_TOLS + [INF])
    return c


def exact(r, k, p):
    """Readings that follow a recursion to the last digit: variances fall to their floor, or to 0 where the floor is 0."""
    c = gen.benign(r, k, p)
    phi, size = r.choice([0.5, -0.5, 0.75, 1.0, -1.0]), 10.0 ** r.choice([0, 0, 0, 3, -3, -100, -153, -155, -157, -160, 100, 150])
    c.y[0] = size
    for t in range(1, len(c.y)):
        c.y[t] = phi * c.y[t - 1] + (size if r.random() < 0.2 else 0.0)
    c.means = [r.choice([0.0, size, j * size]) for j in range(c.k)]
    c.ar = [r.choice([phi, 0.0, 0.25]) for _ in c.ar]
    c.var = [max(TINY, min(LARGEST, v * size * size)) for v in c.var]
    return with_passes(r, c)


def long_series(r, k, p):
    """Up to 4,096 readings; with many windows seldom."""
    k, p = r.choice(USUAL_PAIRS) if k ** (p + 1) > 64 and r.random() < 0.9 else (k, p)
    return with_passes(r, gen.benign(r, k, p, chains.sticky, r.choice([4096, r.randint(300, 4096)])))


def few_rows(r, k, p):
    """One to three rows: the next transition table may be closed, so 21 at place 0 or shares below zero."""
    c = gen.benign(r, k, p, length=p + r.randint(1, 3))
    if r.random() < 0.5:
        c.means = [r.choice(c.y) for _ in c.means]
        c.var = [v * 10.0 ** -r.randint(0, 6) for v in c.var]
    return with_passes(r, c)


# ---- steps that end in a refusal

def huge_variances(r, k, p):
    """The means' equations are smaller than 1e-300: 21 at place 1."""
    c = gen.benign(r, k, p, length=p + r.randint(2, 12))
    c.var = [10.0 ** r.uniform(296, 308) if r.random() < 0.9 else v for v in c.var]
    return with_passes(r, c, [1, 2, 3])


def tiny_readings(r, k, p):
    """The coefficients' equations are smaller than 1e-300: 21 at place 2. Or the floor is 0: 16."""
    c = gen.benign(r, k, p, length=p + r.randint(2, 20))
    size = 10.0 ** r.uniform(-161, -148)
    c.y, c.means = [v * size for v in c.y], [v * size for v in c.means]
    if r.random() < 0.3:
        c.var = [max(TINY, v * size * size) for v in c.var]
    return with_passes(r, c, [1, 2, 3])


def infinite_coefficient(r, k, p):
    """A reading that one coefficient explains at a tiny variance: the right side overflows, 15."""
    low, high = r.randint(-40, 0), r.randint(20, 80)
    c = gen.benign(r, r.choice([2, 3]), 1, chains.dyadic, 2)
    c.y, c.means = [2.0 ** low, 2.0 ** high], [0.0] * c.k
    c.ar, c.var = [2.0 ** (high - low)] * len(c.ar), [10.0 ** -r.randint(280, 305)] * len(c.var)
    return with_passes(r, c, [1, 2, 5])


def infinite_side(r, k, p):
    """The right side of the means' equations overflows and the matrix does not: factors and sensitivities of zero meet an
    infinity."""
    chain = r.choice([chains.dyadic, chains.same, chains.sticky])
    c = gen.benign(r, r.choice([2, 2, 3]), r.choice([1, 1, 2]), chain, r.randint(4, 12))
    far, j = 2.0 ** r.randint(30, 60), r.randrange(c.k)
    c.means = [far if i == j else 0.0 for i in range(c.k)]
    c.ar = [r.choice([0.0, 0.0, -0.5, 0.5])] * len(c.ar)
    c.var = [10.0 ** -r.randint(290, 306) if i == j or len(c.var) == 1 else 1.0 for i in range(len(c.var))]
    c.y = [r.choice([far, 0.0]) for _ in c.y[1:]] + [far]
    return with_passes(r, c, [1, 1, 2, 3])


def infinite_means(r, k, p):
    """Huge coefficients: right sides and squares of sensitivities overflow, 11."""
    c = gen.benign(r, r.choice([2, 2, 3]), r.choice([1, 1, 2]), length=r.randint(3, 8))
    size = 10.0 ** r.choice([100, 140, 150])
    c.y = [r.choice([size, 0.0, -size]) for _ in c.y]
    c.means = [r.choice([size, -size, 0.0]) for _ in c.means]
    c.ar = [r.choice([-1e300, 1e300, 1e155, -1e200]) if i % c.p == 0 else 0.0 for i in range(len(c.ar))]
    c.var = [r.choice([1.0, 1e300, 1.7e308, 1e308]) for _ in c.var]
    return with_passes(r, c, [1, 1, 2])


def both_signs(r, k, p):
    """Weights of both signs at a subnormal variance: infinity less infinity in one place, a NaN pivot, the others finite. The
    place is the first of two or the second of three."""
    more, stay, mean = r.choice([5e-10, 4e-10, 2e-10]), r.choice([0.9, 0.8, 0.75]), r.uniform(-2, 2)
    least, other = TINY * r.choice([1, 1, 3]), mean + r.uniform(0.5, 2)
    c = gen.benign(r, r.choice([2, 3]), 1, chains.dyadic, r.choice([2, 2, 3]))
    if c.k == 2:
        columns, c.means, var = [[1.0 + more, r.choice([1e-9, 3e-9])], [stay, 1.0 - stay]], [mean, other], [least, 1.0]
    else:
        columns = [[0.5, 0.5, 0.0], [r.choice([1e-10, 5e-11]), 1.0 + more, 0.0], [0.0, stay, 1.0 - stay]]
        c.means, var = [other, mean, other + 1.0], [1.0, least, 1.0]
    c.svar, c.var, c.trans = True, var, chains.flat(columns)
    c.ar = [r.choice([0.0, 0.0, 0.5]) if c.sar and var[i] == 1.0 else 0.0 for i in range(len(c.ar))]
    c.y = [r.uniform(-2, 2)] + [mean] * (len(c.y) - 1)
    return with_passes(r, c, [1, 1, 2])


def below_zero(r, k, p):
    """Shares below zero: counts of both signs, entries below 0 or above 1, 13; or 22."""
    c = gen.negative_shares(r, k, p)
    return with_passes(r, c, [1, 1, 2, 3, 10])


def infinite_residual(r, k, p):
    """A window of weight zero whose residual is infinite."""
    c = gen.benign(r, r.choice([2, 3]), r.choice([1, 2]), chains.sticky, r.randint(5, 30))
    c.y, c.means, c.var = [v * 1e10 for v in c.y], [v * 1e10 for v in c.means], [v * 1e20 for v in c.var]
    if c.sar:
        c.ar[r.randrange(len(c.ar))] = r.choice([1e300, -1e299, 1e305])
    return with_passes(r, c, [1, 2, 3])


def runaway(r, k, p):
    """Smoothed weights that overflow: counts of infinity over infinity, or NaN counts, 13."""
    return with_passes(r, gen.jump(r, k, p), [1, 2, 3])


def infinite_moment(r, k, p):
    """One reading that a huge coefficient explains to the last digit at a tiny variance, so that the coefficient is kept, and a
    next one whose residual under another label has an infinite square: 16."""
    c = gen.benign(r, r.choice([2, 3]), 1, r.choice(chains.BENIGN))
    power, size = r.randint(15, 20), r.randint(498, 500)
    c.means, c.ar = [0.0] * c.k, [2.0 ** power] * len(c.ar)
    c.svar, c.var = True, [10.0 ** -r.randint(150, 300)] + [r.choice([1.7e308, 1e308, 1e307]) for _ in c.means[1:]]
    c.y = [2.0 ** (size - power), 2.0 ** size, r.choice([0.0, 1.0, 2.0 ** 100])] + [0.0] * r.randrange(4)
    return with_passes(r, c, [1, 1, 2, 3])


# ---- fits that are refused at once

def order_zero(r, k, p):
    """24; but the checks before it come first, and it comes before 25."""
    c = r.choice([gen.benign, gen.constant, gen.big])(r, k, 0)
    if r.random() < 0.2:
        r.choice(gen.FAULTS)(r, c)
    return with_passes(r, c)


def no_spread(r, k, p):
    """A sample variance of 0, of a subnormal number, or of infinity: 25, or a fit at the edge of it."""
    c = gen.constant(r, k, p)
    kind = r.randrange(4)
    if kind == 1:
        i = r.randrange(len(c.y))
        c.y[i] += r.choice([1.0, 1e-9, 1e-160, 1e-170, TINY])
    if kind == 2:
        size = r.choice([1e154, 1.3e154, 1.4e154, 1e155, 1e200, 1e308, LARGEST])
        c.y = [r.choice([-size, size, 0.0]) for _ in c.y]
    if kind == 3:
        size = 10.0 ** r.uniform(-164, -160)
        c.y = [r.choice([-size, size, 3.0 * size]) for _ in c.y]
    return with_passes(r, c)


def at_fault(r, k, p):
    return with_passes(r, gen.at_fault(r, k, p))


def short_memory(r, k, p):
    return with_passes(r, gen.short_memory(r, k, p, 'fit'))


# ---- the families of gen.py, fitted

def fitted(family):
    def made(r, k, p):
        return with_passes(r, family(r, k, p))
    made.__name__ = 'fitted_' + family.__name__
    return made


OF_GEN = [fitted(family) for family in (gen.benign, gen.any_chain, gen.any_variance, gen.scaled, gen.outliers, gen.on_the_means,
                                        gen.subnormal, gen.big, gen.unvisited)]
OWN = [cancelled, to_the_end, exact, few_rows, huge_variances, tiny_readings, infinite_coefficient, infinite_side, infinite_means,
       both_signs, below_zero, infinite_residual, runaway, infinite_moment, order_zero, no_spread, at_fault, short_memory]
FAMILIES = OF_GEN + OWN + [OF_GEN[0]] * 3 + [OF_GEN[1]] * 3 + [exact, few_rows, below_zero, at_fault, short_memory]


# ---- all together

def short_fits(r):
    """Two or three readings out of five, two labels, order 1, all flags, three models, up to three passes."""
    for length in (2, 3):
        for y in itertools.product([0.0, 1.0, -1.0, 1e308, -0.0], repeat=length):
            for sar, svar in itertools.product((False, True), repeat=2):
                for columns, means, ar, var in gen.SHORT_MODELS:
                    yield with_passes(r, small(columns, means, ar[:1 + sar], var[:1 + svar], y, 0), [0, 1, 2, 3])


def every_pair(r):
    """Each pair with each pair of flags."""
    for (k, p), sar, svar in itertools.product(PAIRS, (False, True), (False, True)):
        yield with_passes(r, gen.with_flags(r, k, p, sar, svar))


def no_entry(r, c):
    gen.spoil(r, c.trans, NAN)


def every_fault(r):
    for fault in gen.FAULTS + [gen.many_readings, no_entry]:
        c = gen.benign(r, 3, 2, length=8)
        fault(r, c)
        yield with_passes(r, c)


def from_families(r, count):
    """Each family once, then by lot."""
    for i in range(count):
        k, p = PAIRS[i // 2 % len(PAIRS)] if i % 2 else r.choice(USUAL_PAIRS)
        family = FAMILIES[i] if i < len(FAMILIES) else long_series if r.randrange(gen.LONG_ONE_IN) == 0 else r.choice(FAMILIES)
        c = family(r, k, p)
        c.id = family.__name__
        yield c


def cases(r, count):
    """The known ones and each fault; every pair and flag; a tenth are short; the rest by families."""
    listed = gen.sampled(r, 'known', itertools.chain(known(), later_columns()), count)
    listed += gen.sampled(r, 'fault', every_fault(r), count - len(listed))
    listed += gen.sampled(r, 'pair', every_pair(r), count - len(listed))
    listed += gen.sampled(r, 'shortfit', short_fits(r), min(count // 10, count - len(listed)))
    yield from listed
    yield from from_families(r, count - len(listed))
