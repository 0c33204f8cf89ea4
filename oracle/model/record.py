"""Writes recorded cases for crates/run_replay: record.py ORACLE FOLDER calls|fits|rules .., ORACLE being the routed one.
FOLDER/stdin has the cases and FOLDER/stdout the answers, in the lines that README.md and crates/run_replay/src/main.rt name."""
import itertools
import random
import subprocess
import sys
from collections import Counter

import chains
import fits
import gen
from protocol import HUGE, LENT, MODEL_CALLS, NAMES, RULES, ZERO, bits, ran, read_answers, refusal_of, with_memory

SEED = 1989
PLACES = 25600  # what the program has of each memory
READINGS = 40
CELLS = PLACES // 3  # windows of all rows of a case, a third as when work memory had three tables: the recorded series stay
FIT_READINGS = 12
FIT_CELLS = 6000  # windows of all rows of all passes of a fit
WHOLE_PAIRS = [(2, 0), (2, 1), (2, 7), (3, 2), (4, 3), (16, 0), (16, 1)]  # with every call and every flag


# ---- the cases

def shortened(c):
    """No more than 40 readings, and no more rows than CELLS has windows for."""
    rows = min(READINGS, CELLS // c.k ** (c.p + 1))
    c.y = c.y[-min(READINGS, rows + c.p):]
    return c


def plain(r):
    """Every pair once, and some with every call and every flag."""
    for k, p in gen.PAIRS:
        yield shortened(gen.benign(r, k, p, length=p + 1 + r.randrange(20)))
    for k, p in WHOLE_PAIRS:
        for call in MODEL_CALLS:
            for sar in (False, True):
                for svar in (False, True):
                    c = gen.with_flags(r, k, p, sar, svar)
                    c.call = call
                    yield c
    for k, p in [(2, 1), (2, 7), (3, 3), (5, 2), (16, 1)]:
        c = shortened(gen.benign(r, k, p, chains.sticky, READINGS))
        c.call = 'smooth'
        yield c


def nasty(r):
    """Each family with each call, and each kind of chain."""
    families = [gen.any_variance, gen.scaled, gen.outliers, gen.on_the_means, gen.constant, gen.subnormal, gen.big, gen.unvisited,
                gen.negative_shares, gen.order_zero, gen.jump, gen.zero_times_infinity]
    for family in families:
        for call in MODEL_CALLS:
            c = shortened(family(r, *r.choice(gen.USUAL_PAIRS)))
            c.call = call
            yield c
    for chain in chains.ALL:
        yield shortened(gen.benign(r, *r.choice([(2, 1), (3, 1), (2, 2)]), chain))


def faulty(r):
    """Each fault twice, and one series that is too long."""
    for fault in gen.FAULTS * 2:
        c = shortened(gen.benign(r, *r.choice(gen.USUAL_PAIRS)))
        fault(r, c)
        yield c
    c = gen.benign(r, 2, 1, length=4097)
    yield c


def refused_running(r):
    """21, 22 and 23 from each call."""
    for chain in (chains.identity, chains.above_one):
        for call in MODEL_CALLS:
            c = gen.benign(r, 2, 1, chain, 6)
            if chain == chains.above_one:
                c.trans = chains.flat([[1.000000005, 0.0], [0.5, 0.5]])
            c.call = call
            yield c
    for call in MODEL_CALLS:
        c = gen.benign(r, 2, 1, chains.dyadic, 6)
        c.y[3], c.call = 1e200, call
        yield c


def short_of_memory(r):
    """None, and one place less, of each memory of each call; all short at once; beside another fault, before and after 7."""
    for takes, call in enumerate(MODEL_CALLS, 1):
        for i in range(takes):
            for less in (lambda need: 0, lambda need: need - 1):
                c = gen.benign(r, *r.choice([(2, 1), (3, 2), (2, 0), (16, 1)]), length=5)
                c.call = call
                c.memory = tuple(less(n) if j == i else n for j, n in enumerate(c.head().needs()))
                yield c
    for fault in (None, gen.bad_reading, gen.bad_mean, gen.other_flags):
        c = gen.benign(r, 2, 1, length=6)
        if fault:
            fault(r, c)
        c.call, c.memory = 'smooth', (1, 1, 1)
        yield c


# ---- the fits

def brief(c):
    """A fit of no more than 12 rows, whose passes do not take long."""
    c.y = c.y[-(FIT_READINGS + c.p):]
    c.max_iter = min(c.max_iter, max(1, FIT_CELLS // (len(c.y) * c.k ** (c.p + 1)))) if c.max_iter <= 50 else c.max_iter
    return c


def fits_plain(r):
    """Every pair; some with every flag; every tolerance; order 0, where a constant series makes no difference."""
    for k, p in fits.PAIRS:
        yield brief(fits.with_passes(r, gen.benign(r, k, p, length=p + 2 + r.randrange(10)), [1, 2, 3]))
    for (k, p), sar, svar in itertools.product([(2, 1), (2, 7), (3, 2), (16, 1)], (False, True), (False, True)):
        yield brief(fits.with_passes(r, gen.with_flags(r, k, p, sar, svar), [2, 3]))
    for tol in fits.TOLS:
        c = fits.with_passes(r, gen.benign(r, 2, 1, chains.sticky, FIT_READINGS), [20])
        c.tol = tol
        yield c
    for family in (gen.benign, gen.constant):
        yield brief(fits.with_passes(r, family(r, 2, 0)))


def fits_known(r):
    return fits.known()


def fits_at_later_columns(r):
    return fits.later_columns()


def fits_nasty(r):
    """Each family twice; those that have faults of their own at few windows."""
    for family in dict.fromkeys(fits.FAMILIES):
        for _ in range(2):
            if family in (fits.at_fault, fits.short_memory, fits.order_zero):
                yield family(r, *r.choice(fits.SMALL_PAIRS))
            else:
                yield brief(family(r, *r.choice(fits.USUAL_PAIRS)))


def fits_faulty(r):
    for c in fits.every_fault(r):
        c.y = c.y[:4097]
        yield c


def fits_short_of_memory(r):
    """Work memory and smoothed table: none, and one place less; all short at once, alone and beside another fault; no filtered
    table, which a fit does not take."""
    for lengths in ((0, None, None), (-1, None, None), (None, None, 0), (None, None, -1), (None, 0, None), (0, 0, 0)):
        for fault in (None,) if lengths != (0, 0, 0) else (None, gen.bad_reading, gen.bad_mean, gen.other_flags):
            c = fits.with_passes(r, gen.benign(r, *r.choice([(2, 1), (3, 2), (16, 1)]), length=5), [2])
            if fault:
                fault(r, c)
            c.memory = tuple(need if n is None else need - 1 if n else 0 for n, need in zip(lengths, c.head().needs()))
            yield c


# ---- the rules

FLAGS = list(itertools.product((False, True), repeat=2))


def by_rule(call, rule, c):
    c.call, c.rule = call, rule
    return c


def rules_at_zero(r):
    """Rule 2 at order 0: some with every call and every flag; longer ones; every number of regimes."""
    for k, call, flags in itertools.product((2, 3, 16), MODEL_CALLS, FLAGS):
        yield by_rule(call, 2, gen.with_flags(r, k, 0, *flags))
    for k, call in itertools.product((2, 5), MODEL_CALLS):
        yield by_rule(call, 2, gen.benign(r, k, 0, chains.sticky, READINGS))
    for k in range(2, 17):
        yield by_rule('smooth', 2, gen.benign(r, k, 0, length=1 + r.randrange(12)))


def rules_nasty(r):
    """Rule 2 at order 0: each family that has this order, each kind of chain; 21, 22 and 23."""
    calls = itertools.cycle(MODEL_CALLS)
    families = [gen.any_variance, gen.scaled, gen.outliers, gen.on_the_means, gen.constant, gen.subnormal, gen.big, gen.unvisited,
                gen.order_zero]
    for family in families:
        yield by_rule(next(calls), 2, shortened(family(r, r.choice([2, 3, 4]), 0)))
    for chain in chains.ALL:
        yield by_rule(next(calls), 2, shortened(gen.benign(r, r.choice([2, 3, 4]), 0, chain)))
    for call in MODEL_CALLS:
        yield by_rule(call, 2, gen.benign(r, 2, 0, chains.identity, 6))
        c = gen.benign(r, 2, 0, chains.dyadic, 6)
        c.trans = chains.flat([[1.000000005, 0.0], [0.5, 0.5]])
        yield by_rule(call, 2, c)
        c = gen.benign(r, 2, 0, chains.dyadic, 6)
        c.y[3] = 1e200
        yield by_rule(call, 2, c)


def rules_other(r):
    """29 for each other rule from each call, at order 0 and above; 7 before it, for each memory; each fault beside it."""
    for p, call, rule in itertools.product((0, 1), MODEL_CALLS, gen.OTHER_RULES):
        yield by_rule(call, rule, gen.benign(r, 2, p, length=5))
    for takes, call in enumerate(MODEL_CALLS, 1):
        for i in range(takes):
            c = by_rule(call, gen.OTHER_RULES[i], gen.benign(r, 2, 1, length=5))
            c.memory = tuple(n - 1 if j == i else n for j, n in enumerate(c.head().needs()))
            yield c
    for i, fault in enumerate(gen.FAULTS):
        c = gen.benign(r, 3, 1, length=6)
        fault(r, c)
        yield by_rule(MODEL_CALLS[i % 3], gen.OTHER_RULES[i // 3 % 3], c)


CALLS = (plain, nasty, faulty, refused_running, short_of_memory)
FITS = (fits_plain, fits_known, fits_nasty, fits_faulty, fits_short_of_memory, fits_at_later_columns)
RULED = (rules_at_zero, rules_nasty, rules_other)


def rule_of(c, next_rule):
    """0 for a fit, which takes none; 1 at order 0, where this is the Rust's; above it 1 and 2 by turns."""
    if c.call == 'fit':
        return 0
    return next_rule if c.p > 0 else 1


def cases(makers):
    r = random.Random(SEED)
    rules = itertools.cycle(RULES)
    for make in makers:
        for i, c in enumerate(make(r)):
            c.id = '%s-%d' % (make.__name__, i)
            if c.memory is None:
                gen.lend(r, c)
            if c.rule is None:
                c.rule = rule_of(c, next(rules))
            assert max(c.memory) <= PLACES and len(c.y) <= 4097
            yield c


# ---- their lines

def given(c):
    """A case as the program reads it."""
    parts = {name: c.part(name) for name in ('means', 'trans', 'ar', 'var')}
    wholes = [NAMES.index(c.call) + 1, c.k, c.p, c.sar, c.svar, *c.memory, len(c.y), parts['means'][0], parts['trans'][0],
              c.blocks, c.order, parts['ar'][0], parts['var'][0], c.rule]
    assert len(wholes) == 16 and all(0 <= n <= HUGE for n in wholes)
    numbers = c.y + parts['trans'][1] + parts['means'][1] + parts['ar'][1] + parts['var'][1]
    of_fit = ['%016x' % c.max_iter, bits(c.tol)] if c.call == 'fit' else []
    return ['%016x' % n for n in wholes] + [bits(x) for x in numbers] + of_fit


def fitted(answer):
    """The fitted parameters, and that their other places are +0."""
    names = ('trans', 'means', 'ar', 'var') if 'iterations' in answer else ()
    return [word for name in names for word in answer[name].split() if len(word) == len(ZERO)] + ['0']


def expected(c, answer):
    """What the program has to write. Memory past the needed lengths is as found, and so are the tables after a refusal."""
    head = c.head()
    answer = with_memory(answer, head.short())
    lines = ['%s %s' % (answer.get('refusal', '0 0 ' + ZERO), answer.get('loglik', ZERO))]
    if c.call == 'fit':
        lines.append('%s %s' % (answer.get('iterations', '0'), answer.get('converged', '0')))
    lines.append('%d 0' % (head.needs()[0] if ran(answer) else 0))
    for name in (LENT[i] for i in head.lent()[1:]):
        lines += answer[name].split()[2:] if name in answer else []
        lines.append('0')
    return lines + (fitted(answer) if c.call == 'fit' else []), refusal_of(answer)


def write(path, lines):
    with open(path, 'w') as out:
        out.writelines(line + '\n' for line in lines)


if __name__ == '__main__':
    oracle, folder = sys.argv[1:3]
    all_cases = [c for what in sys.argv[3:] for c in cases({'calls': CALLS, 'fits': FITS, 'rules': RULED}[what])]
    said = subprocess.run([oracle], input=''.join(c.text() for c in all_cases), capture_output=True, text=True, check=True).stdout
    stdin, stdout, refusals = [], [], Counter()
    for c, (ident, answer) in zip(all_cases, read_answers(said.splitlines()), strict=True):
        assert c.id == ident
        lines, refused = expected(c, answer)
        stdin += given(c)
        stdout += lines
        refusals[refused] += 1
    write(folder + '/stdin', stdin)
    write(folder + '/stdout', stdout)
    print('%d cases; refusals (0: answered): %s' % (len(all_cases), dict(sorted(refusals.items()))))
