"""Counts what a set of cases reaches: coverage.py CASES ANSWERS, the answers being the oracle's.
Ends with status 1 where a refusal of document 01 or 02 that these calls can give, a rule that a call answers by, a pair (k, p), or
an outcome of a fit was not met."""
import itertools
import sys
from collections import Counter

from protocol import MODEL_CALLS, RULES, TAKES, ZERO, number, ran, read_answers, read_heads, refusal_of, with_memory

HANDED_IN = [*range(1, 8), *range(10, 19), 20]
PAIRS = [(k, p) for k in range(2, 17) for p in range(8) if k ** (p + 1) <= 256]
# What document 01 lets these calls refuse, and 29 of document 02. 26 is not among it: a likelihood that 23 lets pass has a finite
# logarithm, and so have the sums of 4,096 of them.
REFUSALS = [str(n) for n in HANDED_IN] + ['29', '21', '22', '23']
# what came of a rule
OF_RULES = (['%s by rule %d %s' % named for named in itertools.product(MODEL_CALLS, RULES, ('at order 0', 'above'))]
            + ['%s with another rule: %d' % named for named in itertools.product(MODEL_CALLS, (7, 29))])
# the shares' first column has a one in its last row, so that no 21 at place 0 carries column 0
OF_FILTER = ['21 at 0, column above 0', '22', '23']
OF_STEP = (['11', '13', '14', '15', '16 with 0', '16 with infinity']
           + ['21 at %d, column %s' % pair for pair in [(1, '0'), (1, 'above 0'), (2, '0'), (2, 'above 0')]])
OF_FITS = ([str(n) for n in HANDED_IN + [24, 25]] + ['25 with infinity'] + ['%s of a step' % n for n in OF_STEP]
           + ['%s of the start' % n for n in OF_FILTER] + ['%s of a later pass' % n for n in OF_FILTER]
           + ['no pass', 'all passes', 'converged'])


def odd_numbers(line):
    """What numbers other than probabilities a table has."""
    values = [number(w) for w in line.split()[2:]]
    return {'NaN': any(v != v for v in values),
            'an infinity': any(abs(v) == float('inf') for v in values),
            'a number below 0': any(v < 0.0 for v in values),
            'a number above 1.001': any(v > 1.001 for v in values)}


def fit_outcome(answer):
    """What a fit came to, in words."""
    if 'iterations' in answer:
        return 'converged' if answer['converged'] == '1' else 'all passes' if answer['iterations'] != '0' else 'no pass'
    said, place, value = answer['refusal'].split()
    if said == '21':
        said += ' at %s, column %s' % (place, '0' if value == ZERO else 'above 0')
    if said == '16' and 'running' in answer or said == '25':
        said += {'7ff0000000000000': ' with infinity', ZERO: ' with 0' if said == '16' else ''}.get(value, '')
    if 'running' not in answer:
        return said
    if said not in OF_FILTER:
        return said + ' of a step'
    return said + (' of the start' if answer['running'] == '1' else ' of a later pass')


def rule_outcome(head, answer):
    """What came of a case's rule, in words; None where nothing is asked of it."""
    if head.rule not in RULES:
        return '%s with another rule: %d' % (head.call, refusal_of(answer))
    if refusal_of(answer):
        return None
    return '%s by rule %d %s' % (head.call, head.rule, 'above' if head.p else 'at order 0')


def coverage(cases, answers):
    heads = read_heads(cases)
    calls, refusals, fits, rules, pairs, fit_pairs, tables = (Counter() for _ in range(7))
    for ident, answer in read_answers(answers):
        head = heads[ident]
        answer = with_memory(answer, head.short())
        calls[head.call] += 1
        if head.call == 'fit':
            fits[fit_outcome(answer)] += 1
        else:
            refusals[str(refusal_of(answer))] += 1
        if head.call in MODEL_CALLS:
            rules[rule_outcome(head, answer)] += 1
        if head.call in TAKES and ran(answer):
            (fit_pairs if head.call == 'fit' else pairs)[head.k, head.p] += 1
        for name in ('filtered', 'smoothed'):
            for what, met in odd_numbers(answer[name]).items() if name in answer else ():
                tables['%s with %s' % (name, what)] += met
    del rules[None]
    return calls, refusals, fits, rules, pairs, fit_pairs, tables


def show(title, counts):
    print(title + ': ' + ', '.join('%s %d' % pair for pair in sorted(counts.items())))


if __name__ == '__main__':
    calls, refusals, fits, rules, pairs, fit_pairs, tables = coverage(*map(open, sys.argv[1:3]))
    show('calls', calls)
    show('refusals of the other calls (0: answered)', refusals)
    show('fits', fits)
    show('rules', rules)
    show('other calls that ran, by (k, p)', pairs)
    show('fits that ran, by (k, p)', fit_pairs)
    show('tables', tables)
    missed = [n for n in REFUSALS if not refusals[n]] + [n for n in OF_RULES if not rules[n]]
    missed += [pair for pair in PAIRS if not pairs[pair]]
    missed += ['fit: ' + n for n in OF_FITS if not fits[n]]
    missed += ['fit: (%d, %d)' % pair for pair in PAIRS if pair[1] > 0 and not fit_pairs[pair]]
    if missed:
        print('not met: %s' % missed)
        sys.exit(1)
