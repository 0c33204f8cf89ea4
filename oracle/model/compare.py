"""Compares answers to the same cases.
compare.py CASES ORACLE CANDIDATE   every bit and every refusal; 7 is worked out by protocol.py, as the Rust has no lent memory.
                                    Ends with status 1 where anything differs, or where a promise is broken.
compare.py --gaps ROUTED UNTOUCHED  how far the untouched Rust is from the routed one, in the cases that it was asked, which come
                                    in the same order; a gap is no failure."""
import math
import sys
from itertools import zip_longest

from protocol import LENT, number, read_answers, read_heads, refusal_of, with_memory

SHOWN = 20


def shortened(head, answer):
    """What the candidate has to say with each lent memory one place short."""
    needs = head.needs()
    for i in head.lent() if needs else ():
        said = with_memory(answer, needs[i])
        yield '%s %s' % (LENT[i], said['refusal'])


def first_difference(found, expected):
    """Of two lines of words the first word that differs, and where."""
    for i, (a, b) in enumerate(zip_longest((found or '').split(), (expected or '').split())):
        if a != b:
            return 'word %d is %s, not %s' % (i, a, b)
    return 'a line without words'


def differences(head, answer, found):
    """Lines that say what of a candidate's answer is wrong."""
    expected = with_memory(answer, head.short())
    short, other, broken = found.pop('short', None), found.pop('other', None), found.pop('broken', [])
    if ('running' in expected) != ('running' in found):
        yield 'work memory %s' % ('as found' if 'running' in expected else 'cleared')
    for name in sorted((expected.keys() | found.keys()) - {'running'}):
        if expected.get(name) != found.get(name):
            yield '%s: %s' % (name, first_difference(found.get(name), expected.get(name)))
    if short is not None and short != list(shortened(head, answer)):
        yield 'one place short: %s, not %s' % (short, list(shortened(head, answer)))
    if (other is not None) != head.takes_either_rule():
        yield 'the other rule was%s tried' % ('' if other else ' not')
    for what in broken:
        yield 'broken: ' + what


def compare(cases, oracle, candidate):
    heads = read_heads(cases)
    met, wrong, shorts, others, fits = 0, 0, 0, 0, 0
    for pair in zip_longest(read_answers(oracle), read_answers(candidate), fillvalue=('no answer', {})):
        (ident, answer), (found_id, found) = pair
        shorts += len(found.get('short', []))
        others += 'other' in found
        said = ['answer to %s' % found_id] if found_id != ident else list(differences(heads[ident], answer, found))
        met += 1
        fits += ident in heads and heads[ident].call == 'fit'
        wrong += bool(said)
        if said and wrong <= SHOWN:
            print('%s differs: %s' % (ident, '; '.join(said)))
    if met != len(heads):
        print('%d answers to %d cases' % (met, len(heads)))
    print('%d cases, %d of them fits, %d with memory one place short and %d with the other rule compared, %d differ'
          % (met, fits, shorts, others, wrong))
    return wrong == 0 and met == len(heads)


def gap_of(a, b):
    """The largest gap between two lines of numbers, over the larger size where that is above 1; None where one has a NaN or
    an infinity and the other has another."""
    largest = 0.0
    for x, y in zip(a.split(), b.split()):
        if x != y:
            u, v = number(x), number(y)
            gap = abs(u - v) / max(1.0, abs(u), abs(v))
            if not math.isfinite(gap):
                return None
            largest = max(largest, gap)
    return largest


def pairs(routed, untouched):
    """The two answers to each case that the untouched Rust was asked."""
    answers = read_answers(routed)
    for ident, b in read_answers(untouched):
        yield ident, next(a for name, a in answers if name == ident), b


def gaps(routed, untouched):
    largest, other, uneven, same, met = {}, 0, 0, 0, 0
    for ident, a, b in pairs(routed, untouched):
        met += 1
        if a == b or (refusal_of(a) and refusal_of(a) == refusal_of(b)):
            same += 1
        elif a.keys() != b.keys() or 'refusal' in a:
            other += 1
            print('%s: refusal %d in the one, %d in the other' % (ident, refusal_of(a), refusal_of(b)))
        else:
            for name in a:
                gap = gap_of(a[name], b[name])
                uneven += gap is None
                largest[name] = max(largest.get(name, 0.0), gap or 0.0)
    print('%d answers: %d the same, %d refused in one only, %d lines with a NaN or infinity in one only' % (met, same, other, uneven))
    for name in sorted(largest):
        print('largest gap of %s: %.2e' % (name, largest[name]))


if __name__ == '__main__':
    if sys.argv[1] == '--gaps':
        gaps(*map(open, sys.argv[2:4]))
    else:
        sys.exit(0 if compare(*map(open, sys.argv[1:4])) else 1)
