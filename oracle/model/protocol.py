"""Cases and answers as text; README.md has the lines. And what document 01, and document 02 in Q-5 and Q-8, say of lent memory,
which the Rust does not see."""
import struct
from typing import NamedTuple

ROOM = {'means': 16, 'trans': 256, 'ar': 112, 'var': 16}
MODEL_CALLS = ('loglike', 'filter', 'smooth')
NAMES = MODEL_CALLS + ('fit',)
LENT = ('work', 'filtered', 'smoothed')
TAKES = {'loglike': (0,), 'filter': (0, 1), 'smooth': (0, 1, 2), 'fit': (0, 2)}  # which of these a call is lent, in the order tried
RULES = (1, 2)
HUGE = 2 ** 64 - 1  # the largest count
ZERO = '0' * 16
MOST_REGIMES, MOST_WINDOWS, MOST_READINGS = 16, 256, 4096


def bits(x):
    """The pattern of a number, 16 digits."""
    return '%016x' % struct.unpack('<Q', struct.pack('<d', x))[0]


def number(text):
    return struct.unpack('<d', struct.pack('<Q', int(text, 16)))[0]


def numbers(values):
    return ''.join(' ' + bits(x) for x in values)


class Case:
    """One call. A part's count is its length unless `said` gives another. `memory` and `rule` are drawn at the end where they are
    None."""

    def __init__(self, call, k, p, sar, svar, y, means, trans, ar, var):
        self.id, self.call = '', call
        self.k, self.p, self.sar, self.svar = k, p, sar, svar
        self.y, self.means, self.trans, self.ar, self.var = y, means, trans, ar, var
        self.blocks, self.order = k if sar else 1, p
        self.memory = None
        self.rule = None
        self.said = {}
        self.max_iter, self.tol = 0, 0.0

    def part(self, name):
        """Count and values: as many as the fixed array has room for, zeros where the list ends before the count."""
        values = getattr(self, name)
        count = min(self.said.get(name, len(values)), HUGE)
        held = min(count, ROOM[name])
        return count, (values + [0.0] * held)[:held]

    def head(self):
        return Head(self.id, self.call, self.k, self.p, len(self.y), self.memory, self.rule)

    def text(self):
        lines = ['case %s %s' % (self.id, self.call),
                 'spec %d %d %d %d' % (self.k, self.p, self.sar, self.svar),
                 'memory %d %d %d' % self.memory,
                 'y %d' % len(self.y) + numbers(self.y)]
        for name in ('means', 'trans', 'ar', 'var'):
            count, values = self.part(name)
            shape = '%d %d ' % (self.blocks, self.order) if name == 'ar' else ''
            lines.append('%s %s%d' % (name, shape, count) + numbers(values))
        if self.call in MODEL_CALLS:
            lines.append('rule %d' % self.rule)
        if self.call == 'fit':
            lines.append('fit %d %s' % (self.max_iter, bits(self.tol)))
        return '\n'.join(lines) + '\nrun\n'


class Head(NamedTuple):
    """What a comparison has to know of a case."""
    id: str
    call: str
    k: int
    p: int
    readings: int
    memory: tuple
    rule: int  # None where the call takes none

    def needs(self):
        """Lengths needed of work, filtered and smoothed table, where spec and series have any. Work is the call's: loglike and
        filter need another than smooth and fit; the other calls are lent none."""
        if not 2 <= self.k <= MOST_REGIMES or self.p > 7 or self.k ** (self.p + 1) > MOST_WINDOWS:
            return None
        if not self.p < self.readings <= MOST_READINGS:
            return None
        rows = self.readings - self.p
        cells = rows * self.k ** (self.p + 1)
        work = cells + MOST_WINDOWS if self.call in ('loglike', 'filter') else 2 * cells
        return work, rows * self.k, rows * self.k

    def takes_either_rule(self):
        """Whether the other rule has to give the same."""
        return self.rule in RULES and self.p > 0

    def lent(self):
        """Which of the three the call takes."""
        return TAKES.get(self.call, ())

    def short(self):
        """The length needed of the first one that is too short, or None."""
        needs = self.needs()
        for i in self.lent():
            if needs and self.memory[i] < needs[i]:
                return needs[i]
        return None


def refusal_of(answer):
    """The number of an answer's refusal, 0 where there is none."""
    return int(answer['refusal'].split()[0]) if 'refusal' in answer else 0


def ran(answer):
    """Whether a model call ran: it answered, or refused while it ran."""
    return 'running' in answer or refusal_of(answer) == 0


def with_memory(answer, needed):
    """What the answer is where memory is too short: 1 to 6 come before 7, all else after it, 29 directly."""
    if needed is None or 1 <= refusal_of(answer) <= 6:
        return answer
    return {'refusal': '7 %d %s' % (needed, ZERO)}


def read_heads(lines):
    """The heads of cases, by id."""
    heads = {}
    for line in lines:
        name, _, rest = line.partition(' ')
        if name == 'case':
            ident, call = rest.split()
        elif name == 'spec':
            k, p = map(int, rest.split()[:2])
        elif name == 'memory':
            memory = tuple(map(int, rest.split()))
        elif name == 'y':
            heads[ident] = Head(ident, call, k, p, int(rest.split(None, 1)[0]), memory, None)
        elif name == 'rule':
            heads[ident] = heads[ident]._replace(rule=int(rest))
    return heads


def read_answers(lines):
    """Pairs of id and answer, one after the other: the rest of each line under its first word, in a list for those that
    may come more than once."""
    for line in lines:
        name, _, rest = line.rstrip('\n').partition(' ')
        if name == 'answer':
            ident, answer = rest, {}
        elif name == 'end':
            yield ident, answer
        elif name in ('short', 'broken'):
            answer.setdefault(name, []).append(rest)
        else:
            answer[name] = rest
