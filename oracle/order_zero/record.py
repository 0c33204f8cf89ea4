#!/usr/bin/env python3
"""Writes FOLDER/stdin: models of order 0, series, and the answers of enumerate.py, each rounded once to the nearest binary64.

usage: record.py [FOLDER]        without a FOLDER the crate's own, crates/run_order_zero

A line is one value, 16 hexadecimal digits in small letters: a whole number of 64 bits, or the bits of a binary64. A case:

    k, the count of variances (1 or k), T                       whole numbers
    the transition table row by row (row: label now, column: label before), k means, the variances, T readings
    the log-likelihood, the filtered probabilities reading by reading, the smoothed ones reading by reading

Nothing stands before the first case or behind the last. The cases are those of FIXED, one of 16 labels, and one for each shape
of SHAPES and each flag, of a kind from KINDS. Transition entries are whole parts of 64 or 1,024, so that each column adds up
to one in fractions and in binary64. Draws use random() and whole numbers, + - * / and the root only, and no sum() of binary64
numbers, which rounds otherwise from Python 3.12 on: every machine writes the same bytes.
"""
import math
import os
import random
import struct
import sys
from fractions import Fraction

sys.dont_write_bytecode = True
import enumerate as reference

HERE = os.path.dirname(os.path.abspath(__file__))
SEED = 1989

# the labels and readings of the drawn cases
SHAPES = [(k, t) for k, longest in ((2, 9), (3, 6), (4, 5), (5, 4)) for t in range(1, longest + 1)]
# by the flag "a variance for each label"
KINDS = {False: ("plain", "zero", "sticky", "far"), True: ("plain", "zero", "sticky", "far", "equal")}

# a drawn case is drawn again where a share or a density is smaller
LEAST_SHARE = Fraction(1, 500)
LEAST_DENSITY = Fraction(1, 10**250)

QUARTERS = (0.75, 0.25), (0.25, 0.75)
REQUEST = (0.5, 0.25), (0.5, 0.75)
FIXED = (
    # the example, and its parts
    (QUARTERS, (-1, 1), (1,), (0, 9)),
    (QUARTERS, (-1, 1), (1,), (0,)),
    (QUARTERS, (-1, 1), (1,), (9, 0)),
    (QUARTERS, (-1, 1), (1,), (-9, 0, 9)),
    # the columns of the request
    (REQUEST, (-1, 1), (1,), (0, 9)),
    (REQUEST, (-1, 1), (1, 4), (0.5, -0.5, 2)),
    # readings that say nothing: every row is the shares, 1/3 and 2/3
    (REQUEST, (2, 2), (1,), (1, 2, 3)),
    # equal columns: the label before does not matter
    (((0.25, 0.25), (0.75, 0.75)), (-1, 1), (1,), (0, 1, -2, 0)),
    # a label that is always left, two that always change, three in a ring
    (((0, 0.5), (1, 0.5)), (-1, 1), (1,), (-1, -1, 0)),
    (((0, 1), (1, 0)), (-1, 1), (1,), (-1, 1, -1, -1, 0.5)),
    (((0, 0, 1), (1, 0, 0), (0, 1, 0)), (-1, 0, 1), (1,), (-0.5, 0.25, 0, 2)),
    # a label that is never entered, one that is never left: a share of zero
    (((0, 0), (1, 1)), (-1, 1), (1,), (-1, 1, 0)),
    (((1, 0.25), (0, 0.75)), (-1, 1), (1,), (1, 1, 0)),
    (((0.5, 0.25, 0.25), (0, 0, 0), (0.5, 0.75, 0.75)), (-1, 0, 1), (1, 2, 3), (0, 0, 1)),
    # the density of 40 under label 0 is exp(-51200), below every number
    (QUARTERS, (0, 0), (0.015625, 4), (0, 40, 0)),
)


def below(dice, count):
    return int(dice.random() * count)


def between(dice, low, high):
    return low + (high - low) * dice.random()


def column(dice, k, kind, label):
    """A column of the transition table: k whole parts of 64 or 1,024, none zero; sticky: the label mostly stays."""
    units = (64, 1024)[below(dice, 2)]
    if kind == "sticky":
        parts = [1 + below(dice, 4) for _ in range(k)]
        units = 1024
    else:
        tickets = [1 + below(dice, 1000) for _ in range(k)]
        parts = [1 + (units - k) * ticket // sum(tickets) for ticket in tickets]
    parts[label] += units - sum(parts)
    return [part / units for part in parts]


def table(dice, k, kind):
    """A transition table, its rows; zero: one entry is zero, and its part is another's of its column."""
    columns = [column(dice, k, kind, j) for j in range(k)]
    if kind == "zero":
        j, i = below(dice, k), below(dice, k)
        other = (i + 1 + below(dice, k - 1)) % k
        columns[j][other] += columns[j][i]
        columns[j][i] = 0.0
    return tuple(tuple(columns[j][i] for j in range(k)) for i in range(k))


def levels(dice, k, kind, switching):
    """Means and variances. equal: means equal, variances apart; far: variances near each other."""
    means = [between(dice, -3, 3) for _ in range(k)]
    if kind == "equal":
        means = means[:1] * k
        variances = [between(dice, 0.75, 1.25) * 4.0 ** (s - 1) for s in range(k)]
    else:
        low, high = (1, 2) if kind == "far" else (0.25, 4)
        variances = [between(dice, low, high) for _ in range(k if switching else 1)]
    return tuple(means), tuple(variances)


def reading(dice, model, kind):
    """A reading about the mean of some label; far: 5 to 15 spreads off."""
    s = below(dice, len(model.means))
    off = 2 * (dice.random() + dice.random() + dice.random() - 1.5)
    if kind == "far":
        off = between(dice, 5, 15) * (1, -1)[below(dice, 2)]
    return model.means[s] + math.sqrt(model.variances[s % len(model.variances)]) * off


def calm(model, readings):
    """Whether shares and densities are large enough for a drawn case."""
    shares = reference.stationary(reference.exact(model.transition))
    heights = reference.densities(model, readings)
    return min(shares) >= LEAST_SHARE and min(min(row) for row in heights) >= LEAST_DENSITY


def draw(dice, k, count, switching, kind):
    """A case: a model and so many readings."""
    while True:
        transition = table(dice, k, kind)
        model = reference.Model(transition, *levels(dice, k, kind, switching))
        readings = tuple(reading(dice, model, kind) for _ in range(count))
        if calm(model, readings):
            return model, readings


def cases():
    """All cases, in the order of the file."""
    out = [(reference.Model(*case[:3]), case[3]) for case in FIXED]
    dice = random.Random(SEED)
    out.append(draw(dice, 16, 2, True, "plain"))
    for switching, kinds in KINDS.items():
        for i, (k, count) in enumerate(SHAPES):
            out.append(draw(dice, k, count, switching, kinds[i % len(kinds)]))
    return out


def numbers(model, readings):
    """The numbers of a case and their answers, in the order of the file."""
    found = reference.answer(model, readings)
    given = [x for row in model.transition for x in row] + [*model.means, *model.variances, *readings]
    tables = [x for row in found.filtered + found.smoothed for x in row]
    # float of a fraction, and of a decimal as a fraction, is the nearest binary64
    return [float(x) for x in given] + [float(Fraction(found.loglike))] + [float(x) for x in tables]


def lines(model, readings):
    """The lines of a case."""
    sizes = len(model.means), len(model.variances), len(readings)
    return ["%016x" % n for n in sizes] + [struct.pack(">d", x).hex() for x in numbers(model, readings)]


def main():
    folder = sys.argv[1] if len(sys.argv) > 1 else os.path.join(HERE, "../../crates/run_order_zero")
    text = "".join(line + "\n" for case in cases() for line in lines(*case))
    os.makedirs(folder, exist_ok=True)
    with open(os.path.join(folder, "stdin"), "w") as out:
        out.write(text)


if __name__ == "__main__":
    main()
