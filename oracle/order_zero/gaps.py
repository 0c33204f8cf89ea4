#!/usr/bin/env python3
"""How far msar at order 0 lies from enumerate.py and from statsmodels' MarkovRegression, and what its smoothed rows add up to.

usage: gaps.py MSAR [PART ..]        without a PART all of them
MSAR is the program: bin/msar, or crates/msar/out/msar on x86-64. Models and series come from fixed seeds, one for each part.

    a   rule 2 beside enumerate.py, 200 small models
    b   rule 2 beside statsmodels, 48 models of 200 to 500 readings
    c   the totals of smoothed rows under rule 1 and rule 2, 1,000 models of 20 to 60 readings
    d   the first smoothed row of the example, under both rules and by enumerate.py
    e   enumerate.py beside statsmodels, 48 small models; MSAR is not run, and may be -

b and e need a python3 with numpy and statsmodels, as Debian's /usr/bin/python3 has with the package python3-statsmodels; the
others need the standard library only. Each part prints a table. Gaps of probabilities are absolute, but those called relative,
which are over the reference's probability; those of the log-likelihood are over its size where that is above 1.

statsmodels is given the same numbers, and starts from its steady state, as it does unless told otherwise. Its filter of order 0
runs over pairs of labels and takes the start shares as those of the label two readings before the first; two steps of the chain leave the
steady state as it is, so the first prediction is the shares there too.
"""
import math
import os
import platform
import random
import subprocess
import sys
import tempfile
import warnings

sys.dont_write_bytecode = True
import enumerate as reference
import record

SEED = 2026
SMALL = 200
LONG = 48
TOTALS = 1000
DIRECT = 48
FAR = 1e-6
SECONDS = 120


class Msar:
    """The program, and the two files that it reads, written anew for each model."""

    def __init__(self, program, folder):
        self.program = program
        self.model_file, self.series_file = os.path.join(folder, "model"), os.path.join(folder, "series")

    def take(self, model, readings):
        """Writes the files. repr gives a number that is read back to the same bits."""
        self.readings = [float(y) for y in readings]
        named = [("transition", row) for row in model.transition] + [("means", model.means), ("variances", model.variances)]
        with open(self.model_file, "w") as out:
            out.write(f"regimes {len(model.means)}\norder 0\n")
            out.writelines(" ".join([name] + [repr(float(x)) for x in numbers]) + "\n" for name, numbers in named)
        with open(self.series_file, "w") as out:
            out.writelines(repr(y) + "\n" for y in self.readings)

    def rows(self, command, rule):
        """What a command writes, as rows of numbers. Notes may stand on standard error, and nothing else."""
        call = [self.program, command, self.model_file, self.series_file, "--rule", str(rule)]
        done = subprocess.run(call, capture_output=True, text=True, timeout=SECONDS)
        if done.returncode or any(not line.startswith("msar: note") for line in done.stderr.splitlines()):
            sys.exit(f"{command} --rule {rule} ended with status {done.returncode}: {done.stderr}")
        return [[float(cell) for cell in line.split(",")] for line in done.stdout.splitlines()[1:]]

    def table(self, command, rule):
        """The probabilities that filter or smooth writes."""
        rows = self.rows(command, rule)
        assert [row[:2] for row in rows] == [[t, y] for t, y in enumerate(self.readings)]
        return [row[2:] for row in rows]

    def loglike(self, rule):
        ((count, value),) = self.rows("loglike", rule)
        assert count == len(self.readings)
        return value

    def answer(self, rule):
        return self.loglike(rule), self.table("filter", rule), self.table("smooth", rule)


def by_enumeration(model, readings):
    """The reference's answers, each the nearest binary64."""
    found = reference.answer(model, readings)
    tables = [[[float(x) for x in row] for row in table] for table in (found.filtered, found.smoothed)]
    return float(found.loglike), *tables


def by_statsmodels(model, readings):
    import numpy as np
    from statsmodels.tsa.regime_switching.markov_regression import MarkovRegression

    k, switching = len(model.means), len(model.variances) > 1
    theirs = MarkovRegression(np.array(readings, dtype=float), k_regimes=k, trend="c", switching_variance=switching)
    given = np.zeros(theirs.k_params)
    for j in range(k):
        # column j but for its last entry, which statsmodels takes as 1 less the others
        given[theirs.parameters[j, "regime_transition"]] = [row[j] for row in model.transition[:-1]]
        given[theirs.parameters[j, "exog"]] = model.means[j]
    given[theirs.parameters["variance"]] = model.variances
    found = theirs.smooth(given)
    return float(found.llf), found.filtered_marginal_probabilities.tolist(), found.smoothed_marginal_probabilities.tolist()


def gaps(ours, theirs):
    """The largest gaps: filtered, smoothed, log-likelihood; filtered and smoothed, relative."""
    pairs = []
    for mine, other in zip(ours[1:], theirs[1:]):
        assert [len(row) for row in mine] == [len(row) for row in other]
        pairs.append([(x, y) for a, b in zip(mine, other) for x, y in zip(a, b)])
    assert all(math.isfinite(answer[0]) for answer in (ours, theirs))
    assert all(math.isfinite(x) for answer in (ours, theirs) for table in answer[1:] for row in table for x in row)
    plain = [max(abs(x - y) for x, y in some) for some in pairs]
    relative = [max(abs(x - y) / y for x, y in some if y > 0) for some in pairs]
    return plain + [abs(ours[0] - theirs[0]) / max(1, abs(theirs[0]))] + relative


def chain(dice, k, switching, low, high):
    """A model with any entries, and a series of low to high readings drawn from it."""
    columns = []
    for j in range(k):
        stay = dice.uniform(0.5, 0.99)
        parts = [dice.random() + 0.05 for _ in range(k)]
        rest = sum(parts) - parts[j]
        column = [stay if i == j else (1 - stay) * parts[i] / rest for i in range(k)]
        columns.append(column[:-1] + [1 - sum(column[:-1])])
    transition = [[columns[j][i] for j in range(k)] for i in range(k)]
    means = [dice.gauss(0, 2) for _ in range(k)]
    variances = [math.exp(dice.uniform(-2, 1.5)) for _ in range(k if switching else 1)]
    readings, label = [], 0
    for _ in range(dice.randint(low, high)):
        label = dice.choices(range(k), [transition[i][label] for i in range(k)])[0]
        readings.append(means[label] + dice.gauss(0, math.sqrt(variances[label % len(variances)])))
    return reference.Model(transition, means, variances), readings


def small(dice, i):
    """The i-th small model: k 2 to 5 in turn, any length that is enumerated, any kind."""
    k = 2 + i % 4
    switching = dice.random() < 0.5
    count = 1 + record.below(dice, max(t for shape, t in record.SHAPES if shape == k))
    kinds = record.KINDS[switching]
    return record.draw(dice, k, count, switching, kinds[record.below(dice, len(kinds))])


def line(*cells):
    print("| " + " | ".join(f"{cell:.1e}" if isinstance(cell, float) else str(cell) for cell in cells) + " |")


def head(*names):
    print("| " + " | ".join(names) + " |")
    print("|" + "---|" * len(names))


def show(found, names, columns):
    """A line for each key of found, and one for all; a value is a list of (readings, gaps)."""
    head(*names, "models", "readings", *columns)
    every = [case for some in found.values() for case in some]
    for key, some in [*found.items(), (("all",) + ("",) * (len(names) - 1), every)]:
        line(*key, len(some), sum(count for count, _ in some), *(max(gap[i] for _, gap in some) for i in range(len(columns))))


PLAIN = "filtered", "smoothed", "log-likelihood"
RELATIVE = "filtered, relative", "smoothed, relative"


def part_a(msar):
    print("a. rule 2 beside enumerate.py")
    dice, found = random.Random(SEED), {}
    for i in range(SMALL):
        model, readings = small(dice, i)
        msar.take(model, readings)
        gap = gaps(msar.answer(2), by_enumeration(model, readings))
        found.setdefault((len(model.means),), []).append((len(readings), gap))
    show(found, ("k",), PLAIN + RELATIVE)


def part_b(msar):
    print("b. rule 2 beside statsmodels' MarkovRegression")
    dice, found = random.Random(SEED + 1), {}
    for i in range(LONG):
        k, switching = 2 + i % 3, bool(i // 3 % 2)
        model, readings = chain(dice, k, switching, 200, 500)
        msar.take(model, readings)
        gap = gaps(msar.answer(2), by_statsmodels(model, readings))
        found.setdefault((k, "k" if switching else "one"), []).append((len(readings), gap))
    show(dict(sorted(found.items())), ("k", "variances"), PLAIN)


def distance(row):
    """Of a row's total from one; without bound where it is no number."""
    off = abs(math.fsum(row) - 1) if all(math.isfinite(x) for x in row) else math.inf
    return float(off)


def part_c(msar):
    print("c. totals of smoothed rows")
    dice, worst, rows = random.Random(SEED + 2), {1: [], 2: []}, 0
    for i in range(TOTALS):
        model, readings = chain(dice, 2 + i % 5, bool(i // 5 % 2), 20, 60)
        msar.take(model, readings)
        rows += len(readings)
        for rule in worst:
            worst[rule].append(max(distance(row) for row in msar.table("smooth", rule)))
    head("rule", "models", "rows", "largest distance of a row's total from one", "models with a row further than 1e-6")
    for rule, offs in worst.items():
        line(rule, len(offs), rows, max(offs), sum(off > FAR for off in offs))


def part_d(msar):
    print("d. first smoothed row of the example")
    msar.take(*reference.EXAMPLE)
    found = [("rule 1", msar.table("smooth", 1)[0]), ("rule 2", msar.table("smooth", 2)[0])]
    found.append(("enumerate.py", by_enumeration(*reference.EXAMPLE)[2][0]))
    head("by", "label 0", "label 1", "total")
    for name, row in found:
        line(name, *(f"{x:.17g}" for x in row), f"{math.fsum(row):.17g}")


def part_e(_):
    print("e. enumerate.py beside statsmodels' MarkovRegression")
    dice, found = random.Random(SEED + 3), {}
    for i in range(DIRECT):
        model, readings = small(dice, i)
        gap = gaps(by_statsmodels(model, readings), by_enumeration(model, readings))
        found.setdefault((len(model.means),), []).append((len(readings), gap))
    show(found, ("k",), PLAIN + RELATIVE)


PARTS = {"a": part_a, "b": part_b, "c": part_c, "d": part_d, "e": part_e}


def versions(parts):
    out = f"Python {platform.python_version()}, seed {SEED}"
    if {"b", "e"} & set(parts):
        import numpy
        import statsmodels

        out += f", statsmodels {statsmodels.__version__}, numpy {numpy.__version__}"
    return out


def main():
    parts = sys.argv[2:] or list(PARTS)
    if len(sys.argv) < 2 or not set(parts) <= set(PARTS):
        sys.exit(__doc__)
    warnings.simplefilter("ignore")
    print(versions(parts))
    with tempfile.TemporaryDirectory() as folder:
        for part in parts:
            print()
            PARTS[part](Msar(sys.argv[1], folder))


if __name__ == "__main__":
    main()
