#!/usr/bin/python3
"""How far msar's filter, smooth and loglike lie from statsmodels' MarkovAutoregression, with the same parameters.

usage: python3 oracle/statsmodels/gaps.py MSAR
MSAR is the program, crates/msar/out/msar or bin/msar. The python3 must have numpy and statsmodels, as Debian's /usr/bin/python3 has
with the package python3-statsmodels.

It draws models and series from a fixed seed: 2 and 3 regimes, order 1 to 4, AR and variances switching or shared, 200 to 500
readings, DRAWS of each. msar gets them as files; statsmodels gets the same numbers, and starts from its steady state. A line
for each (k, p) has the largest gaps of the filtered and the smoothed probabilities and of the log-likelihood, over its size
where that is above 1.

statsmodels 0.13.5 takes a switching variance by the regime p - 1 readings back, where its documents have the reading's own
regime; from order 2 on these are two. So there are three tables: order 1 and shared variances, with statsmodels as it is;
switching variances from order 2 on, taken by the reading's own regime (class OwnRegime); those models with statsmodels as it
is.
"""
import math
import os
import platform
import random
import subprocess
import sys
import tempfile
import warnings

import numpy as np
import statsmodels
from statsmodels.tsa.regime_switching.markov_autoregression import MarkovAutoregression

SEED = 2026
DRAWS = 3


class OwnRegime(MarkovAutoregression):
    """The switching variance by the regime of the reading itself, at any order."""

    def _conditional_loglikelihoods(self, params):
        variance = params[self.parameters["variance"]].reshape((self.k_regimes,) + (1,) * (self.order + 1))
        return -0.5 * self._resid(params) ** 2 / variance - 0.5 * np.log(2 * np.pi * variance)


class Model:
    """One model, and a series drawn from it."""

    def __init__(self, dice, k, p, switching_ar, switching_variance):
        self.k, self.p, self.switching_ar, self.switching_variance = k, p, switching_ar, switching_variance
        columns = []
        for j in range(k):
            stay = dice.uniform(0.5, 0.99)
            parts = [dice.random() + 0.05 for _ in range(k)]
            rest = sum(parts) - parts[j]
            column = [stay if i == j else (1 - stay) * parts[i] / rest for i in range(k)]
            # statsmodels takes the last one as 1 less the others
            columns.append(column[:-1] + [1 - sum(column[:-1])])
        self.transition = [[columns[j][i] for j in range(k)] for i in range(k)]
        self.means = [dice.gauss(0, 2) for _ in range(k)]
        self.ar = [[dice.uniform(-0.9, 0.9) / p for _ in range(p)] for _ in range(k if switching_ar else 1)]
        self.variances = [math.exp(dice.uniform(-2, 1.5)) for _ in range(k if switching_variance else 1)]
        self.series, regime, past = [], 0, [0.0] * p
        for _ in range(dice.randint(200, 500)):
            regime = dice.choices(range(k), [self.transition[i][regime] for i in range(k)])[0]
            ar = self.ar[regime if switching_ar else 0]
            spread = math.sqrt(self.variances[regime if switching_variance else 0])
            off = sum(a * b for a, b in zip(ar, past)) + dice.gauss(0, spread)
            past = [off] + past[:-1]
            self.series.append(self.means[regime] + off)

    def text(self):
        """The MODEL file. repr gives a number that is read back to the same bits."""
        lines = [("regimes", [self.k]), ("order", [self.p])]
        lines += [("transition", row) for row in self.transition]
        lines += [("means", self.means)] + [("ar", block) for block in self.ar] + [("variances", self.variances)]
        return "".join(" ".join([name] + [repr(x) for x in numbers]) + "\n" for name, numbers in lines)


def rows(msar, command, model_file, series_file):
    """What a command of msar writes, as rows of numbers."""
    done = subprocess.run([msar, command, model_file, series_file], capture_output=True, text=True)
    if done.returncode or done.stderr:
        sys.exit(f"msar {command}: {done.stderr}")
    return np.array([[float(cell) for cell in line.split(",")] for line in done.stdout.splitlines()[1:]])


def by_msar(msar, model, folder):
    model_file, series_file = os.path.join(folder, "model"), os.path.join(folder, "series")
    with open(model_file, "w") as out:
        out.write(model.text())
    with open(series_file, "w") as out:
        out.writelines(repr(x) + "\n" for x in model.series)
    tables = []
    for command in ("filter", "smooth"):
        table = rows(msar, command, model_file, series_file)
        assert table[:, 0].tolist() == list(range(model.p, len(model.series)))
        assert table[:, 1].tolist() == model.series[model.p :]
        tables.append(table[:, 2:])
    return tables[0], tables[1], rows(msar, "loglike", model_file, series_file)[0, 1]


def by_statsmodels(kind, model):
    theirs = kind(
        np.array(model.series),
        k_regimes=model.k,
        order=model.p,
        switching_ar=model.switching_ar,
        switching_variance=model.switching_variance,
    )
    given = np.zeros(theirs.k_params)
    for j in range(model.k):
        given[theirs.parameters[j, "regime_transition"]] = [row[j] for row in model.transition[:-1]]
        given[theirs.parameters[j, "exog"]] = model.means[j]
        given[theirs.parameters[j, "autoregressive"]] = model.ar[j if model.switching_ar else 0]
    given[theirs.parameters["variance"]] = model.variances
    answer = theirs.smooth(given)
    return answer.filtered_marginal_probabilities, answer.smoothed_marginal_probabilities, answer.llf


def gaps(ours, theirs):
    found = []
    for a, b in zip(ours, theirs):
        a, b = np.asarray(a), np.asarray(b)
        assert a.shape == b.shape and np.isfinite(a).all() and np.isfinite(b).all()
        found.append(float(np.max(np.abs(a - b) / np.maximum(1, np.abs(b)))))
    return found


def show(title, found):
    print(title)
    print("k p models readings filtered smoothed log-likelihood")
    for (k, p), cases in found.items():
        worst = [max(case[1][i] for case in cases) for i in range(3)]
        readings = sum(case[0] for case in cases)
        print(k, p, len(cases), readings, " ".join(f"{x:.1e}" for x in worst))
    cases = [case for some in found.values() for case in some]
    worst = [max(case[1][i] for case in cases) for i in range(3)]
    print("all", len(cases), sum(case[0] for case in cases), " ".join(f"{x:.1e}" for x in worst))


def main():
    if len(sys.argv) != 2:
        sys.exit(__doc__)
    warnings.simplefilter("ignore")
    print(f"statsmodels {statsmodels.__version__}, numpy {np.__version__}, Python {platform.python_version()}, seed {SEED}")
    dice, same, own, slips = random.Random(SEED), {}, {}, {}
    with tempfile.TemporaryDirectory() as folder:
        for k in (2, 3):
            for p in (1, 2, 3, 4):
                for flags in range(4 * DRAWS):
                    model = Model(dice, k, p, bool(flags & 1), bool(flags & 2))
                    ours = by_msar(sys.argv[1], model, folder)
                    plain = gaps(ours, by_statsmodels(MarkovAutoregression, model))
                    count = len(model.series)
                    if model.switching_variance and p > 1:
                        slips.setdefault((k, p), []).append((count, plain))
                        own.setdefault((k, p), []).append((count, gaps(ours, by_statsmodels(OwnRegime, model))))
                    else:
                        same.setdefault((k, p), []).append((count, plain))
    show("statsmodels as it is: order 1, and shared variances", same)
    show("switching variances from order 2 on, by the reading's own regime", own)
    show("the same models, statsmodels as it is", slips)


main()
