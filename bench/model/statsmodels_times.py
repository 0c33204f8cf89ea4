#!/usr/bin/python3
"""Times filter and smooth of Debian's python3-statsmodels on the models and series of bench.rs.

usage: /usr/bin/python3 bench/model/statsmodels_times.py
It has these models from order 1 on. Its filter and smooth also build result objects, which is part of what a user waits for.
"""
import time
import warnings

import numpy as np
import statsmodels
from statsmodels.tsa.regime_switching.markov_autoregression import MarkovAutoregression

MASK = (1 << 64) - 1


class Dice:
    """Numbers in [0, 1), those of bench.rs."""

    def __init__(self, seed):
        self.state = seed

    def next(self):
        self.state = (self.state + 0x9E3779B97F4A7C15) & MASK
        z = self.state
        z = ((z ^ (z >> 30)) * 0xBF58476D1CE4E5B9) & MASK
        z = ((z ^ (z >> 27)) * 0x94D049BB133111EB) & MASK
        return ((z ^ (z >> 31)) >> 11) / (1 << 53)

    def normal(self):
        return sum(self.next() for _ in range(12)) - 6.0


def draw(k, p, readings):
    """The model of bench.rs, as statsmodels has it, with its parameters."""
    stay = 0.9
    means = [i - (k - 1) / 2 for i in range(k)]
    ar = [0.3 / (lag + 1) for lag in range(p)]
    variances = [0.5 + 0.1 * i for i in range(k)]
    dice, label, past, series = Dice(42 + 100 * k + p), 0, [0.0] * p, []
    for _ in range(readings):
        if dice.next() > stay:
            label = int(dice.next() * k) % k
        d = dice.normal() * variances[label] ** 0.5 + sum(a * b for a, b in zip(ar, past))
        past = [d] + past[: p - 1]
        series.append(means[label] + d)
    model = MarkovAutoregression(np.array(series), k_regimes=k, order=p, switching_ar=False, switching_variance=True)
    given = np.zeros(model.k_params)
    for j in range(k):
        column = [stay if i == j else (1 - stay) / (k - 1) for i in range(k)]
        given[model.parameters[j, "regime_transition"]] = column[:-1]
        given[model.parameters[j, "exog"]] = means[j]
        given[model.parameters[j, "autoregressive"]] = ar
    given[model.parameters["variance"]] = variances
    return model, given


def median_ms(call):
    times, begin = [], time.perf_counter()
    while len(times) < 5 or time.perf_counter() - begin < 2.0:
        start = time.perf_counter()
        call()
        times.append((time.perf_counter() - start) * 1e3)
    return sorted(times)[len(times) // 2]


def main():
    warnings.simplefilter("ignore")
    print("statsmodels", statsmodels.__version__, "numpy", np.__version__)
    for k, p in [(2, 1), (2, 4), (2, 7), (4, 3), (16, 1)]:
        for readings in (256, 4096):
            model, given = draw(k, p, readings)
            print(f"filter {k:2} {p} {readings:5} {median_ms(lambda: model.filter(given)):11.3f}", flush=True)
            print(f"smooth {k:2} {p} {readings:5} {median_ms(lambda: model.smooth(given)):11.3f}", flush=True)


main()
