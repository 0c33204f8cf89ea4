#!/usr/bin/env python3
"""The model of order 0 as the literature has it, by its definition: sums over all lists of labels, in fractions.

A reading is y[t] = mean[s_t] + noise of variance[s_t]; the labels are a chain that starts from its stationary shares. A list
of labels s_0 .. s_(T-1) and the readings have the weight

    share[s_0] * P[s_1][s_0] * .. * P[s_(T-1)][s_(T-2)] * density(y[0] | s_0) * .. * density(y[T-1] | s_(T-1))

with P[i][j] the probability of label i now after label j before. The likelihood is the sum of the weights of all k^T lists; a
smoothed probability is the part of it that the lists with the label at the reading carry; a filtered one is the same over the
lists of the readings up to this one. No recursion over time is used: every list is made, and its weight is multiplied out.

Transition table, means, variances and readings are binary64 numbers, and stand for their exact values. All arithmetic is in
fractions, without rounding, but for densities and the logarithm, which are decimals of DIGITS digits.

usage: enumerate.py        the answers for the example: columns (0.75, 0.25) and (0.25, 0.75), means -1 and 1, variance 1,
                           readings 0 and 9
"""
from decimal import Context, Decimal
from fractions import Fraction
from itertools import product
from typing import NamedTuple

DIGITS = 100
CONTEXT = Context(prec=DIGITS)
PI = Decimal("3.141592653589793238462643383279502884197169399375105820974944592307816406286208998628034825342117067982148")


class Model(NamedTuple):
    """P row by row (row: label now, column: label before), a mean for each label, one variance or one for each label."""

    transition: tuple
    means: tuple
    variances: tuple


class Answer(NamedTuple):
    """The log-likelihood, a decimal; filtered and smoothed probabilities, a row of k fractions for each reading."""

    loglike: Decimal
    filtered: list
    smoothed: list


def decimal(x):
    """A fraction as a decimal: DIGITS digits, rounded once."""
    return CONTEXT.divide(Decimal(x.numerator), Decimal(x.denominator))


def exact(table):
    """A table of binary64 numbers as fractions, each with its exact value."""
    return [[Fraction(x) for x in row] for row in table]


def stationary(transition):
    """The shares with P * share = share and sum 1, by elimination in fractions; ValueError where there are none or many."""
    k = len(transition)
    rows = [[Fraction(i == j) - transition[i][j] for j in range(k)] + [Fraction(0)] for i in range(k - 1)]
    rows.append([Fraction(1)] * (k + 1))
    for c in range(k):
        pivot = next((r for r in range(c, k) if rows[r][c]), None)
        if pivot is None:
            raise ValueError("the shares are not determined")
        rows[c], rows[pivot] = rows[pivot], rows[c]
        rows[c] = [x / rows[c][c] for x in rows[c]]
        for r in range(k):
            if r != c:
                rows[r] = [x - rows[r][c] * y for x, y in zip(rows[r], rows[c])]
    shares = [row[k] for row in rows]
    assert sum(shares) == 1
    assert all(sum(transition[i][j] * shares[j] for j in range(k)) == shares[i] for i in range(k))
    return shares


def density(reading, mean, variance):
    """exp(-(y - mean)^2 / (2 variance)) / sqrt(2 pi variance): a decimal of DIGITS digits, as a fraction."""
    power = CONTEXT.exp(decimal(-((reading - mean) ** 2) / (2 * variance)))
    root = CONTEXT.sqrt(CONTEXT.multiply(decimal(2 * variance), PI))
    return Fraction(CONTEXT.divide(power, root))


def densities(model, readings):
    """For each reading a row: its density under each label."""
    k = len(model.means)
    means, variances = exact([model.means, model.variances])
    return [[density(Fraction(y), means[s], variances[s % len(variances)]) for s in range(k)] for y in readings]


def weight(shares, transition, heights, labels):
    """The weight of one list of labels: the product at the head of this file. heights has the densities."""
    out = shares[labels[0]]
    for now, before in zip(labels[1:], labels):
        out *= transition[now][before]
    for row, label in zip(heights, labels):
        out *= row[label]
    return out


def weigh(shares, transition, heights):
    """Every list of labels, one label for each row of heights, with its weight."""
    every = product(range(len(shares)), repeat=len(heights))
    return [(labels, weight(shares, transition, heights, labels)) for labels in every]


def probabilities(weighed, likelihood, k, t):
    """Of each label: the part of the likelihood that the lists with this label at reading t carry."""
    parts = [Fraction(0)] * k
    for labels, w in weighed:
        parts[labels[t]] += w
    return [part / likelihood for part in parts]


def answer(model, readings):
    """Log-likelihood, filtered and smoothed probabilities of readings, at least one of them."""
    transition = exact(model.transition)
    k, shares, heights = len(transition), stationary(transition), densities(model, readings)
    filtered = []
    for t in range(len(readings)):
        weighed = weigh(shares, transition, heights[: t + 1])
        likelihood = sum(w for _, w in weighed)
        filtered.append(probabilities(weighed, likelihood, k, t))
    # weighed and likelihood are now those of all readings
    smoothed = [probabilities(weighed, likelihood, k, t) for t in range(len(readings))]
    return Answer(CONTEXT.ln(decimal(likelihood)), filtered, smoothed)


EXAMPLE = Model(((0.75, 0.25), (0.25, 0.75)), (-1.0, 1.0), (1.0,)), (0.0, 9.0)


def main():
    found = answer(*EXAMPLE)
    print(f"log-likelihood {found.loglike:.50}")
    for name, table in (("filtered", found.filtered), ("smoothed", found.smoothed)):
        for t, row in enumerate(table):
            print(name, t, " ".join(f"{decimal(x):.30}" for x in row))


if __name__ == "__main__":
    main()
