"""Simulated drivers, and random starts for them, each from its seed."""
import numpy as np

from em import pack

LONGEST = 1000
SIGMA = 0.5


def labels_of(dice, kind, k, count, steps):
    """The regime of each reading; k - 1 is sound, 0 the worst.
    fails: sound up to a reading, then failing for good, with 3 regimes worn before that
    late: visits up to a reading, then failing for good
    visits: visits and recovery to the end"""
    labels = np.empty(count, int)
    regime = k - 1
    first = int(dice.uniform(.3, .8) * count)
    second = int(dice.uniform(first / count + .05, .95) * count)
    for t in range(count):
        regime = int(dice.choice(k, p=steps[:, regime]))
        if kind == 'fails':
            labels[t] = k - 1 if t < first else (0 if k == 2 or t >= second else 1)
        elif kind == 'late':
            labels[t] = regime if t < first else 0
        else:
            labels[t] = regime
    return labels


def draw(seed):
    """A driver: its shape, its series y, and the parameters that it was drawn with, the transitions as they came out."""
    dice = np.random.default_rng(seed)
    k = int(dice.choice([2, 3], p=[.65, .35]))
    p = int(dice.choice([1, 2, 4], p=[.5, .3, .2]))
    sv = bool(dice.integers(2))
    kind = str(dice.choice(['fails', 'late', 'visits']))
    count = int(np.exp(dice.uniform(np.log(100), np.log(LONGEST))))
    if k == 3 and p == 4:
        count = min(count, 250)
    if k ** (p + 1) >= 27:
        count = min(count, 500)
    gap = dice.uniform(.5, 4)
    total = dice.uniform(0, .7)
    ar = np.zeros(p)
    ar[0] = total * (1 if p == 1 else .6)
    if p > 1:
        ar[1:] = total * .4 * np.diff(np.linspace(0, 1, p))
    means = -gap * SIGMA * np.arange(k)[::-1]
    spread = np.full(k, SIGMA)
    if sv:
        spread = SIGMA * np.linspace(dice.uniform(1, 2.5), 1, k)
    stay = np.empty(k)
    stay[-1] = dice.uniform(.95, .995)
    stay[:-1] = dice.uniform(.5, .97, k - 1)
    steps = np.zeros((k, k))
    for j in range(k):
        near = np.array([1 / abs(i - j) if i != j else 0 for i in range(k)])
        steps[:, j] = (1 - stay[j]) * near / near.sum()
        steps[j, j] = stay[j]
    labels = labels_of(dice, kind, k, count, steps)
    past, y = np.zeros(p), np.empty(count)
    for t in range(count):
        deviation = ar @ past + spread[labels[t]] * dice.standard_normal()
        past = np.concatenate([[deviation], past[:-1]])
        y[t] = means[labels[t]] + deviation
    y = np.round(y, 2)
    counts = np.full((k, k), .5)
    for t in range(1, count):
        counts[labels[t], labels[t - 1]] += 1
    truth = pack(counts / counts.sum(0), means, ar, spread ** 2 if sv else [SIGMA ** 2])
    return dict(seed=seed, kind=kind, k=k, p=p, sv=sv, T=count, gap=gap, y=y, var=y.var(), truth=truth)


def random_starts(d, count):
    dice, k, p, y = np.random.default_rng(d['seed']), d['k'], d['p'], d['y']
    starts = []
    for _ in range(count):
        stay = dice.uniform(.5, .99, k)
        steps = np.empty((k, k))
        for j in range(k):
            steps[:, j] = (1 - stay[j]) / (k - 1)
            steps[j, j] = stay[j]
        means = np.sort(dice.choice(y, k, replace=False) + 1e-3 * dice.standard_normal(k))
        ar = np.zeros(p)
        ar[0] = dice.uniform(-.2, .8)
        starts.append(pack(steps, means, ar, y.var() * np.exp(dice.uniform(-3, .3, k if d['sv'] else 1))))
    return starts
