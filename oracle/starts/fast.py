"""start.py's recipes with the ranks by numpy's stable sort: the same labels (check.py), faster."""
import numpy as np

import start

by_counting = start.split_by_rank


def by_sorting(z, T, K, cuts, labels):
    rank = np.empty(T, int)
    rank[np.argsort(np.array(z[:T]), kind='stable')] = np.arange(T)
    found = np.searchsorted(np.array(cuts[:K]), rank, side='right')
    for t in range(T):
        labels[t] = int(found[t])


def recipe(i, d, split=by_sorting):
    start.split_by_rank = split
    y = list(map(float, d['y']))
    return np.concatenate([np.array(part, float) for part in start.recipe(i, y, len(y), d['k'], d['p'], d['sv'])])
