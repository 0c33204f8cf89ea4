#!/usr/bin/python3
"""How often start + fit, and fit --starts N, reach the best known log-likelihood, on simulated drivers with fixed seeds.

usage: judge.py em FIRST LAST      EM from the recipes 0 to 15, from the true parameters and from random starts; BFGS from the best
       judge.py sm REPS            statsmodels' fit(), or with REPS above 0 fit(search_reps=REPS), where the model is the same
       judge.py climb              climb.py after the fits
       judge.py table              target/starts/table.md, of all of these (table.py)

Each keeps what it found in target/starts; sm and climb go on where they stopped. It needs numpy, scipy, statsmodels and gcc.
"""
import math
import os
import pickle
import sys
import time
import warnings

sys.dont_write_bytecode = True
os.environ['OMP_NUM_THREADS'] = os.environ['OPENBLAS_NUM_THREADS'] = '1'
import numpy as np
from scipy.optimize import minimize

import climb
import em
import fast
import sim
import table

RECIPES = 16
NS = (1, 4, 8, 16)
# so many windows take long: fewer random starts, and BFGS from one hill
MANY = 80


def kept(name, otherwise=None):
    if otherwise is not None and not os.path.exists(em.in_room(name)):
        return otherwise
    with open(em.in_room(name), 'rb') as file:
        return pickle.load(file)


def keep(name, found):
    with open(em.in_room(name), 'wb') as file:
        pickle.dump(found, file)


def windows(d):
    return d['k'] ** (d['p'] + 1)


def smallest_variance(d, x):
    """Beside the sample variance."""
    return em.variances_of(d, x).min() / d['var']


# ---- EM, and BFGS from where it ended

def parameters_of(d, z):
    """What BFGS moves freely, as parameters: a column of the table by exponentials, variances by their logarithms."""
    k, p = d['k'], d['p']
    heights = np.zeros((k, k))
    heights[:k - 1] = z[:k * (k - 1)].reshape(k - 1, k)
    weights = np.exp(heights - heights.max(0))
    rest = z[k * (k - 1):]
    return em.pack(weights / weights.sum(0), rest[:k], rest[k:k + p], np.exp(rest[k + p:]))


def polish(d, x):
    """The maximum of the likelihood near x."""
    k, p = d['k'], d['p']
    steps = np.clip(x[:k * k].reshape(k, k), 1e-5, 1)
    z = np.concatenate([(np.log(steps[:-1]) - np.log(steps[-1])).ravel(), x[k * k:k * k + k + p], np.log(em.variances_of(d, x))])

    def loss(z):
        found = em.loglike(d, parameters_of(d, np.clip(z, -60, 60)))
        return -found if np.isfinite(found) else 1e10

    with warnings.catch_warnings():
        warnings.simplefilter('ignore')
        best = minimize(loss, z, method='BFGS', options=dict(maxiter=100, gtol=1e-4))
    return -best.fun, parameters_of(d, np.clip(best.x, -60, 60))


def run(d, x):
    begun = time.time()
    passes, l100, l1000, x100, x1000, highest = em.fit(d, x, 100, 1000)
    took = time.time() - begun
    if passes <= 0:
        return dict(it=passes, l100=np.nan, l1000=np.nan, g100=0, g1000=0, x=x, fix=np.nan, fall=np.nan, t=took)
    return dict(it=passes, l100=l100, l1000=l1000, g100=smallest_variance(d, x100), g1000=smallest_variance(d, x1000), x=x1000,
                fix=em.fixpoint(d, x1000), fall=highest - l1000, t=took)


def hills(d, runs):
    """The runs to go on from: the highest stop, and the highest ends of EM, each 0.01 from the others."""
    sound = sorted((r for r in runs if r['it'] > 0 and r['g1000'] >= 1e-3 and np.isfinite(r['fix'])), key=lambda r: -r['fix'])
    found = []
    for r in sorted(sound, key=lambda r: -r['l1000'])[:1] + sound:
        if len(found) < (3 if windows(d) < MANY else 1) and all(abs(r['fix'] - other['fix']) > .01 for other in found):
            found.append(r)
    return found


def judge_em(first, last):
    out = []
    for seed in range(first, last):
        d = sim.draw(seed)
        starts = {i: fast.recipe(i, d) for i in range(RECIPES)}
        starts['truth'] = d['truth']
        for i, x in enumerate(sim.random_starts(d, 20 if windows(d) < MANY else 6)):
            starts['random%d' % i] = x
        begun = time.time()
        d['res'] = {name: run(d, x) for name, x in starts.items()}
        d['began'] = em.loglike(d, starts[0])
        d['polished'] = [polish(d, r['x']) for r in hills(d, d['res'].values())]
        out.append(d)
        keep('em.pkl', out)
        print(seed, d['kind'], d['k'], d['p'], d['sv'], d['T'], '%.1f s' % (time.time() - begun), flush=True)


# ---- statsmodels

def statsmodels_fit(d, reps):
    from statsmodels.tsa.regime_switching.markov_autoregression import MarkovAutoregression
    k, p, sv = d['k'], d['p'], d['sv']
    begun = time.time()
    try:
        np.random.seed(d['seed'])
        model = MarkovAutoregression(d['y'], k_regimes=k, order=p, switching_ar=False, switching_variance=sv)
        fitted = model.fit(search_reps=reps, disp=False) if reps else model.fit(disp=False)
        places, values = model.parameters, fitted.params
        steps = np.clip(np.asarray(model.regime_transition_matrix(values))[:, :, 0], 0, 1)
        means = [values[places[i, 'exog']][0] for i in range(k)]
        ar = values[places[0, 'autoregressive']]
        variances = [values[places[i, 'variance']][0] for i in range(k)] if sv else values[places['variance']]
        x = em.pack(steps / steps.sum(0), means, ar, variances)
        return dict(ll=em.loglike(d, x), own=fitted.llf, g=smallest_variance(d, x), t=time.time() - begun)
    except Exception as fault:
        return dict(ll=np.nan, own=np.nan, g=0, t=time.time() - begun, fault=repr(fault)[:80])


def judge_statsmodels(reps):
    """With switching variances from order 2 on statsmodels has another model (docs/DIFFERENCES.md)."""
    warnings.simplefilter('ignore')
    out = kept('sm.pkl', {})
    for d in sorted(kept('em.pkl'), key=lambda d: windows(d) * d['T']):
        if (d['sv'] and d['p'] > 1) or (d['seed'], reps) in out:
            continue
        found = out[d['seed'], reps] = statsmodels_fit(d, reps)
        keep('sm.pkl', out)
        print(d['seed'], reps, d['k'], d['p'], d['sv'], d['T'], found['ll'], found['own'], '%.1f s' % found['t'], flush=True)


# ---- the climb

def climbed(d, x):
    k = d['k']
    steps = list(map(float, x[:k * k])) + [0.0] * (256 - k * k)

    def at(trial):
        z = np.array(x, float)
        z[:k * k] = trial[:k * k]
        found = em.loglike(d, z)
        return found if np.isfinite(found) else -math.inf

    return climb.climb(steps, k, at(steps), at, math.sqrt)


def judge_climb():
    """Of each series with N starts: the climb from the best fit, and with N = 8 the best of the climbs from each fit."""
    out = kept('climb.pkl', {})
    for d in kept('em.pkl'):
        if d['seed'] in out:
            continue
        sound = [i for i in range(RECIPES) if d['res'][i]['it'] > 0 and d['res'][i]['g1000'] >= 1e-3]
        heights, row = {}, {}
        for n in NS:
            within = [i for i in sound if i < n]
            if within:
                best = max(within, key=lambda i: d['res'][i]['l1000'])
                for i in [best] + (within if n == 8 else []):
                    heights.setdefault(i, climbed(d, d['res'][i]['x']))
                row['climb', n] = heights[best]
                if n == 8:
                    row['each', n] = max(heights[i] for i in within)
        out[d['seed']] = row
        keep('climb.pkl', out)


def main():
    what = sys.argv[1] if len(sys.argv) > 1 else ''
    if what == 'em' and len(sys.argv) == 4:
        judge_em(int(sys.argv[2]), int(sys.argv[3]))
    elif what == 'sm' and len(sys.argv) == 3:
        judge_statsmodels(int(sys.argv[2]))
    elif what == 'climb':
        judge_climb()
    elif what == 'table':
        with open(em.in_room('table.md'), 'w') as file:
            file.write(table.of(kept('em.pkl'), kept('sm.pkl', {}), kept('climb.pkl', {})))
    else:
        sys.exit(__doc__)


main()
