#!/usr/bin/python3
"""emc.c's fits beside the library's, the ranks of fast.py beside start.py's, and the time of a fit.

usage: check.py LIBMSAR.so
"""
import ctypes
import sys
import time

sys.dont_write_bytecode = True
import numpy as np

import em
import fast
import sim


def main():
    library = ctypes.CDLL(sys.argv[1])
    loglik = parameters = ranks = 0
    times = {}
    fits = 0
    for seed in range(5000, 5040):
        d = sim.draw(seed)
        for i in (0, 1, 2):
            x = fast.recipe(i, d)
            if d['T'] < 200 and i < 2:
                ranks = max(ranks, np.abs(x - fast.recipe(i, d, fast.by_counting)).max())
            passes, _, ours, _, reached, _ = em.fit(d, x, 100, 100)
            begun = time.time()
            refusal, iterations, _, theirs, fitted = em.library_fit(library, d, x)
            took = time.time() - begun
            assert refusal == 0 and iterations == passes % 100000, (seed, i, refusal, iterations, passes)
            fits += 1
            loglik = max(loglik, abs(ours - theirs))
            parameters = max(parameters, np.abs(reached - fitted).max())
            times.setdefault((d['k'], d['p']), []).append((took * 1000, took * 1e6 / iterations / d['T']))
    print('%d fits: the same passes; largest gap of the log-likelihood %.1e, of a parameter %.1e; of ranks %.1e'
          % (fits, loglik, parameters, ranks))
    for shape in sorted(times):
        fit, share = zip(*times[shape])
        print('%d regimes, order %d: the library, at most 100 passes: median %.1f ms, largest %.1f; a pass and reading %.2f us'
              % (*shape, np.median(fit), max(fit), np.median(share)))


main()
