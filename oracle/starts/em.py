"""The EM of emc.c by ctypes, and the library's for check.py. Files that the judge writes go to target/starts.

Parameters are one row: the transition table, K means, P AR coefficients, one variance or K.
"""
import ctypes
import os
import subprocess

import numpy as np

HERE = os.path.dirname(os.path.abspath(__file__))
ROOM = os.path.join(HERE, '../../target/starts')
DOUBLES = ctypes.POINTER(ctypes.c_double)


def in_room(name):
    os.makedirs(ROOM, exist_ok=True)
    return os.path.join(ROOM, name)


def prototype():
    """emc.c as a shared library, compiled where there is none or an older one."""
    source, built = os.path.join(HERE, 'emc.c'), in_room('libemc.so')
    if not os.path.exists(built) or os.path.getmtime(built) < os.path.getmtime(source):
        subprocess.run(['gcc', '-O2', '-shared', '-fPIC', '-o', built, source, '-lm'], check=True)
    library = ctypes.CDLL(built)
    library.loglike.restype = library.fixpoint.restype = ctypes.c_double
    return library


EMC = prototype()


def at(array):
    return array.ctypes.data_as(DOUBLES)


def pack(transition, means, ar, variances):
    return np.concatenate([np.ravel(transition), means, ar, variances]).astype(float)


def variances_of(d, x):
    return x[d['k'] ** 2 + d['k'] + d['p']:]


def loglike(d, x):
    y, x = np.ascontiguousarray(d['y'], float), np.ascontiguousarray(x, float)
    return EMC.loglike(d['k'], d['p'], int(d['sv']), at(y), len(y), at(x))


def fit(d, x, mid=100, max_iter=1000, tol=1e-6):
    """The passes as emc.c counts them; after at most `mid` passes, and at the end, the log-likelihood and the parameters; and
    the highest log-likelihood on the way."""
    y, end, middle, found = np.ascontiguousarray(d['y'], float), np.array(x, float), np.zeros(len(x)), np.zeros(3)
    passes = EMC.fit(d['k'], d['p'], int(d['sv']), at(y), len(y), at(end), mid, max_iter, ctypes.c_double(tol), at(found),
                     at(middle))
    return passes, found[0], found[1], middle, end, found[2]


def fixpoint(d, x, max_iter=300, tol=1e-7):
    """The log-likelihood at which the steps no longer move, from x on, whatever the stop rule says."""
    y, x = np.ascontiguousarray(d['y'], float), np.array(x, float)
    return EMC.fixpoint(d['k'], d['p'], int(d['sv']), at(y), len(y), at(x), max_iter, ctypes.c_double(tol))


def library_fit(library, d, x, max_iter=100, tol=1e-6):
    """msar_fit: refusal, iterations, whether it converged, log-likelihood, parameters. The places are msar.h's."""
    k, p, y = d['k'], d['p'], np.ascontiguousarray(d['y'], float)
    v, n, size = k if d['sv'] else 1, len(y) - p, ctypes.c_size_t
    counts = (size * 6)(k, k * k, 1, p, p, v)
    parts = ((0, k * k), (256, k), (272, p), (384, v))
    numbers, fitted, real, whole = np.zeros(400), np.zeros(400), np.zeros(2), (size * 4)()
    taken = 0
    for place, count in parts:
        numbers[place:place + count] = x[taken:taken + count]
        taken += count
    work, smoothed = np.zeros(2 * n * k ** (p + 1)), np.zeros(n * k)
    library.msar_fit(size(k), size(p), ctypes.c_bool(False), ctypes.c_bool(bool(d['sv'])), at(y), size(len(y)), counts,
                     at(numbers), at(work), size(len(work)), at(smoothed), size(len(smoothed)), size(max_iter),
                     ctypes.c_double(tol), at(fitted), whole, at(real))
    reached = np.concatenate([fitted[place:place + count] for place, count in parts])
    return whole[0], whole[2], whole[3], real[1], reached
