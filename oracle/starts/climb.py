"""A climb on the transition table alone, after a fit. It is not a part of msar.

The EM step takes the new table from the counts of the smoothed windows alone. But the likelihood also begins with the table's
stationary shares, which the step leaves out. So a pass can lower the log-likelihood (the fit then stops, as converged), and
where a driver fails for good the way back goes towards 0 and the shares begin on `failing`. The climb puts that right: it
tries each entry beside the diagonal times a factor and divided by it, with the diagonal taking up the difference, keeps what
raises the log-likelihood, and takes the root of the factor when nothing did. Means, AR and variances stay as they are.

loglike(transition) is the log-likelihood of the series with this table, -infinity where there is none; root is a square root.
About 50 calls of loglike with 2 regimes, 230 with 3.
"""

ROUNDS = 40
FIRST_FACTOR = 4.0
LAST_FACTOR = 1.02
LEAST_ENTRY = 0.0001
LEAST_STAY = 0.001


def moved_table(table, K, i, j, factor, trial):
    """trial: the table with the entry at i, j times the factor; whether column j is still one. An entry near 0 is moved from
    LEAST_ENTRY, as 0 times a factor stays 0."""
    for e in range(K * K):
        trial[e] = table[e]
    entry = table[i * K + j]
    if not entry > LEAST_ENTRY:
        entry = LEAST_ENTRY
    trial[i * K + j] = entry * factor
    others = 0.0
    for r in range(K):
        if r != j:
            others = others + trial[r * K + j]
    trial[j * K + j] = 1.0 - others
    return trial[j * K + j] >= LEAST_STAY


def try_entry(table, K, i, j, factor, loglik, loglike):
    """Times the factor, else divided by it. The table is written only where the log-likelihood rose; the one reached."""
    trial = [0.0] * 256
    for side in range(2):
        by = factor if side == 0 else 1.0 / factor
        if moved_table(table, K, i, j, by, trial):
            found = loglike(trial)
            if found > loglik:
                for e in range(K * K):
                    table[e] = trial[e]
                return found
    return loglik


def climb(table, K, loglik, loglike, root):
    """From the fitted table and its log-likelihood; the table is written, the log-likelihood reached returned. It never
    falls. At most ROUNDS * K * (K-1) * 2 calls of loglike."""
    factor = FIRST_FACTOR
    for _ in range(ROUNDS):
        before = loglik
        for j in range(K):
            for i in range(K):
                if i != j:
                    loglik = try_entry(table, K, i, j, factor, loglik, loglike)
        if not loglik > before:
            if factor < LAST_FACTOR:
                return loglik
            factor = root(factor)
    return loglik
