"""Start parameters for a Markov-switching autoregression, worked out from the series, and the variations of `fit --starts N`.

The reference of what is to be ported: loops, + - * / on binary64, comparisons, whole numbers below 2^63; no library.
Arrays are written through the arguments, as they will be lent; sums run in the order of the loops. A whole number is never
turned into a float: where a count is needed as a float, it is counted as one.

  start(y, T, K, P, switching)          is recipe(0, ..)
  variation number i >= 1 of --starts N is recipe(i, ..); number 0 is the MODEL itself
  recipe(i, ..) for i in 0..119; each is another one. A MODEL with K AR blocks or with one variance gets a recipe of its own
  shape: the one AR block K times, `switching` as in the MODEL

What a recipe does:
  1. z: the readings, or their means over 5 or 25 neighbours. A mean over neighbours tells levels apart where the noise of
     single readings would blur them; single readings tell short visits, that a mean would wash out.
  2. labels 0..K-1 by the rank of z: the lowest readings get label 0. The groups are of equal or of uneven sizes. Those of
     equal size are then moved by Lloyd's rounds to the K means of z.
  3. parameters from the labels: means of the groups, transitions counted, AR by Yule and Walker, variances of the residuals.
"""

LLOYD_ROUNDS = 20
LEAST_IN_GROUP = 5
# sizes of the groups from low to high: each group `ratio` times the one before it (rising: few low readings, so few failing
# ones), or the one after it (falling: few sound ones)
SHARES = ((1, True), (9, True), (9, False), (3, True), (3, False))
# readings on each side that the local mean takes in
HALVES = (2, 0, 12)
# probability of staying; 0 means: counted from the labels
STAYS = (0.0, 0.9, 0.5, 0.99)


# ---- 1. the series that is split

def local_means(y, T, half, z):
    """z[t]: the mean of y from t - half to t + half, as far as there are readings. half = 0 copies (0.0 + y / 1.0)."""
    for t in range(T):
        low = t - half if t >= half else 0
        high = t + half + 1 if t + half + 1 <= T else T
        total = 0.0
        count = 0.0
        for u in range(low, high):
            total = total + y[u]
            count = count + 1.0
        z[t] = total / count


# ---- 2. the labels

def cuts_of(T, K, ratio, rising, cuts):
    """cuts[g]: how many readings the groups 0..g have, for g in 0..K-1. Every group has `least` readings at least, lest a
    regime begins on one or two outliers; the others are dealt by the weights. Whole numbers: 9^16 * 4096 < 2^63."""
    least = T // (2 * K)
    if least > LEAST_IN_GROUP:
        least = LEAST_IN_GROUP
    weights = [0] * 16
    weight = 1
    total = 0
    for g in range(K):
        at = g if rising else K - 1 - g
        weights[at] = weight
        total = total + weight
        weight = weight * ratio
    so_far = 0
    for g in range(K):
        so_far = so_far + weights[g]
        cuts[g] = least * (g + 1) + (T - least * K) * so_far // total


def rank_of(z, T, t):
    """How many readings are lower than number t, or equal and earlier. By counting: T * T comparisons in all, and no sort."""
    rank = 0
    for u in range(T):
        if z[u] < z[t] or (z[u] == z[t] and u < t):
            rank = rank + 1
    return rank


def split_by_rank(z, T, K, cuts, labels):
    """labels[t]: how many groups end at or below its rank. The last cut is T, above every rank."""
    for t in range(T):
        rank = rank_of(z, T, t)
        label = 0
        for g in range(K):
            if rank >= cuts[g]:
                label = label + 1
        labels[t] = label


def group_means(z, T, K, labels, means):
    """means[g]: the mean of z over label g; left as it is where no reading has the label."""
    for g in range(K):
        total = 0.0
        count = 0.0
        for t in range(T):
            if labels[t] == g:
                total = total + z[t]
                count = count + 1.0
        if count > 0.0:
            means[g] = total / count


def split_by_means(z, T, K, means, labels):
    """labels[t]: how many of the midpoints between neighbouring means are at or below it, so the nearest mean's label."""
    for t in range(T):
        label = 0
        for g in range(K - 1):
            if z[t] >= 0.5 * (means[g] + means[g + 1]):
                label = label + 1
        labels[t] = label


def lloyd(z, T, K, means, labels):
    """K means in one dimension, from the split that labels holds. Means stay in rising order: each group is an interval, and
    the mean of one that has run empty stays between its neighbours' intervals. A fixed count of rounds, so no test of
    whether something moved; on simulated drivers it does as well as the exact optimum by dynamic programming."""
    for _ in range(LLOYD_ROUNDS):
        split_by_means(z, T, K, means, labels)
        group_means(z, T, K, labels, means)


# ---- 3. the parameters

def count_transitions(T, K, labels, transition):
    """transition[i*K + j]: how often label i followed label j, and 1/K of a time more, so that no entry is 0 (EM could never
    raise it) and a column without readings is uniform. The columns add up to 1."""
    kf = 0.0
    for _ in range(K):
        kf = kf + 1.0
    prior = 1.0 / kf
    for j in range(K):
        column = 1.0
        for i in range(K):
            transition[i * K + j] = prior
        for t in range(1, T):
            if labels[t - 1] == j:
                at = labels[t] * K + j
                transition[at] = transition[at] + 1.0
                column = column + 1.0
        for i in range(K):
            transition[i * K + j] = transition[i * K + j] / column


def stay_transitions(K, stay, transition):
    """The probability of staying on the diagonal, the rest in equal parts."""
    others = 0.0
    for _ in range(1, K):
        others = others + 1.0
    for i in range(K):
        for j in range(K):
            transition[i * K + j] = stay if i == j else (1.0 - stay) / others


def covariances(y, T, P, labels, means, sums):
    """sums[l]: of the deviations from the group means, each times the one l before it, l in 0..P. All are divided by nothing,
    not by their own counts: this is what makes Yule and Walker's coefficients stationary."""
    for lag in range(P + 1):
        total = 0.0
        for t in range(lag, T):
            total = total + (y[t] - means[labels[t]]) * (y[t - lag] - means[labels[t - lag]])
        sums[lag] = total


def yule_walker(sums, P, ar):
    """Levinson's recursion: ar[l-1] of lag l. Every reflection is below 1 in size, hence a stationary AR and no shrinking.
    It stops where nothing is left to explain, with the coefficients so far, and +0 for the lags beyond."""
    left = sums[0]
    old = [0.0] * 7
    for n in range(P):
        if not left > 0.0:
            return
        total = sums[n + 1]
        for l in range(n):
            total = total - ar[l] * sums[n - l]
        reflection = total / left
        for l in range(n):
            old[l] = ar[l]
        for l in range(n):
            ar[l] = old[l] - reflection * old[n - 1 - l]
        ar[n] = reflection
        left = left * (1.0 - reflection * reflection)


def residual(y, P, labels, means, ar, t):
    e = y[t] - means[labels[t]]
    for l in range(P):
        u = t - 1 - l
        e = e - ar[l] * (y[u] - means[labels[u]])
    return e


def sample_variance(y, T):
    total = 0.0
    count = 0.0
    for t in range(T):
        total = total + y[t]
        count = count + 1.0
    mean = total / count
    squares = 0.0
    for t in range(T):
        squares = squares + (y[t] - mean) * (y[t] - mean)
    return squares / count


def residual_variances(y, T, K, P, labels, means, ar, switching, variances):
    """One variance, of all residuals; or one for each label, each with the common one counted as LEAST_IN_GROUP residuals
    more, lest a small group begins near variance 0, where the likelihood has no bound. None is below 1e-3 of the sample
    variance: from there EM comes down by itself, and no density underflows at the start."""
    floor = 0.001 * sample_variance(y, T)
    squares = [0.0] * 16
    counts = [0.0] * 16
    square = 0.0
    count = 0.0
    for t in range(P, T):
        e = residual(y, P, labels, means, ar, t)
        at = labels[t]
        squares[at] = squares[at] + e * e
        counts[at] = counts[at] + 1.0
        square = square + e * e
        count = count + 1.0
    common = square / count
    if not common > floor:
        common = floor
    if not switching:
        variances[0] = common
        return
    for g in range(K):
        v = (squares[g] + 5.0 * common) / (counts[g] + 5.0)
        variances[g] = v if v > floor else floor


# ---- a recipe

def split(y, T, K, i, z, labels, means):
    """The labels and means of recipe i. 5 kinds of shares and 3 windows: as 5 and 3 have no common factor, i modulo 5 and
    i modulo 3 run through all 15 pairs, and neighbours in the list differ in both."""
    ratio, rising = SHARES[i % 5]
    cuts = [0] * 16
    local_means(y, T, HALVES[i % 3], z)
    cuts_of(T, K, ratio, rising, cuts)
    split_by_rank(z, T, K, cuts, labels)
    group_means(z, T, K, labels, means)
    if ratio == 1:
        lloyd(z, T, K, means, labels)


def recipe(i, y, T, K, P, switching):
    """Recipe i: transition (K*K), means (K, rising), ar (P), variances (1 or K). It needs T >= 2*K, T > P and a sample
    variance above 0. After 15 recipes the AR begins at 0 instead, after 30 the transitions are set instead of counted."""
    z = [0.0] * 4096
    labels = [0] * 4096
    means = [0.0] * 16
    transition = [0.0] * 256
    ar = [0.0] * 7
    variances = [0.0] * 16
    split(y, T, K, i, z, labels, means)
    stay = STAYS[i // 30 % 4]
    if stay == 0.0:
        count_transitions(T, K, labels, transition)
    else:
        stay_transitions(K, stay, transition)
    if i // 15 % 2 == 0:
        sums = [0.0] * 8
        covariances(y, T, P, labels, means, sums)
        yule_walker(sums, P, ar)
    residual_variances(y, T, K, P, labels, means, ar, switching, variances)
    return transition[:K * K], means[:K], ar[:P], variances[:K if switching else 1]


def start(y, T, K, P, switching):
    return recipe(0, y, T, K, P, switching)


# ---- which of two fits is kept

def collapsed(variances, count):
    """A regime that has drawn itself together on a few readings: with switching variances the likelihood has no bound there,
    so that its log-likelihood says nothing. Told by its variance, below 1e-3 of the largest one."""
    largest = variances[0]
    least = variances[0]
    for g in range(1, count):
        if variances[g] > largest:
            largest = variances[g]
        if variances[g] < least:
            least = variances[g]
    return least < 0.001 * largest


def better(new_loglik, new_collapsed, loglik, was_collapsed):
    """Whether the new fit takes the place of the one kept: one that has not collapsed before one that has, then by the
    log-likelihood. Equal ones leave the earlier. A fit that was refused is not compared at all."""
    if new_collapsed != was_collapsed:
        return was_collapsed
    return new_loglik > loglik
