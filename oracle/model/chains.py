"""Transition tables as lists of columns: a column has the probabilities of the labels that follow one."""

TINY = 5e-324
ONE_UP = 2.220446049250313e-16  # from 1 to the next number
SLACK = 45035996  # steps of that size in 1e-8


def normed(weights):
    total = 0.0
    for w in weights:
        total += w
    return [w / total for w in weights]


def certain(k, i):
    return [1.0 if j == i else 0.0 for j in range(k)]


def spread(r, k):
    return [normed([r.expovariate(1) + 1e-9 for _ in range(k)]) for _ in range(k)]


def sticky(r, k):
    columns = spread(r, k)
    for j in range(k):
        stay = r.uniform(0.7, 0.99)
        columns[j] = [(1 - stay) * x for x in columns[j]]
        columns[j][j] += stay
    return columns


def dyadic(r, k):
    """Multiples of a power of two: sums are exact."""
    total = 1 << r.choice([5, 6, 7])
    columns = []
    for j in range(k):
        units = [1] * k
        for _ in range(total - k):
            units[r.randrange(k) if r.random() < 0.5 else j] += 1
        columns.append([u / total for u in units])
    return columns


def nearly_closed(r, k):
    leave = 10.0 ** -r.randint(3, 17)
    return [[1.0 - leave if i == j else leave / (k - 1) for i in range(k)] for j in range(k)]


def with_zeros(r, k):
    columns = []
    for _ in range(k):
        weights = [r.random() if r.random() < 0.5 else r.choice([0.0, -0.0]) for _ in range(k)]
        columns.append(normed(weights) if any(weights) else certain(k, r.randrange(k)))
    return columns


def same(r, k):
    column = normed([r.random() + 1e-3 for _ in range(k)])
    return [list(column) for _ in range(k)]


def cycle(r, k):
    return [certain(k, (j + 1) % k) for j in range(k)]


def absorbing(r, k):
    columns = spread(r, k)
    for j in range(r.choice([1, 1, min(2, k - 1)])):
        columns[j] = certain(k, j)
    return columns


def identity(r, k):
    return [certain(k, j) for j in range(k)]


def tiny(r, k):
    columns = []
    for j in range(k):
        column = [r.choice([TINY, 1e-310, 1e-200, 1e-30, 1e-16]) for _ in range(k)]
        column[(j + r.randint(0, 1)) % k] = 1.0
        columns.append(column)
    return columns


def off(r, k):
    """Sums that differ from one by nearly all that is allowed."""
    columns = spread(r, k)
    for column in columns:
        i = r.randrange(k)
        column[i] = max(0.0, column[i] + r.uniform(-0.9e-8, 0.9e-8))
    return columns


def above_one(r, k):
    """Label 0 stays with more than one: shares below zero, or refusal 22."""
    more = r.choice([5e-9, 5e-10, 9e-9, 2e-10, 1e-9, 1e-10, 1e-12])
    columns = spread(r, k)
    columns[0] = [1.0 + more] + [0.0] * (k - 1)
    if k == 2:
        columns[1] = r.choice([[1.0, 0.0], [0.5, 0.5], [0.9, 0.1], [1.0 - 1e-9, 0.0], [0.999999999, 1e-9]])
    return columns


def closed_and_off(r, k):
    """Nearly closed, and sums a little off: shares of either sign."""
    leave = r.choice([1e-9, 1e-8, 3e-9])
    columns = []
    for j in range(k):
        column = [leave * r.random() for _ in range(k)]
        column[j] = 1.0 - leave * r.random() * r.choice([0, 1]) + (r.choice([-5e-9, 0, 5e-9]) if leave < 1e-8 else 0)
        columns.append(column)
    return columns


def at_pivot(r, k):
    """Two labels whose pivot is the bound 1e-300 or beside it; others as they come."""
    x = r.choice([1e-300, 9.999999999999999e-301, 1.0000000000000001e-300, TINY, 0.0, 1e-290, 0.5])
    columns = absorbing(r, k)
    if k == 2:
        columns = r.choice([[[1.0, 0.0], [x, 1.0 - x]], [[1.0 - x, x], [0.0, 1.0]]])
    return columns


def at_slack(r, k):
    """An entry at 1 + 1e-8, or a sum that is 1e-8 from one, to the last place."""
    up = 1.0 + ONE_UP * (SLACK + r.choice([-1, 0, 1, 2]))
    down = 1.0 - ONE_UP * (SLACK + r.choice([-1, 0, 0.5, 1, 1.5]))
    part = r.choice([0.0, 0.25, 0.5])
    columns = dyadic(r, k)
    column = [0.0] * k
    column[0], column[1] = r.choice([up, down]) - part, part
    columns[r.randrange(k)] = r.choice([column, column[::-1]])
    return columns


BENIGN = [spread, sticky, dyadic]
ALL = BENIGN + [nearly_closed, with_zeros, same, cycle, absorbing, identity, tiny, off, above_one, closed_and_off, at_pivot,
                at_slack]


def flat(columns):
    """Row by row: the row is the label now, the column the one before."""
    k = len(columns)
    return [columns[j][i] for i in range(k) for j in range(k)]
