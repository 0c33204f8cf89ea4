"""The table of what judge.py found, in Markdown. docs/STARTS.md says what its measures are."""
import numpy as np

NS = (1, 4, 8, 16)

KINDS = (
    ('all', lambda d: True),
    ('fails for good', lambda d: d['kind'] == 'fails'),
    ('visits, then fails', lambda d: d['kind'] == 'late'),
    ('visits and recovery', lambda d: d['kind'] == 'visits'),
    ('k = 2', lambda d: d['k'] == 2),
    ('k = 3', lambda d: d['k'] == 3),
    ('order 1', lambda d: d['p'] == 1),
    ('order 2', lambda d: d['p'] == 2),
    ('order 4', lambda d: d['p'] == 4),
    ('one variance', lambda d: not d['sv']),
    ('switching variance', lambda d: d['sv']),
    ('gap below 1.5 sigma', lambda d: d['gap'] < 1.5),
    ('gap 1.5 to 3', lambda d: 1.5 <= d['gap'] < 3),
    ('gap above 3', lambda d: d['gap'] >= 3),
    ('k = 2, gap above 1.5', lambda d: d['k'] == 2 and d['gap'] >= 1.5),
    ('T below 300', lambda d: d['T'] < 300),
    ('T from 300 on', lambda d: d['T'] >= 300),
)


def per_cent(hits):
    return '%.0f' % (100 * np.mean(hits)) if len(hits) else '-'


def is_sound(run, passes):
    return run['it'] > 0 and run['g%d' % passes] >= 1e-3 and np.isfinite(run['l%d' % passes])


def collapsed(d, run):
    """start.py's rule: beside the largest variance."""
    variances = run['x'][d['k'] ** 2 + d['k'] + d['p']:]
    return variances.min() < 1e-3 * variances.max()


def best(runs, passes, is_good):
    """The highest of those that are good; of all, where none is."""
    return max([r for r in runs if is_good(r)] or runs, key=lambda r: r['l%d' % passes])


def names_of(d, which):
    if which == 'random':
        return [name for name in d['res'] if str(name).startswith('random')][:16]
    return [which] if which == 'truth' else range(which)


class Series:
    """One driver: the references, and of each N, the truth and the random starts how far from them the fit that is kept ends."""

    def __init__(self, d, statsmodels, climbs):
        self.d, self.climbs = d, climbs
        self.statsmodels = {reps: found for reps, found in ((r, statsmodels.get((d['seed'], r))) for r in (0, 20)) if found}
        runs = d['res'].values()
        self.stop = {passes: max([r['l%d' % passes] for r in runs if is_sound(r, passes)], default=-np.inf)
                     for passes in (100, 1000)}
        others = [height for height, x in d['polished']
                  if np.isfinite(height) and x[d['k'] ** 2 + d['k'] + d['p']:].min() >= 1e-3 * d['var']]
        others += [found['ll'] for found in self.statsmodels.values() if np.isfinite(found['ll']) and found['g'] >= 1e-3]
        self.top = max(list(self.stop.values()) + others)
        self.end = max([r['fix'] for r in runs if is_sound(r, 1000) and np.isfinite(r['fix'])], default=np.nan)
        self.kept = {(which, passes): best([d['res'][name] for name in names_of(d, which)], passes, lambda r: is_sound(r, passes))
                     for which in NS + ('truth', 'random') for passes in (100, 1000)}

    def height(self, which, passes):
        run = self.kept[which, passes]
        return run['l%d' % passes] if is_sound(run, passes) else -np.inf

    def is_top(self, which, passes, within):
        return self.top - self.height(which, passes) <= within

    def is_stop(self, which, passes, within):
        return self.stop[passes] - self.height(which, passes) <= within

    def is_hill(self, which, passes, within):
        if self.height(which, passes) == -np.inf:
            return False
        return self.kept[which, passes]['fix'] >= self.end - within or self.is_stop(which, passes, 1e-3)

    def is_theirs(self, reps, within):
        found = self.statsmodels[reps]
        return found['g'] >= 1e-3 and self.top - found['ll'] <= within

    def is_climbed(self, how, within):
        return self.top - self.climbs.get(how, -np.inf) <= within


def lines_of(rows, title, heads, cells):
    lines = ['## ' + title, '', '| series | count | ' + ' | '.join(heads) + ' |', '|' + '---|' * (2 + len(heads))]
    for name, is_of in KINDS:
        chosen = [s for s in rows if is_of(s.d)]
        if chosen:
            lines.append('| %s | %d | ' % (name, len(chosen)) + ' | '.join(cells(chosen)) + ' |')
    return lines + ['']


def plain(rows, title, test, passes, within):
    columns = ('truth', 'random') + NS
    heads = ['truth', '16 random'] + ['N = %d' % n for n in NS]
    return lines_of(rows, '%s; at most %d passes' % (title, passes), heads,
                    lambda chosen: [per_cent([test(s, which, passes, within) for s in chosen]) for which in columns])


def beside(rows, passes, within):
    rows = [s for s in rows if 0 in s.statsmodels and 20 in s.statsmodels]
    return lines_of(rows, 'where statsmodels is compared: within %g of the best known of all; at most %d passes' % (within, passes),
                    ['N = 1', 'N = 8', 'N = 16', 'fit()', 'search_reps=20'],
                    lambda chosen: [per_cent([s.is_top(n, passes, within) for s in chosen]) for n in (1, 8, 16)]
                    + [per_cent([s.is_theirs(reps, within) for s in chosen]) for reps in (0, 20)])


def after_climb(rows, within):
    hows = [('climb', n) for n in NS] + [('each', 8)]
    return lines_of(rows, 'after the climb: within %g of the best known of all; at most 1000 passes' % within,
                    ['N = %d' % n for n in NS] + ['N = 8, each climbed'],
                    lambda chosen: [per_cent([s.is_climbed(how, within) for s in chosen]) for how in hows])


def losses(rows):
    def cell(chosen, which):
        loss = np.minimum([s.top - s.height(which, 1000) for s in chosen], 5)
        return '%.2f; %.3f; %.2f' % (loss.mean(), np.median(loss), np.quantile(loss, .9))
    return lines_of(rows, 'below the best known of all, at most 1000 passes: mean (5 at most each), median, 90 per cent',
                    ['N = %d' % n for n in NS] + ['truth'], lambda chosen: [cell(chosen, which) for which in NS + ('truth',)])


def counts(rows):
    switching = [s for s in rows if s.d['sv']]
    runs = [(s, s.d['res'][i]) for s in rows for i in range(16)]
    first = [(s.d, s.d['res'][0]) for s in rows]
    passes = np.array([r['it'] % 100000 for _, r in runs])

    def share(test, kind=None):
        return '%.1f' % (100 * np.mean([test(d, r) for d, r in first if kind in (None, d['kind'])]))

    def fell(d, r):
        return r['fall'] > 1e-9

    def ended_lower(d, r):
        return r['l100'] < d['began']

    def kinds(test):
        return ', '.join('%s %s' % (kind, share(test, kind)) for kind in ('fails', 'late', 'visits'))

    def rule(s):
        return best([s.d['res'][i] for i in range(16)], 1000, lambda r: not collapsed(s.d, r))

    times = {reps: [s.statsmodels[reps]['t'] for s in rows if reps in s.statsmodels] for reps in (0, 20)}
    shapes = ((2, 1), (2, 4), (3, 1), (3, 2), (3, 4))
    return ['## counts', '',
            '- EM runs: %d; without a number at the end: %d' % (sum(len(s.d['res']) for s in rows),
                                                                sum(r['it'] <= 0 for s in rows for r in s.d['res'].values())),
            '- collapsed by the rule of start.py: %d of %d fits with switching variance; series whose highest of 16 is one: %d of %d'
            % (sum(collapsed(s.d, s.d['res'][i]) for s in switching for i in range(16)), 16 * len(switching),
               sum(collapsed(s.d, best([s.d['res'][i] for i in range(16)], 1000, lambda r: True)) for s in switching),
               len(switching)),
            '- below 1e-3 of the sample variance: %d fits with switching variance, %d with one'
            % tuple(sum(not is_sound(r, 1000) for s, r in runs if s.d['sv'] == sv) for sv in (True, False)),
            '- of 16, start.py\'s rule keeps the same fit as the rule by the sample variance: %d of %d series'
            % (sum(rule(s) is s.kept[16, 1000] for s in rows), len(rows)),
            '- passes of the recipes 0 to 15: median %d, 90 per cent %d; not converged in 100: %.0f per cent, in 1000: %.1f'
            % (np.median(passes), np.quantile(passes, .9), 100 * np.mean(passes > 100),
               100 * np.mean([r['it'] >= 100000 for _, r in runs])),
            '- fits from start that stop at a fall: %s per cent; %s; by more than 0.1: %s, at most %.2f'
            % (share(fell), kinds(fell), share(lambda d, r: r['fall'] > .1), max(r['fall'] for _, r in first)),
            '- fits from start, at most 100 passes, that end lower than they began: %s per cent; %s'
            % (share(ended_lower), kinds(ended_lower)),
            *('- seconds of statsmodels\' fit with search_reps=%d: median %.1f, largest %.1f' % (reps, np.median(t), max(t))
              for reps, t in times.items() if t),
            '- milliseconds a fit of emc.c, at most 1000 passes, median: ' + ', '.join(
                'k %d order %d %.1f' % (k, p, 1000 * np.median([r['t'] for s, r in runs if (s.d['k'], s.d['p']) == (k, p)] or [0]))
                for k, p in shapes), '']


def of(drivers, statsmodels, climbs):
    rows = [Series(d, statsmodels, climbs.get(d['seed'], {})) for d in drivers]
    lines = ['# How often start + fit, and fit --starts N, reach the best known log-likelihood', '',
             '%d simulated drivers, seeds %d to %d. Per cent. docs/STARTS.md says what the measures are.'
             % (len(rows), drivers[0]['seed'], drivers[-1]['seed']), '']
    lines += plain(rows, 'the same hill', Series.is_hill, 1000, .01)
    for passes in (100, 1000):
        lines += plain(rows, 'within 1e-3 of the best EM stop', Series.is_stop, passes, 1e-3)
    for within in (1e-3, .1, 1.):
        for passes in (100, 1000):
            lines += plain(rows, 'within %g of the best known of all' % within, Series.is_top, passes, within)
    for within in (1e-3, .1, 1.):
        lines += beside(rows, 1000, within)
    if climbs:
        for within in (1e-3, .01, .1, 1.):
            lines += after_climb(rows, within)
    return '\n'.join(lines + losses(rows) + counts(rows)) + '\n'
