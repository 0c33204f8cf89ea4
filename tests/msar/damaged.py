#!/usr/bin/env python3
"""Damaged files for msar: makes files as people have them, damages them, calls msar, and holds it to tests/msar/reader.py.

    python3 tests/msar/damaged.py [--count 10000] [--seed 1] [--program bin/msar] [--only N] [--dry]

Each call has to end within 20 s: in an error of the file where the second reader has one, of the model first; else in a
refusal that its model or its readings call for (of its sizes, before the series is read); else in an answer that has the
readings and the kept cells that it reads. What differs is printed and its files are kept. An error at another line than the
second reader's is counted, and is no disagreement. Every call follows from the seed and its own number: --only N makes and
calls one again. --dry calls nothing: it makes the files, reads them with the second reader, and counts.
"""
import argparse
import collections
import concurrent.futures
import math
import os
import random
import re
import resource
import shlex
import shutil
import signal
import struct
import subprocess
import sys
import tempfile

sys.dont_write_bytecode = True
import reader

MARK = '\ufeff'


# ---- files as people have them

MODELS = {
    'order 0': 'order 0\nregimes 2\ntransition 0.5 0.25\ntransition 0.5 0.75\nvariances 1\nmeans 0 -3\n',
    'order 1': '# a driver: regime 0 is sound, regime 1 fails\nregimes 2\norder 1\ntransition 0.95 0.10   # to 0, from 0 and 1\n'
               'transition 0.05 0.90\nmeans 0 -3\nar 0.5\nvariances 0.25 1\n',
    'own ar': 'regimes 2\norder 1\nmeans 0 -3\nvariances 1\nar 0.5\nar 0.25\ntransition 0.97 0.05\ntransition 0.03 0.95\n',
    'order 2': 'regimes 3\norder 2\ntransition 0.8 0.1 0.1\ntransition 0.1 0.8 0.1\ntransition 0.1 0.1 0.8\nmeans -3 0 2\n'
               'ar 0.25 0.125\nar 0.5 -0.25\nar 0 0\nvariances 0.5\n',
    'wide': 'regimes 4\norder 3\n' + 'transition 0.25 0.25 0.25 0.25\n' * 4 + 'means -3 -1 0 2\nar 0.125 0 0\nvariances 1\n',
    'bits': 'regimes 2\norder 1\ntransition 0x3fe0000000000000 5.0000000000000000e-001\ntransition 0x3FE0000000000000 .5e0\n'
            'means 0.0000000000000000e+000 -3.0000000000000000e+000\nar 5.0000000000000000e-001\nvariances 1\n'.replace('.5e0',
            '5e-1'),
}
TITLES = ['difference', 'level', 'heard', 'level, sent', 'level [dB]', 'Pegel', 'Größe', 'Δ', 'left main', 'value', 'p0',
'nan_count', 'inf.', 'x;y']


def series(rng):
    """Readings as texts."""
    n = rng.choices([rng.randrange(0, 4), rng.randrange(4, 60), rng.choice([1538, 1539, 4095, 4096, 4097, 5000])], [6, 92, 1.2])[0]
    level = rng.choices([0, 80, -3e5], [90, 8, 2])[0]
    fail = rng.randrange(n + 1)
    values = [level + rng.gauss(0, 0.5) - (3 if i >= fail else 0) for i in range(n)]
    form = rng.choices(['%.2f', '%.3f', '%.0f', '%r', '%.16e', '%+.2f', 'bits', '%.1f'], [8, 4, 4, 3, 2, 1, 1, 2])[0]
    if form == 'bits':
        return ['0x%016x' % struct.unpack('>Q', struct.pack('>d', x)) for x in values]
    return [form % x for x in values]


def plain(rng):
    lines = series(rng)
    if rng.random() < 0.3:
        lines.insert(0, '# differences of a driver, dB')
    if rng.random() < 0.2 and lines:
        at = rng.randrange(len(lines))
        lines[at] = rng.choice([' ' + lines[at], lines[at] + ' \t', lines[at] + ' # loud', lines[at] + '#loud', '\t' + lines[at]])
    return lines


class Table:
    """A CSV file: its titles (or none), its rows, its separator, how it is quoted, and the columns to ask for."""

    def __init__(self, rng):
        readings = series(rng)
        kinds = rng.choices([['reading'], ['index', 'reading'], ['date', 'reading'], ['index', 'date', 'reading', 'more'],
                             ['reading', 'more'], ['text', 'index', 'reading'], ['stamp', 'reading', 'text'], ['index', 'count'],
                             ['index', 'reading', 'more', 'more']], [6, 8, 5, 3, 4, 3, 3, 4, 4])[0]
        self.want = kinds.index('count' if 'count' in kinds else 'reading')
        self.rows = [[self.cell(rng, kind, i, text) for kind in kinds] for i, text in enumerate(readings)]
        named = {'index': ['show', 'time', 'nr', ''], 'date': ['date', 'Datum'], 'stamp': ['time', 'at'], 'text': ['room',
        'Saal', 'note'],
                 'count': ['count', 'shows'], 'reading': TITLES, 'more': TITLES}
        self.titles = []
        for kind in kinds:
            self.titles.append(rng.choice([title for title in named[kind] if title not in self.titles]))
        if rng.random() < 0.12:
            self.titles = [self.titles[0]] + [str(i) for i in range(1, len(kinds))]
        if rng.random() < 0.06:
            self.titles[rng.randrange(len(kinds))] = rng.choice(['#1', '#2', '#3', 'NA', '-', '1', '2', 'nan', '#x'])
        self.by = rng.choices([',', ';', '\t'], [7, 3, 2])[0]
        self.quotes = rng.choices(['needed', 'all', 'titles'], [8, 2, 2])[0]
        self.blanks = rng.choices(['', ' ', '  '], [9, 2, 1])[0]
        self.titled = rng.random() < (0.4 if kinds in (['reading'], ['index', 'count']) else 0.75)
        if kinds == ['reading'] and not self.titled and rng.random() < 0.5 and all('.' in text for text in readings):
            self.rows, self.titles, self.want = [text.split('.') for text in readings], ['a', 'b'], rng.randrange(2)    # 0,37
            if rng.random() < 0.3:
                self.rows = [[whole, '234.' + fraction] for whole, fraction in self.rows]                               # 1,234.5
        if self.rows and rng.random() < 0.06:
            rng.choice(self.rows)[rng.choice([0, -1])] += rng.choice([' say "so"', ' ' + 'x' * rng.randrange(50, 70)])

    @staticmethod
    def cell(rng, kind, i, text):
        return {'reading': text, 'index': str(i), 'date': f'2024-{1 + i // 28 % 12:02}-{1 + i % 28:02}',
                'stamp': f'{8 + i // 60 % 12:02}:{i % 60:02}', 'text': rng.choice(['left', 'right', 'Saal 1', 'a, b', 'x;y', '']),
                'count': str(rng.choice([0, -3, 1, -1])), 'more': '%.2f' % rng.gauss(80, 2)}[kind]

    def line(self, row, titles=False):
        cells = []
        for text in row:
            if self.quotes == 'all' or self.quotes == 'titles' and titles or self.by in text or '"' in text:
                text = '"' + text.replace('"', '""') + '"'
            cells.append(text)
        return (self.by + self.blanks).join(cells)

    def lines(self):
        return ([self.line(self.titles, True)] if self.titled else []) + [self.line(row) for row in self.rows]


def written(rng, lines):
    """The lines as the bytes of a file."""
    end = rng.choices(['\n', '\r\n'], [4, 1])[0]
    text = end.join(lines) + rng.choices([end, '', end * 3, end + ' ' + end, end + '\t' + end], [14, 4, 2, 2, 1])[0]
    return ((MARK if rng.random() < 0.1 else '') + text).encode()


# ---- damages

ODD = ['NA', 'nan', 'NaN', '-nan', '#N/A', '#n/a', '#NUM!', '#DIV/0!', '', ' ', '0.37 dB', '0.37dB', '\u22120.37',
'\uff10.\uff13\uff17',
       '\u00a00.37', '0.37\u00a0', '1\u00a0234', '1 234', '1,5', '0,37', '-0,37', '1.234,5', '1,234.5', '"1,234.5"', '"0,37"',
       '0.12345678901234567891', '12345678901234567891', '12345678901234567890', '0.00012345678901234567890', '1e401', '1e-401',
       '1e400',
       '1e-400', '1e999999999999', '1e+05', '1e-001', '1E-5', 'inf', '-inf', '+inf', 'Inf', 'Infinity', '0x3ff0000000000000',
       '0xBFF0000000000000', '0x7ff8000000000000', '0x3ff', '-0x3ff0000000000000', '0X3FF0000000000000', '.5', '5.', '-.5', '+5',
       '--5', '5-', '+', '-',
       '.', 'e5', '1e', '1/2', '50%', '$5', '12:30', '2024-01-01', '1_000', 'TRUE', 'null', 'None', '?', '*', '"5"', '" 5 "',
       '"5', '5"',
       '""5""', '"5"6', "'5'", '0005', '-0', '0', '1e-320', '4.9e-324', '1.7976931348623157e308', '1.7976931348623159e308',
       '99999',
       '\u0663', '5\0', '\0', '5\r6', '5\v', '\ufeff5', '5#6', '5 # x', '5 6', '5;6', '5\t6', '1' + '0' * 300,
       '0.' + '0' * 300 + '1', 'O.37', 'l.5']
FINE = ['5', '0.25', '-0.25', '+5', '0005', '-0', '0', '1e-001', '1e+00', '-1.5e0', '2.50000000000000000000000',
'0.3700000000000000001', '1e-320',
        '0x3ff0000000000000', '0xBFF0000000000000', '"5"', ' "-1.5" ', '  2', '-3\t', '1e-400', '0e400',
        '000000000000000000000000000001', 'inf', 'nan']
NUMERIC = re.compile(r'(?<![\w.,])([+-]?\d+)\.(\d+)')


def at_byte(work):
    """A damage of the file's bytes, some 1 to 3 of them."""
    def damage(rng, data):
        for _ in range(rng.choice([1, 1, 2, 3])):
            at = rng.randrange(len(data) + 1)
            data = work(rng, data, at)
        return data
    return damage


def at_line(work):
    """A damage of the file's lines (of bytes, without their line breaks), around one of them."""
    def damage(rng, data):
        lines = data.split(b'\n')
        work(rng, lines, 0 if rng.random() < 0.2 else rng.randrange(len(lines)))
        return b'\n'.join(lines)
    return damage


def some_byte(rng):
    return bytes([rng.choice([rng.randrange(256), rng.choice(b'0123456789.,;"#+-eEx \t\r\n\0naif')])])


def lose(rng, lines, at):
    del lines[at:at + rng.choice([1, 1, 1, 3])]
    lines or lines.append(b'')


def swap(rng, lines, at):
    other = rng.randrange(len(lines))
    lines[at], lines[other] = lines[other], lines[at]


def blank(rng, lines, at):
    lines.insert(at, rng.choice([b'', b'', b' ', b'\t', b'\r', b' \t \r', b'\t\t']))


def comment(rng, lines, at):
    text = rng.choice([b'# pause', b'#', b'#N/A', b'#n/a', b'#N/A here', b'#N/Abc', b'# N/A', b'#REF!', b'#DIV/0!\r', b'#NAME',
    b' # x', b'#VALUE!,1', b'#Null!\tx', b' #NAME?'])
    if rng.random() < 0.4:
        lines[at] = lines[at].rstrip(b'\r') + text
    else:
        lines.insert(at, text)


def parts(rng, line):
    """A separator that the line has, and its cells."""
    by = rng.choice([by for by in (b',', b';', b'\t') if by in line] or [b','])
    return by, line.split(by)


def odd_cell(rng, lines, at):
    by, row = parts(rng, lines[at])
    row[rng.randrange(len(row))] = rng.choice(FINE if rng.random() < 0.4 else ODD).encode()
    lines[at] = by.join(row) + (b'\r' if lines[at].endswith(b'\r') and rng.random() < 0.9 else b'')


def long_cell(rng, lines, at):
    by, row = parts(rng, lines[at].rstrip(b'\r'))
    text = b'x' * rng.randrange(61, 66)
    row[rng.choice([0, -1])] = rng.choice([text, b'"' + text[2:] + b'"', b' ' + text + b' '])
    lines[at] = by.join(row)


def two_quotes(rng, lines, at):
    for _ in range(2):
        here = rng.randrange(len(lines[at]) + 1)
        lines[at] = lines[at][:here] + b'"' + lines[at][here:]


def longer(rng, lines, at):
    by, row = parts(rng, lines[at])
    row.insert(rng.randrange(len(row) + 1), rng.choice([b'', b'1', b'2.5', b'x', b'']))
    lines[at] = by.join(row)


def shorter(rng, lines, at):
    by, row = parts(rng, lines[at])
    del row[rng.randrange(len(row))]
    lines[at] = by.join(row)


def long_line(rng, lines, at):
    size = rng.choice([4000, 4093, 4094, 4095, 4096, 4097, 4098, 9000, 100000])
    fill = rng.choice([b' ', b'#', b'0', b'x', b',', b'\t', b'"', b'1,'])
    line = lines[at].rstrip(b'\r')
    lines[at] = rng.choice([line + fill * size, fill * size + line, line + b' #' + fill * size])[:max(size, len(line))]


def column_of(rng, data):
    """One odd text in every row's same cell, the first line's perhaps left alone."""
    lines, odd, place = data.split(b'\n'), rng.choice(FINE if rng.random() < 0.4 else ODD).encode(), rng.randrange(3)
    for at in range(rng.randrange(2), len(lines)):
        by, row = parts(random.Random(1), lines[at])
        if len(row) > place and lines[at].strip():
            row[place] = odd
            lines[at] = by.join(row)
    return b'\n'.join(lines)


def all_numbers(rng, data):
    """A way of writing, for every number with a point."""
    text = data.decode('utf-8', 'surrogateescape')
    way = rng.choice([r'\1,\2', r'1,\1.\2', r'"\1,\2"', r'\1.\2 dB', r'\1\2', r'\1,\2e0', r'\1.', r'\1', r'"\1.\2"', r' \1.\2',
    r'1.\1,\2', r'-1,234.\2'])
    text = NUMERIC.sub(way, text)
    if rng.random() < 0.1:
        text = text.replace('-', '\u2212')
    return text.encode('utf-8', 'surrogateescape')


def other_separator(rng, data):
    old, new = rng.sample([b',', b';', b'\t', b' ', b'|', b', '], 2)
    if rng.random() < 0.3:
        lines = data.split(b'\n')
        at = rng.randrange(len(lines))
        lines[at] = lines[at].replace(old, new)
        return b'\n'.join(lines)
    return data.replace(old, new)


def first_row(rng, data):
    """A first row, or another heading, in front of all or instead of the first line."""
    lines = data.split(b'\n')
    by, row = parts(rng, lines[0])
    text = rng.choice([b'NA', b'', b'1', b'0.5', b'nan', b'-', b'#N/A', b'a', b'12345678901234567891', b'0.37 dB', b'null', b'"',
    b'?', b'2024-01-01', b'\xe2\x88\x920.37', b'#Num!', b'.x', b'"-3 dB"', b'NaN'])
    new = by.join([text] * len(row) if rng.random() < 0.7 else [row[0]] + [text] * (len(row) - 1))
    lines[0:rng.randrange(2)] = [new]
    return b'\n'.join(lines)


def double_title(rng, data):
    lines = data.split(b'\n')
    by, row = parts(rng, lines[0])
    row[rng.randrange(len(row))] = row[rng.randrange(len(row))]
    lines[0] = by.join(row)
    if rng.random() < 0.3:
        lines.insert(rng.randrange(len(lines)), lines[0])
    return b'\n'.join(lines)


def utf16(rng, data):
    return data.decode('utf-8', 'replace').encode(rng.choice(['utf-16', 'utf-16-le', 'utf-16-be']))


def random_bytes(rng, data):
    noise = rng.randbytes(rng.choice([1, 5, 50, 500]))
    return rng.choice([noise, data + noise, noise + data, data[:len(data) // 2] + noise + data[len(data) // 2:]])


DAMAGES = {
    'cut': lambda rng, data: data[:rng.randrange(len(data) + 1)],
    'front lost': lambda rng, data: data[rng.randrange(len(data) + 1):],
    'flipped': at_byte(lambda rng, data, at: data[:at] + bytes(b ^ 1 << rng.randrange(8) for b in data[at:at + 1]) + data[at + 1:]),
    'replaced': at_byte(lambda rng, data, at: data[:at] + some_byte(rng) + data[at + 1:]),
    'inserted': at_byte(lambda rng, data, at: data[:at] + some_byte(rng) + data[at:]),
    'deleted': at_byte(lambda rng, data, at: data[:at] + data[at + 1:]),
    'zeros': at_byte(lambda rng, data, at: data[:at] + b'\0' * rng.choice([1, 4, 600]) + data[at:]),
    'lines lost': at_line(lose), 'line doubled': at_line(lambda rng, lines, at: lines.insert(at, lines[at])),
    'lines swapped': at_line(swap),
    'blank line': at_line(blank), 'blank in front': lambda rng, data: rng.choice([b'\n', b'\r\n', b' \n\n']) + data,
    'comment': at_line(comment),
    'odd cell': at_line(odd_cell), 'cell more': at_line(longer), 'cell less': at_line(shorter), 'long line': at_line(long_line),
    'long cell': at_line(long_cell),
    'decimal commas': lambda rng, data: re.sub(rb'(\d)\.(\d)', rb'\1,\2', data), 'odd column': column_of,
    'all numbers': all_numbers, 'separator': other_separator, 'first row': first_row, 'titles doubled': double_title,
    'utf-16': utf16, 'lone returns': lambda rng, data: data.replace(b'\n', b'\r').replace(b'\r\r', b'\r'), 'random': random_bytes,
    'two quotes': at_line(two_quotes), 'quote': at_byte(lambda rng, data, at: data[:at] + b'"' + data[at:]),
    'mark': lambda rng, data: rng.choice([MARK.encode() + data, data.replace(b'\n', b'\n' + MARK.encode(), 1),
    MARK.encode() * 2 + data]),
    'repeated': lambda rng, data: data + data,
    'emptied': lambda rng, data: rng.choice([b'', b'\n', b' \r\n\t', MARK.encode(), b'\0']),
}
WEIGHTS = dict.fromkeys(DAMAGES, 3) | {'odd cell': 14, 'odd column': 5, 'decimal commas': 6, 'all numbers': 6, 'first row': 6,
'utf-16': 1, 'random': 2, 'emptied': 1,
                                       'blank line': 5, 'comment': 5, 'long line': 2, 'lone returns': 2}


def damaged(rng, data, story):
    for name in rng.choices(list(WEIGHTS), list(WEIGHTS.values()), k=rng.choices([0, 1, 2, 3], [30, 52, 12, 6])[0]):
        data = DAMAGES[name](rng, data)
        story.append(name)
    return data[:300000]


def damaged_model(rng, text, story):
    if rng.random() < 0.1:
        story.append('model ar lines')
        return written(rng, re.sub(r'(?m)^ar.*\n', lambda found: found[0] * rng.choice([0, 1, 2, 3, 4, 17]), text).rstrip('\n').split('\n'))
    if rng.random() < 0.6:
        lines = [line.split(' ') for line in text.rstrip('\n').split('\n')]
        for _ in range(rng.choice([1, 1, 2])):
            row = rng.choice(lines)
            sized = row[0] in ('regimes', 'order')
            more = ['0', '1', '2', '3', '7', '8', '9', '16', '17', '256', '257', '1000000000', '4294967298',
            '18446744073709551618', '02', '0000000000002', '+2', '-1', '2.0']
            more = more if sized else ['0', '-1', '2', '1.00000002', '1.000000005', '1e-9', '0.25 0.5', '', 'means', '1e308',
            '-1e308'] + rng.choice([FINE, ODD])
            row[rng.randrange(rng.random() < 0.95, len(row)) if len(row) > 1 else 0] = rng.choice(more)
            story.append('model word')
        text = '\n'.join(' '.join(row) for row in lines) + '\n'
        return written(rng, text.rstrip('\n').split('\n'))
    before = len(story)
    data = damaged(rng, written(rng, text.rstrip('\n').split('\n')), story)
    story[before:] = ['model ' + name for name in story[before:]]
    return data


# ---- a call

class Case:
    def __init__(self, seed, number):
        rng = random.Random(f'msar {seed} {number}')
        self.number, self.story = number, []
        name = rng.choices(list(MODELS), [4, 8, 2, 2, 1, 1])[0]
        self.model = MODELS[name].encode()
        self.story.append(name)
        in_model = rng.random() < 0.2
        self.options = {}
        self.command = rng.choices(['filter', 'loglike'], [4, 1])[0]
        if rng.random() < 0.3:
            lines, table = plain(rng), None
        else:
            table = Table(rng)
            lines = table.lines()
        self.series = written(rng, lines)
        self.draw(rng, table)
        if 'keep' in self.options and rng.random() < 0.1:
            self.series = DAMAGES['long cell'](rng, self.series)
        if in_model:
            self.model = damaged_model(rng, MODELS[name], self.story)
        if not in_model or rng.random() < 0.15:
            self.series = damaged(rng, self.series, self.story)
        self.input = rng.random() < 0.1

    def draw(self, rng, table):
        """The options of the call."""
        if table is None:
            self.story.append('plain')
            if rng.random() < 0.15:
                self.options['column'] = rng.choice([b'#1', b'#2', b'x'])
            return
        self.story.append('table')
        if rng.random() < 0.06:
            return
        titles, width = [title.encode() for title in table.titles], len(table.titles)
        by_name = rng.random() < (0.55 if table.titled else 0.08)
        place = table.want if rng.random() < 0.85 else rng.randrange(width)
        self.options['column'] = titles[place] if by_name and titles[place] not in (b'', b'-') else b'#%d' % (place + 1)
        if rng.random() < 0.03:
            self.options['column'] = rng.choice([b'#0', b'#%d' % (width + 1), b'#999999999999', b'nothing', b'1', b'#x', b'#'])
        numeric = table.titled and any(reader.number(title) is not None for title in titles)
        said = rng.choices([None, True, False], [1, 5, 1] if numeric else [14, 2, 1] if table.titled else [14, 1, 3])[0]
        if said is not None:
            self.options['heading'] = said
        separator = {',': ',', ';': ';', '\t': 'tab'}[table.by]
        if rng.random() < (0.25 if separator == ',' else 0.85):
            self.options['separator'] = separator
        elif rng.random() < 0.05:
            self.options['separator'] = rng.choice([',', ';', 'tab'])
        if self.command == 'filter' and rng.random() < (0.25 if width > 1 else 0.02):
            other = rng.choice([i for i in range(width) if i != place or rng.random() < 0.05] or [place])
            keep = titles[other] if by_name and titles[other] not in (b'', b'-') else b'#%d' % (other + 1)
            self.options['keep'] = rng.choices([keep, b'#%d' % (width + 1)], [30, 1])[0]

    def words(self, model, series):
        words = [self.command.encode(), model, series]
        for name, value in self.options.items():
            if name == 'heading':
                words.append(b'--heading' if value else b'--no-heading')
            else:
                words += [b'--' + name.encode(), value if isinstance(value, bytes) else value.encode()]
        return words


# ---- what the second reader says of it

class Wanted:
    """How the call has to end: in an error of the model or else of the series; in one of some refusals; in an answer."""

    def __init__(self, case):
        self.model = self.series = self.error = self.fault = None
        self.refusals, self.answer = set(), False
        try:
            self.model = reader.read_model(case.model)
            self.refusals = of_parameters(self.model)
        except reader.Error as error:
            self.error, self.fault = error, 'model'
            return
        except reader.Refused as refused:
            self.refusals = refused.numbers
            return
        try:
            self.series = reader.read(case.series, **case.options)
        except reader.Error as error:
            self.error, self.fault, self.refusals = error, 'series', set()
            return
        self.refusals |= of_series(self.model, self.series.readings)
        self.answer = not self.refusals
        if self.answer and wild(self.model, self.series.readings):
            self.refusals = {21, 22, 23}

    def __str__(self):
        if self.error:
            return f'{self.fault} {self.error}'
        kinds = [f'{len(self.series.readings)} readings'] if self.answer else []
        if self.refusals:
            kinds.append('refusal ' + ', '.join(map(str, sorted(self.refusals))))
        return ' or '.join(kinds)

    def kind(self):
        return 'errors' if self.error else 'answers' if self.answer else 'refusals'


def of_parameters(model):
    due, k = set(), model.regimes
    table = model.transition
    if not all(map(math.isfinite, model.means)):
        due.add(11)
    if model.order and not model.ar:
        due.add(17)
    if len(model.ar) not in (0, 1, k):
        due.add(12)
    if not all(0 <= x <= 1 + 1e-8 for row in table for x in row):
        due.add(13)
    if not all(abs(sum(row[j] for row in table) - 1) <= 1e-8 for j in range(k)):
        due.add(14)
    if not all(math.isfinite(x) for row in model.ar for x in row):
        due.add(15)
    if not all(math.isfinite(x) and x > 0 for x in model.variances):
        due.add(16)
    return due


def of_series(model, readings):
    due, rows = set(), len(readings) - model.order
    if rows <= 0:
        due.add(4)
    if len(readings) > 4096:
        due.add(5)
    if not all(map(math.isfinite, readings)):
        due.add(6)
    if rows * model.regimes ** (model.order + 1) + 256 > 393216:    # what filter and loglike need; the others are not called here
        due.add(7)
    return due


def wild(model, readings):
    """Whether the run itself may be refused (21 to 23): readings far from every regime, or regimes that are all but cut off."""
    far = max(map(abs, readings)) + max(map(abs, model.means))
    reach = 1 + max((sum(map(abs, row)) for row in model.ar), default=0)
    least = min(model.variances)
    return (not far * reach < 30 * math.sqrt(least) or least < 1e-9 or max(model.variances) > 1e9
            or min(x for row in model.transition for x in row) < 1e-6)


# ---- whether the call ended so

def differs(case, wanted, status, out, said, names):
    """What differs, or None. names: how the call named model and series."""
    last = said.rstrip(b'\n').split(b'\n')[-1]
    if status == 0:
        if not wanted.answer:
            return 'answered'
        return (filter_differs if case.command == 'filter' else loglike_differs)(wanted, out) or note_differs(wanted, said)
    if out:
        return f'ended with status {status}, and wrote {len(out)} bytes to standard output'
    if status == 1 and last.startswith(b'msar: error: '):
        if not wanted.error:
            return 'error'
        said_so = re.match(re.escape(b'msar: error: ' + names[wanted.fault]) + rb':\d+:\d+: ', last)
        return None if said_so else f'error, and not of the {wanted.fault}'
    found = re.match(rb'msar: refused (\d+): ', last)
    if status == 2 and found:
        return None if int(found[1]) in wanted.refusals else f'refused {int(found[1])}'
    return f'status {status} with another last line'


def bits(x):
    return struct.pack('>d', x)


def seventeen(text):
    """The number, where it has 17 digits as msar writes them."""
    return float(text) if re.fullmatch(rb'-?\d\.\d{16}e[+-]\d{3}', text) else None


def shown(cell):
    """How a kept cell stands in the table: as in the file, in quotes where it has a comma and no quotes."""
    return b'"' + cell.raw + b'"' if b',' in cell.raw and b'"' not in cell.raw else cell.raw


def filter_differs(wanted, out):
    model, series = wanted.model, wanted.series
    lines = out.split(b'\n')
    if lines.pop() != b'':
        return 'a last line that does not end'
    names = [b'reading', b'value'] + [b'p%d' % i for i in range(model.regimes)]
    if series.kept is not None:
        names.insert(1, b'kept' if series.kept_heading is None else shown(series.kept_heading))
    if not lines or lines[0] != b','.join(names):
        return 'other names in the first line'
    if len(lines) - 1 != len(series.readings) - model.order:
        return f'{len(lines) - 1} rows, and not {len(series.readings) - model.order}'
    for at, line in enumerate(lines[1:], model.order):
        front, *probabilities = line.rsplit(b',', model.regimes)
        front, _, value = front.rpartition(b',')
        value, *probabilities = [seventeen(text) for text in [value] + probabilities]
        if value is None or None in probabilities:
            return f'reading {at} with a number that has no 17 digits'
        if bits(value) != bits(series.readings[at]):
            return f'reading {at} is {value!r}, and not {series.readings[at]!r}'
        if front != (b'%d' % at if series.kept is None else b'%d,' % at + shown(series.kept[at])):
            return f'row {at} begins with {front!r}'
        if not all(0 <= p <= 1 + 1e-9 for p in probabilities) or abs(sum(probabilities) - 1) > 1e-9:
            return f'reading {at} with probabilities {probabilities}'
    return None


def loglike_differs(wanted, out):
    found = re.fullmatch(rb'readings,loglik\n(\d+),(\S+)\n', out)
    if not found or seventeen(found[2]) is None:
        return 'another table'
    return None if int(found[1]) == len(wanted.series.readings) else f'{int(found[1])} readings'


def note_differs(wanted, said):
    """msar says which column it read: its place, and its heading."""
    place, heading = wanted.series.place, wanted.series.heading
    if place is None:
        return None
    if not re.search(rb'(?<!\d)%d(?!\d)' % place, said):
        return f'place {place} is not said'
    if heading and re.fullmatch(rb'[ !#-~]{1,40}', heading) and heading not in said:
        return f'heading {heading!r} is not said'
    return None


# ---- all of them

def run(case, program, room):
    """Calls the program: status (None where it did not end), standard output, standard error, names of the files."""
    folder = os.path.join(room, str(case.number))
    os.makedirs(folder, exist_ok=True)
    paths = {'model': os.path.join(folder, 'model').encode(), 'series': os.path.join(folder, 'series').encode()}
    for name, data in (('model', case.model), ('series', case.series)):
        with open(paths[name], 'wb') as file:
            file.write(data)
    words = [os.fsencode(program)] + case.words(paths['model'], b'-' if case.input else paths['series'])
    with open(paths['series'] if case.input else os.devnull, 'rb') as given:
        process = subprocess.Popen(words, stdin=given, stdout=subprocess.PIPE, stderr=subprocess.PIPE, start_new_session=True)
        try:
            out, said = process.communicate(timeout=20)
            status = process.returncode
        except subprocess.TimeoutExpired:
            os.killpg(process.pid, signal.SIGKILL)
            out, said = process.communicate()
            status = None
    names = {'model': paths['model'], 'series': b'standard input' if case.input else paths['series']}
    return folder, words, status, out, said, names


def call(seed, number, program, room):
    """One call: what it ended in, what differs, where its files are, and whether the error's line is another."""
    case = Case(seed, number)
    wanted = Wanted(case)
    folder, words, status, out, said, names = run(case, program, room)
    what = 'did not end in 20 s' if status is None else differs(case, wanted, status, out, said, names)
    last = said.rstrip(b'\n').split(b'\n')[-1].decode('utf-8', 'backslashreplace')
    apart, found = None, re.search(r':(\d+):\d+: ', last)
    if what is None and wanted.error and int(found[1]) != wanted.error.line:
        apart = f'call {number}: {last} / {wanted.error}'
    if what is None:
        shutil.rmtree(folder)
    else:
        with open(os.path.join(folder, 'call'), 'w') as file:
            given = ' <' + os.path.join(folder, 'series') if case.input else ''
            file.write(shlex.join(os.fsdecode(word) for word in words) + given + '\n')
        with open(os.path.join(folder, 'wrote'), 'wb') as file:
            file.write(out)
        with open(os.path.join(folder, 'said'), 'wb') as file:
            file.write(said)
    kind = {0: 'answers', 1: 'errors', 2: 'refusals'}.get(status, 'others')
    text = what and (f'call {number}: {what}; reader: {wanted}\n    {", ".join(case.story)}\n    msar {case.command} '
                     + shlex.join(os.fsdecode(word) for word in words[4:]) + f'\n    {last}')
    return kind, text, apart


def dry(arguments, numbers):
    kinds, whys, stories = (collections.Counter() for _ in range(3))
    for number in numbers:
        case = Case(arguments.seed, number)
        case.words(b'model', b'series')
        wanted = Wanted(case)
        kinds[wanted.kind()] += 1
        stories.update((story, wanted.kind()) for story in set(case.story))
        if wanted.error:
            whys[f'{wanted.fault}: ' + re.sub(r'\d+', 'N', wanted.error.why)] += 1
        whys.update(f'refusal {refusal}' + ' possible' * wanted.answer for refusal in wanted.refusals)
    print('why:')
    for name, count in whys.most_common():
        print(f'  {count:6} {name}')
    print('damages: answers, errors, refusals')
    for story in sorted({story for story, _ in stories}):
        print('  %6d %6d %6d ' % tuple(stories[story, kind] for kind in ('answers', 'errors', 'refusals')) + story)
    print(f'damaged: {len(numbers)} files; wanted {kinds["answers"]} answers, {kinds["errors"]} errors, {kinds["refusals"]} refusals')
    return 0


def main():
    parser = argparse.ArgumentParser(description=__doc__.split('\n\n')[0])
    parser.add_argument('--count', type=int, default=10000)
    parser.add_argument('--seed', type=int, default=1)
    parser.add_argument('--program', default=os.path.join(os.path.dirname(os.path.abspath(__file__)), '../../bin/msar'))
    parser.add_argument('--only', type=int, help='the one call of this number')
    parser.add_argument('--dry', action='store_true', help='no calls: the generator and the second reader alone')
    arguments = parser.parse_args()
    numbers = range(arguments.count) if arguments.only is None else [arguments.only]
    if arguments.dry:
        return dry(arguments, numbers)

    resource.setrlimit(resource.RLIMIT_STACK, (8 << 20, resource.getrlimit(resource.RLIMIT_STACK)[1]))
    program, room = os.path.abspath(arguments.program), tempfile.mkdtemp(prefix='damaged-')
    kinds, count, apart = collections.Counter(), 0, []
    with concurrent.futures.ThreadPoolExecutor(2) as pool:
        for kind, text, line in pool.map(lambda number: call(arguments.seed, number, program, room), numbers):
            kinds[kind] += 1
            if line:
                apart.append(line)
            if text:
                count += 1
                print(text, flush=True)
    for line in apart[:5]:
        print('another line (no disagreement): ' + line)
    print(f'damaged: {sum(kinds.values())} files, {kinds["answers"]} answers, {kinds["errors"]} errors, '
          f'{kinds["refusals"]} refusals, {count} disagreements, {len(apart)} errors at another line' + (f'; files in {room}' if count else ''))
    if not count:
        shutil.rmtree(room)
    return 1 if count else 0


if __name__ == '__main__':
    sys.exit(main())
