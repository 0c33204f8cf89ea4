#!/usr/bin/env python3
"""A second reader of msar's files, written from the words of docs/MODEL.md alone; tests/msar/damaged.py holds msar to it.

read(data, column, heading, separator, keep) gives a Series or raises Error; read_model(data) gives a Model, raises Error, or
raises Refused where the sizes are none that msar takes. A file is bytes; so are column and keep. heading is True
(--heading), False (--no-heading) or None; separator is ',', ';', 'tab' or None.

    python3 tests/msar/reader.py --selftest
"""
import math
import re
import struct
import sys
from typing import NamedTuple, Optional

BLANKS = b' \t\r'
MARK = b'\xef\xbb\xbf'
LOST = (b'#n/a', b'#num!', b'#div/0!', b'#ref!', b'#value!', b'#name?', b'#null!')      # what spreadsheets write
MISSING = (b'', b'na', b'n/a', b'nan', b'inf', b'null', b'none', b'-', b'?') + LOST
SEPARATORS = {None: b',', ',': b',', ';': b';', 'tab': b'\t'}


class Error(Exception):
    def __init__(self, line, why):
        super().__init__(f'line {line}: {why}')
        self.line, self.why = line, why


class Refused(Exception):
    """The sizes of a model: which refusals fit."""
    def __init__(self, numbers):
        super().__init__(f'refused {sorted(numbers)}')
        self.numbers = numbers


class Cell(NamedTuple):
    text: bytes         # without the blanks around it and its quotes
    raw: bytes          # as it stands in the file, without the blanks around it


class Series(NamedTuple):
    readings: list
    lines: list                     # the line of each reading, from 1
    place: Optional[int]            # of the column, from 1
    heading: Optional[bytes]
    kept: Optional[list]            # Cells
    kept_heading: Optional[Cell]


class Model(NamedTuple):
    regimes: int
    order: int
    transition: list
    means: list
    ar: list            # a row for each line
    variances: list


# ---- numbers

def number(text):
    """The nearest binary64, or None where the text is no number."""
    if re.fullmatch(rb'0x[0-9a-fA-F]{16}', text):
        return struct.unpack('>d', bytes.fromhex(text[2:].decode()))[0]
    if re.fullmatch(rb'[+-]?(inf|nan)', text):
        return float(text)
    found = re.fullmatch(rb'[+-]?([0-9]*)\.?([0-9]*)([eE]([+-]?[0-9]+))?', text)
    if not found:
        return None
    digits, exponent = found[1] + found[2], found[4]
    if not digits or len(digits.strip(b'0')) > 19 or abs(int(exponent or 0)) > 400:
        return None
    return float(text)


# ---- lines

def lines(data):
    """The lines of a file with their numbers, from 1; a last line break begins no further line."""
    parts = data.split(b'\n')
    if not parts[-1]:
        parts.pop()
    for at, line in enumerate(parts, 1):
        if len(line) > 4096:
            raise Error(at, 'a line of more than 4096 bytes')
        yield at, line.removeprefix(MARK) if at == 1 else line


def words(line):
    return [word for word in re.split(rb'[ \t\r]+', line) if word]


# ---- SERIES

def read(data, column=None, heading=None, separator=None, keep=None):
    return read_plain(data) if column is None else read_cells(data, column, heading, separator, keep)


def read_plain(data):
    readings, places, blank = [], [], None
    for at, line in lines(data):
        text, sign, comment = line.partition(b'#')
        found = words(text)
        if not found:
            if not sign:
                blank = blank or at
            elif words(sign + comment)[0].lower() in LOST:
                raise Error(at, 'a comment that is a cell without a value')
            continue
        value = number(found[0])
        if value is None:
            raise Error(at, 'no number')
        if len(found) > 1:
            raise Error(at, 'more than one number')
        if blank:
            raise Error(blank, 'a blank line before a reading')
        readings.append(value)
        places.append(at)
    return Series(readings, places, None, None, None, None)


def can_keep(at, raw):
    if len(raw) > 63:
        raise Error(at, 'more than 63 bytes to keep')
    if b'"' in raw and len(cells(at, raw, b',')) > 1:
        raise Error(at, 'quotes, and a comma outside them')


def read_cells(data, column, heading, separator, keep):
    readings, places, kept, blank, by = [], [], [], None, SEPARATORS[separator]
    first, titles, place, other, cut = None, None, None, None, True
    for at, line in lines(data):
        if not line.strip(BLANKS.replace(by, b'')):
            blank = blank or at
            continue
        if first is None and separator is None and re.search(rb'[;\t]', line):
            raise Error(at, 'another separator in the first line')
        row = cells(at, line, by)
        if first is None:
            first = row
            if is_heading(at, row, heading):
                titles = [cell.text for cell in row]
            place = find(at, column, titles, len(row))
            if titles and heading is None and by_place(column):
                if titles[place].lower() in MISSING or any(re.match(rb'[0-9+.\xe2-]', title) for title in titles):
                    raise Error(at, 'a heading that may be a damaged row')
            if keep is not None:
                other = find(at, keep, titles, len(row))
                can_keep(at, row[other].raw)
            if titles:
                continue
        if len(row) != len(first):
            raise Error(at, f'{len(row)} cells, and {len(first)} in the first line')
        value = number(row[place].text)
        if value is None:
            raise Error(at, 'no number in the column')
        if blank:
            raise Error(blank, 'a blank line before a reading')
        if keep is not None:
            can_keep(at, row[other].raw)
            kept.append(row[other])
        readings.append(value)
        places.append(at)
        cut = cut and cut_in_two(row, place)
    if readings and not titles and separator is None and cut:
        raise Error(places[0], 'perhaps a number that a comma cuts in two')
    return Series(readings, places, None if first is None else place + 1, titles and titles[place],
                  None if keep is None else kept, first[other] if titles and keep is not None else None)


def cells(at, line, by):
    """The cells of a row: each quote opens or closes, and a separator parts the cells where none is open."""
    row, start, closed, blanks = [], 0, True, BLANKS.replace(by, b'')
    for here in range(len(line) + 1):
        byte = line[here:here + 1]
        if byte == b'"':
            closed = not closed
        elif closed and byte in (by, b''):
            raw = line[start:here].strip(blanks)
            quoted = len(raw) > 1 and raw.startswith(b'"') and raw.endswith(b'"')
            row.append(Cell(raw[1:-1] if quoted else raw, raw))
            start = here + 1
    if not closed:
        raise Error(at, 'a quote that is not closed')
    return row


def is_heading(at, row, heading):
    if heading is not None:
        return heading
    numbers = sum(number(cell.text) is not None for cell in row)
    if 0 < numbers < len(row):
        raise Error(at, 'a first line with numbers and other cells')
    return not numbers


def by_place(name):
    return re.fullmatch(rb'#([0-9]+)', name)


def find(at, name, titles, count):
    """The place, from 0, of the column that --column or --keep names."""
    found = [i for i, title in enumerate(titles or []) if title == name]
    if not by_place(name):
        if len(found) != 1:
            raise Error(at, f'{len(found)} columns of that name')
        return found[0]
    place = int(by_place(name)[1]) - 1
    if not 0 <= place < count:
        raise Error(at, 'no such column')
    if set(found) - {place}:
        raise Error(at, 'another column is headed so')
    return place


def cut_in_two(row, place):
    """Whether the reading and a cell beside it could be one number with a comma."""
    def could(one, two):
        return re.fullmatch(rb'[+-]?[0-9]+', one) and re.fullmatch(rb'([0-9]+|[0-9]{3}\.[0-9]*)([eE][+-]?[0-9]+)?', two)
    texts = [cell.text for cell in row[max(place - 1, 0):place + 2]]
    return any(map(could, texts, texts[1:]))


# ---- MODEL

def read_model(data):
    sizes, tables, at = {}, {'transition': [], 'means': [], 'ar': [], 'variances': []}, 0
    for at, line in lines(data):
        found = words(line.partition(b'#')[0])
        if not found:
            continue
        key, rest = found[0].decode('latin-1'), found[1:]
        if key in ('regimes', 'order'):
            if key in sizes:
                raise Error(at, f'a second line {key}')
            if len(rest) != 1 or not re.fullmatch(rb'0*[0-9]{1,9}', rest[0]):
                raise Error(at, 'no whole number below 10^9')
            sizes[key] = int(rest[0])
        elif key in tables:
            if len(sizes) < 2:
                raise Error(at, 'numbers before the sizes')
            k, p = sizes['regimes'], sizes['order']
            if sizes_refused(k, p):
                raise Refused(sizes_refused(k, p))
            if len(rest) not in {'transition': [k], 'means': [k], 'ar': [p], 'variances': [1, k]}[key]:
                raise Error(at, f'{len(rest)} numbers on a line {key}')
            tables[key].append([number(word) for word in rest])
            if None in tables[key][-1]:
                raise Error(at, 'no number')
            if len(tables[key]) > (k if key in ('transition', 'ar') else 1):
                raise Error(at, f'too many lines {key}')
        else:
            raise Error(at, 'no keyword')
    if len(sizes) < 2:
        raise Error(at + 1, 'regimes or order lacks')
    k, p = sizes['regimes'], sizes['order']
    for key, wanted in (('transition', k), ('means', 1), ('variances', 1)):
        if len(tables[key]) != wanted:
            raise Error(at + 1, f'{len(tables[key])} lines {key}')
    return Model(k, p, tables['transition'], tables['means'][0], tables['ar'], tables['variances'][0])


def sizes_refused(k, p):
    """Which of the refusals 1, 2, 3 the sizes call for."""
    return ({1} if k < 2 else set()) | ({2} if k > 256 or k > 1 and (p > 7 or k ** (p + 1) > 256) else set()) \
        | ({3} if k > 16 else set())


# ---- files with known answers

def selftest():
    bits = lambda x: struct.pack('>d', x)
    fails = 0

    def same(what, given, wanted):
        nonlocal fails
        if given != wanted:
            fails += 1
            print(f'{what}: {given!r}, and not {wanted!r}')

    for text, wanted in {
        '3': 3.0, '-0.25': -0.25, '1e-8': 1e-8, '+7': 7.0, '-0': -0.0, '0.1': 0.1, '9.4999999999999996e-001': 0.95,
        '.5': 0.5, '-.5': -0.5, '5.': 5.0, '5.e1': 50.0, '1E5': 1e5, '1E+05': 1e5, '1e-00000400': 0.0, '0e400': 0.0,
        'inf': math.inf, '+inf': math.inf, '-inf': -math.inf, '1e400': math.inf, '1e-400': 0.0,
        '0x3ff0000000000000': 1.0, '0xBFE0000000000000': -0.5,
        '0.00012345678901234567890': 0.0001234567890123456789, '1' + '0' * 300: 1e300, '000.000': 0.0,
        '12345678901234567890': 12345678901234567890.0, '123456789.0123456789': 123456789.0123456789,
        '9007199254740993': 9007199254740992.0,
    }.items():
        value = number(text.encode())
        same(text, value is not None and bits(value), bits(wanted))
    for text in ('nan', '+nan', '-nan', '0x7ff8000000000000'):
        same(text, math.isnan(number(text.encode())), True)
    for text in ('', '.', '-', '+', '-.', '.e5', 'e5', '1e', '1e+', '1e401', '1e-401', '12345678901234567891',
                 '1.0000000000000000001', '1,5', '--1', '+-1', '1 2', 'Inf', 'NaN', 'NAN', 'infinity', '0x3ff',
                 '-0x3ff0000000000000', '0X3ff0000000000000', '0x1p3', '1_0', '1.2.3', '..5', '−1', '１', '0.5dB', '\xa01',
                 '1\0', '1e5.0', '1f', '½'):
        same(text, number(text.encode()), None)

    def outcome(data, **options):
        data = data if isinstance(data, bytes) else data.encode()
        options = {key: value.encode() if key in ('column', 'keep') else value for key, value in options.items()}
        try:
            got = read(data, **options)
        except Error as error:
            return f'error {error.line}'
        return got.readings if got.kept is None else list(zip(got.readings, [cell.text for cell in got.kept]))

    for data, wanted in (
        ('1\n2\n3\n', [1, 2, 3]), ('1\r\n2\r\n', [1, 2]), ('\ufeff1\n2', [1, 2]), ('', []), ('\n\n', []), ('\ufeff', []),
        ('# a\n1 # b\n# c\n2#d\n\n# e\n \t\n', [1, 2]), ('\n# a\n', []),
        ('1\n\n2\n', 'error 2'), ('\n1\n', 'error 1'), ('# a\n\n1\n', 'error 2'), ('1\n \n# x\n2\n', 'error 2'),
        ('1\n2 3\n', 'error 2'), ('1\n2,5\n', 'error 2'), ('1\nNA\n', 'error 2'), ('1\r2\r3\r', 'error 1'),
        ('1\n#N/A\n2\n', 'error 2'), ('1\n#n/a\n', 'error 2'), ('1\n #Ref! x\r\n', 'error 2'), ('#DIV/0!\r\n1\n', 'error 1'),
        ('1\n# N/A\n2\n', [1, 2]), ('1\n#N/Abc\n2\n', [1, 2]), ('1\n#VALUE!,1\n2\n', [1, 2]), ('1\n2 #DIV/0!\n', [1, 2]),
        ('1\n2\0\n', 'error 2'), ('1\v\n', 'error 1'), ('1\n\ufeff2\n', 'error 2'), ('"1"\n', 'error 1'),
        ('1\n#' + 'x' * 4095 + '\n2\n', [1, 2]), ('1\n#' + 'x' * 4096 + '\n2\n', 'error 2'),
        ('1\n#' + 'x' * 4095 + '\r\n2\n', 'error 2'), ('\ufeff#' + 'x' * 4092 + '\n2\n', [2]),
        ('\ufeff#' + 'x' * 4093 + '\n2\n', 'error 1'), ('1\n' + ' ' * 4097, 'error 2'),
        ('1\n2\n'.encode('utf-16'), 'error 1'), ('1\n# \0\xff\n2\n', [1, 2]),
    ):
        same(data[:30], outcome(data), wanted)

    table = 'show,difference\n0,0.37\n1,-0.38\n'
    quoted = '\ufeffminute,"level, sent",heard\r\n0, "80" ,79.5\r\n1,81,79.25\r\n\r\n'
    for data, options, wanted in (
        (table, dict(column='difference'), [0.37, -0.38]), (table, dict(column='#2'), [0.37, -0.38]),
        (table, dict(column='#1'), [0, 1]), (table, dict(column='#3'), 'error 1'), (table, dict(column='#0'), 'error 1'),
        (table, dict(column='Difference'), 'error 1'), (table, dict(column='#2', heading=False), 'error 1'),
        (table, dict(column='difference', keep='show'), [(0.37, b'0'), (-0.38, b'1')]),
        (table, dict(column='difference', heading=True), [0.37, -0.38]), (table, dict(column='#2', separator=';'), 'error 1'),
        (quoted, dict(column='level, sent'), [80, 81]),
        (quoted, dict(column='heard', keep='#2'), [(79.5, b'80'), (79.25, b'81')]),
        ('time,1,2,3\n0,5,6,7\n', dict(column='2'), 'error 1'), ('time,1,2,3\n0,5,6,7\n', dict(column='2', heading=True), [6]),
        ('time,1,2,3\n0,5,6,7\n', dict(column='#2', heading=True), [5]),
        ('1,2,3\n5,6,7\n', dict(column='2', heading=True), [6]),
        ('1;2.5\n2;3.5\n', dict(column='#2', separator=';'), [2.5, 3.5]), ('1;2.5\n2;3.5\n', dict(column='#2'), 'error 1'),
        ('a,"b;c"\n1,2\n', dict(column='a'), 'error 1'), ('a,b\t\n1,2\n', dict(column='a'), 'error 1'),
        ('a,"b;c"\n1,2\n', dict(column='a', separator=','), [1]), ('a,b\n1,x;y\n', dict(column='a'), [1]),
        ('a\tb\n1\t\n', dict(column='a', separator='tab'), [1]),
        ('a\tb\n1\t\t\n', dict(column='a', separator='tab'), 'error 2'),
        ('a\tb\n1\t2\n\t\n', dict(column='a', separator='tab'), 'error 3'),
        ('a\tb\n1\t2\n \r\n', dict(column='a', separator='tab'), [1]), ('a;b\n1;2\n\t\n', dict(column='a', separator=';'), [1]),
        ('a,b\n1,2,3\n', dict(column='a'), 'error 2'), ('a,b\n1\n', dict(column='a'), 'error 2'),
        ('a,b\n1,\n', dict(column='a'), [1]), ('a,b\n,1\n', dict(column='a'), 'error 2'),
        ('a,a\n1,2\n', dict(column='a'), 'error 1'), ('a,a\n1,2\n', dict(column='#2'), [2]),
        ('a,#1\n1,2\n', dict(column='#1'), 'error 1'), ('#1,a\n1,2\n', dict(column='#1'), [1]),
        ('#1,#1\n1,2\n', dict(column='#1'), 'error 1'), ('#2,a\n1,2\n', dict(column='#1'), [1]),
        ('a,#x\n1,2\n', dict(column='#x'), [2]), ('N/A\n1\n', dict(column='#1', heading=False), 'error 1'),
        # a heading that may be a damaged row
        ('NA,na\n1,2.5\n', dict(column='#1'), 'error 1'), ('NA,na\n1,2.5\n', dict(column='#1', heading=True), [1]),
        (',a\n1,2\n', dict(column='#2'), [2]), (',a\n1,2\n', dict(column='#1'), 'error 1'),
        ('NA,x\n1,2\n', dict(column='NA'), [1]), ('NA,x\n1,2\n', dict(column='#2'), [2]),
        ('#Num!,x\n1,2\n', dict(column='#1'), 'error 1'), ('""\n1\n', dict(column='#1'), 'error 1'),
        ('2024-01-01,x\n1,2\n', dict(column='#2'), 'error 1'), ('2024-01-01,x\n1,2\n', dict(column='x'), [2]),
        ('2024-01-01,x\n1,2\n', dict(column='#2', heading=True), [2]), ('0.37 dB\n1\n', dict(column='#1'), 'error 1'),
        ('"-x"\n1\n', dict(column='#1'), 'error 1'), ('+x\n1\n', dict(column='#1'), 'error 1'),
        ('.x\n1\n', dict(column='#1'), 'error 1'), ('\u22120.5\n1\n', dict(column='#1'), 'error 1'),
        ('x1\n1\n', dict(column='#1'), [1]), ('\u0394\n1\n', dict(column='#1'), [1]),
        ('a,,b\n1,x,2\n', dict(column='#1', keep='#2'), [(1, b'x')]),
        ('a,NA,b\n1,x,2\n', dict(column='b', keep='#2'), [(2, b'x')]),
        # a number that a comma cuts in two
        ('0,37\n1,38\n', dict(column='#1'), 'error 1'), ('0,37\n1,38\n', dict(column='#2'), 'error 1'),
        ('0,37\n-1,38\n', dict(column='#2'), 'error 1'), ('0,37\n1,-38\n', dict(column='#2'), [37, -38]),
        ('0,37\n1,38.5\n', dict(column='#2'), [37, 38.5]), ('0,37\n1,138.5\n', dict(column='#2'), 'error 1'),
        ('1,234.5\n', dict(column='#1'), 'error 1'), ('1,234.\n', dict(column='#1'), 'error 1'),
        ('1,2345.5\n', dict(column='#1'), [1]), ('1,37e2\n2,5E-1\n', dict(column='#2'), 'error 1'),
        ('1,37.5e2\n', dict(column='#2'), [3750]), ('1.5,37\n', dict(column='#1'), [1.5]),
        ('1,2,x\n2,3,x\n', dict(column='#3', heading=False), 'error 1'), ('1.5,2,3\n2,3,4.5\n', dict(column='#2'), 'error 1'),
        ('0,37\n', dict(column='#2', separator=','), [37]), ('0,37\n', dict(column='#1', heading=False), 'error 1'),
        ('0,37\n1,38\n', dict(column='37', heading=True), [38]), ('a,b\n0,37\n', dict(column='b'), [37]),
        # blank lines
        ('a,b\n\n0,37\n', dict(column='b'), 'error 2'), ('\na,b\n0,37\n', dict(column='b'), 'error 1'),
        ('a,b\n0,37\n\n \r\n', dict(column='b'), [37]), ('a,b\n0,37\n,\n', dict(column='b'), 'error 3'),
        ('', dict(column='#1'), []), (' \n\n', dict(column='a'), []), ('a,b\n', dict(column='a'), []),
        # quotes
        ('a,b\n0,"3\n', dict(column='a'), 'error 2'), ('a,b\n0,"1,5"\n', dict(column='a'), [0]),
        ('a,b\n0,"1,5"\n', dict(column='b'), 'error 2'), ('a,b\n" 5 ",1\n', dict(column='a'), 'error 2'),
        ('a,b\n0,x"1,5"y\n', dict(column='a', keep='b'), [(0, b'x"1,5"y')]),
        ('a,b\n0,"1,5" y\n', dict(column='a', keep='b'), [(0, b'"1,5" y')]),
        ('a,b\n0,"1"",""5"\n', dict(column='a', keep='b'), [(0, b'1"",""5')]),
        ('a,b\n0,"x"",5\n', dict(column='a'), 'error 2'), ('"a "" b",c\n1,2\n', dict(column='a "" b'), [1]),
        ('a,b\n""5"",1\n', dict(column='a'), 'error 2'), ('a,b\n1,""\n', dict(column='a', keep='b'), [(1, b'')]),
        ('a,b\n1,2\n#N/A,3\n', dict(column='a'), 'error 3'), ('a,b\n1,2\n#c,3\n', dict(column='b'), [2, 3]),
        ('# a\na,b\n1,2\n', dict(column='a'), 'error 1'),
        ('a,b\n1,nan\n', dict(column='a'), [1]), ('nan,1.5\n1,2.5\n', dict(column='#2'), [1.5, 2.5]),
        ('1.5\n2.5\n', dict(column='#1'), [1.5, 2.5]), ('1\n2\n', dict(column='#1'), [1, 2]),
        ('a,b\n1,' + 'x' * 63 + '\n', dict(column='a', keep='b'), [(1, b'x' * 63)]),
        ('a,b\n1,' + 'x' * 64 + '\n', dict(column='a', keep='b'), 'error 2'),
        ('a,b\n1,' + 'x' * 64 + '\n', dict(column='a'), [1]),
        ('a,b\n1, "' + 'x' * 61 + '" \n', dict(column='a', keep='b'), [(1, b'x' * 61)]),
        ('a,b\n1,"' + 'x' * 62 + '"\n', dict(column='a', keep='b'), 'error 2'),
        ('a,b\n1,2\n', dict(column='a', keep='c'), 'error 1'), ('1,2.5\n', dict(column='#1', keep='#2'), [(1, b'2.5')]),
        ('a,b\n1,2\n', dict(column='a', keep='a'), [(1, b'1')]),
    ):
        same(f'{data[:40]!r} {options}', outcome(data, **options), wanted)

    got = read(b'a,"b, c"\n1.5,2\n', column=b'b, c', keep=b'#1')
    same('place and heading', (got.place, got.heading, got.lines, got.kept_heading.text), (2, b'b, c', [2], b'a'))
    got = read(b'1.5,2\n', column=b'#1', keep=b'#2')
    same('no heading', (got.place, got.heading, got.lines, got.kept_heading), (1, None, [1], None))

    good = ('# a driver\nregimes 2\norder 1\ntransition 0.95 0.10 # x\ntransition 0.05 0.90\n'
            'means 0 -3\nar 0.5\nvariances 0.25 1\n')

    def model(data):
        try:
            return tuple(read_model(data.encode()))
        except Error as error:
            return f'error {error.line}'
        except Refused as refused:
            return f'refused {sorted(refused.numbers)}'

    read_so = (2, 1, [[0.95, 0.1], [0.05, 0.9]], [0, -3], [[0.5]], [0.25, 1])
    same('model', model(good), read_so)
    for old, new, wanted in (
        ('\n', '\r\n', read_so), ('# a', '\ufeff# a', read_so), ('regimes 2\norder 1', 'order\t1\n\nregimes 2', read_so),
        ('ar 0.5', 'ar 0.5#', read_so), ('regimes 2', 'regimes 0000000000002', read_so), ('order 1', 'order 01', read_so),
        ('ar 0.5', 'ar 0.5 0.5', 'error 7'), ('order 1', 'order 8', 'refused [2]'), ('order 1', 'order -1', 'error 3'),
        ('order 1', 'order +1', 'error 3'), ('order 1', 'order 1000000000', 'error 3'), ('order 1', 'order 1.', 'error 3'),
        ('regimes 2', 'regimes 1', 'refused [1]'), ('regimes 2', 'regimes two', 'error 2'), ('regimes 2', 'regimes', 'error 2'),
        ('order 1', 'order 8\nx', 'error 4'), ('means 0 -3', 'means 0', 'error 6'),
        ('means', 'mean', 'error 6'), ('means 0 -3\n', '', 'error 8'), ('transition 0.05 0.90\n', '', 'error 8'),
        ('-3', '-3x', 'error 6'), ('variances 0.25 1', 'variances 1', read_so[:5] + ([1],)),
        ('variances 0.25 1', 'variances', 'error 8'), ('ar 0.5', 'means 0 1', 'error 7'), ('order 1\n', '', 'error 3'),
        (good, '', 'error 1'), ('ar 0.5\n', '', read_so[:4] + ([], [0.25, 1])),
        ('ar 0.5', 'ar 0.5\nar 1', read_so[:4] + ([[0.5], [1]], [0.25, 1])),
        ('ar 0.5', 'ar 0.5\nar 1\nar 2', 'error 9'), ('order 1', 'order 0', 'error 7'),
        ('-3', 'nan -3', 'error 6'), ('# a', '\0', 'error 1'), ('# a', '#' + 'x' * 4096, 'error 1'),
    ):
        same(f'model with {new[:20]!r} for {old[:20]!r}', model(good.replace(old, new)), wanted)
    same('sizes alone', model('regimes 1\norder 1\n'), 'error 3')
    same('order 0', model('regimes 2\norder 0\ntransition 1 0\ntransition 0 1\nmeans 0 1\nvariances 1\n')[4], [])
    three = 'regimes 3\norder 0\n' + 'transition 1 0 0\n' * 3 + 'means 0 1 2\nar\nar\nvariances 1\n'
    same('two lines of three', model(three)[4], [[], []])
    same('17 regimes', model('order 0\nregimes 17\nmeans x\nx\n'), 'refused [3]')
    print('reader: ' + (f'{fails} answers differ' if fails else 'all as known'))
    return 1 if fails else 0


if __name__ == '__main__':
    sys.exit(selftest() if sys.argv[1:] == ['--selftest'] else print(__doc__))
