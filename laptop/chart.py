#!/usr/bin/env python3
"""Draws what `msar filter` or `msar smooth` writes, as an SVG: the readings above, the regimes' probabilities below.

Usage: laptop/chart.py TABLE.csv CHART.svg [--verdict VERDICT.csv] [--names sound,failing]
                       [--value 'level heard less sent, dB'] [--title TEXT]

Behind the readings each stretch in which one regime is above one half is shaded in the tone of that regime. Up to four regimes
share one panel; more than four have a row each. The chart judges nothing: its title and the dashed line are what `msar verdict`
says. On an error it says one line, writes nothing and ends with status 1. It needs Python 3.8 or later and nothing beside it.
"""
import argparse
import csv
import io
import math
import os
import re
import shutil
import sys
import unicodedata
from html import escape
from typing import NamedTuple

# what is read: far above what msar writes, so that a wrong file ends in a message and not in memory
FILE_LIMIT, LINE_LIMIT = 16 << 20, 1 << 16
NUMBER = re.compile(r"[+-]?([0-9]+(\.[0-9]*)?|\.[0-9]+)([eE][+-]?[0-9]+)?")
WHOLE = re.compile(r"[0-9]{1,9}")
NO_NUMBER = re.compile(r"[+-]?(nan|inf|infinity)", re.IGNORECASE)
VERDICT = ["regime", "verdict", "since", "line", "readings", "needed", "probability"]
WORDS = ("settled", "not settled", "no")
FEWEST, MOST = 2, 16
# beyond [0, 1] by so much is rounding; `msar --digits 1` moves a probability by at most so much
SLACK, COARSEST = 1e-6, 0.05
LARGEST = 1e300

# what is drawn, in pixels
WIDTH, EDGE = 960, 20
ABOVE, SHARED, GAP = 230, 170, 22
LABELS = 20  # strip at the top of the upper panel, where the bands have their names and no reading is drawn
TITLE, SMALL, TINY = 19, 13, 11.5
NAME_ROOM, KEPT_ROOM = 200, 150
MOST_SHARED = 4  # more regimes than these would hide each other in one panel
MOST_MARKED = 40  # more readings than these need no marker each

# line and band of each regime, told apart by hue; for print without colour the bands take turns in four greys, and the lines that
# share a panel have dashes
LINES = ("#1f5f93", "#b0440c", "#6d4289", "#067662", "#665a02", "#a6426e", "#0d6228", "#4366b2",
         "#37641b", "#0c6f83", "#96313e", "#6a6c15", "#8b3c7a", "#067455", "#01598b", "#a74d39")
BANDS = ("#e4edf6", "#fadac0", "#dacde5", "#abcfc5", "#f6eed5", "#ffd0e0", "#b9d3ba", "#b5bad6",
         "#e5f2da", "#ade6f7", "#ecc2c2", "#bfbda1", "#ffe7f8", "#b8e7d2", "#b9cee9", "#d7b4aa")
DASHES = ("", "8 3", "2.5 2.5", "10 3 2.5 3")


class Unfit(Exception):
    """What was found, where, and what to do, in one line."""


class Table(NamedTuple):
    numbers: list  # of the readings
    values: list
    shares: list  # a row of probabilities for each reading
    kept: list  # a text for each reading, or nothing
    kept_name: str


class Judgment(NamedTuple):
    """A row of `msar verdict`."""
    regime: int
    word: str
    since: int
    readings: int
    needed: int


# reading files

def name_of(source):
    return "standard input" if source == "-" else source or '""'


def reason_of(fault):
    return getattr(fault, "strerror", None) or str(fault)


def shown(cell):
    """A cell as a message shows it."""
    return f'"{cell[:40]}{".." if len(cell) > 40 else ""}"'


def counted(count, what="reading"):
    return f"{count} {what}" + ("" if count == 1 else "s")


def content(source):
    try:
        if source == "-":
            if sys.stdin is None:
                raise Unfit("standard input is closed; give it a table, or name a file in place of -")
            data = sys.stdin.buffer.read(FILE_LIMIT + 1)
        else:
            with open(source, "rb") as file:
                data = file.read(FILE_LIMIT + 1)
    except (OSError, ValueError, AttributeError) as fault:
        raise Unfit(f"{name_of(source)} cannot be read: {reason_of(fault)}; name a file that msar wrote")
    if len(data) > FILE_LIMIT:
        raise Unfit(f"{name_of(source)} has more than {FILE_LIMIT >> 20} MiB, more than msar writes; name a file that msar wrote")
    return data


def cells_of(place, line, command):
    """A row ends on its line, as msar has it."""
    if len(line) > LINE_LIMIT:
        raise Unfit(f"{place}: a line of more than {LINE_LIMIT} bytes, more than msar writes; give what {command} writes")
    try:
        return next(csv.reader([line.decode("utf-8").rstrip("\r\n")], strict=True), [])
    except UnicodeDecodeError as fault:
        raise Unfit(f"{place}: byte {fault.start + 1} is not UTF-8; save the file as UTF-8")
    except csv.Error:
        raise Unfit(f"{place}: quotes or line ends that no row of a CSV file has; give what {command} writes")


def rows_of(source, command):
    """The heading, and each row: its place, for messages, and its cells."""
    data = content(source)
    data = (data[3:] if data.startswith(b"\xef\xbb\xbf") else data).rstrip()
    if not data:
        raise Unfit(f"{name_of(source)} is empty; give what {command} writes")
    number, expected = 0, None
    for number, line in enumerate(io.BytesIO(data), 1):
        place = f"{name_of(source)}:{number}"
        cells = cells_of(place, line, command)
        if expected is not None and len(cells) != expected:
            raise Unfit(f"{place}: {counted(len(cells), 'cell')}, where the heading has {expected}; give what {command} writes")
        expected = len(cells)
        yield place, cells
    if number == 1:
        raise Unfit(f"{name_of(source)}:1: a heading and no row under it; give what {command} writes")


def whole(place, column, cell):
    if not WHOLE.fullmatch(cell):
        raise Unfit(f"{place}: {column} is {shown(cell)}, which is no whole number below 1e9; give the file as msar wrote it")
    return int(cell)


def finite(place, column, cell, meaning):
    """The cell's number; `meaning` says what a number that is not finite makes of the table."""
    if NO_NUMBER.fullmatch(cell) or NUMBER.fullmatch(cell) and math.isinf(float(cell)):
        raise Unfit(f"{place}: {column} is {shown(cell)}: {meaning}")
    if not NUMBER.fullmatch(cell):
        raise Unfit(f"{place}: {column} is {shown(cell)}, which is no number; give the table as msar wrote it")
    return float(cell)


def value_of(place, cell):
    value = finite(place, "value", cell, "a reading is a finite number; mend the series and run msar again")
    if abs(value) > LARGEST:
        raise Unfit(f"{place}: value is {shown(cell)}, too large to draw; give the readings in another unit")
    return value


NO_PROBABILITIES = ("such a table holds no probabilities, as smooth --rule 1 may write at order 0; "
                    "leave out --rule 1, or draw what msar filter writes")


def shares_of(place, cells):
    """A row's probabilities, without what rounding left outside [0, 1]."""
    shares = [finite(place, f"p{j}", cell, NO_PROBABILITIES) for j, cell in enumerate(cells)]
    for j, share in enumerate(shares):
        if not -SLACK <= share <= 1 + SLACK:
            raise Unfit(f"{place}: p{j} is {shown(cells[j])}, outside 0 to 1: {NO_PROBABILITIES}")
    if abs(sum(shares) - 1) > COARSEST * len(shares) + SLACK:
        raise Unfit(f"{place}: p0 to p{len(shares) - 1} add up to {sum(shares):.6g}, not to 1: {NO_PROBABILITIES}")
    return [min(max(share, 0.0), 1.0) for share in shares]


def value_column(place, heading):
    """Where `value` stands: 1, or 2 behind a kept column, which may have any heading."""
    for column in (1, 2):
        regimes = len(heading) - column - 1
        if heading[:1] + heading[column:] == ["reading", "value"] + [f"p{j}" for j in range(regimes)]:
            if FEWEST <= regimes <= MOST:
                return column
            raise Unfit(f"{place}: {counted(regimes, 'regime')}, where msar has {FEWEST} to {MOST}; give what it writes")
    raise Unfit(f"{place}: the heading is {shown(','.join(heading))}, where reading,value,p0,p1,.. was expected, with one kept "
                "column behind reading or none; give what msar filter or msar smooth writes")


def read_table(source):
    rows = rows_of(source, "msar filter or msar smooth")
    place, heading = next(rows)
    column = value_column(place, heading)
    table = Table([], [], [], [], heading[1] if column == 2 else "")
    for place, cells in rows:
        number = whole(place, "reading", cells[0])
        if table.numbers and number != table.numbers[-1] + 1:
            raise Unfit(f"{place}: reading {number} behind reading {table.numbers[-1]}, so rows are missing or in another order; "
                        "give the table as msar wrote it")
        table.numbers.append(number)
        table.values.append(value_of(place, cells[column]))
        table.shares.append(shares_of(place, cells[column + 1:]))
        if column == 2:
            table.kept.append(cells[1])
    return table


def verdict_columns(place, heading):
    """The places of VERDICT's columns in a heading that may have a kept column too: behind `line`, or elsewhere."""
    every = range(len(heading))
    for kept in (None, 4, *every):
        places = [i for i in every if i != kept]
        if [heading[i] for i in places] == VERDICT:
            return places
    raise Unfit(f"{place}: the heading is {shown(','.join(heading))}, where {','.join(VERDICT)} was expected; "
                "give what msar verdict writes")


def judgment_of(place, cells, table):
    regime, word = whole(place, "regime", cells[0]), cells[1]
    first, last, regimes = table.numbers[0], table.numbers[-1], len(table.shares[0])
    same = "give table and verdict of one model and one series"
    if regime >= regimes:
        raise Unfit(f"{place}: regime {regime}, where the table has the regimes 0 to {regimes - 1}; {same}")
    if word not in WORDS:
        raise Unfit(f"{place}: verdict is {shown(word)}, which is none of {', '.join(WORDS)}; give what msar verdict writes")
    if word == "no":
        return Judgment(regime, word, last, 0, 0)
    since, readings, needed = (whole(place, VERDICT[i], cells[i]) for i in (2, 4, 5))
    if not first <= since <= last:
        raise Unfit(f"{place}: since is {since}, where the table has the readings {first} to {last}; {same}")
    if since + readings - 1 != last:
        raise Unfit(f"{place}: {counted(readings)} from {since} on, where the table has {last - since + 1}; {same}")
    return Judgment(regime, word, since, readings, needed)


def read_verdict(source, table):
    rows = rows_of(source, "msar verdict")
    places = verdict_columns(*next(rows))
    judgments = []
    for place, cells in rows:
        judgment = judgment_of(place, [cells[i] for i in places], table)
        if judgment.regime in (earlier.regime for earlier in judgments):
            raise Unfit(f"{place}: regime {judgment.regime} for the second time; give what msar verdict writes")
        if judgment.word != "no" and any(earlier.word != "no" for earlier in judgments):
            raise Unfit(f"{place}: a second regime above one half at the end; give what msar verdict writes")
        judgments.append(judgment)
    return judgments


# what the title says

def title_of(judgments, names):
    """The verdict in words, and the reading that it speaks of, if any."""
    for found in judgments:
        if found.word == "settled":
            end = f"settled ({counted(found.readings)}, {found.needed} needed)"
            return f"{names[found.regime]} since reading {found.since}: {end}", found.since
        if found.word == "not settled":
            end = f"not settled ({counted(found.readings)} of {found.needed})"
            return f"{names[found.regime]} since reading {found.since}: {end}", found.since
    if len(judgments) == len(names):
        return "No regime stands above one half at the end", None
    asked = ", ".join(names[judgment.regime] for judgment in judgments)
    return f"{asked}: not above one half at the end", None


def names_of(given, regimes):
    if given is None:
        return [f"regime {j}" for j in range(regimes)]
    names = [clean(name) for name in given.split(",")]
    if len(names) != regimes:
        raise Unfit(f"--names has {counted(len(names), 'name')}, where the table has {regimes} regimes; "
                    f"give {regimes} names with commas between")
    if not all(names) or len(set(names)) < regimes:
        raise Unfit(f"--names {shown(given)} has an empty name or one twice; give {regimes} names that differ")
    return names


# measuring and shortening text

def clean(text):
    """Text on one line that XML can hold."""
    return re.sub("[\x00-\x1f\x7f-\x9f\ud800-\udfff\ufffe\uffff]", "\ufffd", " ".join(text.split()))


def letter_width(letter):
    """At size 1: no less than in DejaVu Sans, the widest face that is taken for sans-serif."""
    if letter in "ijlI.,:;'| ":
        return 0.34
    if letter in "frt()[]-/\"!":
        return 0.46
    if letter in "mwMW@%":
        return 1.0
    if letter.isascii():
        return 0.65 if letter.isdigit() or letter.islower() else 0.84
    if unicodedata.combining(letter):
        return 0.0
    if unicodedata.east_asian_width(letter) in "WF":
        return 1.3
    return 0.95 if letter.islower() else 1.1


def width_of(text, size):
    return size * sum(map(letter_width, text))


def shorten(text, room, size):
    """The text, or its beginning and three dots where it is wider than the room."""
    text = text[:300]
    if width_of(text, size) <= room:
        return text
    used = width_of("…", size)
    for end, letter in enumerate(text):
        used += width_of(letter, size)
        if used > room:
            return text[:end].rstrip() + "…" if end else ""
    return text


def wrap(text, room, size, most):
    """The text's lines, at most so many; the last one shortened."""
    lines, words = [], text[:600].split(" ")
    while words and len(lines) < most - 1:
        end = 1
        while end < len(words) and width_of(" ".join(words[:end + 1]), size) <= room:
            end += 1
        lines.append(shorten(" ".join(words[:end]), room, size))
        words = words[end:]
    return lines + [shorten(" ".join(words), room, size)] if words else lines


# scales

def round_step(span, count):
    """The round number that parts the span into about so many steps, at most so many."""
    raw = span / count
    unit = 10.0 ** math.floor(math.log10(raw))
    return next((unit * m for m in (1, 2, 5) if unit * m >= raw), unit * 10)


def multiples(step, low, high):
    return [i * step for i in range(math.ceil(low / step - 1e-9), math.floor(high / step + 1e-9) + 1)]


def tick_label(x, step):
    decimals = max(0, -math.floor(math.log10(step) + 1e-9))
    plain = decimals <= 6 and abs(x) < 1e7
    return (f"{x:.{decimals}f}" if plain else f"{x:.10g}").replace("-", "−")


def value_range(values):
    """What the value axis spans: some room around readings that are all alike."""
    low, high = min(values), max(values)
    largest = max(abs(low), abs(high))
    if largest < 1 / LARGEST:
        return -1.0, 1.0
    if high - low <= 1e-6 * largest:
        return low - largest / 10, high + largest / 10
    return low, high


def runs(shares):
    """Each longest stretch of rows in which one regime is above one half: regime, first row, last row."""
    found = []
    for row, here in enumerate(shares):
        regime = max(range(len(here)), key=here.__getitem__)
        if here[regime] <= 0.5:
            continue
        if found and found[-1][0] == regime and found[-1][2] == row - 1:
            found[-1][2] = row
        else:
            found.append([regime, row, row])
    return found


# drawing

class Picture:
    """Where everything stands, and the parts drawn so far."""

    def __init__(self, table, names, title):
        self.table, self.names, self.parts = table, names, []
        self.runs = runs(table.shares)
        self.in_rows = len(names) > MOST_SHARED
        self.low, self.high = value_range(table.values)
        self.step = round_step(self.high - self.low, 7)
        self.place_columns()
        self.place_rows(title)

    def place_columns(self):
        labels = [tick_label(v, self.step) for v in multiples(self.step, self.low, self.high)]
        beside = max(width_of(label, SMALL) for label in labels + ["0.5"])
        if self.in_rows:
            beside = max(beside, max(min(width_of(name, SMALL), NAME_ROOM) for name in self.names))
        self.left = EDGE + beside + 8
        self.plot = WIDTH - EDGE - self.left
        self.cell = self.plot / len(self.table.numbers)

    def place_rows(self, title):
        self.title_lines = wrap(title, WIDTH - self.left - EDGE, TITLE * 1.1, 3)
        self.keys = [] if self.in_rows else self.key_rows()
        self.keys_top = 18 + 25 * len(self.title_lines)
        self.top = self.keys_top + 24 * len(self.keys) + (36 if self.keys else 28)
        self.lower = self.top + ABOVE + GAP + 18
        self.row = max(26, min(40, 240 // len(self.names))) if self.in_rows else SHARED
        self.bottom = self.lower + self.row * (len(self.names) if self.in_rows else 1)
        self.height = self.bottom + (46 if not self.table.kept else 62)

    def key_rows(self):
        """The keys of the legend as rows of (regime, x, name): as many in a row as fit."""
        rows, x = [[]], self.left
        for j, name in enumerate(self.names):
            name = shorten(name, self.plot - 50, SMALL)
            if rows[-1] and x + 42 + width_of(name, SMALL) > WIDTH - EDGE:
                rows.append([])
                x = self.left
            rows[-1].append((j, x, name))
            x += 42 + width_of(name, SMALL) + 22
        return rows

    def x(self, row):
        """The middle of a row's cell; row - 0.5 and row + 0.5 are its edges."""
        return self.left + self.cell * (row + 0.5)

    def above(self, value):
        first, last = self.top + LABELS + 8, self.top + ABOVE - 10
        return first + (last - first) * (self.high - value) / (self.high - self.low)

    def below(self, share, j):
        """In the one panel that all regimes share, or in row j."""
        if self.in_rows:
            return self.lower + self.row * (j + 1) - 5 - (self.row - 9) * share
        return self.lower + 9 + (self.row - 18) * (1 - share)

    def add(self, tag, text=None, **attributes):
        listed = ""
        for name, value in attributes.items():
            if value != "":
                shown_value = f"{value:.1f}" if isinstance(value, float) else value
                listed += f' {name.replace("_", "-")}="{shown_value}"'
        self.parts.append(f"<{tag}{listed}/>" if text is None else f"<{tag}{listed}>{escape(text)}</{tag}>")

    def text(self, x, y, text, size=SMALL, anchor="start", fill="#000", weight=""):
        self.add("text", text, x=float(x), y=float(y), font_size=size, text_anchor=anchor, fill=fill, font_weight=weight)

    def box(self, x, y, width, height, fill, stroke="", opacity=""):
        self.add("rect", x=float(x), y=float(y), width=float(width), height=float(height), fill=fill, stroke=stroke,
                 fill_opacity=opacity)

    def line(self, x1, y1, x2, y2, stroke, width=1, dash="", opacity=""):
        self.add("line", x1=float(x1), y1=float(y1), x2=float(x2), y2=float(y2), stroke=stroke, stroke_width=width,
                 stroke_dasharray=dash, stroke_opacity=opacity)

    def path(self, points, stroke, width, dash=""):
        """A line through the points; without those in the middle of a level stretch, which change nothing."""
        at = [(f"{x:.1f}", f"{y:.1f}") for x, y in points]
        kept = [at[i] for i in range(len(at)) if i in (0, len(at) - 1) or not at[i - 1][1] == at[i][1] == at[i + 1][1]]
        self.add("polyline", points=" ".join(map(",".join, kept)), fill="none", stroke=stroke, stroke_width=width,
                 stroke_linejoin="round", stroke_dasharray=dash)

    def marker(self, x, y, stroke, shape=0):
        """The first shape is full and small, the others are open and larger, so that none hides another."""
        if shape == 0:
            self.add("circle", cx=float(x), cy=float(y), r=3.0, fill=stroke)
            return
        r = 4.5
        corners = {1: ((-r, -r), (r, -r), (r, r), (-r, r)), 2: ((0, -r - 1), (r + 1, r), (-r - 1, r)),
                   3: ((0, -r - 2), (r + 2, 0), (0, r + 2), (-r - 2, 0))}[shape]
        self.add("polygon", points=" ".join(f"{x + dx:.1f},{y + dy:.1f}" for dx, dy in corners), fill="none", stroke=stroke,
                 stroke_width=1.3)


def draw_heads(p, value_name):
    for i, line in enumerate(p.title_lines):
        p.text(p.left, 36 + 25 * i, line, TITLE, weight="bold")
    note = "shaded: the regime above one half"
    p.text(WIDTH - EDGE, p.top - 8, note, TINY, "end", "#555")
    p.text(p.left, p.top - 8, shorten(clean(value_name), p.plot - width_of(note, TINY) - 20, SMALL))
    p.text(p.left, p.lower - 8, "probability of each regime" + (", 0 to 1 in its row" if p.in_rows else ""))


def draw_keys(p):
    for i, row in enumerate(p.keys):
        y = p.keys_top + 24 * i + 16
        for j, x, name in row:
            p.box(x, y - 9, 34, 18, BANDS[j])
            p.line(x, y, x + 34, y, LINES[j], 2, DASHES[j])
            if len(p.table.numbers) <= MOST_MARKED:
                p.marker(x + 17, y, LINES[j], j)
            p.text(x + 42, y + 4.5, name)


def draw_bands(p):
    for regime, first, last in p.runs:
        x, width = p.x(first - 0.5), p.cell * (last - first + 1)
        p.box(x, p.top, width, ABOVE, BANDS[regime])
        if p.in_rows:
            p.box(x, p.below(1, regime) - 2, width, p.below(0, regime) - p.below(1, regime) + 2, BANDS[regime])
        else:
            p.box(x, p.lower, width, p.row, BANDS[regime], opacity=0.5)
        name = p.names[regime]
        if width_of(name, TINY) + 8 <= width:
            p.text(x + width / 2, p.top + 15, name, TINY, "middle", "#333")
    for (_, begin, end), (_, first, last) in zip(p.runs, p.runs[1:]):
        # two bands of one grey may meet in print without colour; narrow ones would be lost under the line between
        if end + 1 == first and p.cell * min(first - begin, last - end) > 6:
            p.line(p.x(end + 0.5), p.top, p.x(end + 0.5), p.top + ABOVE, "#fff")


def draw_axes(p):
    right = WIDTH - EDGE
    for v in multiples(p.step, p.low, p.high):
        p.line(p.left, p.above(v), right, p.above(v), "#000", opacity=0.1)
        p.text(p.left - 8, p.above(v) + 4.5, tick_label(v, p.step), anchor="end")
    if p.in_rows:
        for j, name in enumerate(p.names):
            p.line(p.left, p.below(0.5, j), right, p.below(0.5, j), "#999", 0.7, "1 3")
            p.line(p.left, p.below(0, j), right, p.below(0, j), "#999", 0.7)
            # two long names may begin alike: a shortened one has its column's name in front
            label = name if width_of(name, SMALL) <= NAME_ROOM else shorten(f"p{j} {name}", NAME_ROOM, SMALL)
            p.text(p.left - 8, p.below(0.5, j) + 5, label, anchor="end")
    else:
        for share, label in ((0, "0"), (0.5, "0.5"), (1, "1")):
            y = p.below(share, 0)
            p.line(p.left, y, right, y, "#000", dash="1 3" if share == 0.5 else "", opacity=0.6 if share == 0.5 else 0.1)
            p.text(p.left - 8, y + 4.5, label, anchor="end")
    for top, bottom in ((p.top, p.top + ABOVE), (p.lower, p.bottom)):
        p.box(p.left, top, p.plot, bottom - top, "none", "#000")


def draw_label_row(p, y, labels, size, fill="#000"):
    """Labels around their places, inside the picture; one that would touch the one before is left out."""
    end = 0.0
    for x, label in labels:
        half = width_of(label, size) / 2
        x = min(max(x, 4 + half), WIDTH - 4 - half)
        if label and x - half >= end:
            p.text(x, y, label, size, "middle", fill)
            end = x + half + 8


def draw_reading_axis(p):
    kept = [clean(text[:100]) for text in p.table.kept]
    numbers = p.table.numbers
    widest = max([width_of(text, TINY) for text in kept] + [width_of(str(numbers[-1]), SMALL)])
    most = max(1, min(10, int(p.plot / (min(widest, KEPT_ROOM) + 18))))
    step = max(1, round(round_step(len(numbers), most)))
    ticks = [n - numbers[0] for n in range(-(-numbers[0] // step) * step, numbers[-1] + 1, step)] or [0]
    for row in ticks:
        p.line(p.x(row), p.bottom, p.x(row), p.bottom + 5, "#000")
    draw_label_row(p, p.bottom + 19, [(p.x(row), str(numbers[row])) for row in ticks], SMALL)
    if kept:
        between = max(p.cell * step, p.plot / most) - 12
        rooms = [min(between, 2 * (p.x(row) - 4), 2 * (WIDTH - 4 - p.x(row))) for row in ticks]
        labels = [(p.x(row), shorten(kept[row], room, TINY)) for row, room in zip(ticks, rooms)]
        draw_label_row(p, p.bottom + 35, labels, TINY, "#444")
    name = ", ".join(filter(None, ("reading", clean(p.table.kept_name))))
    p.text(p.left + p.plot / 2, p.height - 9, shorten(name, p.plot, SMALL), anchor="middle")


def draw_lines(p):
    rows = range(len(p.table.numbers))
    marked = len(rows) <= MOST_MARKED
    readings = [(p.x(i), p.above(p.table.values[i])) for i in rows]
    p.path(readings, "#000", 1.1 if len(rows) <= 1000 else 0.6)
    for x, y in readings if marked else []:
        p.marker(x, y, "#000")
    for j in range(len(p.names)):
        points = [(p.x(i), p.below(p.table.shares[i][j], j)) for i in rows]
        p.path(points, LINES[j], 1.4 if p.in_rows else 1.8, "" if p.in_rows else DASHES[j])
        for x, y in points if marked else []:
            p.marker(x, y, LINES[j], 0 if p.in_rows else j)


def draw_since(p, since):
    x = p.x(since - p.table.numbers[0])
    for top, bottom in ((p.top + LABELS, p.top + ABOVE), (p.lower, p.bottom)):
        p.line(x, top, x, bottom, "#000", 1.2, "4 3")


def draw(table, names, title, since, value_name):
    """The whole SVG as a text."""
    p = Picture(table, names, title)
    p.add("title", title)
    p.add("desc", f"Readings {table.numbers[0]} to {table.numbers[-1]} above, the probabilities of {len(names)} regimes below. "
                  "Shaded is the regime above one half.")
    p.box(0, 0, WIDTH, p.height, "#fff")
    draw_bands(p)
    draw_axes(p)
    draw_reading_axis(p)
    if since is not None:
        draw_since(p, since)
    draw_lines(p)
    draw_keys(p)
    draw_heads(p, value_name)
    size = f'width="{WIDTH}" height="{p.height}" viewBox="0 0 {WIDTH} {p.height}"'
    head = f'<svg xmlns="http://www.w3.org/2000/svg" {size} role="img" font-family="sans-serif">'
    return "\n".join([head] + p.parts + ["</svg>", ""])


# writing and the command line

def same_file(source, target):
    try:
        read = os.fstat(sys.stdin.fileno()) if source == "-" else os.stat(source)
        return os.path.samestat(read, os.stat(target))
    except (OSError, ValueError, AttributeError):
        return False  # one of the two does not exist, or is closed: whoever opens it says so


def check_target(target, sources):
    """What can be known before anything is read. A device or pipe must not be replaced by a file."""
    for source in sources:
        if same_file(source, target):
            raise Unfit(f"{target} is also read, as {name_of(source)}; name another file for the chart")
    if target == "-" or not os.path.basename(target) or os.path.exists(target) and not os.path.isfile(target):
        raise Unfit(f"{shown(target)} is no file that a chart can be written to; name a file")
    if os.path.exists(target) and not os.access(target, os.W_OK):
        raise Unfit(f"{target} cannot be written: it is read-only; name another file for the chart")


def write_whole(target, text):
    """All of it or nothing: into a new file beside the target, which then takes its place."""
    try:
        real = os.path.realpath(target)
        beside = os.path.join(os.path.dirname(real), f".chart-{os.getpid()}.tmp")
        with open(beside, "xb") as file:
            try:
                file.write(text.encode("utf-8"))
                file.close()
                if os.path.exists(real):
                    shutil.copymode(real, beside)
                os.replace(beside, real)
            except BaseException:
                os.unlink(beside)
                raise
    except (OSError, ValueError) as fault:
        raise Unfit(f"{target} cannot be written: {reason_of(fault)}; name a file in a folder that exists and can be written")


class Parser(argparse.ArgumentParser):
    def error(self, message):
        raise Unfit(f"{message}; --help says what can be given")


def parser():
    made = Parser(prog="laptop/chart.py", allow_abbrev=False,
                  description="Draws a table of msar filter or msar smooth as an SVG: the readings above, the regimes' "
                              "probabilities below; shaded, the regime above one half.",
                  epilog="On an error it says one line, writes nothing and ends with status 1.")
    made.add_argument("table", metavar="TABLE.csv", help="what msar filter or msar smooth wrote; - is standard input")
    made.add_argument("chart", metavar="CHART.svg", help="the file to write")
    made.add_argument("--verdict", metavar="VERDICT.csv", help="what msar verdict wrote: it gives the title and a dashed line")
    made.add_argument("--names", metavar="A,B,..", help="the regimes' names, in the order p0, p1, ..")
    made.add_argument("--value", metavar="TEXT", default="value", help="what a reading is, with its unit")
    made.add_argument("--title", metavar="TEXT", help="a title in place of the verdict")
    return made


def run(arguments):
    given = parser().parse_args(arguments)
    sources = [source for source in (given.table, given.verdict) if source is not None]
    if sources.count("-") > 1:
        raise Unfit("standard input cannot be both table and verdict; name a file for one of them")
    check_target(given.chart, sources)
    table = read_table(given.table)
    names = names_of(given.names, len(table.shares[0]))
    title, since = "Probability of each regime at each reading", None
    if given.verdict is not None:
        title, since = title_of(read_verdict(given.verdict, table), names)
    if given.title is not None:
        title = clean(given.title)
    write_whole(given.chart, draw(table, names, title, since, given.value))


def on_one_line(text):
    return "".join(c if c.isprintable() else c.encode("unicode_escape").decode() for c in text)


def main(arguments=None):
    try:
        run(arguments)
    except Unfit as fault:
        sys.exit(f"chart: error: {on_one_line(str(fault))}")
    except KeyboardInterrupt:
        sys.exit("chart: error: stopped; nothing was written")


if __name__ == "__main__":
    main()
