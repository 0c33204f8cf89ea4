#!/usr/bin/env python3
"""Writes FOLDER/stdin, series and questions for crates/run_starts, and FOLDER/stdout, what start.py answers.

record.py [FOLDER [SEED]]: with no FOLDER the crate's own files. With a SEED the larger set, outside the gate: every recipe in
each of 9 shapes, and some of the longest series. crates/run_starts/src/main.rt says what the lines are.
"""

import os
import random
import struct
import sys

import start

HERE = os.path.dirname(os.path.abspath(__file__))


def bits(x):
    return '7ff8000000000000' if x != x else struct.pack('>d', x).hex()


def series(draw, count, k, digits):
    """A chain over k levels, with noise; rounded to so many digits, so that readings are equal where there are few."""
    level = 0
    out = []
    for _ in range(count):
        if draw.random() < 0.1:
            level = int(draw.random() * k)
        noise = draw.random() + draw.random() + draw.random() - 1.5
        out.append(round(1.7 * level - 3.0 + noise, digits))
    return out


def asked(kind, i, k, p, s, b):
    return '%04x%04x%02x%02x%02x%02x' % (kind, i, k, p, s, b)


def recipe(y, i, k, p, switching, blocks):
    transition, means, ar, variances = start.recipe(i, y, len(y), k, p, switching)
    return ''.join(bits(x) + ' ' for x in transition + means + ar * blocks + variances)


def said(holds):
    return 'yes' if holds else 'no'


class Record:
    def __init__(self):
        self.asked = []
        self.answers = []

    def put(self, y, questions):
        self.asked.append('%08x%08x' % (len(y), len(questions)))
        self.asked.extend(bits(x) for x in y)
        for question, answer in questions:
            self.asked.append(question)
            self.answers.append(answer)

    def recipes(self, y, numbers, k, p, switching, blocks):
        self.put(y, [(asked(0, i, k, p, switching, blocks), recipe(y, i, k, p, switching, blocks)) for i in numbers])

    def collapsed(self, variances, k):
        self.put(variances, [(asked(1, 0, k, 0, 0, 0), said(start.collapsed(variances, k)))])

    def better(self, new, old):
        flags = ((0, 0), (0, 1), (1, 0), (1, 1))
        self.put([new, old], [(asked(2, 0, 0, 0, s, b), said(start.better(new, s == 1, old, b == 1))) for s, b in flags])

    def choices(self):
        for variances in ([1.0], [0.0], [1.0, 0.001], [1.0, 0.00099], [0.00099, 1.0], [2.0, 0.002], [0.5, 0.3, 0.0004, 0.1]):
            self.collapsed(variances, len(variances))
        self.collapsed([1.0, 0.5, 0.0001], 2)
        for new, old in ((-10.0, -11.0), (-11.0, -10.0), (-10.0, -10.0), (float('inf'), -10.0)):
            self.better(new, old)

    def write(self, folder):
        for name, lines in (('stdin', self.asked), ('stdout', self.answers)):
            with open(os.path.join(folder, name), 'w') as f:
                f.write(''.join(line + '\n' for line in lines))


# readings, k, p, switching, blocks, digits
SMALL = ((24, 2, 0, 0, 1, 1), (40, 2, 1, 1, 1, 9), (36, 3, 2, 1, 3, 1), (33, 4, 1, 0, 4, 9), (48, 2, 7, 1, 2, 9))
LARGE = SMALL + ((150, 2, 1, 1, 2, 1), (400, 3, 1, 1, 1, 9), (300, 5, 2, 1, 5, 2), (240, 16, 1, 1, 16, 9))


def gate(record):
    draw = random.Random(20)
    for j, (count, k, p, s, b, digits) in enumerate(SMALL):
        # every recipe once, each shape a fifth of them; and the first 15 splits of each shape
        numbers = sorted(set(range(15)) | set(range(j, 120, 5)))
        record.recipes(series(draw, count, k, digits), numbers, k, p, s, b)
    y = [0.25 * t for t in range(16)]
    record.recipes(y, (0, 15, 30), 8, 0, 1, 1)
    record.choices()


def scale(record, seed):
    draw = random.Random(seed)
    for count, k, p, s, b, digits in LARGE:
        record.recipes(series(draw, count, k, digits), range(120), k, p, s, b)
        record.recipes(series(draw, 2 * k if 2 * k > p else p + 1, k, 1), range(120), k, p, s, b)
    record.recipes(series(draw, 4096, 2, 3), (0, 1, 2), 2, 1, 1, 2)
    record.recipes(series(draw, 4096, 16, 1), (0, 1, 17), 16, 1, 1, 16)
    record.choices()


def main():
    record = Record()
    if len(sys.argv) > 2:
        scale(record, int(sys.argv[2]))
    else:
        gate(record)
    record.write(sys.argv[1] if len(sys.argv) > 1 else os.path.join(HERE, '../../crates/run_starts'))


main()
