#!/usr/bin/env python3
# Lines for crates/run_decimals that are hard to shorten: ties.py COUNT SEED. A third each: whole numbers over powers of two, which lie exactly
# halfway for some count of digits; nines, which carry; digits that end in 5, next to a half and not on it.
import random, sys

count, seed = int(sys.argv[1]), int(sys.argv[2])
r = random.Random(seed)
for i in range(count):
    k = i % 3
    if k == 0:
        t = '%.17g' % (r.randrange(10 ** r.randrange(1, 10)) / 2 ** r.randrange(0, 13))
    elif k == 1:
        t = '%s%de%d' % ('9' * r.randrange(1, 17), r.randrange(10), r.randrange(-24, 8))
    else:
        t = '%d5e%d' % (r.randrange(10 ** r.randrange(1, 16)), r.randrange(-24, 8))
    print((r.choice(['', '-']) + t).ljust(95))
