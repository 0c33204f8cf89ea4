#!/usr/bin/env python3
# Lines for crates/run_decimals: values.py COUNT SEED. Each is a number that it takes, and spaces up to 95 bytes.
# A fifth each: bit patterns at random; %.17g of patterns at random; random digits, point and exponent; exact halfway decimals cut
# to 19 digits and moved by one; few digits near one.
import random, struct, sys
from decimal import Decimal, getcontext

getcontext().prec = 800
count, seed = int(sys.argv[1]), int(sys.argv[2])
r = random.Random(seed)


def float_of(b):
    return struct.unpack('>d', struct.pack('>Q', b))[0]


def pattern():
    b = r.getrandbits(64)
    if r.random() < 0.1:
        b = (b >> 63 << 63) | r.getrandbits(r.randrange(1, 53))  # subnormal
    return b


def finite():
    while True:
        b = pattern()
        if (b >> 52) & 0x7ff != 0x7ff:
            return b


def digits():
    n = r.randrange(1, 20)
    t = str(r.randrange(10 ** n))
    p = r.randrange(0, len(t) + 1)
    if r.random() < 0.2:
        t = t + '0' * r.randrange(0, 20)
    t = t[:p] + '.' + t[p:] if r.random() < 0.7 else t
    e = r.choice([r.randrange(-400, 401), r.randrange(-30, 31), r.randrange(-345, -300), r.randrange(280, 312)])
    return r.choice(['', '-', '+']) + t + r.choice(['e', 'E']) + r.choice(['%d' % e, '%+d' % e, '%+04d' % e])


def half():
    b = finite() & ~(1 << 63)
    x = (Decimal(float_of(b)) + Decimal(float_of(b + 1 if b + 1 < 0x7ff0000000000000 else b))) / 2
    s, d, e = x.as_tuple()
    d = list(d)
    k = len(d)
    m = int(''.join(map(str, d[:19])))
    e += max(k - 19, 0)
    m += r.choice([-1, 0, 0, 1])
    if m >= 10 ** 19:
        m = 10 ** 19 - 1
    return '%d.e%d' % (m, e) if abs(e) <= 400 else '0'


for i in range(count):
    k = i % 5
    if k == 0:
        t = '0x%016x' % pattern()
    elif k == 1:
        t = '%.17g' % float_of(finite())
    elif k == 2:
        t = digits()
    elif k == 3:
        t = half()
    else:
        t = '%.*f' % (r.randrange(0, 12), r.gauss(0, 10 ** r.randrange(0, 5)))
    print(t.ljust(95))
