#!/usr/bin/env python3
"""Makes sample/driver.csv: a driver that begins to fail part way.

Level heard less level sent, in dB, once a show. Two regimes, order 1: sound, around 0 dB with variance 0.25; failing, around
-2.5 dB with variance 1; AR coefficient 0.4 on the reading before, less its regime's mean. Up to show 150 the regime is a
Markov chain that stays sound with probability 0.97 and failing with 0.5; from there on the driver fails for good. Seed 2026.
Usage: sample/make.py >sample/driver.csv
"""
import math

MEANS = (0.0, -2.5)
SPREADS = (0.5, 1.0)
STAYS = (0.97, 0.5)
AR = 0.4
SHOWS, FAILS = 240, 150


def uniform(seed):
    """The numbers of Lehmer's generator, as Park and Miller chose it, between 0 and 1."""
    while True:
        seed = seed * 16807 % 2147483647
        yield seed / 2147483647


def main():
    draws = uniform(2026)
    regime, before = 0, 0.0
    print("show,difference")
    for show in range(SHOWS):
        stays = next(draws) < STAYS[regime]
        regime = 1 if show >= FAILS else regime if stays else 1 - regime
        # Box and Muller's normal number
        normal = math.sqrt(-2 * math.log(next(draws))) * math.cos(2 * math.pi * next(draws))
        before = AR * before + SPREADS[regime] * normal
        print(f"{show},{MEANS[regime] + before:.2f}")


main()
