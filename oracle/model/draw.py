"""Writes cases for the oracle and the candidate: draw.py calls|fits SEED COUNT > cases"""
import random
import sys

import fits
import gen
from protocol import MODEL_CALLS, RULES

DRAWN = {'calls': ('', gen.cases), 'fits': ('fit-', fits.cases)}

if __name__ == '__main__':
    prefix, draw = DRAWN[sys.argv[1]]
    r = random.Random(int(sys.argv[2]))
    for i, c in enumerate(draw(r, int(sys.argv[3]))):
        c.id = '%s%s-%d' % (prefix, c.id, i)
        if c.memory is None:
            gen.lend(r, c)
        if c.rule is None and c.call in MODEL_CALLS:
            c.rule = r.choice(RULES)
        sys.stdout.write(c.text())
