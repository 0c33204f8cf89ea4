#!/usr/bin/env python3
"""Brings the repository's own definitions and lemmas to today's spelling: words in snake case.

usage: tools/port_names.py          at the top, once, right after port.py has run

What is renamed is what specs/ and the lemma files of proofs/ declare: a name in lower camel case (patternOf) or with dashes
(fill-join) gets underscores (pattern_of, fill_join). Types, modules and constructors keep theirs, and so do the names of Rust's
functions, the strings, and what Rattle makes (behind `tie.`). Every .antt file below crates/ is turned, of .rt files the clauses
and ghost items, of must-fail/ the texts of definitions, and the names that documents write between backticks.
A name whose new spelling is taken is printed and gets the one of TAKEN.
"""

import glob
import os
import re
import sys

# lemmas that would have the name of a definition: today's rule is an ending _lem
FALL = """bound-check digit-of exact-total fill-at filter-need filtered-table fraction-digit hi-top in-units lagged-at least-from
matches-spec means-by not-below pattern-at pattern-of phis-of precision-in residual-in rule-of run-answer run-check sample-variance
side-added smooth-need smoothed-table solve-or-keep solved-shares square-at step-at table-need time-of units-at units-text
variances-by weight-at windows-of new-ar new-means new-transition new-variances of-whole is-nan to-bits table-at units_of""".split()
TAKEN = {n: re.sub("-", "_", n) + "_lem" for n in FALL}
# a lemma of one file that port.py had spelled as a definition now is
IN_FILE = {"crates/promises/proofs/Filtered.antt": {"first_to": "first_to_lem"}}
# the records whose fields are named for Rust's functions: there a field has its function's name
FIELDS = {f"crates/promises/{f}.antt" for f in ("specs/EntryPoints", "specs/BetweenCrates", "proofs/EntryPoints", "proofs/OneOutcome")}

NAME = r"[^\s(){};,@.:\"«»\[\]`|\\]+"
DECL = re.compile(rf"^( *)((?:abbrev |unfoldable |pub |opaque )*)({NAME})(?: \{{[^{{}}\n]*\}})* :(?= )", re.M)


def spelled(name):
    words = re.sub(r"(?<=[a-z0-9₀-₉])[A-Z]+", lambda m: "_" + m[0].lower(), name)
    return re.sub(r"(?<=.)-(?=.)", "_", words)


def sources():
    specs = sorted(glob.glob("crates/*/specs/**/*.antt", recursive=True))
    lemmas = sorted(glob.glob("crates/*/proofs/*.antt"))
    walks = sorted(glob.glob("crates/*/proofs/*/**/*.antt", recursive=True))
    code = sorted(glob.glob("crates/*/src/**/*.rt", recursive=True))
    return specs, lemmas, walks, code


def read(p):
    with open(p, encoding="utf-8") as f:
        return f.read()


def write(p, t):
    if read(p) != t:
        with open(p, "w", encoding="utf-8") as f:
            f.write(t)


def declared(files):
    names = set()
    for p in files:
        for m in DECL.finditer(re.sub(r"--.*", "", read(p))):
            n = m[3]
            if n[0].isupper() or n[0] in "-◌" or "◌" in n:
                continue
            if "-" in n or re.search(r"[a-z0-9₀-₉][A-Z]", n):
                names.add(n)
    return names


TOKEN = re.compile(rf"(?<![^\s(){{}};,@.:\"«»\[\]`|\\])({NAME})")


def tokens(t):
    return {m[1] for m in TOKEN.finditer(t)}


def turn(t, table, dotted=True):
    def one(m):
        n = m[1]
        if n not in table:
            return n
        before = t[: m.start()]
        if before.endswith("tie.") or before.endswith("Tie."):
            return n
        return table[n]

    return TOKEN.sub(one, t)


CLAUSE = re.compile(r"(?ms)^ghost use .*?;|^\s*(?:requires|ensures|also_owns|ghost|decreases)\b[^{;]*\{.*?\}\s*$")


def main():
    specs, lemmas, walks, code = sources()
    names = declared(specs + lemmas)
    table = {n: TAKEN.get(n, spelled(n)) for n in sorted(names | set(TAKEN))}
    table = {a: b for a, b in table.items() if a != b}
    bad = 0
    back = {}
    for a, b in table.items():
        if b in back and a not in TAKEN:
            print(f"fall together: {a}, {back[b]} -> {b}")
            bad += 1
        back[b] = a
    for p in specs + lemmas + walks + code:
        have = tokens(re.sub(r"--.*", "", read(p)) if p.endswith(".antt") else read(p))
        for a, b in table.items():
            if a in have and b in have:
                print(f"taken: {p}: {a} -> {b}")
                bad += 1
    if "--look" in sys.argv:
        print(len(table), "names,", bad, "to look at")
        return 0
    for p in specs + lemmas + walks:
        own = {a: spelled(a) for a in table} if p in FIELDS else table
        write(p, turn(read(p), own | IN_FILE.get(p, {})))
    for p in code:
        write(p, turn(read(p), {a: b for a, b in table.items() if "-" not in a}))
    for p in sorted(glob.glob("crates/*/must-fail/*.edit")):
        write(p, turn(read(p), {a: b for a, b in table.items() if "-" not in a}))
    print(len(table), "names")
    return 0


raise SystemExit(main())
