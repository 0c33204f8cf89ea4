#!/usr/bin/env python3
"""Lists the places that docs/DESIGN-PASS.md counts: file:line of each, by point and kind.

usage: tools/design_places.py [--count] [COMMIT] [POINT..]
       at the top of the repository; without COMMIT the work tree is read, without POINT all eight points are listed

A kind is found by the text alone, so what it finds is to be read: the page says of each place what became of it.
"""

import collections
import io
import itertools
import os
import re
import subprocess
import sys
import tarfile

# variants that say that nothing is there, or that something failed; an enum with one has the shape of Option or Result
NOTHING = set("Nothing Open Nowhere".split())
FAILED = set("Passed Failed Refused Wrong Fault Bad Solved End Stopped".split())
# flags that are facts by themselves: no value beside them hangs on them
FACTS = set("switching_ar switching_variance converged negative under rest as_reached doubtful headed for_fit rising Found.one Found.two Far.one Far.two".split())
# a comment that says which number stands for none, for all or for a failure; and constants and arms that are such a number
NONE = re.compile(
    r"//.*(?:\b(?:0|10|16|n|zero) where (?!it is a)|(?<![+-])\b(?:0|10|16) for\b|\b(?:else|or) 0\b|(?<!label )\b0 (?:stands for|of any other)|\bthe count of cells\b|more than there is room for|NO_SLOT|all n, or those)"
    r"|const (?:NO_SLOT|FULL): usize|::Bad => 0,"
)
# what a derive, a trait or a method of the library does, by the names that functions have for it here
BY_HAND = {
    "equality": r"same|same_\w+|spells|begins|is_start|is_fit|is_verdict|is_kind_of_\w+|has_heading|has_passed|passed|is_on_series|is_by_reading|needs_model|is_mark",
    "search": r"has|past_\w+|word_end|comment|comment_word|line_end|before_blanks|text_length|first_failing|named_from|first_that|first_strange|used|some|leading|closed|has_mark|is_tied|has_tie|is_moved|any_holds|zero_from|is_dashed|is_wide|mark",
    "copy": r"copy|copied|part|part_\d+|tidied_\d+|part_at|table_at|store|store_line|stored|with_row|with_block|exchange_parts|repeat|clear|start_of|first_of|put",
    "order": r"least|at_least|max|is_before|rank|rank_of|holder|allow|dropped",
    "conversion": r"one|one_if|flag|number_of|digit|digit_of|hex_of|is_digit|small|of_count|wide|magnitude|is_finite|entry|line_of|count_of|one_more",
}
# twins that were found by reading: they differ in a type, a size, a constant or one step, and in little else
TWINS = """
calls run_loglike run_filter run_smooth
density start; em_variances start
exp exp_up exp_down
linsolve exchange_parts less_part
msar_commands rows_of; msar_fit rows_of
msar_files one_line line_read bad
msar_fit picked copied
msar_fit transition blocks
msar_start followed left
msar_start of_all of_group
params means entries coefficients each_variance
run_replay plain held
text_decimal_write push_magnitude text_of; text_decimal_short push_magnitude text_of
text_decimal_grammar digit_of; text_words digit; run_hex digit
text_model regimes order
"""
# more than one call of what they have in common
STEPS = re.compile(r"\b(?:let|match|for|if|while)\b")
# by hand: with a loop or branches, or one comparison after another, and none of the library's methods
HAND = re.compile(r"\b(?:for|while|if|match)\b|as i32|x - x|\n\s*& ")
LIBRARY = re.compile(r"matches!|\.(?:iter(?:_mut)?|min|max|clamp|abs|starts_with|contains|position|copy_from_slice|fill|get|to_digit|first|is_ok|is_err|saturating_\w+)\(")
# functions with such a name that do something else
NOT_BY_HAND = {"prediction first_of", "rows store", "params passed", "text_series comment", "msar_say first_of", "c_layout copy", "msar_fit one_more", "msar_commands has_passed", "msar_commands passed", "text_decimal_read number_of", "msar_args number_of", "run_replay part"}


class Fn:
    def __init__(self, path, line, name, head, body):
        self.name, self.head, self.body = name, head, body
        self.crate = path.split("/")[1]
        self.path, self.line, self.place = path, line, f"{path}:{line} {name}"

    def params(self):
        m = re.search(r"\((.*?)\)(?: ->| *$| *\{|\n)", re.sub(r"\bimpl \([^)]*\)|&\([^)]*\)", "R", self.head), re.S)
        parts = re.split(r",\s*(?![^<\[(]*[>\])])", m[1]) if m else []
        return [re.sub(r"\s+", " ", p).strip() for p in parts if ":" in p]

    def clauses(self):
        return re.findall(r"(requires|ensures)(?: \w+)? \{(.*?)\}(?=\s*(?:requires|ensures|$|\{))", self.head, re.S)

    def requires(self):
        """The facts that are asked, apart at the × outside parentheses."""
        for word, c in self.clauses():
            for fact in re.split(r" × (?![^()]*\))", re.sub(r"\s+", " ", c).strip()) if word == "requires" else []:
                yield re.sub(r"^\((.*)\)$", r"\1", fact.strip())


def texts(commit):
    if commit:
        data = subprocess.run(["git", "archive", commit, "crates"], check=True, capture_output=True).stdout
        with tarfile.open(fileobj=io.BytesIO(data)) as t:
            for m in t:
                if m.isfile() and m.name.endswith((".rt", ".antt")):
                    yield m.name, t.extractfile(m).read().decode()
    else:
        for p in subprocess.run(["git", "ls-files", "crates"], check=True, capture_output=True, text=True).stdout.split():
            if p.endswith((".rt", ".antt")) and os.path.exists(p):
                with open(p, encoding="utf-8") as f:
                    yield p, f.read()


def functions(path, lines):
    i = 0
    while i < len(lines):
        m = re.match(r"( *)(?:pub(?:\(crate\))? )?(?:const )?(?:extern \"C\" )?fn (\w+)", lines[i])
        if not m or lines[i].rstrip().endswith(("{}", ";")):
            i += 1
            continue
        j = i
        while not (lines[j] == m[1] + "{" or lines[j].endswith(" {")):
            j += 1
        e = j
        while lines[e] != m[1] + "}":
            e += 1
        yield Fn(path, i + 1, m[2], "\n".join(lines[i : j + 1]), "\n".join(lines[j + 1 : e]))
        i = e + 1


def types(lines):
    """Each enum and struct with named parts: kind, name, line, parts as (line, name, type or None)."""
    for i, l in enumerate(lines):
        m = re.match(r"(?:pub(?:\(crate\))? )?(enum|struct) (\w+)[^;]*\{$", l)
        if m:
            parts = []
            for j in range(i + 1, len(lines)):
                if lines[j] == "}":
                    break
                p = re.match(r"    (?:pub(?:\(crate\))? )?(?:ghost )?(\w+)(?:: (.*?)|\((.*)\))?,$", lines[j])
                if p:
                    parts.append((j + 1, p[1], p[2] or p[3]))
            yield m[1], m[2], i + 1, parts


def block(lines, i):
    """The lines of the block that line i opens."""
    indent = re.match(r" *", lines[i])[0]
    j = i + 1
    while j < len(lines) and lines[j] != indent + "}":
        j += 1
    return lines[i + 1 : j]


def normal(fn):
    """A function's tokens with names, types and numbers by their first place: twins have the same."""
    names, out = {}, []
    text = re.sub(r"//.*", "", fn.head.split(" requires")[0].split(" ensures")[0] + "\n" + fn.body)
    for t in re.findall(r"b?\"(?:[^\"\\]|\\.)*\"|b?'(?:[^'\\]|\\.)+'|[A-Za-z_]\w*|\d[\w.]*|\S", text):
        if t in ("fn", "pub", "if", "else", "while", "for", "in", "let", "mut", "match", "return", "true", "false", "usize", "bool", "f64", "as"):
            out.append(t)
        elif re.match(r"[A-Za-z_\d\"']|b[\"']", t):
            out.append(names.setdefault(t, f"#{len(names)}"))
        else:
            out.append(t)
    return tuple(t for t in out if t != "pub")


def point_1(src):
    everything = "\n".join("\n".join(src[p]) for p in src)
    shaped = set()
    for p in src:
        for kind, name, line, parts in types(src[p]):
            variants = {v for _, v, _ in parts}
            if kind == "enum" and not re.search(rf"Result<[^;{{]*, {name}>", everything) and (variants & (NOTHING | FAILED) or name == "Kind" and "Other" in variants):
                yield "1 enum of the shape of Option or Result", f"{p}:{line} {name}"
                if variants & FAILED:
                    shaped.add(name)
    for p in src:
        for kind, name, _, parts in types(src[p]):
            for n, part, t in parts if kind == "struct" else []:
                if t == "bool" and not {part, f"{name}.{part}"} & FACTS or t in shaped or t and t.startswith("Result<()"):
                    yield "1 flag or check with values beside it", f"{p}:{n} {name}.{part}"
        for i, l in enumerate(src[p]):
            if NONE.search(l):
                yield "1 number for none, for all or for a failure", f"{p}:{i + 1}"
            m = re.match(r"( *).*\bmatch (?:which|words|number|kind|\w+\.number\(\)|field\(.*\)) \{$", l)
            if m and any(re.match(rf"{m[1]}    \d[\d.= |]*=>", b) for b in block(src[p], i)):
                yield "1 numbers for kinds: a match on them", f"{p}:{i + 1}"
            if re.search(r"(?:\bwhich|\brule|number\(\)|number_of\(\w+\)|if \(?number) (?:==|!=|>|<) [1-9]", l):
                yield "1 numbers for kinds: compared with one", f"{p}:{i + 1}"


def point_2(fns):
    groups = collections.defaultdict(list)
    for f in fns:
        tokens = normal(f)
        # what C links has each function of c_interface; a few tokens alone are no twin but under the same name
        if f.crate != "c_interface_c":
            groups[tokens if len(tokens) >= 34 else (f.name, tokens)].append(f)
    for g in groups.values():
        if len(g) > 1 and g[0].name not in ("main", "nothing"):
            yield "2 functions that are the same but for names, types and numbers", "; ".join(f.place for f in g)
    for group in TWINS.strip().split("\n"):
        there = [f.place for part in group.split("; ") for f in fns if f.crate == part.split()[0] and f.name in part.split()[1:] and STEPS.search(f.body)]
        if len(there) > 1:
            yield "2 twins found by reading", "; ".join(there)


def point_3(src):
    for p in src:
        for i, l in enumerate(src[p]):
            m = re.match(r"\s*(?:'\w+: )?while (.*) \{$", l)
            if m:
                yield "3 while", f"{p}:{i + 1} {m[1]}"
            m = re.match(r"\s*for ([a-z]\w*) in .*\.\..*\{$", l)
            if m:
                body, v = "\n".join(block(src[p], i)), m[1]
                wrote = re.search(rf"\w+\[[^\]]*\b{v}\b[^\]]*\] [-+*/]?= ", body)
                read = set(re.findall(rf"([\w.]+)\[{v}\]", body))
                if len(read) == 1 and not wrote:
                    yield "3 for over a range that reads one slice by index", f"{p}:{i + 1}"
                elif wrote or read:
                    yield "3x for over a range that writes by index, or reads more than one", f"{p}:{i + 1}"
                else:
                    yield "3y for over a range without an index of its own", f"{p}:{i + 1}"


def point_4(fns):
    for f in fns:
        for what, names in BY_HAND.items():
            if re.fullmatch(names, f.name) and f"{f.crate} {f.name}" not in NOT_BY_HAND and HAND.search(f.body) and not LIBRARY.search(f.body):
                yield f"4 by hand: {what}", f.place
        if len(re.findall(r"\bif \w+(?:::\w+)*\(\w+, b\"", f.body)) > 1:
            yield "4 a word looked up by comparisons one after another", f.place


def point_5(fns):
    facts = collections.defaultdict(set)
    for f in fns:
        for fact in f.requires() if "c_interface" not in f.crate else []:
            facts[f.crate, fact].add(f.place)
    for (crate, fact), where in sorted(facts.items()):
        if len(where) > 2:
            yield "5 fact that three functions of a crate or more ask", f"crates/{crate}: {fact}, {len(where)} functions"
    left = [(f, {p for p in f.params() if not p.startswith("rt: ")}) for f in fns if f.crate != "record" and "c_interface" not in f.crate]
    while True:
        # the group that saves most words if it becomes one value, then the next among what is left
        shared = {frozenset(a & b) for (_, a), (_, b) in itertools.combinations(left, 2) if len(a & b) > 2}
        best = max(shared, key=lambda s: ((len(s) - 1) * sum(s <= a for _, a in left), sorted(s)), default=None)
        if best is None:
            return
        who = [f for f, a in left if best <= a]
        if len(who) > 2:
            yield "5 three parameters or more that three functions or more take", f"{', '.join(sorted(best))}: {len(who)} functions of " + ", ".join(sorted({f.crate for f in who}))
        left = [(f, a - best if best <= a else a) for f, a in left]


def point_6(src, fns):
    for p in src:
        for kind, name, line, parts in types(src[p]):
            if kind == "struct" and any(t and t.startswith("[") for _, _, t in parts) and any(t == "usize" for _, _, t in parts):
                yield "6 array with a length beside it", f"{p}:{line} {name}"
        for i, l in enumerate(src[p]):
            if re.search(r"let \w+ = \w+\.start;$", l):
                yield "6 a part of a text as two places", f"{p}:{i + 1}"
    for f in fns:
        if re.search(r"out: &mut Text, (?:at|n): usize|out: &mut \[u8\], at: usize", f.head):
            yield "6 buffer and place handed on one by one", f.place
        if re.search(r"series: &mut \[f64\],\s*numbers: &mut \[u64\]|y: &\[f64\],(?:\s*\w+: [\w&]+,)*\s*numbers: &\[u64\]", f.head):
            yield "6 parallel arrays", f.place


def point_7(fns):
    for f in fns:
        for b in re.findall(r"(\w+): bool", f.head):
            if re.search(rf"\bif !?{b}\b", f.body) and b not in ("negative", "rest") and not re.fullmatch("flag|line|say|counted|count_of|one|one_if", f.name):
                yield "7 a flag that says which step to run", f"{f.place}, {b}"
        arms = collections.defaultdict(set)
        for called, values in re.findall(r"=> (?:\w+::)*([a-z]\w*)\((.*)\),$", f.body, re.M):
            arms[values].add(called)
        if any(len(v) > 2 for v in arms.values()):
            yield "7 a match whose arms run one step or another on the same values", f.place
        if re.search(r"\bmatch (?:which|words|number|\w+\.number\(\)|field\(.*\)) \{", f.body):
            yield "7 a number that says which step to run", f.place


def point_8(proofs):
    n = collections.Counter()
    for p, lines in proofs.items():
        k = os.path.basename(p) if os.path.basename(p) in ("Answers.antt", "Invariants.antt") else "lemma files"
        n["8 files: " + k] += 1
        n["8 lines: " + k] += len(lines) - 1
        if k == "Answers.antt":
            n["8 answers"] += sum(1 for l in lines if re.match(r"pub \S+ :", l))
    return n


def find(commit):
    """Each kind, with its places; of point 8 with how many there are."""
    src, proofs = {}, {}
    for p, t in sorted(texts(commit)):
        if re.match(r"crates/\w+/src/", p):
            src[p] = t.split("\n")
        elif re.match(r"crates/\w+/proofs/", p):
            proofs[p] = t.split("\n")
    fns = [f for p in src for f in functions(p, src[p])]
    found = collections.defaultdict(list)
    for kind, place in itertools.chain(point_1(src), point_2(fns), point_3(src), point_4(fns), point_5(fns), point_6(src, fns), point_7(fns)):
        found[kind].append(place)
    return dict(sorted(found.items())) | dict(sorted(point_8(proofs).items()))


def main(argv):
    count = "--count" in argv
    rest = [a for a in argv if a != "--count"]
    points = [a for a in rest if re.fullmatch(r"[1-8]", a)]
    commits = [a for a in rest if a not in points]
    for kind, places in find(commits[0] if commits else None).items():
        if points and kind[0] not in points:
            continue
        if isinstance(places, int):
            print(f"{kind}: {places}")
            continue
        print(f"{kind}: {len(places)}")
        if not count:
            for p in places:
                print("    " + p)


if __name__ == "__main__":
    main(sys.argv[1:])
