#!/usr/bin/env python3
"""Turns proofs by hand of an older Rattle (Proof.antt, a list of needs handed to tie.spec) into Invariants.antt and Answers.antt.

usage: tools/port_proofs.py CRATE [FUNCTION ..]     at the top; the crates below CRATE must be proved

In the crate's folder `rt check --generated DIR --old-names` says each goal's old and new name. A need that was answered by a plain
search is left to the check. What can't be told is left as it stands, and rt check says so.
"""

import json
import os
import re
import shutil
import subprocess
import sys
import tempfile


def norm(n):
    return n.replace("-", "_").lower()


def blocks(text):
    """Top-level blocks of a file: lists of lines that begin at a line with no indent, with the comments above them."""
    out, cur = [], []
    for line in text.split("\n"):
        if not line.strip():
            if cur:
                out.append(cur)
                cur = []
            continue
        cur.append(line)
    if cur:
        out.append(cur)
    # a block that begins indented belongs to the one before it
    joined = []
    for b in out:
        if b[0].startswith(" ") and joined:
            joined[-1] += [""] + b
        else:
            joined.append(b)
    return joined


def arguments(text):
    """The arguments of an application written as text: words and parenthesized groups."""
    args, depth, cur = [], 0, ""
    for ch in text:
        if ch in "([{":
            depth += 1
        if ch in ")]}":
            depth -= 1
        if ch.isspace() and depth == 0:
            if cur:
                args.append(cur)
            cur = ""
        else:
            cur += ch
    if cur:
        args.append(cur)
    return args


class Names:
    def __init__(self, it, crate, func):
        self.it = it
        self.callee = {}
        clauses_of(crate)
        self.params = PARAMS[crate].get(func.split(".")[-1], [])
        self.own = clauses_of(crate).get(func.split(".")[-1], ([], []))
        self.needs = it["needs"]
        self.place = {}
        self.field = {}
        self.arm = {}
        self.named = set()
        by = it["places_by_name"]
        for i, (old, parent, (fo, fn), callee, _subs) in enumerate(it["places"]):
            if callee:
                self.callee[norm(fo)] = callee
            # the last place of an arm has the arm's own name
            arm_of = it["arms"][i]
            self.place[norm(old)] = re.sub(r"^(In-[A-Za-z].*?)-\d+$", r"\1", by[i]) if arm_of and "In-" + arm_of[0][3:] == re.sub(r"-\d+$", "", by[i]) else by[i]
            # what Rattle numbers is its own name for a local, and no proof cites it
            if fo and not re.fullmatch(re.escape(fo) + r"-\d+", fn):
                self.field.setdefault(norm(fo), fn)
        for a in it["arms"]:
            if not a:
                continue
            arm, _n, fields = a
            for new, old, path in fields:
                if path:
                    self.arm[(norm(old), ".".join(path))] = f"{arm}.{new}"
        for loop in it["loops"]:
            (old, new), _vars = loop
            self.field[norm(old)] = new
            self.field[norm(old) + "_test"] = new + "-test"

    def fields(self, text):
        def arm(m):
            key = (norm(m[1]), m[2].lstrip("."))
            if key in self.arm:
                return "." + self.arm[key]
            # the longest path that is known
            parts = key[1].split(".")
            for n in range(len(parts), 0, -1):
                k = (key[0], ".".join(parts[:n]))
                if k in self.arm:
                    rest = "".join("." + p for p in parts[n:])
                    return "." + self.arm[k] + rest
            return m[0]

        text = re.sub(r"\.([A-Za-z_][\w-]*)\.((?:given)(?:\.\d+)+)", arm, text)
        text = re.sub(r"\.taken\b", ".true", text)
        text = re.sub(r"\.args\.t(\d+)\b", lambda m: ".args." + (self.params[int(m[1]) - 1] if int(m[1]) <= len(self.params) else "t" + m[1]), text)
        text = re.sub(r"\.((?:if|loop-test|loop_test|[\w-]*-test)[\w-]*)\.left\b(?!-)", r".\1.false", text)
        text = re.sub(r"\.inv\b(?!-)", ".invariant", text)
        text = re.sub(r"\.pre\b(?!-)", ".requires", text)
        text = re.sub(r"\.good\b(?!-)", ".well_formed", text)
        text = re.sub(r"\.well-formed\b", ".well_formed", text)

        def one(m):
            n = m[1]
            key = norm(n)
            if key not in self.field and key.endswith("_lem"):
                key = key[:-4]
            return "." + self.field.get(key, n)

        def ensured(m):
            callee = self.callee.get(norm(m[1])) or self.callee.get(norm(m[1]).removesuffix("_lem"))
            if not callee:
                return m[0]
            crate, _, rest = callee.partition("::")
            req, ens = clauses_of(crate).get(rest.split("::")[-1], ([], []))
            return "." + m[1] + ".ensures" + named(m[2], ens)

        # a local for all that is required, or that a call ensures
        for m in list(re.finditer(r"\blet (\w[\w-]*) = ([\w.-]*?)\.(requires|ensures) in\s", text)):
            names = self.own[0]
            if m[3] == "ensures":
                callee = self.callee.get(norm(m[2].split(".")[-1])) or self.callee.get(norm(m[2].split(".")[-1]).removesuffix("_lem"))
                if not callee:
                    continue
                crate, _, rest = callee.partition("::")
                names = clauses_of(crate).get(rest.split("::")[-1], ([], []))[1]
            word = rf"(?<![\w.-]){re.escape(m[1])}((?:\.\d+)+)"
            text = text[: m.end()] + re.sub(word, lambda x: m[1] + named(x[1], names), text[m.end():])
        # what a call left in the memory that it was lent
        def left(m):
            callee = self.callee.get(norm(m[1])) or self.callee.get(norm(m[1]).removesuffix("_lem"))
            if not callee:
                return m[0]
            crate, _, rest = callee.partition("::")
            clauses_of(crate)
            params = PARAMS[crate].get(rest.split("::")[-1], [])
            n = m[2].count("1")
            return f".{m[1]}.new.{params[n]}" if n < len(params) else m[0]

        text = re.sub(r"\.([A-Za-z_][\w-]*)\.new((?:\.1)*)\.0", left, text)
        text = re.sub(r"\.([A-Za-z_][\w-]*)\.ensures((?:\.\d+)*)", ensured, text)
        text = re.sub(r"\.requires((?:\.\d+)+)", lambda m: ".requires" + named(m[1], self.own[0]), text)
        text = re.sub(r"(?<=[\w)])\.([A-Za-z_][\w-]*)", one, text)
        # fields of earlier places can be named where they are wanted
        text = re.sub(r"(?:\.before)+(?=\.(?!before\b)[a-z])", "", text)
        return text

    def types(self, text):
        def one(m):
            name = self.place.get(norm(m[1]), m[1])
            self.named.add(name)
            return name

        # `if !f(..)` gives the fact of f itself
        text = re.sub(r"\(not-(?:true|false) _ ([\w.-]+)\)", r"@\1", text)
        text = re.sub(r"\bnot-(?:true|false) _ (?=\w[\w-]*\.)", "@", text)
        # and where the fact of its negation is wanted, that is one step away
        text = re.sub(r"(?<![@\w.-])(\w[\w.-]*\.if-not-[\w-]+\.(?:true|false))", r"(ap not \1)", text)
        text = text.replace("@", "")
        return re.sub(r"\btie\.([A-Z][\w-]*)((?: (?:invariant|decreases)-[\w-]+)*)", one, text)


CLAUSES = {}
PARAMS = {}


def clauses_of(crate):
    """For each function of a crate, by its last name: the names of its requires and of its ensures."""
    if crate in CLAUSES:
        return CLAUSES[crate]
    out = {}
    PARAMS[crate] = {}
    import glob

    for p in sorted(glob.glob(f"crates/{crate}/src/**/*.rt", recursive=True)):
        with open(p, encoding="utf-8") as f:
            text = f.read()
        for m in re.finditer(r"\bfn (\w+)\s*(?:<[^>]*>)?\(", text):
            rest = text[m.end():]
            stop = re.search(r"\n *\{\n|\n\s*\}|\) *(?:-> [^\n{]*)?\{\n", rest)
            head = rest[: stop.start() if stop else 2000]
            PARAMS.setdefault(crate, {}).setdefault(m[1], re.findall(r"(?:^|,)\s*(?:mut )?(\w+)(?: *:|(?=[,)]))", re.split(r"\)\s*(?:->|\n|\{)", rest)[0] + ")"))
            req = re.findall(r"(?m)^\s*requires(?: (\w+))? \{", head)
            ens = re.findall(r"(?m)^\s*ensures(?: (\w+))? \{", head)
            out.setdefault(m[1], (req, ens))
    CLAUSES[crate] = out
    return out


def named(path, names):
    """`.1.0.x` of nested pairs to the clause's name, where there are several clauses."""
    if len(names) < 2 or not all(names):
        return path
    parts = path.lstrip(".").split(".") if path else []
    i = 0
    while parts and i < len(names) - 1:
        if parts[0] == "0":
            return "." + names[i] + "".join("." + p for p in parts[1:])
        if parts[0] != "1":
            return path
        parts = parts[1:]
        i += 1
    if i == len(names) - 1:
        return "." + names[i] + "".join("." + p for p in parts)
    return path


def nested(text, n):
    """The n parts of a nested pair (a, (b, c)), or None."""
    text = text.strip()
    if not (text.startswith("(") and text.endswith(")")):
        return None
    depth, parts, cur = 0, [], ""
    for i, ch in enumerate(text[1:-1]):
        if ch in "([{":
            depth += 1
        if ch in ")]}":
            depth -= 1
            if depth < 0:
                return None
        if ch == "," and depth == 0:
            parts.append(cur.strip())
            cur = ""
        else:
            cur += ch
    if cur.strip():
        parts.append(cur.strip())
    if len(parts) == n:
        return parts
    if len(parts) == 2 and n > 2:
        rest = nested(parts[1], n - 1)
        return [parts[0]] + rest if rest else None
    return None


def recorded(clause, names):
    """An answer's clause whose value is a nested pair, as a record of named parts."""
    if len(names) < 2 or not all(names):
        return clause
    depth, last = 0, None
    for i, ch in enumerate(clause):
        if ch in "([{":
            if depth == 0:
                last = i
            depth += 1
        if ch in ")]}":
            depth -= 1
    if last is None:
        return clause
    before, value = clause[:last], clause[last:].rstrip()
    if not re.search(r"(=|\bin|\.)\s*$", before):
        return clause
    parts = nested(value, len(names))
    if not parts:
        return clause
    return before + "record { " + "; ".join(f"{n} = {p}" for n, p in zip(names, parts)) + " }"


def live(names, body_args, index):
    """What stands for each parameter of an invariant."""
    _pair, variables = names.it["loops"][index]
    changed = names.it["changed"][index]
    out = {}
    n = len(variables)
    head, tail = body_args[:n], body_args[n:]
    moving = [v for v, c in zip(variables, changed) if c]
    for a, v, c in zip(head, variables, changed):
        out[a] = f"l.initial.{v}" if c else f"l.{v}"
    for a, v in zip(tail, moving):
        out[a] = f"l.{v}"
    return out if len(tail) == len(moving) and len(head) == n else None


def substitute(text, table):
    def one(m):
        return table.get(m[1], m[1])

    return re.sub(r"(?<![^\s(){},;:@\"«»\[\]λ])([^\s(){},.;:@\"«»\[\]]+)", one, text)


# an expression for a place: a variable, with the places before it
PLACE = r"(\w[\w-]*)((?:\.before)*)(?![\w.-])"


def projections(text):
    """The names of definitions that only lead to an earlier place, and the text without them."""
    found = set()
    while True:
        hit = None
        for m in re.finditer(
            r"(?m)^( *)(?:abbrev )?(\S+) : ((?:\(\w+ : tie\.[^()]*\) → |tie\.[A-Z][^→\n]* → )?)tie\.(?!Need)[A-Z][^→\n]*\n(?:\1\2((?: \w+)?) =\s+([^\n]*)\n)",
            text,
        ):
            body = m[5].strip()
            inner = body
            for n in found:
                inner = re.sub(rf"(?<![\w.-]){re.escape(n)} ", "", inner)
            inner = inner.replace("(", "").replace(")", "")
            if re.fullmatch(r"\w[\w-]*(?:\.before)*", inner) and (inner.split(".")[0] in (m[4].strip() or "c", "c") or inner.split(".")[0] in found):
                hit = m
                break
        if not hit:
            return found, text
        found.add(hit[2])
        text = text[: hit.start()] + text[hit.end():]
        text = re.sub(r"\n{3,}", "\n\n", text)


def collapsed(text, root, found):
    """The text with each expression for a place as its root variable alone."""
    word = lambda n: rf"(?<![\w.-]){re.escape(n)}(?![\w-])"
    r = re.escape(root)
    while True:
        old = text
        text = re.sub(rf"(?<![\w.-])({r})(?:\.before)+", r"\1", text)
        text = re.sub(rf"\brw (\([^()]*\)|[\w-]+) at {r}\.", rf"rw \1 at\0{root}.", text)
        for n in found:
            text = re.sub(rf"\({word(n)} {r}\)", root, text)
            text = re.sub(rf"{word(n)} {r}(?![\w.-])", root, text)
        m = re.search(rf"\blet (\w[\w-]*)(?: : [^=\n]*)? = {r} in\s", text)
        if m:
            text = text[: m.start()] + re.sub(word(m[1]), root, text[m.end():])
        text = re.sub(rf"\({r}\)", root, text)
        if text == old:
            return text.replace("at\0", "at ")


def bound_again(text):
    """`l.x` where a binder has the name x: the binder's x."""
    while True:
        m = re.search(r"λ [^.()]*?(?:l\.(\w+))[^()]*?\. ", text)
        if not m:
            return text
        i, depth = m.end(), 0
        while i < len(text):
            if text[i] in "([{":
                depth += 1
            if text[i] in ")]}":
                if depth == 0:
                    break
                depth -= 1
            i += 1
        body = re.sub(r"(?<![\w.])l\." + m[1] + r"(?!\w)", m[1], text[m.start():i])
        text = text[: m.start()] + body + text[i:]


def turn(path, it, crate, func):
    names = Names(it, crate, func)
    with open(path, encoding="utf-8") as f:
        text = f.read()
    if "tie.spec" not in text:
        return "no tie.spec"
    m = re.search(r"tie\.spec\b(.*)\)\s*$", text, re.S)
    args = arguments(m[1])
    head = text[: text.rindex("\npub ")]
    found, head = projections(head)
    # what takes a place: a lemma over a place, or the members of a module over one
    takes = {}
    for m2 in re.finditer(r"(?m)^(?:abbrev )?(\S+) : \(\w+ : tie\.([A-Z][\w-]*)", head):
        takes[m2[1]] = m2[2]
    for m2 in re.finditer(r"(?m)^module _ \(\w+ : tie\.([A-Z][\w-]*)[^\n]*where\n((?:(?: +[^\n]*)?\n)*)", head + "\n"):
        for m3 in re.finditer(r"(?m)^  (?:abbrev )?(\S+) :", m2[2]):
            takes[m3[1]] = m2[1]
    asked = {n: q for (_o, n), (_p, q) in zip(it["needs"], it["asked_at"])}

    def at_places(text, root, goal_name):
        """Each lemma over a place gets it from the goal."""
        for n, old in takes.items():
            new = names.place.get(norm(old), old)
            if goal_name and asked.get(goal_name) != new:
                text = re.sub(rf"(?<![\w.-]){re.escape(n)} {re.escape(root)}(?![\w.-])", f"{n} (goal.at.{goal_name} {root}).{new}", text)
        return text

    loops = len(it["loops"])
    args = [a for a in args if a]
    own = [a for a in args if re.fullmatch(r"(invariant|decreases)[\w-]*", a)]
    goals = [a for a in args if a not in own]
    said = ""
    if len(goals) != len(names.needs):
        said = f"{len(goals)} needs for {len(names.needs)} goals"
    old_of = {norm(o): n for o, n in names.needs}
    new_name = {}
    extra = []
    for i, g in enumerate(goals):
        if i >= len(names.needs):
            break
        new = names.needs[i][1] if not said else None
        if g.startswith("(λ"):
            inner = g[1:-1]
            mm = re.match(r"λ ([^.]*)\. ?(.*)$", inner, re.S)
            if mm and re.fullmatch(r"search \(?(rules|needs)\)?", mm[2].strip()):
                continue
            if new and mm:
                extra.append((new, mm[1].split()[0], mm[2]))
            continue
        if new:
            new_name.setdefault(g, []).append(new)
    uses, comments, inv, ans = [], [], [], []
    for b in blocks(head):
        body = "\n".join(b)
        code = [l for l in b if not l.startswith("--")]
        if not code:
            comments.append(body)
            continue
        if code[0].startswith("use "):
            for l in b:
                if l.startswith("--"):
                    comments.append(l)
                elif re.search(r"\.(Statement|Tie|Code|Lts)\b", l):
                    continue
                elif "Prim" in l or l.startswith("use"):
                    uses.append(l)
                else:
                    uses.append(l)
            continue
        note = [l for l in b if l.startswith("--")]
        m = re.match(r"(?:abbrev )?((?:invariant|decreases)-\S+) :", code[0])
        if m:
            kind, _, rest = m[1].partition("-")
            index = next((i for i, l in enumerate(it["loops"]) if norm(l[0][0]) == norm(rest)), None)
            if index is None:
                index = 0 if loops == 1 else None
            clause = "\n".join(code[1:])
            mm = re.match(r"\S+((?: \S+)*?) =(.*)$", clause, re.S)
            if index is None or not mm:
                inv.append(body)
                said += f"; {m[1]} not turned"
                continue
            new = it["loops"][index][0][1]
            table = live(names, mm[1].split(), index)
            if table is None:
                said += f"; {m[1]}: parameters not told"
                inv.append("\n".join(note + [f"abbrev pub {kind}-{new} : goal.{kind}-{new}", f"{kind}-{new} l ={mm[2]}"]))
                continue
            told = bound_again(substitute(mm[2], table))
            if kind == "decreases":
                # a `for` needs no measure
                inv.append(("measure", new, "\n".join(note + [f"abbrev pub decreases-{new} : goal.decreases-{new}", f"decreases-{new} l ={told}"])))
            else:
                inv.append("\n".join(note + [f"abbrev pub invariant-{new} : goal.invariant-{new}", f"invariant-{new} l ={told}"]))
            continue
        # a goal's answer?
        m = re.match(r"(\S+) : tie\.Need-(\S+)", code[0])
        if m:
            name = m[1]
            news = new_name.get(name)
            if not news:
                old = norm(m[2])
                if old in old_of:
                    news = [old_of[old]]
                else:
                    tail = [n for o, n in names.needs if old.endswith(norm(o)) or norm(n) == old]
                    news = tail[:1] or [name]
            for new in news:
                lines = list(code)
                lines[0] = f"pub {new} : goal.{new}"
                for j in range(1, len(lines)):
                    if lines[j].startswith(name + " "):
                        lines[j] = new + lines[j][len(name):]
                        lines[j] = re.sub(r"^(\S+ \S+) κs =", r"\1 =", lines[j])
                mm = re.search(r"(?m)^" + re.escape(new) + r" (\w+)", "\n".join(lines))
                root = mm[1] if mm else "c"
                told = names.types(names.fields(collapsed("\n".join(lines), root, found)))
                told = at_places(told, root, new)
                if new.startswith("returns"):
                    told = recorded(told, names.own[1])
                m2 = re.match(r"(.*)-requires", new)
                if m2:
                    callee = next((c for f, c in names.callee.items() if norm(names.field.get(f, f)) == norm(m2[1]) or f == norm(m2[1])), None)
                    if not callee:
                        callee = next((c for c in names.callee.values() if c.split("::")[-1] == re.sub(r"-.*", "", m2[1])), None)
                    if callee:
                        told = recorded(told, clauses_of(callee.split("::")[0]).get(callee.split("::")[-1], ([], []))[0])
                ans.append("\n".join(note + [told]))
            continue
        mm = re.search(r"\((\w+) : tie\.", body)
        if mm:
            body = collapsed(body, mm[1], found)
            for n in found:
                body = re.sub(rf"(?<![\w.-]){re.escape(n)}\.", mm[1] + ".", body)
            place = re.search(r"\(\w+ : tie\.([A-Z][\w-]*)", body)[1]
            for n, old in takes.items():
                one = re.search(rf"(?m)^{re.escape(n)} : \((\w+) : [^\n]*\n{re.escape(n)} \1 =\s+([^\n]*)\n(?! )", head + "\n")
                if one and old != place and code[0].split()[0] != n:
                    other = re.sub(rf"(?<![\w.-]){re.escape(one[1])}(?=\.)", mm[1], collapsed(one[2], one[1], found))
                    body = re.sub(rf"\({re.escape(n)} {re.escape(mm[1])}\)", f"({other})", body)
                    body = re.sub(rf"(?<![\w.-]){re.escape(n)} {re.escape(mm[1])}(?![\w.-])", f"({other})", body)
        ans.append(names.types(names.fields(body)))
        # an own lemma that answers goals by its bare name
        m = re.match(r"(?:abbrev )?(\S+) :", code[0])
        if m and m[1] in new_name:
            for new in new_name[m[1]]:
                extra.append((new, "c", f"{m[1]} c"))
            new_name.pop(m[1])
    have = {re.search(r"pub (\S+) :", a)[1] for a in ans if re.search(r"^pub (\S+) : goal\.", a, re.M)}
    declared = set(re.findall(r"(?m)^(?:abbrev )?(\S+) :", head))
    for g, news in new_name.items():
        for new in news:
            if g not in declared:
                extra.append((new, "c", f"{g} c"))
    for new, c, body in extra:
        if new not in have:
            ans.append(f"pub {new} : goal.{new}\n{new} {c} = " + at_places(names.types(names.fields(collapsed(body, c, found))), c, new))
            have.add(new)
    module = f"Rattle.{crate}.proofs.{func}"
    folder = os.path.dirname(path)
    top = "\n".join(comments[:1])
    if inv:
        invs = [i for i in inv if not isinstance(i, tuple)]
        steps = {n.split("step-", 1)[1] for _o, n in names.needs if n.startswith("overflow_step-")}
        measures = [i[2] for i in inv if isinstance(i, tuple) and not (i[1].startswith("loop-") and re.sub(r"^loop-", "", i[1]) in steps)]
        with open(os.path.join(folder, "Invariants.antt"), "w", encoding="utf-8") as f:
            f.write("\n".join(x for x in [top] if x) + ("\n" if top else "") + "\n".join(uses + [f"use {module}.Given as goal"]) + "\n\n" + "\n\n".join(invs + measures) + "\n")
    if any("ap not " in a for a in ans):
        have_uses = "\n".join(uses)
        for module_of, word in (("mathlib.Core.Path", "ap"), ("mathlib.Core.Bool", "not")):
            if not re.search(rf"\{{(?:[^}}]*, )?{word}(?:,[^}}]*)?\}}", have_uses):
                uses = uses + [f"use {module_of}.{{{word}}}"]
    places = [f"use {module}.Goals.{{{', '.join(sorted(names.named))}}}"] if names.named else []
    if ans:
        with open(os.path.join(folder, "Answers.antt"), "w", encoding="utf-8") as f:
            f.write(("" if inv or not top else top + "\n") + "\n".join(uses + places + [f"use {module}.Goals as goal"]) + "\n\n" + "\n\n".join(ans) + "\n")
    os.remove(path)
    return said or "turned"


def main(argv):
    crate, only = argv[0], argv[1:]
    where = os.path.join("crates", crate)
    room = tempfile.mkdtemp()
    r = subprocess.run(["rt", "check", "--generated", room, "--old-names"], cwd=where, capture_output=True, text=True)
    try:
        with open(os.path.join(room, "names.json"), encoding="utf-8") as f:
            table = json.load(f)
    except OSError:
        print(r.stdout[-2000:], r.stderr[-2000:])
        return 1
    shutil.rmtree(room)
    for key, it in sorted(table.items()):
        m = re.fullmatch(rf"Rattle-{crate}-proofs\.(.*)\.Lts", key)
        if not m:
            continue
        func = m[1]
        if only and func not in only:
            continue
        path = os.path.join(where, "proofs", *func.split("."), "Proof.antt")
        if os.path.exists(path):
            print(func + ":", turn(path, it, crate, func))
    return 0


if __name__ == "__main__":
    raise SystemExit(main(sys.argv[1:]))
