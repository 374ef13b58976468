#!/usr/bin/env python3
"""Brings the definitions and lemmas of this repository to snake case, in specs/, proofs/, clauses, must-fail edits and pages.

usage: python3 tools/snake_names.py [--dry]    at the top of the repository, once, right after port.py

A name that the crates declare in .antt files is turned where it stands as a whole word: `wordFrom` and `word-from` to `word_from`. A dash beside a part with a capital stays
(`accepted-B`), as do types, modules, names of libraries and names that Rattle makes. Functions of src/, strings, inputs and outputs keep their names: none of them has a capital or a dash.
Where a turned name would meet another name in a file, the lemma gets `_lem`. PINNED has what was decided by hand.
"""
import collections
import glob
import json
import re
import sys

TOKEN = re.compile(r"[^\s(){}\[\],;.`⌜⌝]+")
DECLARED = re.compile(r"^ *(?:(?:pub|abbrev|unfoldable|ruleset|let|opaque) )*([^\s:=(){}\[\],;.λ]+) (?::|=) ", re.M)
RULESET = re.compile(r"^ *(?:pub )?ruleset ([^\s]+) =", re.M)
LET = re.compile(r"\blet ([^\s:=(){}]+) (?::|=) ")
OWN = re.compile(r"^(?:pub )?(?:ghost )?use Rattle\.(\w+)\.")
PINNED = {}
# Lemmas that port.py turned, whose name a definition gets now: in .antt files, where it is no part of a path.
LEMMAS = ("part_in", "key_in", "no_items", "line_word", "walk_step", "decimal_step", "same_bytes")
LEMMA = re.compile(r"(?<![\w.'-])(" + "|".join(LEMMAS) + r")(?![\w.'-])")


def snake(name):
    """The turned name, or None where it stays."""
    if name[:1] in "◌+#" or "◌" in name or "·" in name or "→" in name:
        return None
    parts = re.split(r"-", name)
    out = []
    for p in parts:
        if re.match(r"[a-z].*[A-Z]", p):
            p = re.sub(r"(?<=[a-z0-9])([A-Z])", lambda m: "_" + m.group(1).lower(), p)
        out.append(p)
    text = out[0]
    for a, b in zip(out, out[1:]):
        capital = re.match(r"[A-Z]", a) or re.match(r"[A-Z]", b)
        text += ("-" if capital else "_") + b
    return text if text != name else None


def read(path):
    with open(path, encoding="utf-8") as f:
        return f.read()


def main():
    dry = "--dry" in sys.argv
    crates = {l.split(":")[0].strip() for l in open("crates.txt") if ":" in l}
    antt = sorted(glob.glob("crates/*/specs/**/*.antt", recursive=True) + glob.glob("crates/*/proofs/**/*.antt", recursive=True))
    rt = sorted(glob.glob("crates/*/src/**/*.rt", recursive=True))
    edits = sorted(glob.glob("crates/*/must-fail/*.edit"))
    texts = {p: read(p) for p in antt + rt + edits}

    declared = collections.defaultdict(set)
    for p in antt:
        for pattern in (DECLARED, RULESET, LET):
            for m in pattern.finditer(texts[p]):
                declared[m.group(1)].add(p)
    foreign = set()
    for p in antt + rt:
        for line in texts[p].splitlines():
            m = re.match(r"^(?:pub )?(?:ghost )?use ([\w.·+'-]+)\.\{([^}]*)\}", line)
            if m:
                own = re.match(r"Rattle\.(\w+)", m.group(1))
                if not (own and own.group(1) in crates):
                    foreign |= {x.strip() for x in m.group(2).split(",")}

    turn, left = {}, []
    for name in declared:
        new = snake(name)
        if new is None:
            continue
        if name in foreign:
            left.append(name)
            continue
        turn[name] = PINNED.get(name, new)

    # names that would fall together
    tokens = {p: set(TOKEN.findall(re.sub(r"--.*", "", texts[p]) if p.endswith(".antt") else texts[p])) for p in texts}
    back = collections.defaultdict(set)
    for old, new in turn.items():
        back[new].add(old)
    meets = collections.defaultdict(set)
    for p, ts in tokens.items():
        here = collections.defaultdict(set)
        for t in ts:
            here[turn.get(t, t)].add(t)
        for new, olds in here.items():
            if len(olds) > 1:
                meets[(new, tuple(sorted(olds)))].add(p)
    # A lemma gives way to a definition, a local name or a function of its name.
    lem = set()
    for (new, olds), ps in meets.items():
        if any("/specs/" in p for p in ps):
            dashed = [o for o in olds if "-" in o]
            if len(dashed) < len(olds):
                lem |= set(dashed)
            else:
                lem |= set(dashed[1:])
    for o in sorted(lem & set(turn)):
        turn[o] = PINNED.get(o, turn[o] + "_lem")
    # What still falls together, and parameters that would hide a name of their clauses.
    for p, ts in tokens.items():
        here = collections.defaultdict(set)
        for t in ts:
            here[turn.get(t, t)].add(t)
        for new, olds in here.items():
            if len(olds) > 1 and "/specs/" in p:
                print("falls together:", p, new, sorted(olds))
            if len(olds) > 1 and p.endswith(".rt") and re.search(r"(?<![\w:])(?:let (?:mut )?|mut )?" + re.escape(new) + r": |let (?:mut )?" + re.escape(new) + r" =", texts[p]):
                print("may hide:", p, new, sorted(olds))
    if dry:
        print(len(turn), "names;", len(lem), "with _lem:", sorted(lem))
        return

    def turned(m):
        return turn.get(m.group(0), m.group(0))

    for p, t in texts.items():
        lines = t.split("\n")
        if p.endswith(".antt"):
            lines = [LEMMA.sub(r"\1_lem", line) for line in lines]
        for i, line in enumerate(lines):
            mark = "--" if p.endswith(".antt") else "//"
            at = re.search(r"(^|\s)" + mark + r"(\s|$)", line)
            code, note = (line[: at.start()], line[at.start():]) if at and not p.endswith(".edit") else (line, "")
            if p.endswith(".rt") and not re.search(r"ghost use|requires|ensures|ghost |[≡≤∧×→λ]|^\s+(ensures|requires)", code):
                code = TOKEN.sub(lambda m: turned(m) if re.search(r"[a-z][A-Z]", m.group(0)) and m.group(0)[:1].islower() else m.group(0), code)
            else:
                code = TOKEN.sub(turned, code)
            note = re.sub(r"`[^`]*`", lambda m: TOKEN.sub(turned, m.group(0)), note)
            lines[i] = code + note
        new = "\n".join(lines)
        if new != t:
            with open(p, "w", encoding="utf-8") as f:
                f.write(new)
    for p in ["README.md"] + sorted(glob.glob("docs/**/*.md", recursive=True)):
        t = read(p)
        new = re.sub(r"`[^`\n]*`", lambda m: TOKEN.sub(turned, m.group(0)), t)
        if new != t:
            with open(p, "w", encoding="utf-8") as f:
                f.write(new)
    with open("tools/snake_names.json", "w", encoding="utf-8") as f:
        json.dump(dict(sorted(turn.items())), f, ensure_ascii=False, indent=0)


main()
