#!/usr/bin/env python3
"""Turns the proofs of one crate from one Proof.antt of answers by their order to Invariants.antt and Answers.antt of answers by name.

usage: python3 tools/turn_proofs.py CRATE NAMES.JSON [FUNCTION..]

NAMES.JSON is what `rt check --generated DIR --old-names` writes for the crate. A Proof.antt of another form is left. An answer `search rules` is left out: the check tries it by itself.
--keep writes those answers too.
"""
import json
import os
import re
import sys


def norm(name):
    return name.replace("-", "_").lower()


def split_args(text):
    """The arguments of tie.spec, each with the comment that stood before it."""
    out, i, note, n = [], 0, None, len(text)
    while i < n:
        if text[i].isspace():
            i += 1
        elif text.startswith("--", i):
            end = text.find("\n", i)
            end = n if end < 0 else end
            note = text[i + 2:end].strip()
            i = end
        elif text[i] == "(":
            depth, j = 0, i
            while j < n:
                if text.startswith("--", j) and (j == 0 or text[j - 1].isspace()):
                    j = text.find("\n", j)
                    continue
                depth += text[j] == "("
                depth -= text[j] == ")"
                j += 1
                if depth == 0:
                    break
            out.append((note, text[i + 1:j - 1].strip()))
            note, i = None, j
        else:
            m = re.match(r"[^\s()]+", text[i:])
            if not m:
                break
            out.append((note, m.group(0)))
            note, i = None, i + m.end()
    return out


def dedent(body):
    lines = body.split("\n")
    rest = [len(l) - len(l.lstrip()) for l in lines[1:] if l.strip()]
    cut = max(min(rest) - 4, 0) if rest else 0
    return "\n".join([lines[0]] + [l[cut:] if l.strip() else l for l in lines[1:]])


class Function:
    def __init__(self, names):
        self.names = names
        self.parent = {p[0]: p[1] for p in names["places"]}
        self.step = {p[0]: p[2] for p in names["places"]}
        self.callee = {p[0]: p[3] for p in names["places"]}
        self.arm = {p[0]: a for p, a in zip(names["places"], names["arms"])}
        self.odd = []
        self.cycle = False
        self.nots = False

    def path(self, place, m):
        befores = m.group(1).count(".before")
        fields = m.group(2).split(".")[1:]
        at = place
        for _ in range(befores):
            at = self.parent.get(at) if at else None
        head = fields[0]
        if head in ("decreases", "cycle_requires"):
            return m.group(0)
        if self.cycle and head == "requires":
            if len(fields) == 1:
                return "(c.decreases, c.requires)"
            return ("c.decreases" if fields[1] == "0" else "c.requires") + "".join("." + x for x in fields[2:])
        if norm(head) in ("args", "requires", "ranges", "lifetimes", "utf8", "type_inv", "well_formed"):
            return "c." + ".".join([norm(head)] + fields[1:])
        chain, x = [], place
        while x is not None:
            chain.append(x)
            x = self.parent[x]
        wanted = min(befores, len(chain) - 1)
        same = [i for i, x in enumerate(chain) if norm(self.step[x][0]) == norm(head)]
        if not same:
            bare = norm(re.sub(r"(_lem)?-?\d*$", "", head))
            same = [i for i, x in enumerate(chain) if norm(re.sub(r"-?\d+$", "", self.step[x][0])) == bare]
        p = chain[min(same, key=lambda i: abs(i - wanted))] if same else None
        if p is None or len(same) > 1 and wanted not in same:
            self.odd.append((m.group(0), place, at))
        if p is None:
            return m.group(0)
        rest = fields[1:]
        arm = self.arm.get(p)
        if arm and rest:
            named = [x[0] for x in arm[2] if rest[0] in x[2]]
            own = [x[0] for x in arm[2] if not x[2]]
            if named:
                rest = [named[0]] + rest[1:]
            elif own:
                rest = [own[0]] + rest
        if rest[:1] == ["auto"] and self.callee.get(p) and len(rest) > 1:
            params = self.names["params"].get(self.callee[p])
            k = 0
            while k + 1 < len(rest) and rest[k + 1] == "1":
                k += 1
            if params and k + 1 < len(rest) and rest[k + 1] == "0":
                rest = ["auto", params[k]] + rest[k + 2:]
        if self.step[p][1].startswith("if-not-") and rest in (["true"], ["false"]):
            self.nots = True
            return "(ap not c." + self.step[p][1] + "." + rest[0] + ")"
        return "c." + self.step[p][1] + "".join("." + f for f in rest)

    def place_of(self, head, place, befores):
        chain, x = [], place
        while x is not None:
            chain.append(x)
            x = self.parent[x]
        same = [i for i, x in enumerate(chain) if norm(self.step[x][0]) == norm(head)]
        wanted = min(befores, len(chain) - 1)
        return chain[min(same, key=lambda i: abs(i - wanted))] if same else None

    def autos(self, body, place):
        """`made.auto.1.1.0` of a step that a `let` names: the argument's name in place of its number."""
        for m in re.finditer(r"let (\w+)\s*=\s*c((?:\.before)*)\.([\w-]+)\s+in\b", body):
            p = self.place_of(m.group(3), place, m.group(2).count(".before"))
            params = self.names["params"].get(self.callee.get(p)) if p else None
            if params:
                body = re.sub(r"(?<![\w.'])" + m.group(1) + r"\.auto((?:\.1)*)\.0(?!\w)", lambda x: m.group(1) + ".auto." + params[x.group(1).count(".1")], body)
        return body

    def turn(self, body, place):
        body = self.autos(body, place)
        if self.cycle:
            m = re.search(r"let (\w+)\s*=\s*c(\.before)*\.requires\s+in\s+", body)
            if m:
                body = body[: m.start()] + body[m.end():]
                body = re.sub(r"(?<![\w.'])" + m.group(1) + r"\.0(?!\w)", "c.decreases", body)
                body = re.sub(r"(?<![\w.'])" + m.group(1) + r"\.1(?!\w)", "c.cycle_requires", body)
        body = re.sub(r"(?<![\w.'-])c((?:\.before)*)((?:\.(?!before\b)[\w'₀-₉-]+)+)", lambda m: self.path(place, m), body)
        return body.replace("c.cycle_requires", "c.requires")


def with_not(uses, wanted):
    """The imports, with `ap` and `not` where answers name them."""
    if not wanted:
        return uses
    have = {x.strip() for l in re.findall(r"\{([^}]*)\}", uses) for x in l.split(",")}
    lack = [x for x in ("ap", "not") if x not in have]
    return uses + ("\nuse Rattle.std.proofs.Common.{" + ", ".join(lack) + "}" if lack else "")


def turn_cycle(crate, path, stem, names, text):
    """A cycle's file: `close MEASURES.. (λ t. LTS.spec (CALLS) (AT) POST ANSWERS..)..`."""
    here = os.path.dirname(path)
    module = ".".join(os.path.relpath(here, os.path.join("crates", crate, "proofs")).split("/"))
    odd, out, invs, nots = [], [], [], False
    alias = {b: a for a, b in re.findall(r"^use [^\n]*\.Lts-(\w+) as (\S+)", text, re.M)}
    for b in re.findall(r"^use [^\n]*\.Lts as (\S+)", text, re.M):
        alias[b] = None
    params = {}
    for key, v in names.items():
        if isinstance(v, dict) and "params" in v:
            for f, ps in v["params"].items():
                params[f.split("::")[-1]] = ps
    uses = [l for l in re.findall(r"^(?:pub )?use [^\n]*$", text, re.M) if " as " not in l and not re.search(r"\.(Statement|Tie|Given|Goals)\b|\bstatement\b|PlainCycle|Fn\.Kinds|MutCycle", l)]
    m = re.search(r"^(\S+spec) = close ?(.*)", text, re.S | re.M)
    if not m:
        return "cycle not understood"
    unfold = re.search(r"^(unfolding [^\n]*(?:\n +[^\n]*)*)\n" + re.escape(m.group(1)) + " = ", text, re.M)
    unfold = unfold.group(1) + "\n" if unfold else ""
    helpers = []
    body_before = text[: text.index(m.group(1) + " : ") if m.group(1) + " : " in text else m.start()]
    for block in re.split(r"\n\n+", body_before):
        block = block.strip("\n")
        if re.match(r"(pub )?use ", block) or not block.strip():
            continue
        mm = re.match(r"(?:--[^\n]*\n)*abbrev (μ\S*) : [^\n]*\n\1 \S+ (\S+) = (.*)", block, re.S)
        if mm:
            f = mm.group(1).lstrip("μ_-") or None
            fs = [n for n in params if norm(n) == norm(f or "")] or list(alias.values())[:1]
            ps = params.get(fs[0]) if fs else None

            def arg(x):
                k = x.group(1).count(".1")
                return "l." + ps[k] if ps and k < len(ps) else x.group(0)
            expr = re.sub(r"(?<![\w.])" + re.escape(mm.group(2)) + r"((?:\.1)*)\.0(?![\w])", arg, mm.group(3))
            invs.append(f"abbrev pub decreases-{fs[0]} : goal.decreases-{fs[0]}\ndecreases-{fs[0]} l = {expr}")
        elif block.strip() == "pub" or re.search(r"(: |→ )In \d|\.Claims|Reads\b|: In |Measures ", block):
            continue
        else:
            helpers.append(block)
    for note, arg in split_args(m.group(2)):
        mm = re.match(r"λ (\S+)\.\s*(\S+)\.spec\b(.*)", arg, re.S)
        if not mm:
            continue
        key = next((k for k in names if k.startswith(stem) and k.endswith(".Lts-" + (alias.get(mm.group(2)) or "?"))), None) or next((k for k in names if k == stem + ".Lts"), None)
        if key is None:
            odd.append(("no function", mm.group(2), list(alias)))
            continue
        f = Function(names[key])
        f.cycle = True
        rest = split_args(mm.group(3))
        answers = [a for a in rest if re.match(r"λ c\b", a[1])]
        skipped = [a for a in rest if not re.match(r"λ c\b", a[1])]
        if len(skipped) > 3:
            odd.append(("more than answers", mm.group(2), [a[1][:60] for a in skipped[3:]]))
        needs = f.names["needs"]
        if len(answers) != len(needs):
            odd.append((mm.group(2), f"{len(answers)} answers, {len(needs)} goals", ""))
        for k, (note, body) in enumerate(answers[: len(needs)]):
            name = names[key].get("stem", "") + needs[k][1]
            term = re.match(r"λ c(?: κs)?\.\s*(.*)", body, re.S).group(1)
            if term.strip() == "search rules" and not (unfold and "returns" in name):
                continue
            term = re.sub(r"(?<![\w.'])" + re.escape(mm.group(1)) + r"(?![\w'])", "t", term)
            term = dedent(f.turn(term, f.names["asked_at"][k][0]))
            sep = "\n    " if "\n" in term or len(term) > 100 else " "
            out.append(f"pub {name} : goal.{name}\n{unfold}{name} t c ={sep}{term}")
        odd += f.odd
        nots = nots or f.nots
    use_text = with_not("\n".join(uses), nots)
    if invs:
        with open(os.path.join(here, "Invariants.antt"), "w", encoding="utf-8") as g:
            g.write(use_text + f"\nuse Rattle.{crate}.proofs.{module}.Given as goal\n\n" + "\n\n".join(invs) + "\n")
    if out:
        with open(os.path.join(here, "Answers.antt"), "w", encoding="utf-8") as g:
            g.write(use_text + f"\nuse Rattle.{crate}.proofs.{module}.Goals as goal\n\n" + "\n\n".join(helpers + out) + "\n")
    os.remove(path)
    return "; ".join(map(str, odd)) or "ok"


def turn(crate, path, key, names, keep):
    text = open(path, encoding="utf-8").read()
    text = re.sub(r"^((?:pub )?use [^\n{]*\{)\n([^}]*)\}", lambda m: m.group(1) + ", ".join(x.strip().rstrip(",") for x in m.group(2).split("\n") if x.strip()) + "}", text, flags=re.M)
    if "tie.close" not in text and re.search(r"spec = close\b", text):
        return turn_cycle(crate, path, key[: -len(".Lts")], names, text)
    if "tie.close" not in text or key not in names:
        return "other form" if "tie.close" not in text else f"no {key}"
    f = Function(names[key])
    here = os.path.dirname(path)
    module = ".".join(os.path.relpath(here, os.path.join("crates", crate, "proofs")).split("/"))
    # blocks at column 0
    lines = text.split("\n")
    blocks, notes = [], []
    for l in lines:
        if not l.strip():
            continue
        if l.startswith("--"):
            notes.append(l)
        elif l[0].isspace():
            blocks[-1].append(l)
        else:
            blocks.append(notes + [l])
            notes = []
    uses, helpers, invs, spec = [], [], [], None
    unfold = ""
    i = 0
    head_notes = []
    while i < len(blocks):
        b = blocks[i]
        first = next(x for x in b if not x.startswith("--"))
        if re.match(r"(pub )?use ", first):
            head_notes += [x for x in b if x.startswith("--")]
            if not re.search(r"\.(Statement|Tie|Goals|Given)\b", first):
                uses.append(first)
        elif re.match(r"pub \S+[-_]spec : ", first):
            # signature, unfolding, definition
            j = i + 1
            head_notes += [x for x in b if x.startswith("--")]
            while j < len(blocks):
                fj = next(x for x in blocks[j] if not x.startswith("--"))
                if fj.startswith("unfolding"):
                    unfold = "\n".join(blocks[j])
                else:
                    spec = "\n".join(blocks[j])
                    break
                j += 1
            i = j
        elif re.match(r"(abbrev )?(invariant|decreases|measure)[-_]\S+ ", first):
            # declaration, then definition
            decl = b
            i += 1
            invs.append((decl, blocks[i]))
        else:
            helpers.append("\n".join(b))
        i += 1
    m = re.search(r"tie\.close \(tie\.spec\b(.*)\)\s*$", spec, re.S)
    if not m:
        return "spec not understood"
    args = split_args(m.group(1))
    loops = {norm(a[0][0]): a for a in f.names["loops"]}
    order = f.names["loops"]
    out_inv = []
    for decl, definition in invs:
        d = next(x for x in decl if not x.startswith("--"))
        n = re.match(r"(?:abbrev )?(invariant|decreases|measure)[-_](\S+)", d)
        loop = loops.get(norm(n.group(2)))
        if loop is None and len(order) == 1:
            loop = order[0]
        if loop is None:
            return f"no loop {n.group(2)} among {list(loops)}"
        changed = f.names["changed"][order.index(loop)]
        body = "\n".join(definition)
        mm = re.match(r"(\S+)((?: [^\s=]+)*) =\s*(.*)", body, re.S)
        params, body = mm.group(2).split(), mm.group(3)
        vars_ = loop[1]
        to = {}
        late = [v for v, c in zip(vars_, changed) if c]
        if len(params) == len(vars_) + len(late):
            for p, v, c in zip(params, vars_, changed):
                to[p] = f"l.initial.{v}" if c else f"l.{v}"
            for p, v in zip(params[len(vars_):], late):
                to[p] = f"l.{v}"
        else:
            f.odd.append(("parameters", params, (vars_, changed)))
        to.pop("_", None)
        body = re.sub(r"(?<![\w.'-])[A-Za-z][\w'₀-₉-]*", lambda t: to.get(t.group(0), t.group(0)), body)
        word = "decreases" if n.group(1) in ("decreases", "measure") else "invariant"
        name = f"{word}-{loop[0][1]}"
        sep = "\n    " if "\n" in body or len(body) > 110 else " "
        comment = "\n".join(x for x in decl if x.startswith("--"))
        out_inv.append((comment + "\n" if comment else "") + f"abbrev pub {name} : goal.{name}\n{name} l ={sep}{body}")
    answers = [a for a in args if not re.match(r"(invariant|decreases|measure)[-_]", a[1])]
    needs = f.names["needs"]
    places = f.names["asked_at"]
    out, dropped = [], 0
    if len(answers) != len(needs):
        # by name
        old = {}
        for k, (o, n) in enumerate(needs):
            old[norm(o)] = k
        word = {"holds": "init", "less": "smaller", "again": "preserved"}
        pairs = []
        for note, body in answers:
            label = (note or "").split(":")[0].strip()
            label = re.sub(r"-(holds|less|again)\b", lambda t: "-" + word[t.group(1)], label)
            k = old.get(norm(label))
            if k is None:
                f.odd.append(("answer not placed", label, body[:60]))
                continue
            pairs.append((k, note, body))
        f.odd.append((f"{len(answers)} answers, {len(needs)} goals", "", ""))
    else:
        pairs = [(k, note, body) for k, (note, body) in enumerate(answers)]
    for k, note, body in pairs:
        name = needs[k][1]
        mm = re.match(r"λ c(?: κs)?\.\s*(.*)", body, re.S)
        term = mm.group(1) if mm else None
        if term is None:
            f.odd.append(("no lambda", name, body[:80]))
            continue
        if term.strip() == "search rules" and not keep and not (unfold and not re.search(r"-requires(-|$)", name)):
            dropped += 1
            continue
        term = dedent(f.turn(term, places[k][0]))
        sep = "\n    " if "\n" in term or len(term) > 110 else " "
        head = f"pub {name} : goal.{name}\n" + (unfold + "\n" if unfold else "")
        out.append(head + f"{name} c ={sep}{term}")
    comment = "\n".join(head_notes)
    use_text = with_not("\n".join(uses), f.nots)
    if out_inv:
        with open(os.path.join(here, "Invariants.antt"), "w", encoding="utf-8") as g:
            g.write((comment + "\n" if comment and not out else "") + use_text + f"\nuse Rattle.{crate}.proofs.{module}.Given as goal\n\n" + "\n\n".join(helpers_used(helpers, "\n".join(out_inv)) + out_inv) + "\n")
    if out:
        with open(os.path.join(here, "Answers.antt"), "w", encoding="utf-8") as g:
            g.write((comment + "\n" if comment else "") + use_text + f"\nuse Rattle.{crate}.proofs.{module}.Goals as goal\n\n" + "\n\n".join(grouped(helpers) + out) + "\n")
    os.remove(path)
    if not out and not out_inv:
        os.rmdir(here)
    return "; ".join(map(str, f.odd)) or ("ok" if out or out_inv else "ok, nothing left")


def grouped(helpers):
    """Declarations with what defines them, as one block."""
    out = []
    for h in helpers:
        first = next(x for x in h.split("\n") if not x.startswith("--"))
        if out and not re.match(r"(pub |abbrev |unfoldable |module |record |data )*[^\s:]+ : |module |record |data |pub record |pub data ", first):
            out[-1] += "\n" + h
        else:
            out.append(h)
    return out


def helpers_used(helpers, text):
    got = grouped(helpers)
    keep = []
    for h in reversed(got):
        name = re.search(r"^(?:(?:pub|abbrev|unfoldable) )*([^\s:]+) : ", h, re.M)
        if name and re.search(r"(?<![\w.'-])" + re.escape(name.group(1)) + r"(?![\w'-])", text):
            keep.insert(0, h)
            text += h
    return keep


def main():
    keep = "--keep" in sys.argv
    argv = [a for a in sys.argv[1:] if a != "--keep"]
    crate, file, only = argv[0], argv[1], argv[2:]
    names = json.load(open(file, encoding="utf-8"))
    root = os.path.join("crates", crate, "proofs")
    for folder, dirs, files in sorted(os.walk(root)):
        if "Proof.antt" not in files:
            continue
        rel = os.path.relpath(folder, root)
        if only and rel not in only:
            continue
        key = f"Rattle-{crate}-proofs." + rel.replace("/", ".") + ".Lts"
        said = turn(crate, os.path.join(folder, "Proof.antt"), key, names, keep)
        if not said.startswith("ok"):
            print(rel + ": " + said)


main()
