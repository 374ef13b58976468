#!/usr/bin/env python3
"""Brings the must-fail edits of an older commit over to the text as port.py and tools/snake_names.py turn it.

usage: python3 tools/turn_edits.py LANDED FOLDER        makes in FOLDER a copy of LANDED, and copies of it with edits applied, and turns each
       python3 tools/turn_edits.py LANDED FOLDER --read  reads them: an edit whose words changed is written anew where the turned line stands once

An edit is applied to the text that it was written for, the scripts turn the wrong text as they turned the right one, and the lines
that then differ are the edit in the new text. So a name in the wrong text is turned by the same rules as each other name. In one copy stand
only edits that are not near one another. What is left, with what the scripts made of it, is printed.
"""
import difflib
import os
import shutil
import subprocess
import sys

TOP = os.path.realpath(os.path.join(os.path.dirname(os.path.abspath(__file__)), ".."))


def run(*words, where=TOP, **more):
    return subprocess.run(words, cwd=where, check=True, capture_output=True, text=True, **more).stdout


def port_script():
    page = run("rt", "doc").split()[-1]
    return os.path.join(os.path.dirname(page), "port", "port.py")


def parse(text):
    out, file, old = [], None, None
    for line in text.split("\n"):
        if line.startswith("file:"):
            file = line[5:].strip()
        elif line.startswith("old: "):
            old = line[5:]
        elif line.startswith("new:"):
            out.append((file, old, line[5:]))
    return out


def read(path):
    with open(path, encoding="utf-8") as f:
        return f.read()


def edits_of(landed):
    """The edits at LANDED: {(crate, name): pairs}, read from the copy of it."""
    out = {}
    crates = os.path.join(landed, "crates")
    for crate in sorted(os.listdir(crates)):
        folder = os.path.join(crates, crate, "must-fail")
        if os.path.isdir(folder):
            for name in sorted(os.listdir(folder)):
                if name.endswith(".edit"):
                    out[crate, name] = parse(read(os.path.join(folder, name)))
    return out


def applied(landed, crate, pairs):
    """The edited files, and the numbers of the lines that changed in each."""
    texts = {}
    for file, old, new in pairs:
        if file not in texts:
            texts[file] = read(os.path.join(landed, "crates", crate, file))
        if texts[file].count(old) != 1:
            raise SystemExit("at LANDED an old: does not stand once: %s %s" % (crate, old))
        texts[file] = texts[file].replace(old, new)
    out = {}
    for file, text in texts.items():
        was, now = read(os.path.join(landed, "crates", crate, file)).split("\n"), text.split("\n")
        assert len(was) == len(now)
        out[file] = {i: now[i] for i in range(len(was)) if was[i] != now[i]}
    return out


def batches(landed, edits):
    """Sets of edits with no two of one file nearer than two lines."""
    out = []
    for key, pairs in edits.items():
        changed = applied(landed, key[0], pairs)
        for batch in out:
            taken = batch["taken"]
            if all(abs(i - j) > 1 for file, lines in changed.items() for i in lines for j in taken.get((key[0], file), ())):
                break
        else:
            batch = {"taken": {}, "edits": {}}
            out.append(batch)
        batch["edits"][key] = changed
        for file, lines in changed.items():
            batch["taken"].setdefault((key[0], file), set()).update(lines)
    return out


def make(landed_commit, folder):
    base = os.path.join(folder, "landed")
    if not os.path.isdir(base):
        os.makedirs(base)
        tar = subprocess.Popen(["git", "archive", landed_commit], cwd=TOP, stdout=subprocess.PIPE)
        subprocess.run(["tar", "-x", "-C", base], stdin=tar.stdout, check=True)
    todo = [("turned", {})] + [("turned%d" % n, b["edits"]) for n, b in enumerate(batches(base, edits_of(base)), 1)]
    for name, edits in todo:
        to = os.path.join(folder, name)
        print("%s: %d edits" % (name, len(edits)), flush=True)
        if os.path.isdir(to):
            continue
        half = to + "-half"
        shutil.rmtree(half, ignore_errors=True)
        shutil.copytree(base, half)
        for (crate, _), changed in edits.items():
            for file, lines in changed.items():
                path = os.path.join(half, "crates", crate, file)
                text = read(path).split("\n")
                for i, line in lines.items():
                    text[i] = line
                with open(path, "w", encoding="utf-8") as f:
                    f.write("\n".join(text))
        who = ["-c", "user.name=x", "-c", "user.email=x"]
        run("git", "init", "-q", ".", where=half)
        run("git", "add", "-A", where=half)
        run("git", *who, "commit", "-qm", "edited", where=half)
        run(sys.executable, port_script(), where=half)
        run("git", "add", "-A", where=half)
        run("git", *who, "commit", "-qm", "turned", where=half)
        os.makedirs(os.path.join(half, "tools"), exist_ok=True)
        shutil.copy(os.path.join(TOP, "tools", "snake_names.py"), os.path.join(half, "tools"))
        run(sys.executable, "tools/snake_names.py", where=half)
        os.rename(half, to)


def hunks(was, now):
    return [(was[a:b], now[c:d]) for tag, a, b, c, d in difflib.SequenceMatcher(None, was, now, autojunk=False).get_opcodes() if tag != "equal"]


def once(text, old, new):
    """The shortest ends to leave out of both lines so that what is left of `old` stands once in text: from whole words."""
    return text.count(old) == 1


def read_all(folder):
    """Prints each edit: what it was at LANDED, and what the scripts made of it."""
    base = os.path.join(folder, "landed")
    edits = edits_of(base)
    right = os.path.join(folder, "turned", "crates")
    for n, batch in enumerate(batches(base, edits), 1):
        wrong = os.path.join(folder, "turned%d" % n, "crates")
        if not os.path.isdir(wrong):
            continue
        files = {}
        for (crate, name), changed in batch["edits"].items():
            for file, lines in changed.items():
                for i in lines:
                    files.setdefault((crate, file), []).append((i, name))
        for (crate, file), marks in sorted(files.items()):
            a, b = os.path.join(right, crate, file), os.path.join(wrong, crate, file)
            if not (os.path.isfile(a) and os.path.isfile(b)):
                yield crate, file, [m[1] for m in sorted(marks)], None
                continue
            yield crate, file, [m[1] for m in sorted(marks)], hunks(read(a).split("\n"), read(b).split("\n"))


def judged(crate, name, file, lines):
    """Whether the edit as it stands in this tree makes these lines of the text as it stands in this tree."""
    pairs = [p for p in parse(read(os.path.join(TOP, "crates", crate, "must-fail", name)))]
    path = os.path.join(TOP, "crates", crate, file)
    if not os.path.isfile(path):
        return None
    text = was = read(path)
    for f, old, new in pairs:
        if f == file:
            if text.count(old) != 1:
                return None
            text = text.replace(old, new)
    a, b = was.split("\n"), text.split("\n")
    return [(x, y) for x, y in zip(a, b) if x != y]


def main():
    landed, folder = sys.argv[1], sys.argv[2]
    if "--read" not in sys.argv:
        make(landed, folder)
        return
    same = 0
    for crate, file, names, found in read_all(folder):
        if found is None:
            print("== %s/%s: a file is gone: %s" % (crate, file, ", ".join(names)))
            continue
        flat = []
        for was, now in found:
            if len(was) == len(now):
                flat += list(zip(was, now))
            else:
                flat.append(("\n".join(was), "\n".join(now)))
        for name in sorted(set(names)):
            made = judged(crate, name, file, None)
            if made is not None and made and all(m in flat for m in made):
                same += 1
                for m in made:
                    flat.remove(m)
            else:
                print("== %s/%s %s" % (crate, name, file))
                if made is None:
                    print("   cannot be applied")
                else:
                    for x, y in made:
                        print("   has  - " + x + "\n        + " + y)
        for was, now in flat:
            print("   made in %s/%s:\n        - %s\n        + %s" % (crate, file, was, now))
    print("as the scripts make it: %d" % same)


if __name__ == "__main__":
    main()
