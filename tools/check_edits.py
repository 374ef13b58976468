#!/usr/bin/env python3
"""Says of each must-fail edit whether it can be applied to the text as it stands.

Each `old:` text must stand exactly once in its file, after the pairs before it, and the whole edit must change
each file that it names. With names of crates only those are read. The last line counts; the status is 1 where an
edit cannot be applied.
"""
import os
import sys

TOP = os.path.join(os.path.dirname(os.path.abspath(__file__)), "..")


def pairs(path):
    """The (file, old, new) of an edit, in order, and what is wrong with its form."""
    out, said = [], []
    file = old = None
    with open(path, encoding="utf-8") as f:
        for line in f.read().split("\n"):
            if line.startswith("file:"):
                file = line[5:].strip()
            elif line.startswith("old: "):
                if old is not None:
                    said.append("an old: with no new: " + old)
                old = line[5:]
            elif line.startswith("new:"):
                new = line[5:] if line.startswith("new: ") else line[4:]
                if file is None or old is None:
                    said.append("a new: with no file: or old: " + new)
                else:
                    out.append((file, old, new))
                old = None
    if old is not None:
        said.append("an old: with no new: " + old)
    if not out:
        said.append("no pair")
    return out, said


def judge(crate, path):
    steps, said = pairs(path)
    texts, first = {}, {}
    for file, old, new in steps:
        if file not in texts:
            where = os.path.join(TOP, "crates", crate, file)
            if not os.path.isfile(where):
                said.append("no file " + file)
                texts[file] = first[file] = ""
            else:
                with open(where, encoding="utf-8") as f:
                    texts[file] = first[file] = f.read()
        n = texts[file].count(old)
        if n != 1:
            said.append("%d times in %s: %s" % (n, file, old))
        elif old == new:
            said.append("changes nothing in %s: %s" % (file, old))
        else:
            texts[file] = texts[file].replace(old, new)
    for file in texts:
        if texts[file] == first[file] and not said:
            said.append("leaves %s as it was" % file)
    return said


def main():
    only = sys.argv[1:]
    good = bad = 0
    crates = os.path.join(TOP, "crates")
    for crate in sorted(os.listdir(crates)):
        folder = os.path.join(crates, crate, "must-fail")
        if not os.path.isdir(folder) or (only and crate not in only):
            continue
        for name in sorted(os.listdir(folder)):
            if not name.endswith(".edit"):
                continue
            said = judge(crate, os.path.join(folder, name))
            if said:
                bad += 1
                print("%s/%s" % (crate, name))
                for s in said:
                    print("    " + s)
            else:
                good += 1
    print("edits: %d can be applied, %d cannot" % (good, bad))
    return 1 if bad else 0


if __name__ == "__main__":
    sys.exit(main())
