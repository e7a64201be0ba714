#!/usr/bin/env python3
"""Says which must-fail edits no longer fit: each old: text stands exactly once in its file, after the pairs before it.

usage: python3 tools/edits.py [CRATE ..]
"""

import os
import sys


def apply(crate, path):
    """The first thing wrong with an edit, or nothing."""
    with open(path, encoding="utf-8") as f:
        lines = f.read().split("\n")
    named = [l[6:].strip() for l in lines if l.startswith("file: ")]
    if len(named) != 1:
        return "has no file, or two"
    with open(os.path.join(crate, named[0]), encoding="utf-8") as f:
        before = text = f.read()
    old = None
    for line in lines:
        if line.startswith("old: "):
            old = line[5:]
            count = text.count(old)
            if count != 1:
                return f"{count} times in {named[0]}: {old}"
        elif line.startswith("new: "):
            if old is None:
                return "new: without old:"
            text = text.replace(old, line[5:])
            old = None
    if old is not None:
        return "old: without new:"
    if text == before:
        return "changes nothing"
    return None


def main():
    root = os.path.join(os.path.dirname(os.path.abspath(__file__)), "..", "crates")
    count, bad = 0, 0
    for name in sys.argv[1:] or sorted(os.listdir(root)):
        crate = os.path.join(root, name)
        folder = os.path.join(crate, "must-fail")
        if not os.path.isdir(folder):
            continue
        for edit in sorted(os.listdir(folder)):
            if edit.endswith(".edit"):
                count += 1
                wrong = apply(crate, os.path.join(folder, edit))
                if wrong:
                    bad += 1
                    print(f"crates/{name}/must-fail/{edit}: {wrong}")
    print(f"{count} edits, {bad} do not fit")
    sys.exit(1 if bad else 0)


main()
