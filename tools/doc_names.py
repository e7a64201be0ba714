#!/usr/bin/env python3
"""Says which names in the pages stand nowhere: `Module.name` in backticks, where the module's file in specs/ or proofs/ lacks the name.

usage: python3 tools/doc_names.py
"""

import os
import re
import sys

ROOT = os.path.join(os.path.dirname(os.path.abspath(__file__)), "..")
WORD = re.compile(r"[^\s(){}.;,@\"«»⟦⟧]+")


def modules():
    """The words of each file of specs/ and proofs/, by the file's name."""
    found = {}
    for at, folders, files in os.walk(os.path.join(ROOT, "crates")):
        folders[:] = [f for f in folders if f != "out"]
        for name in files:
            if name.endswith(".antt"):
                with open(os.path.join(at, name), encoding="utf-8") as f:
                    found.setdefault(name[:-5], []).append(set(WORD.findall(f.read())))
    return found


def pages():
    for at, _, files in [*os.walk(os.path.join(ROOT, "docs")), (ROOT, [], ["README.md", "CONTRIBUTING.md"])]:
        if os.path.basename(at) != "changes":
            yield from (os.path.join(at, name) for name in sorted(files) if name.endswith(".md") and name != "PORT.md")


def main():
    known, missing = modules(), 0
    for page in pages():
        with open(page, encoding="utf-8") as f:
            lines = f.read().split("\n")
        for number, line in enumerate(lines, 1):
            for said in re.findall(r"`([^`]*)`", line):
                for module, name in re.findall(r"\b([A-Z]\w+)\.([\w'₀-₉]+)", said):
                    if name not in ("antt", "md") and module in known and not any(name in words for words in known[module]):
                        missing += 1
                        print(f"{os.path.relpath(page, ROOT)}:{number}: {module}.{name}")
    print(f"{missing} names stand nowhere")
    sys.exit(1 if missing else 0)


main()
