#!/usr/bin/env python3
"""Spells the repository's own definitions, lemmas and fields in snake case.

usage: python3 tools/port_names.py [--list] [ROOT]

Names that specs/ and proofs/ declare, in words joined by dashes or by capitals, get underscores, in the text of antt, in the clauses and
imports of the source, and in the must-fail edits. Types, constructors, modules, functions of src/, exported names and strings keep theirs.
A name that a file imports from another library stays. --list prints the names, and those that would fall together with another, alone.
"""

import os
import re
import sys

NAME = r'[^\s(){}.;,@"«»⟦⟧]+'
TOKEN = re.compile(NAME)
DECL = re.compile(r"(?m)^[ ]*(?:(?:pub|abbrev|unfoldable|private|instance|let) +)*(" + NAME + r")(?: +\{[^{}\n]*\})* :(?= |$)")
FIELD = re.compile(r"(?m)^[ ]+(?:pub +)?(" + NAME + r") :(?= |$)")
OTHER = re.compile(r"\b(?:use|ghost use) +((?!Rattle\.(?!std\b))[^\s;{]+)\.\{([^}]*)\}")
# Local names that a new name would meet, file by file.
LOCAL = {
    "crates/vif/proofs/UnpackLaws.antt": {"a_word": "word_more"},
    "crates/conformance/proofs/TagLaws.antt": {"tag_read": "tag_is_read"},
}
CLAUSE = re.compile(r"\b(?:requires|ensures|ghost|decreases|invariant)\*?(?: +\w+)? *[:{]")


def snake(name):
    words = re.sub(r"(?<=[a-z0-9])[A-Z]", lambda m: "_" + m[0].lower(), name)
    words = re.sub(r"(?<=[A-Z])[A-Z](?=[a-z])", lambda m: "_" + m[0].lower(), words)
    return words.replace("-", "_").replace("′", "'")


def is_turned(name):
    """A word that begins with a small letter and has a dash or a capital in it."""
    if not re.match(r"[a-z]", name) or not re.fullmatch(r"[A-Za-z0-9_'′\-₀-₉]+", name):
        return False
    return snake(name) != name


def files(root, suffixes):
    for folder, dirs, names in os.walk(os.path.join(root, "crates")):
        dirs[:] = sorted(d for d in dirs if d != "out")
        for n in sorted(names):
            if n.endswith(suffixes):
                yield os.path.join(folder, n)


def read(path):
    with open(path, encoding="utf-8") as f:
        return f.read()


def own(root):
    found = set()
    for p in files(root, (".antt",)):
        text = re.sub(r"--[^\n]*", "", read(p))
        for m in DECL.finditer(text):
            found.add(m[1])
    return {n for n in found if is_turned(n)}


def declared(root):
    found = set()
    for p in files(root, (".antt",)):
        for m in DECL.finditer(re.sub(r"--[^\n]*", "", read(p))):
            found.add(m[1])
    return found


def foreign(root):
    found = set()
    for p in files(root, (".antt", ".rt")):
        for m in OTHER.finditer(read(p)):
            for part in m[2].split(","):
                found.add(part.strip().split(" as ")[0])
    return found


def turned_antt(text, table):
    return TOKEN.sub(lambda m: table.get(m[0], m[0]), text)


def clauses(text):
    """The parts of a source that are clauses or imports of antt: pairs of places."""
    at = 0
    for m in re.finditer(r"\bghost use [^;]*;", text):
        yield m.start(), m.end()
    for m in CLAUSE.finditer(text):
        start = text.find("{", m.start())
        if start < 0:
            continue
        depth, i = 0, start
        while i < len(text):
            if text[i] == "{":
                depth += 1
            elif text[i] == "}":
                depth -= 1
                if depth == 0:
                    break
            i += 1
        yield start, i + 1


def turned_source(text, table):
    spans = sorted(clauses(text))
    out, at = [], 0
    for a, b in spans:
        if a < at:
            continue
        out.append(text[at:a])
        out.append(turned_antt(text[a:b], table))
        at = b
    out.append(text[at:])
    return "".join(out)


def main():
    words = [w for w in sys.argv[1:] if w != "--list"]
    root = words[0] if words else "."
    names = own(root)
    others = foreign(root)
    table = {n: snake(n) for n in sorted(names - others)}
    # A lemma that would have its definition's name, or that of another lemma, has _lem behind it.
    taken = declared(root)
    plain = {snake(m) for m in table if "-" not in m}
    for n, t in table.items():
        if "-" in n and (t in taken or t in plain):
            table[n] = t + "_lem"
    kept = {}
    seen = {}
    for p in files(root, (".antt", ".rt")):
        text = read(p)
        if p.endswith(".rt"):
            text = "\n".join(text[a:b] for a, b in clauses(text)) + "\n" + "\n".join(re.findall(r"\b\w+(?=: )", text))
        for t in set(TOKEN.findall(re.sub(r"--[^\n]*", "", text))):
            seen.setdefault(t, set()).add(p)
    back = {}
    for n, t in table.items():
        back.setdefault(t, []).append(n)
    for t, ns in sorted(back.items()):
        if len(ns) > 1:
            kept[t] = ns
    meets = {}
    for t in back:
        if t in seen:
            where = set().union(*[seen[n] for n in back[t]]) & seen[t]
            if where:
                meets[t] = where
    if "--list" in sys.argv:
        print(len(table), "names")
        print("two names become one:")
        for t, ns in kept.items():
            print("  ", t, ns)
        print("a name that stands in the same file already:")
        for t, where in sorted(meets.items()):
            print("  ", t, back[t], sorted(os.path.relpath(w, root) for w in where)[:6])
        print("names of other libraries:", sorted(names & others))
        return
    for p in files(root, (".antt", ".edit")):
        text = read(p)
        local = LOCAL.get(os.path.relpath(p, root).replace(os.sep, "/"), {})
        new = turned_antt(turned_antt(text, local), table)
        if new != text:
            with open(p, "w", encoding="utf-8") as f:
                f.write(new)
    for p in files(root, (".rt",)):
        text = read(p)
        new = turned_source(text, table)
        if new != text:
            with open(p, "w", encoding="utf-8") as f:
                f.write(new)


main()
