#!/usr/bin/env python3
"""Brings the names of definitions and lemmas to one spelling: words in snake case, facts in camel case.

usage, at the top of the repository:
    python3 tools/respell.py --apart    before port.py: lemmas whose names would fall together with a definition's get the ending -lem
    python3 tools/respell.py            after port.py: respells every crate
    python3 tools/respell.py --list     prints old and new names, and changes nothing

It goes by text. A name counts as ours if a file of specs/ or proofs/ defines it at the left margin, as a field of a record or
as a case of a data type. It is then respelled wherever it stands as a whole name in .antt files and in the clauses of .rt files.
Names of src/, of std and those that rattle makes keep their spelling.
"""

import glob
import os
import re
import sys

NAME = re.compile(r"[^\W\d][\w'\u2032\-\u2080-\u2089]*", re.UNICODE)
SIGNATURE = re.compile(r"^(?:(?:abbrev|unfoldable|pub|axiom)\s+)*((?:[^\s:{}()]+\s+)*?[^\s:{}()]+)\s*:\s(.*)$")
FIELD = re.compile(r"^\s+(?:pub\s+)?([^\s:{}()=]+)\s*:\s")
CASE = re.compile(r"^\s+([^\s:{}()=]+)\s*:\s")


def files(root):
    found = []
    for part in ("specs", "proofs"):
        found += glob.glob(os.path.join(root, "crates", "*", part, "**", "*.antt"), recursive=True)
    return sorted(found)


def defined(root):
    """Our names: name -> whether it is a fact, and the set of names that are fields of records."""
    names, fields = {}, set()
    for path in files(root):
        block = False
        with open(path, encoding="utf-8") as f:
            lines = f.read().split("\n")
        for at, line in enumerate(lines):
            if line.startswith("--") or not line.strip():
                continue
            if line[0] != " ":
                block = bool(re.match(r"(pub )?(record|data)\b", line))
                if line.startswith(("use ", "module ", "infix", "unfolding", "mod ", "pub mod ", "pub use ")) or block:
                    continue
                end = at + 1
                while end < len(lines) and lines[end].startswith(" "):
                    end += 1
                m = SIGNATURE.match(" ".join([line] + [l.strip() for l in lines[at + 1 : end]]))
                if m:
                    for name in m[1].split():
                        names[name] = names.get(name, False) or m[2].rstrip().endswith("Type 0")
            elif block:
                m = FIELD.match(line)
                if m:
                    fields.add(m[1])
                    names.setdefault(m[1], False)
            else:
                # inside `module _ (..) where`
                m = re.match(r"\s+(?:(?:abbrev|unfoldable|pub)\s+)*([^\s:{}()=,.]+)\s*:\s", line)
                if m:
                    names.setdefault(m[1], False)
    return names, fields


def snake(name):
    name = re.sub(r"([a-z])([A-Z])", r"\1_\2", name)
    name = re.sub(r"([0-9])([A-Z][a-z])", r"\1_\2", name)
    return name.replace("-", "_").lower()


def camel(name):
    return "".join(w[:1].upper() + w[1:] for w in re.split(r"[-_]", name))


def table(root):
    names, fields = defined(root)
    new = {}
    for name, fact in names.items():
        if not re.match(r"[a-z]", name) or not NAME.fullmatch(name):
            continue
        to = camel(name) if fact else snake(name)
        if to != name:
            new[name] = to
    return new, fields


def apart(root):
    """The lemmas that would have the name of a definition, and their names with an ending."""
    names, fields = defined(root)
    new, _ = table(root)
    spelled = {}
    for name in names:
        spelled.setdefault(new.get(name, name), []).append(name)
    return {n: n + "-lem" for to in spelled.values() if len(to) > 1 for n in to if "-" in n}, fields


def ours(path):
    with open(path, encoding="utf-8") as f:
        return f.read()


def turned(text, new, fields):
    out, at = [], 0
    for m in NAME.finditer(text):
        word = m[0]
        if word not in new:
            continue
        before = text[m.start() - 1 : m.start()]
        if before == "." and word not in fields:
            continue
        out.append(text[at : m.start()] + new[word])
        at = m.end()
    return "".join(out) + text[at:]


def clauses(text, new, fields):
    """The same in an .rt file, in its `ghost use` lines and its clauses alone."""
    out, at = [], 0
    for m in re.finditer(r"ghost use [^;]*;|\b(?:requires|ensures|ghost)\*?(?:\s+\w+)?:?\s*\{", text):
        if m.start() < at:
            continue
        end = m.end()
        if text[end - 1] == "{":
            depth = 1
            while depth:
                depth += {"{": 1, "}": -1}.get(text[end], 0)
                end += 1
        out.append(text[at : m.start()] + turned(text[m.start() : end], new, fields))
        at = end
    return "".join(out) + text[at:]


def main():
    root = os.getcwd()
    new, fields = apart(root) if "--apart" in sys.argv else table(root)
    if "--list" in sys.argv:
        for name in sorted(new):
            print(name, new[name])
        return
    names, _ = defined(root)
    for name, to in sorted(new.items()):
        if to in names or list(new.values()).count(to) > 1:
            print("falls together:", name, to)
    for path in files(root) + sorted(glob.glob(os.path.join(root, "crates", "*", "src", "**", "*.rt"), recursive=True)):
        text = ours(path)
        to = clauses(text, new, fields) if path.endswith(".rt") else turned(text, new, fields)
        if to != text:
            with open(path, "w", encoding="utf-8") as f:
                f.write(to)


main()
