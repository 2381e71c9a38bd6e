#!/usr/bin/env python3
"""Respells the names of definitions and lemmas: facts and types in camel case, all else in snake case, tests by a verb.

usage: python3 tools/respell.py        at the top of the repository, once, after the kit's port.py

It turns whole names in the .antt files and in the clauses and ghost items of the .rt files. Comments, strings, Rust's own
names, and the names that Rattle or its library makes stay. A name is turned where a file of the repository declares it: by
a signature, a binder, a record or a data type.
"""

import os
import re

NAME = re.compile(r"[^\s(){};,.\[\]\"`⌜⌝◌→≡↔×⊎↦λ¬∷≢∈]+")
# a dash between letters, a question mark at the end, or a capital with an underscore
OLDER = re.compile(r"[A-Za-z0-9'ᴰ?]-[A-Za-z0-9]|\?$|^[A-Z].*_")
# names that only a test of a fact had: what the test answers, by a verb
TESTS = {
    "agrees?": "does_agree",
    "fits?": "does_fit",
    "good-row?": "is_good_row",
    "good-rows?": "are_good_rows",
    "good-table?": "is_good_table",
    "marked?": "is_marked",
    "proper-label?": "is_proper_label",
    "proper?": "is_proper",
    "same-arc?": "is_same_arc",
}


def files(ending):
    for folder, dirs, names in os.walk("crates"):
        dirs[:] = sorted(d for d in dirs if d != "out")
        for n in sorted(names):
            if n.endswith(ending):
                yield os.path.join(folder, n)


def read(path):
    with open(path, encoding="utf-8") as f:
        return f.read()


def plain(text):
    """The text without comments of antt."""
    return re.sub(r"--[^\n]*", "", text)


def declared():
    """The names that the repository declares, without those of Rattle's goals."""
    names, goals = set(), set()
    for path in files(".antt"):
        text = plain(read(path))
        names |= set(re.findall(r"(?:^|[\s({])([^\s(){};,.\[\]]+) :(?=\s)", text, re.M))
        names |= set(re.findall(r"(?:data|record|let) ([^\s(){};,.\[\]:=]+)", text))
        for binders in re.findall(r"(?:λ|↦) ?\(?([^\s(){};,.\[\]]+(?:[ ,]+[^\s(){};,.\[\]]+)*)\)?\.", text):
            names |= set(re.split(r"[ ,]+", binders))
        goals |= set(re.findall(r"([^\s(){};,.\[\]]+) : goal\.", text))
    for path in [*files(".antt"), *files(".rt")]:
        for imported in re.findall(r"\buse [^;{}\n]*\{([^}]*)\}", read(path)):
            names |= set(re.findall(r" as ([^\s,]+)", imported))
    return {n for n in names - goals if OLDER.search(n)}


def respelled(name):
    if name in TESTS:
        return TESTS[name]
    if name[0].isupper():
        return "".join(p[0].upper() + p[1:] for p in re.split("[-_]", name))
    return name.replace("-", "_")


def turn(text, names):
    return NAME.sub(lambda m: names.get(m[0], m[0]), text)


def turn_antt(text, names):
    parts = re.split(r"(--[^\n]*)", text)
    return "".join(p if p.startswith("--") else turn(p, names) for p in parts)


def closing(text, at):
    deep = 0
    for i in range(at, len(text)):
        deep += (text[i] == "{") - (text[i] == "}")
        if deep == 0:
            return i
    return len(text)


def turn_rt(text, names):
    """Turns the imports of ghost names, the clauses and the ghost members; other code stays."""
    out, at = [], 0
    start = re.compile(r"ghost use [^;]*;|\b(?:requires|ensures)\*?(?: \w+)? \{|\bghost \w+(?::| =) \{")
    while m := start.search(text, at):
        end = m.end() if m[0].endswith(";") else closing(text, m.end() - 1)
        out += [text[at : m.start()], turn(text[m.start() : end], names)]
        at = end
    return "".join(out) + text[at:]


def main():
    names = {n: respelled(n) for n in declared()}
    for ending, turned in ((".antt", turn_antt), (".rt", turn_rt)):
        for path in files(ending):
            text = read(path)
            new = turned(text, names)
            if new != text:
                with open(path, "w", encoding="utf-8") as f:
                    f.write(new)


if __name__ == "__main__":
    main()
