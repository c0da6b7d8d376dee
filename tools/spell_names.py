#!/usr/bin/env python3
"""Brings the repository's own names in specs/, proofs/ and clauses to today's spelling, after port.py.

usage: python3 tools/spell_names.py        at the top of the repository, once

A word of a definition, a lemma, a field or a constructor that has a capital inside (bytesFor, length-bitsOf) is written in snake case
(bytes_for, length-bits_of). Types and modules keep their capitals, and what src/ declares keeps its name. With --list it writes nothing, and
lists the names of one crate that fall together with a word there: a definition and the function of src/ whose answer it says may share a name.
"""

import os
import re
import sys

WORD = re.compile(r"[^\s(){}\[\],;.:→×∷≡=+*/<>≤≢⊎\"`'|&!?%^~@#$\\]+")
SIGNATURE = re.compile(r"^ *(?:(?:abbrev|unfoldable) )?(?:pub )?(?:data |record )?([^\s:(){}]+)(?: [({].*)? : ")
PART = re.compile(r"^[a-z][a-z0-9]*(?:[A-Z][a-z0-9]*)+(?:[₀-₉]|_[a-z0-9_]+)*$")
# Lemmas that would have the name of a definition that is cited beside them.
LEMMAS = {("exponents", "on_some"): "on_some_lem", ("host", "one_each"): "one_each_lem"}
# Words of the library of an older Rattle, which stand in names of lemmas.
LIBRARY = {"getD": "get_or", "eqZ": "int_eq", "maxZ": "int_max"}


def snake(part):
    if part in LIBRARY:
        return LIBRARY[part]
    if not PART.match(part):
        return part
    return re.sub(r"(?<=[a-z0-9])([A-Z])", lambda m: "_" + m.group(1).lower(), part).lower()


def spelled(name):
    return "-".join(snake(p) for p in name.split("-"))


def files(root, endings):
    for folder, dirs, names in os.walk(os.path.join(root, "crates")):
        dirs[:] = sorted(d for d in dirs if d != "out")
        for n in sorted(names):
            if n.endswith(endings):
                yield os.path.join(folder, n)


def read(path):
    with open(path, encoding="utf-8") as f:
        return f.read()


def own_names(root):
    found = set()
    for path in files(root, (".antt",)):
        for line in read(path).split("\n"):
            m = SIGNATURE.match(line)
            if m and not line.lstrip().startswith(("--", "let ")):
                found.add(m.group(1))
    return found


def main():
    root = os.getcwd()
    names = {n: spelled(n) for n in own_names(root)}
    names = {a: b for a, b in names.items() if a != b}
    clash = []
    for crate in sorted(os.listdir(os.path.join(root, "crates"))):
        words = set()
        for path in files(root, (".antt",)):
            if path.startswith(os.path.join(root, "crates", crate, "")):
                words |= set(WORD.findall(read(path)))
        clash += [f"{crate}: {a} and {b}" for a, b in sorted(names.items()) if a in words and b in words]
    if "--list" in sys.argv:
        print("\n".join(clash))
        return 0
    turned = 0
    for path in files(root, (".antt", ".rt")):
        old = read(path)
        crate = os.path.relpath(path, os.path.join(root, "crates")).split(os.sep)[0]
        lemmas = {a: b for (c, a), b in LEMMAS.items() if c == crate}
        new = WORD.sub(lambda m: lemmas.get(m.group(0), m.group(0)), old)
        new = WORD.sub(lambda m: names.get(m.group(0), m.group(0)), new)
        if new != old:
            turned += 1
            with open(path, "w", encoding="utf-8") as f:
                f.write(new)
    print(f"{len(names)} names turned in {turned} files")
    return 0


if __name__ == "__main__":
    raise SystemExit(main())
