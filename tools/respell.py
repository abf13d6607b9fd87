#!/usr/bin/env python3
"""Brings this repository's own definitions, laws, fields and constructors to one spelling: words in snake case.

usage: python3 tools/respell.py [--list]     at the top of the repository, once, right after the kit's port.py; --list only prints the names

A name is respelled where a file of specs/ or proofs/ declares it and
- it has a capital behind a small letter or a figure: tilesOf becomes tiles_of;
- it has a dash: places-are becomes places_are. A dash stays where both of its sides are words that are defined, as in length-plains.
A name that begins with a capital is a type, a fact or a module and stays, and so do names of Rattle's own in proofs/F, as returns-2, and the
names of functions, fields and types in src/. Files are rewritten in place: *.antt, the clauses of *.rt, *.edit, and names in backticks in *.md.
A law that would have a word's name gets _lem. Two names that would fall together in one file are told, and then nothing is written, but for a
word beside a field or a function of src/ of that name, which are told apart by where they stand.
"""
import os
import re
import subprocess
import sys

SEPARATORS = r"\s(){}\[\].;,:@`\"«»"
TOKEN = re.compile(r"[^" + SEPARATORS + r"]+")
SIGNATURE = re.compile(r"^\s*((?:(?:pub|abbrev|unfoldable|data|record|ruleset|mutual)\s+)*)([^" + SEPARATORS + r"λ=]+)(?:\s*[({][^=]*?[)}])*\s*:(?:\s|$)")
WORDS = {"length", "get_or", "set", "take", "drop", "map", "sum", "reverse", "min", "max", "replicate"}
# what older texts call a word of the library by
OLDER = {"get_d": "get_or", "getD": "get_or"}
# fields of records, which a word of the same name does not meet
FIELDS = {"in-range"}
# words beside fields or functions of src/
APART = {"in_range", "box_tiles", "touched_tiles", "shape_at", "on_screen", "number_of"}
GENERATED = re.compile(r"(-requires(-\d+)?$)|^(invariant|decreases|returns|overflow|bounds)-")


def files(*endings):
    out = subprocess.run(["git", "ls-files", "-co", "--exclude-standard"], capture_output=True, text=True, check=True).stdout.splitlines()
    return [f for f in out if f.endswith(endings) and os.path.isfile(f) and not f.startswith("tools/")]


def read(path):
    with open(path, encoding="utf-8") as f:
        return f.read()


def declared():
    """The names that this repository declares, and those of them that are words: definitions, and no laws."""
    names, words = set(), set(WORDS)
    for path in files(".antt"):
        for line in read(path).splitlines():
            found = SIGNATURE.match(line)
            if not found or line.lstrip().startswith("--"):
                continue
            name = found.group(2)
            if name in ("let", "in", "module", "elim", "use") or re.search(r":\s*(goal|tie)\.", line) or GENERATED.search(name):
                continue
            names.add(name)
            if re.search(r"abbrev|unfoldable|data|record", found.group(1)):
                words.add(name)
    return names, words


def snake(name):
    return re.sub(r"(?<=[a-z0-9])(?=[A-Z])", "_", name).lower() if re.match(r"[a-z]", name) else name


def respelled(name, words):
    if re.match(r"[A-Z]", name) and "-" not in name:
        return name
    parts = re.split(r"(?<=\w)-(?=[\w])", name)
    parts = [OLDER.get(p, p) for p in parts]
    spelled = [snake(p) for p in parts]
    out, at = spelled[0], parts[0]
    known = {snake(w) for w in words} | {w for w in words}
    for i in range(1, len(parts)):
        rest = "-".join(parts[i:])
        joint = "-" if len(parts) == 2 and at in known and rest in known else "_"
        out, at = out + joint + spelled[i], at + "-" + parts[i]
    return out


def library(text):
    """The names that a file imports from elsewhere than this repository."""
    found = set()
    for line in re.findall(r"use ([^;\n]*)", text):
        path = line.split(".{")[0]
        if not re.match(r"Rattle[.\u00b7](?!std\b)", path):
            found |= set(TOKEN.findall(line[len(path):]))
    return found


def main(argv):
    names, words = declared()
    table = {n: respelled(n, words) for n in names}
    taken = {table.get(w, w) for w in words if re.match(r"[a-z]", w)}
    table = {a: b + "_lem" if "-" in a and a not in words and a not in FIELDS and b in taken else b for a, b in table.items()}
    table = {a: b for a, b in table.items() if a != b}
    if "--list" in argv:
        for a in sorted(table):
            print(a, table[a])
        return 0
    texts, bad = {}, 0
    for path in files(".antt", ".rt", ".edit", ".md"):
        old = read(path)
        kept = library(old) if path.endswith((".antt", ".rt")) else set()
        table_here = {a: b for a, b in table.items() if a not in kept}

        def turn(text):
            return TOKEN.sub(lambda m: table_here.get(m.group(0), m.group(0)), text)

        if path.endswith(".md"):
            new = re.sub(r"`[^`\n]*`", lambda m: turn(m.group(0)), old)
        else:
            new = turn(old)
        if path.endswith(".antt"):
            here = set(TOKEN.findall(old))
            for a, b in table_here.items():
                if a in here and b in here and b not in APART and not path.endswith("/Proof.antt"):
                    print(f"{path}: {a} and {b} would fall together")
                    bad += 1
            given = {}
            for a in here & set(table_here):
                given.setdefault(table_here[a], []).append(a)
            for b, them in given.items():
                if len(them) > 1:
                    print(f"{path}: {' and '.join(them)} would both be {b}")
                    bad += 1
        if new != old:
            texts[path] = new
    if bad:
        print(f"{bad} clashes; nothing was written")
        return 1
    for path, text in texts.items():
        with open(path, "w", encoding="utf-8") as f:
            f.write(text)
    print(f"{len(table)} names, {len(texts)} files")
    return 0


if __name__ == "__main__":
    raise SystemExit(main(sys.argv[1:]))
