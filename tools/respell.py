#!/usr/bin/env python3
"""Spells the repository's own definitions and lemmas in snake case, as Rattle does today.

usage: tools/respell.py [--check] [FOLDER]

Run once, after the kit's port.py, at the top of the repository or with its folder. A name that an .antt file of crates/ declares
loses its dashes and inner capitals: faceSlot becomes face_slot, first-above first_above, TWO-PI-OVER-5 TWO_PI_OVER_5. Names of
types and modules keep theirs, and so do the goals of a function (a declaration at a type of its own Tie), which the check names.
Where two names would meet, tools/respell.tsv has the new name (old, a tab, new). It turns whole words alone: in .antt files all
of them, in .rt files those outside strings, in must-fail edits both texts, in README and docs/ those in code spans.
--check writes nothing, and lists the names that would meet in some file.
"""
import os
import re
import sys

HERE = os.path.dirname(os.path.realpath(__file__))
NAME = r"[^\s(){}\[\].;,@\"«»:`]+"
DECLARED = re.compile(rf"^ *(?:(?:pub|abbrev|unfoldable) )*({NAME})((?: \{{[^{{}}]*\}})*) :(?= |$)(.*)$", re.M)
FIELDS = re.compile(rf"(?:pub )?({NAME}) :(?= )")
WORD = re.compile(NAME)
RUST_WORD = re.compile(r"\"(?:[^\"\\\n]|\\.)*\"|(?<![\w])[A-Za-z_][\w]*(?:-[A-Za-z_]\w*)*'*")
SPAN = re.compile(r"`[^`\n]*`")
CAMEL = re.compile(r"(?<=[a-z0-9])([A-Z])")


def snake(name):
    name = name.replace("′", "'").replace("-", "_")
    return CAMEL.sub(lambda m: "_" + m.group(1).lower(), name) if name[:1].islower() else name


def files(top, folders, endings):
    for folder in folders:
        path = os.path.join(top, folder)
        if os.path.isfile(path):
            yield path
        for above, below, names in os.walk(path):
            below[:] = sorted(it for it in below if it != "out")
            yield from (os.path.join(above, it) for it in sorted(names) if it.endswith(endings))


def read(path):
    with open(path, encoding="utf-8") as f:
        return f.read()


def table(top):
    names = {}
    for path in files(top, ["crates"], (".antt",)):
        for m in DECLARED.finditer(read(path)):
            if not m.group(3).startswith((" tie.Need-", " tie.invariant-", " tie.decreases-")):
                names[m.group(1)] = snake(m.group(1))
    names = {a: b for a, b in names.items() if a != b and re.match(r"[A-Za-z]", a)}
    with open(os.path.join(HERE, "respell.tsv"), encoding="utf-8") as f:
        given = dict(line.rstrip("\n").split("\t") for line in f if "\t" in line)
    return {a: b for a, b in {**names, **given}.items() if a != b}


def turned(text, names, kind):
    if kind == "antt":
        return WORD.sub(lambda m: names.get(m.group(), m.group()), text)
    if kind == "rt":
        return RUST_WORD.sub(lambda m: names.get(m.group(), m.group()), text)
    return SPAN.sub(lambda m: RUST_WORD.sub(lambda w: names.get(w.group(), w.group()), m.group()), text)


def kind_of(path):
    if path.endswith(".antt"):
        return "antt"
    if path.endswith(".edit"):
        return "rt" if re.search(r"^file: .*\.rt$", read(path), re.M) else "antt"
    return "rt" if path.endswith(".rt") else "md"


def meetings(path, names):
    """The pairs of words of a file that would become one."""
    kind = kind_of(path)
    text = read(path)
    words = set((WORD if kind == "antt" else RUST_WORD).findall(text))
    met = {}
    for word in words:
        met.setdefault(names.get(word, word), []).append(word)
    return {new: old for new, old in met.items() if len(old) > 1}


def main():
    words = sys.argv[1:]
    check = "--check" in words
    words = [it for it in words if it != "--check"]
    top = words[0] if words else os.path.join(HERE, "..")
    names = table(top)
    count = 0
    for path in files(top, ["crates", "README.md", "docs"], (".antt", ".rt", ".edit", ".md")):
        if check:
            if path.endswith((".antt", ".rt")):
                for new, old in meetings(path, names).items():
                    print(f"meet: {os.path.relpath(path, top)}: {', '.join(sorted(old))} as {new}")
            continue
        text = read(path)
        new = turned(text, names, kind_of(path))
        if new != text:
            count += 1
            with open(path, "w", encoding="utf-8") as f:
                f.write(new)
    if not check:
        print(f"respell: {len(names)} names in {count} files")


main()
