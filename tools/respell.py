#!/usr/bin/env python3
"""Respells the names of this repository's own definitions and lemmas, after the toolchain's own script, at one commit.

usage: python3 tools/respell.py [--list]      at the top of the repository, with everything committed

A word is in snake case (`some-bay` becomes `some_bay`), a type or a fact in upper camel case (`Course-lists` becomes
`CourseLists`). Names are gathered from specs/ and proofs/ of every crate: definitions, lemmas, fields, constructors, and
names bound by `let`, `λ`, an argument or `as`. Names that the toolchain makes, and those of its library, keep their spelling,
and so do names of Rust items, strings and comments of src/, inputs and outputs. It stops where a new name is already a name
of the repository's or the library's, and where two old names in one file would become one. `--list` prints the names and
changes nothing. On a tree that is respelled already it changes nothing.
"""

import os
import re
import sys

ID = r"[^\s(){}\[\],;.:`\"|⌜⌝λ∙◌→↦←×≡=]+"
DEFINED = re.compile(r"^(\s*)(?:(abbrev|unfoldable) )?(?:(pub) )?(?:(abbrev|unfoldable) )?(?:(record|data) )?(" + ID + r") (?::|\(|\{)")
BOUND = re.compile(r"\blet (" + ID + r") ?[:=]")
LAMBDA = re.compile(r"λ \(?(" + ID + r") ?[:.]")
ARGUMENTS = re.compile(r"^\s*(" + ID + r")((?: \(?" + ID + r"\)?)+) = ?")
RENAMED = re.compile(r"(" + ID + r") as (" + ID + r")(?=[,}\s;]|$)")
LIBRARY = re.compile(r"\s*use (?!Rattle\.(?!std\b))([^{]+)\.\{(.*)\}")
GOAL = re.compile(r" : goal\.")
# a name with a dash, or one in lower camel case
TOKEN = re.compile(r"(?<![\w'′-])[A-Za-z][\w'′]*(?:-[\w'′]+)+(?![\w'′-])|(?<![\w'′-])[a-z][a-z]*[A-Z][A-Za-z]*(?![\w'′-])")
# the end of a path into specs/ or proofs/, after which a name is a definition's and not a step's that the toolchain named
PATH = re.compile(r"(?:specs|proofs)[\w.+-]*\.$")

# Names that would fall together: the first three with functions of the library, the last with `choicesAt` of another crate.
SPECIAL = {
    "bit-and": "bit_of_and",
    "bit-or": "bit_of_or",
    "bit-xor": "bit_of_xor",
    "choices-at": "choices_are",
}


def files(root, folders, ends):
    for crate in sorted(os.listdir(os.path.join(root, "crates"))):
        for folder in folders:
            for here, dirs, names in os.walk(os.path.join(root, "crates", crate, folder)):
                dirs.sort()
                for name in sorted(names):
                    if name.endswith(ends):
                        yield os.path.join(here, name)


def read(path):
    with open(path, encoding="utf-8") as f:
        return f.read()


def respelled(name):
    if name in SPECIAL:
        return SPECIAL[name]
    if "-" not in name and not re.match(r"[a-z]+[A-Z]", name):
        return name
    if name[0].isupper():
        return "".join(part[:1].upper() + part[1:] for part in name.split("-"))
    return re.sub(r"([a-z])([A-Z])", lambda m: m.group(1) + "_" + m.group(2).lower(), name).replace("-", "_")


def names_of(line):
    """The names that a line of specs/ or proofs/ defines or binds, and of those the ones that may be fields."""
    names, fields = set(), set()
    m = DEFINED.match(line)
    if m:
        names.add(m.group(6))
        if m.group(1) and m.group(3) and not m.group(5):
            fields.add(m.group(6))
    names.update(BOUND.findall(line))
    names.update(LAMBDA.findall(line))
    for group in re.findall(r"\(([^():]+) :", line):
        names.update(re.findall(ID, group))
    m = ARGUMENTS.match(line)
    if m:
        names.update(re.findall(ID, m.group(2)))
    return names, fields


def gather(root):
    """The repository's own names, those of them that may be fields, and the library's names that it imports."""
    own, fields, library = set(), set(), set()
    for path in files(root, ("specs", "proofs"), ".antt"):
        for line in read(path).split("\n"):
            m = LIBRARY.match(line)
            if m:
                library.update(n.split(" as ")[0].strip() for n in m.group(2).split(","))
            if line.startswith("use "):
                own.update(new for _, new in RENAMED.findall(line))
            elif not GOAL.search(line) and not line.lstrip().startswith("--"):
                names, some = names_of(line)
                own |= names
                fields |= some
    for path in files(root, ("src",), ".rt"):
        for line in read(path).split("\n"):
            if line.startswith("ghost use "):
                own.update(new for _, new in RENAMED.findall(line))
    return own, fields, library


def clashes(root, table, own, library):
    """What would fall together under the table of new names."""
    made = {}
    for name in sorted(table):
        made.setdefault(table[name], []).append(name)
    taken = [f"{', '.join(v)} as {k}" for k, v in sorted(made.items()) if (k in own and k not in table) or k in library]
    for path in files(root, ("specs", "proofs", "src"), (".antt", ".rt")):
        seen = set(TOKEN.findall(read(path)))
        taken += [f"{', '.join(v)} as {k} in {os.path.relpath(path, root)}" for k, v in sorted(made.items()) if len(seen & set(v)) > 1]
    return taken


def plain_parts(path, text):
    """The parts of a text, each with whether its names may be respelled: not in comments, nor in strings of src/."""
    if path.endswith(".rt"):
        apart = re.compile(r"(//[^\n]*|\"(?:[^\"\\]|\\.)*\"|'(?:[^'\\]|\\.)')")
        for k, part in enumerate(apart.split(text)):
            yield k % 2 == 0, part
    else:
        for line in text.splitlines(keepends=True):
            yield not line.lstrip().startswith("--"), line


def turned(text, table, fields):
    def one(m):
        name = m.group(0)
        behind = text[: m.start()]
        # behind a dot stands a field, the end of an import's path, or a step's name, which is the toolchain's
        if name in table and behind.endswith(".") and name not in fields and not PATH.search(behind[-200:].split(" ")[-1]):
            return name
        return table.get(name, name)

    return TOKEN.sub(one, text)


def main():
    root = os.getcwd()
    if not os.path.isfile(os.path.join(root, "crates.txt")):
        sys.exit("respell: run it at the top of the repository")
    own, fields, library = gather(root)
    names = {n for n in own if respelled(n) != n and TOKEN.fullmatch(n)}
    for name in sorted(names & library):
        print(f"kept, the library has it too: {name}")
    table = {n: respelled(n) for n in names - library}
    bad = clashes(root, table, own, library)
    if bad:
        sys.exit("respell: these names would fall together: " + "; ".join(bad))
    if "--list" in sys.argv:
        for name in sorted(table):
            print(name, table[name])
        return
    changed = 0
    for path in files(root, ("specs", "proofs", "src"), (".antt", ".rt")):
        old = read(path)
        new = "".join(turned(part, table, fields) if plain else part for plain, part in plain_parts(path, old))
        if new != old:
            with open(path, "w", encoding="utf-8") as f:
                f.write(new)
            changed += 1
    print(f"respell: {len(table)} names, {changed} files")


if __name__ == "__main__":
    main()
