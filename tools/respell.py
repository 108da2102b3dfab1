#!/usr/bin/env python3
"""Brings the repository's own definitions and lemmas to the spelling of Rattle's library: words in snake case, types and modules in camel case.

usage: tools/respell.py           in the repository: rewrites specs/, proofs/, the clauses of src/ and the must-fail edits
       tools/respell.py --list    prints each name and its new spelling, and writes nothing

A name is one that a .antt file of this repository declares at the start of a line. It keeps its spelling where it is a type (it begins with a capital),
where a library's module has it, or where src/ declares it. Two names that would fall together, in one file or in two that a third reads, are told,
and then nothing is written.
"""

import glob
import os
import re
import sys

DECLARED = re.compile(r"^[ \t]*(?:(?:abbrev|unfoldable|opaque|private|pub|constructor) +)*((?:[^\s(){}\[\];,.:=?λ∀]+ +)*[^\s(){}\[\];,.:=?λ∀]+) +:(?= )", re.M)
TOKEN = re.compile(r"[^\s(){}\[\];,.`\"'“”…:]+'*(?![^\s(){}\[\];,.`\"'“”…:])")
USE = re.compile(r"^[ \t]*(?:pub )?(?:ghost )?use ([^{;\n]*?)(?:\.\{([^}]*)\}|)(?: as [^\s;]+)?;?[ \t]*$", re.M)
WORDS = {"let", "in", "where", "record", "data", "module", "pub", "abbrev", "unfoldable", "use", "with", "rw", "simp", "elim"}
# Words of the older library that stand in names of lemmas about them.
OLD_WORDS = [("getD", "get_or"), ("allTo", "all_to")]


def snake(name):
    for old, new in OLD_WORDS:
        name = re.sub(rf"(?<![A-Za-z]){old}(?![a-z])", new, name)
    name = re.sub(r"(?<=[a-z])Of(\d)", r"_of_\1", name)
    name = re.sub(r"(?<=[a-z0-9])([A-Z])", lambda m: "_" + m[1].lower(), name)
    return name.replace("-", "_").lower() if not re.match(r"[A-Z]", name) else name


def antt_files(root="."):
    return sorted(f for f in glob.glob(os.path.join(root, "crates/*/specs/**/*.antt"), recursive=True) + glob.glob(os.path.join(root, "crates/*/proofs/**/*.antt"), recursive=True) if "/out/" not in f)


def code(text):
    """The text with its comments blanked."""
    return re.sub(r"--[^\n]*", lambda m: " " * len(m[0]), text)


def own_names(files):
    """The names that the files declare, each with the files that do; function proofs' own goals are left out."""
    names = {}
    for f in files:
        if re.search(r"/proofs/[^/]+/(?:Proof|Answers|Invariants)\.antt$", f):
            continue
        for m in DECLARED.finditer(code(open(f, encoding="utf-8").read())):
            for n in m[1].split():
                if n in WORDS:
                    continue
                names.setdefault(n, set()).add(f)
    return names


def library_names(files, own):
    """The names that the files import from modules that are not the repository's."""
    found = {}
    for f in files:
        for m in USE.finditer(code(open(f, encoding="utf-8").read())):
            parts = m[1].split(".")
            if parts[0] == "Rattle" and len(parts) > 1 and parts[1] in own:
                continue
            for n in (m[2] or "").split(","):
                n = n.strip().split(" as ")[0].strip()
                if n:
                    found.setdefault(n, set()).add(f)
    return found


def declared_in_records(files):
    """The names that stand indented where they are declared: fields of records, constructors, and what a module with parameters has."""
    found = set()
    for f in files:
        for m in re.finditer(r"^[ \t]+(?:pub +)?([^\s(){}\[\];,.:=]+) +:(?= )", code(open(f, encoding="utf-8").read()), re.M):
            found.add(m[1])
    return found


def readers(files, name, homes):
    """The files that declare the name, and those that import it from one that does."""
    modules = {re.sub(r"^(?:\./)?crates/([^/]+)/(specs|proofs)/(.*)\.antt$", lambda m: f"Rattle.{m[1]}.{m[2]}.{m[3].replace('/', '.')}", h) for h in homes}
    found = set(homes)
    for f in files:
        for m in USE.finditer(code(open(f, encoding="utf-8").read())):
            if m[1].strip() in modules and name in re.split(r"[\s,]+", m[2] or ""):
                found.add(f)
    return found


def spellings(files, sources):
    """New spellings of the names: those for every file, and those for the named files alone."""
    crates = {os.path.basename(c) for c in glob.glob("crates/*")}
    names = own_names(files)
    library = library_names(files + sources, crates)
    turned, scoped, told = {}, {}, []
    for n in sorted(names):
        if re.match(r"[a-z]", n) and re.search(r"[A-Z]|-", n):
            turned[n] = snake(n)
    groups = {}
    for n, new in turned.items():
        groups.setdefault(new, []).append(n)
    for new, olds in sorted(groups.items()):
        definition = [o for o in olds if "-" not in o]
        lemmas = [o for o in olds if "-" in o]
        if new in names and definition:
            for f in readers(files, new, names[new]):
                scoped.setdefault(f, {})[new] = new + "_lem"
            told.append(f"{new}, which {sorted(names[new])[0]} declares, is {new}_lem, and {definition[0]} is {new}")
        if lemmas and (definition or new in names or new in library):
            for o in lemmas:
                turned[o] = new + "_lem"
                told.append(f"{o} is {new}_lem, since {(definition or [new])[0]} is {new}")
        if len(definition) > 1 or len(lemmas) > 1:
            raise SystemExit(f"{olds} fall together")
    taken = {}
    for n, new in turned.items():
        taken.setdefault(new, []).append(n)
    for new, olds in taken.items():
        if len(olds) > 1 or (new in names and new not in {k for s in scoped.values() for k in s}):
            raise SystemExit(f"{olds} fall together as {new}")
    return turned, scoped, library, told


def respelled(text, f, turned, scoped, library, fields):
    own = scoped.get(f, {})
    goals = bool(re.search(r"/proofs/.*/Proof\.antt$", f))

    def one(m):
        name = m[0]
        behind_dot = m.start() > 0 and text[m.start() - 1] == "."
        if f in library.get(name, ()):
            return name
        if name in own:
            return name if behind_dot else own[name]
        if goals and behind_dot and name not in fields:
            return name
        return turned.get(name, name)

    return TOKEN.sub(one, text)


def main(argv):
    files = antt_files()
    sources = sorted(glob.glob("crates/*/src/**/*.rt", recursive=True))
    turned, scoped, library, told = spellings(files, sources)
    if "--list" in argv:
        print("\n".join(told))
        for n in sorted(turned):
            print(n, turned[n])
        return 0
    fields = declared_in_records(files)
    changed = 0
    for f in files + sources:
        text = open(f, encoding="utf-8").read()
        new = respelled(text, f, turned, scoped, library, fields)
        if new != text:
            with open(f, "w", encoding="utf-8") as to:
                to.write(new)
            changed += 1
    print("\n".join(told))
    print(f"{len(turned)} names are respelled, in {changed} files")
    return 0


if __name__ == "__main__":
    raise SystemExit(main(sys.argv[1:]))
