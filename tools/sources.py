"""The contents of the sources of the crates, for the checks of the documents: the functions with their clauses, the types and
traits, the definitions, and the files. Sources are formatted by `rt fmt`, so a line shows what it begins."""

import os
import re

TOP = os.path.dirname(os.path.dirname(os.path.realpath(__file__)))


def read(path):
    # (what a program reads and writes may be octets)
    with open(f"{TOP}/{path}", encoding="utf-8", errors="replace") as it:
        return it.read()


def files_below(folder, *ends):
    """The paths of the files below a folder of the repository whose names end so; what rt makes in out/ is left out."""
    found = []
    for where, folders, names in os.walk(f"{TOP}/{folder}"):
        folders[:] = sorted(it for it in folders if it not in ("out", ".git", "__pycache__"))
        found += [os.path.relpath(f"{where}/{it}", TOP) for it in sorted(names) if it.endswith(ends)]
    return found


def lines_of_crates():
    """The lines of crates.txt: what stands before the colon, a name and perhaps `staticlib`, and what stands behind it."""
    return [it.split(":") for it in read("crates.txt").split("\n") if it and not it.startswith("#")]


def crates():
    """The crates of crates.txt in its order, each with what it stands on."""
    return {head.split()[0]: below.split() for head, below in lines_of_crates()}


def static_libraries():
    """The crates that are static libraries, for programs that aren't written in Rattle."""
    return [head.split()[0] for head, _ in lines_of_crates() if "staticlib" in head.split()]


def standing_below(name, listed):
    """A crate and the crates of the repository that it stands on, in the order of crates.txt."""
    needed, left = set(), [name]
    while left:
        crate = left.pop()
        if crate in listed and crate not in needed:
            needed.add(crate)
            left += listed[crate]
    return [it for it in listed if it in needed]


class Names:
    """The names that the sources of a crate have, or of several."""

    def __init__(self):
        # The clauses of each function, by its name alone and behind those of its type, trait and module; and the fields of each
        # record of the definitions.
        self.clauses = {}
        # Types, traits, modules, cases of enums, derived traits.
        self.items = set()
        # Public names of definitions.
        self.definitions = set()
        # The files of definitions and lemmas, without their ends.
        self.files = set()

    def add_clauses(self, names, clauses):
        for name in names:
            self.clauses.setdefault(name, set()).update(clauses)

    def add(self, others):
        for name, clauses in others.clauses.items():
            self.add_clauses([name], clauses)
        self.items |= others.items
        self.definitions |= others.definitions
        self.files |= others.files

    def has(self, name):
        return name in self.clauses or name in self.items or name in self.definitions


def owners_of(line):
    """The trait and the type that the functions below such a line belong to, those of the two that it has."""
    head = re.match(r"(?:pub )?(?:impl|trait)\b(?:<[^{]*?>)? (?:([\w:]+)(?:<.*>)? for )?&?(?:'\w+ )?(\w+)", line)
    return [it.split("::")[-1] for it in head.groups() if it] if head else []


def add_items(names, text, module):
    """Adds what one source has."""
    owners, function = [], []
    for line in text.split("\n"):
        if head := owners_of(line):
            owners = head
            names.items.update(head)
        elif line.startswith("}"):
            owners = []
        if it := re.match(r"(?:    )?(?:pub(?:\([\w:]+\))? )?(?:final )?(?:const )?(?:extern \"C\" )?fn (\w+)", line):
            function = [it[1]] + [f"{owner}::{it[1]}" for owner in owners + [module]]
            names.add_clauses(function, [])
        elif it := re.match(r" +ensures (\w+ )?\{", line):
            names.add_clauses(function, [it[1].strip()] if it[1] else [])
        elif it := re.match(r"(?:pub )?(enum|struct|trait|mod|type|const) (\w+)", line):
            owners = [it[2]] if it[1] == "enum" else owners
            names.items.add(it[2])
        elif it := re.match(r"    ([A-Z]\w*)(?:[,({ ]|$)", line):
            names.items.update([it[1]] + [f"{owner}::{it[1]}" for owner in owners])
        elif it := re.match(r"#\[derive\((.*)\)\]", line):
            names.items.update(re.findall(r"\w+", it[1]))


def add_definitions(names, text):
    """Adds what one file of definitions has: its public names, and the fields of its records as their clauses."""
    record = None
    for line in text.split("\n"):
        if it := re.match(r"( *)(?:abbrev |unfoldable )?pub (record |data )?([\w']+)", line):
            if it[2] == "record ":
                record = it[3]
                names.add_clauses([record], [])
            elif record and it[1]:
                names.add_clauses([record], [it[3]])
            names.definitions.add(it[3])
        elif line and not line.startswith(" "):
            record = None


def stem(path):
    return os.path.splitext(os.path.basename(path))[0]


def names_of(crate):
    """The names of one crate."""
    names = Names()
    for path in files_below(f"crates/{crate}/src", ".rt"):
        add_items(names, read(path), stem(path))
    for path in files_below(f"crates/{crate}/specs", ".antt"):
        add_definitions(names, read(path))
    names.files.update(stem(it) for part in ("specs", "proofs") for it in files_below(f"crates/{crate}/{part}", ".antt"))
    return names
