#!/usr/bin/env python3
"""Checks the lists of public calls that allocate and of those that don't, calls-with-memory.txt and calls-without-memory.txt of
crates/library_rows.

A line there is `CALL: ROW`, `CALL: by ROW` or `CALL: transcript NAME`, as the comments at the top of the lists say. Each public call has
to be in exactly one of the lists, once, and what a line names has to exist: a row of crates/library_rows/data in which the call's
allocations fail, or a transcript of crates/zonectl_rows in which those of its lines do. The file that makes the calls of a row has to
name the call, unless the line says that another call makes it; for a call of a transcript a source of the program has to name it,
together with the type or module that has the call.
Prints what is wrong, and ends with status 1 if anything is.
"""
import glob
import os
import re
import sys

sys.dont_write_bytecode = True
sys.path.append(os.path.dirname(os.path.dirname(os.path.realpath(__file__))))

import sources
from sources import TOP, read

# The crates whose items all are the library's, and those of which zone_store hands items on.
OWN = ["zone_proto", "line_text", "denial_validation", "lookup_types", "zone_handler"]
HANDED_ON = ["zone_map", "zone_lookup", "zone_in_memory", "zonectl_session"]

# The calls that a type has by these traits are listed too; those of the library's own traits stand under the trait.
TRAITS = ["Clone", "Default", "From", "IntoIterator", "Iterator", "Ord", "PartialEq", "PartialOrd"]

# How a source writes calls of the standard library's traits.
WRITTEN = {"eq": r"==", "next": r"\.next\(|\bfor \w+ in\b"}

# What the files that make calls write their answers by.
WRITERS = ["iterators", "texts", "write"]

# The crates whose files make the calls of rows.
MAKERS = ["library_rows_values", "library_rows"]

# The program of the transcripts.
PROGRAM = "zonectl"

# Where the lists are, beside the rows that they name; each, and how a row of it refuses memory to its call.
FOLDER = "crates/library_rows"
LISTS = [("calls-with-memory.txt", r"after [1-9]\d* refusals: "), ("calls-without-memory.txt", "without memory: ")]


def texts(pattern):
    return [read(it) for it in sorted(glob.glob(pattern, root_dir=TOP, recursive=True))]


def offered(crate):
    """The names of the items that a crate hands out."""
    uses = re.findall(r"pub use [\w:]*?(\{[^}]*\}|\w+);", read(f"crates/{crate}/src/lib.rt"))
    return {name for use in uses for name in re.findall(r"\w+", use)}


def module_calls(crate):
    """The calls of the modules that a crate of the library hands out, as `module::call`. Laws do nothing, and aren't calls."""
    for module in re.findall(r"^pub mod (\w+);", read(f"crates/{crate}/src/lib.rt"), re.M):
        if not module.endswith("laws"):
            yield from (f"{module}::{call}" for call in re.findall(r"^pub fn (\w+)", read(f"crates/{crate}/src/{module}.rt"), re.M))


def calls_in(text, items):
    """The public calls of these items in a source, as `Type::call`, `Trait::call` or `call`."""
    owner, are_public = "", False
    # What is hidden from the library's documents is for the crates above.
    for line in re.sub(r"#\[doc\(hidden\)\]\nimpl.*?\n}\n", "", text, flags=re.S).split("\n"):
        if head := re.match(r"(pub trait|impl)(?:<.*?>)? (?:(\w+)(?:<.*>)? for )?&?(?:'\w+ )?(\w+)", line):
            owner, are_public = head[3] + "::", head[1] == "pub trait" or head[2] in TRAITS
        elif line == "}":
            owner, are_public = "", False
        elif call := re.match(r"(?:    )?(pub )?(?:const )?fn (\w+)", line):
            if (call[1] or are_public) and (owner.removesuffix("::") or call[2]) in items:
                yield owner + call[2]


def public_calls():
    calls = set()
    for crate in OWN + HANDED_ON:
        items = offered(crate if crate in OWN else "zone_store")
        calls.update(*(calls_in(text, items) for text in texts(f"crates/{crate}/src/**/*.rt")))
    for crate in OWN:
        calls.update(module_calls(crate))
    return calls


def listed(name):
    """The lines of a list: each call, and where its growths are refused."""
    lines = [it for it in read(f"{FOLDER}/{name}").split("\n") if it and not it.startswith("#")]
    return [tuple(it.split(": ", 1)) for it in lines]


def transcripts():
    """The transcripts that refuse memory to their lines, as the lists name them."""
    form = r"^## (\w+)\n(?:[#$].*\n)*! memory is refused to each line$"
    return {f"transcript {it}" for it in re.findall(form, "\n".join(texts("crates/zonectl_rows/data/*")), re.M)}


def source(name):
    """What the file of this name has, of the crates that make the calls of rows."""
    return "\n".join(it for crate in MAKERS for it in texts(f"crates/{crate}/src/{name}.rt"))


def forms():
    """The verbs of rows, in the order in which they are looked for, and the files that make their calls."""
    lines = re.search(r'const FORMS: &str = "(.*?)"', read("crates/library_rows_arguments/src/forms.rt"), re.S)[1].split("\n")
    subjects = [it.split(":") for it in lines if it]
    return [(verb.strip(), {"parked": "handlers"}.get(subject, subject)) for subject, verb, _ in subjects]


def makes(row, call):
    """Whether the file that makes the call of a row names a call of the library."""
    subject = next((it for verb, it in forms() if f"{row} ".startswith(f"{verb} ")), None)
    if not subject:
        return False
    return re.search(written(call), "\n".join(source(it) for it in [subject, *WRITERS])) is not None


def written(call):
    """How a source writes a call of the library."""
    name = call.split("::")[-1]
    return WRITTEN.get(name, rf"(?<!fn )\b{name}\b(::<.*?>)?\(")


def runs(call):
    """Whether a source of the program of the transcripts, or of what that stands on, makes a call, and names what has it."""
    crates = sources.standing_below(PROGRAM, sources.crates())
    files = [it for crate in crates for it in texts(f"crates/{crate}/src/**/*.rt")]
    return any(re.search(written(call), it) and all(re.search(rf"\b{owner}\b", it) for owner in call.split("::")[:-1]) for it in files)


def main():
    rows, others = "\n".join(texts(f"{FOLDER}/data/*")), transcripts()
    seen, wrong = set(), []
    for name, form in LISTS:
        for call, where in listed(name):
            if call in seen:
                wrong.append(f"{call} is listed twice")
            seen.add(call)
            row = where.removeprefix("by ")
            if where not in others and not re.search(f"^{form}{re.escape(row)} ", rows, re.M):
                wrong.append(f"{FOLDER}/{name}: {call}: nothing refuses memory to '{row}'")
            elif where in others and not runs(call):
                wrong.append(f"{FOLDER}/{name}: {call}: no source of {PROGRAM} makes it")
            elif where == row and where not in others and not makes(row, call):
                wrong.append(f"{FOLDER}/{name}: {call}: what makes '{row}' doesn't name it")
    public = public_calls()
    wrong += [f"{it} is a public call, and in no list of {FOLDER}" for it in sorted(public - seen)]
    wrong += [f"{it} is listed, and is no public call" for it in sorted(seen - public)]
    for it in wrong:
        print(f"memory_calls: {it}")
    return 1 if wrong else 0


if __name__ == "__main__":
    sys.exit(main())
