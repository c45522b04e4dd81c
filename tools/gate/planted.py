#!/usr/bin/env python3
"""Wrong bodies as data: planted/CRATE/NAME.edit says how to break a body of a crate, which the check has to refuse.

  by: the clause of `f`      what refuses it, in names of the crate; if it is missing, tools/gate/plant tells
  file: src/transfer.rt      a file of the crate
  old: a line of it          what occurs there once
  new: another line          what replaces it

More pairs of old and new, and more files, may follow. As a program, this checks that each can be applied: each old text occurs exactly
once in its file, the names after `by` exist, and docs/PROOFS.md has the right numbers. It prints what is wrong, and ends with status 1 if
anything is. tools/gate/plant tries them.
"""
import fcntl
import functools
import os
import re
import sys

sys.dont_write_bytecode = True
sys.path.append(os.path.dirname(os.path.dirname(os.path.realpath(__file__))))

import sources

PROOFS = "docs/PROOFS.md"

# A line for each wrong body that the check has refused when tools/gate/plant tried it last: CRATE/NAME DAY.
TRIED = "planted/tried"


def read(path):
    try:
        return sources.read(path)
    except OSError:
        return ""


def crates_with_planted():
    folder = f"{sources.TOP}/planted"
    return sorted(it for it in os.listdir(folder) if os.path.isdir(f"{folder}/{it}")) if os.path.isdir(folder) else []


def lines(crate, name):
    """The lines of a wrong body's file."""
    return read(f"planted/{crate}/{name}.edit").removesuffix("\n").split("\n")


@functools.cache
def names_of(crate):
    """The names of a crate's sources: functions, types, and clauses."""
    names = sources.names_of(crate)
    return {*names.clauses, *names.items, *(clause for clauses in names.clauses.values() for clause in clauses)}


def turn(texts, crate, name):
    """Breaks the texts of a crate's files, by path, as a wrong body does, and says what is wrong with its file."""
    path, old, wrong = "", "", []
    for line in lines(crate, name):
        word, _, rest = line.partition(":")
        rest = rest.removeprefix(" ")
        if word == "by":
            # (a short word may be the name of a clause that a trait of the toolchain's has)
            named = [it for it in re.findall(r"`([^`]+)`", rest) if not re.fullmatch("[a-z]+", it)]
            wrong += [f"{crate} has no {it}, which is to refuse it" for it in named if it not in names_of(crate)]
        elif word == "file":
            path = rest.strip()
            texts.setdefault(path, read(f"crates/{crate}/{path}"))
        elif word == "old":
            old = rest
        elif word == "new" and path and old:
            count = texts[path].count(old)
            if count != 1:
                wrong.append(f"'{old}' stands {count} times in {path}, and not once")
            if old == rest:
                wrong.append(f"'{old}' is put in its own place")
            texts[path], old = texts[path].replace(old, rest), ""
        elif line.strip():
            wrong.append(f"the line '{line}' is none of a planted body")
    return wrong if path else ["it names no file"]


def turned(crate, name):
    """The texts that a wrong body gives to files of its crate, by path, and what is wrong with its file."""
    texts = {}
    wrong = turn(texts, crate, name)
    return texts, wrong


def turned_together(crate, names):
    """The texts that several wrong bodies give to files of their crate, by path."""
    texts = {}
    for name in names:
        turn(texts, crate, name)
    return texts


def planted_in(crate):
    """The wrong bodies of a crate by name, each with its texts and what is wrong with its file."""
    names = [it.removesuffix(".edit") for it in sorted(os.listdir(f"{sources.TOP}/planted/{crate}"))]
    return {it: turned(crate, it) for it in names}


def complaints():
    """What is wrong with the files of planted/."""
    listed, found = sources.crates(), []
    for crate in crates_with_planted():
        if crate not in listed:
            found.append(f"planted/{crate}: crates.txt has no such crate")
            continue
        seen = {}
        for name, (texts, wrong) in planted_in(crate).items():
            if not re.fullmatch(r"[a-z0-9_]+", name):
                wrong = [*wrong, "its name isn't of lower-case letters, digits and _, with .edit behind them"]
            key = tuple(sorted(texts.items()))
            if key in seen:
                wrong = [*wrong, f"it is the same as {seen[key]}"]
            seen.setdefault(key, name)
            found += [f"planted/{crate}/{name}.edit: {it}" for it in wrong]
    return found


def days_tried():
    """The days on which wrong bodies were refused last, by crate and name."""
    return dict(it.split(" ", 1) for it in read(TRIED).splitlines())


def record(crate, name, day):
    """Notes that a wrong body was refused on a day. Runs beside each other take turns."""
    path = f"{sources.TOP}/{TRIED}"
    with open(path, "a+", encoding="utf-8") as it:
        fcntl.flock(it, fcntl.LOCK_EX)
        days = {**days_tried(), f"{crate}/{name}": day}
        it.truncate(0)
        it.write("".join(f"{key} {days[key]}\n" for key in sorted(days)))


def records_astray():
    """What is wrong with the record of tries."""
    names = {f"{crate}/{it.removesuffix('.edit')}" for crate in crates_with_planted() for it in os.listdir(f"{sources.TOP}/planted/{crate}")}
    for key, day in days_tried().items():
        if key not in names:
            yield f"{TRIED}: planted/ has no {key}.edit"
        if not re.fullmatch(r"20\d\d-\d\d-\d\d", day):
            yield f"{TRIED}: {key} has no day"


def miscounted():
    """What PROOFS says otherwise of their number, and of how many were tried."""
    there = sum(len(os.listdir(f"{sources.TOP}/planted/{crate}")) for crate in crates_with_planted())
    text = sources.read(PROOFS)
    stated = re.search(r"`planted/` has (\d+) wrong bodies", text)
    if not stated or int(stated[1]) != there:
        yield f"{PROOFS}: planted/ has {there}"
    stated = re.search(r"`planted/tried` has (\d+) of them", text)
    if not stated or int(stated[1]) != len(days_tried()):
        yield f"{PROOFS}: {TRIED} has {len(days_tried())}"


def main():
    found = [*complaints(), *records_astray(), *miscounted()]
    for it in found:
        print(f"planted: {it}")
    return 1 if found else 0


if __name__ == "__main__":
    sys.exit(main())
