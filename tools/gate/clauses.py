#!/usr/bin/env python3
"""Checks that no line of a contract has more than 100 columns: of `requires` and `ensures`, and of the ghost fields and members
that correspond to them in types and traits. A longer clause is split into several lines, or its fact gets a name in specs/.

Reports each such line, and ends with status 1 if there is one.
"""
import os
import re
import sys

sys.dont_write_bytecode = True
sys.path.append(os.path.dirname(os.path.dirname(os.path.realpath(__file__))))

from sources import crates, files_below, read

WIDE = 100


def clause_lines(text):
    """The lines of a source that belong to clauses, each with its number from 1."""
    depth = 0
    for number, line in enumerate(text.split("\n"), 1):
        if depth or re.match(r" *(requires|ensures|(pub )?ghost (?!use)\w+)\b", line):
            yield number, line
            depth += line.count("{") - line.count("}")


def main():
    paths = [path for crate in crates() for path in files_below(f"crates/{crate}/src", ".rt")]
    wide = [(path, n, line) for path in paths for n, line in clause_lines(read(path)) if len(line) > WIDE]
    for path, n, line in wide:
        print(f"clauses: {path}:{n}: {len(line)} columns")
    return 1 if wide else 0


if __name__ == "__main__":
    sys.exit(main())
