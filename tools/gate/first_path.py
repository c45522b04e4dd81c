#!/usr/bin/env python3
"""Checks that the first session that is computed from the definitions is the one that the README shows.

The texts `input` and `output` of crates/zonectl_session/proofs/FirstPath.antt have to be those of examples/first-path.txt and of
its answers. Prints what differs, and ends with status 1 if anything does.
"""
import os
import re
import sys

sys.dont_write_bytecode = True
sys.path.append(os.path.dirname(os.path.dirname(os.path.realpath(__file__))))

import sources

PROOF = "crates/zonectl_session/proofs/FirstPath.antt"
EXAMPLES = {"input": "examples/first-path.txt", "output": "examples/answers/first-path.txt"}


def computed(proof, name):
    """The text that a definition puts together out of its lines."""
    body = re.search(rf"^{name} =\n((?: +.*\n)+)", proof, re.MULTILINE)
    lines = re.findall(r'codes "([^"]*)"', body.group(1)) if body else []
    return "".join(lines).replace("\\n", "\n")


def main():
    proof = sources.read(PROOF)
    wrong = [name for name, example in EXAMPLES.items() if computed(proof, name) != sources.read(example)]
    for name in wrong:
        print(f"first_path: {name} of {PROOF} isn't {EXAMPLES[name]}")
    return 1 if wrong else 0


if __name__ == "__main__":
    sys.exit(main())
