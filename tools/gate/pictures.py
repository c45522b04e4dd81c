#!/usr/bin/env python3
"""Draws the pictures of the documents into docs/pictures, from crates.txt, the sources and the examples; `tools/gate/pictures.py --check`
draws none, and reports which of them aren't up to date."""

import os
import sys

sys.dont_write_bytecode = True
sys.path.append(os.path.dirname(os.path.dirname(os.path.realpath(__file__))))

import circle_pictures
import crates_picture
import query_picture
import sources

PICTURES = {
    "crates.svg": crates_picture.draw,
    "query.svg": query_picture.draw,
    "nsec-circle.svg": circle_pictures.draw_nsec,
    "nsec3-circle.svg": circle_pictures.draw_nsec3,
}


def stands(path, text):
    """Whether a file has this text already."""
    return os.path.exists(path) and open(path, encoding="utf-8").read() == text


def main():
    folder = f"{sources.TOP}/docs/pictures"
    stale = {name: draw() for name, draw in PICTURES.items() if not stands(f"{folder}/{name}", draw())}
    if sys.argv[1:] == ["--check"]:
        for name in stale:
            print(f"pictures: docs/pictures/{name} isn't as tools/gate/pictures.py draws it")
        return 1 if stale else 0
    os.makedirs(folder, exist_ok=True)
    for name, text in stale.items():
        with open(f"{folder}/{name}", "w", encoding="utf-8") as it:
            it.write(text)
    return 0


if __name__ == "__main__":
    sys.exit(main())
