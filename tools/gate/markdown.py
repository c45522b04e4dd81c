"""Documents in Markdown, for the check of the documents: their lines by kind, and their tables, blocks of code, links and
headings. They have the plain forms that this repository uses: headings with `#`, fences of three backticks, tables with one line
per row."""

import re
from typing import NamedTuple

import sources


class Line(NamedTuple):
    """A line of a document: its number from 1 on; `prose`, `table`, `heading`, `blank`, or `code` with its fences; the text; the
    headings that it stands below, the highest first."""

    number: int
    kind: str
    text: str
    below: tuple[str, ...]


class Table(NamedTuple):
    """A table: the headings that it stands below, the words of its head, and each row's line and cells."""

    below: tuple[str, ...]
    head: list[str]
    rows: list[tuple[int, list[str]]]


def kind_of(text):
    if not text.strip():
        return "blank"
    return "heading" if text.startswith("#") else "table" if text.startswith("|") else "prose"


def lines(path):
    """The lines of a document."""
    found, below, is_code = [], (), False
    for number, text in enumerate(sources.read(path).removesuffix("\n").split("\n"), 1):
        is_fence = text.lstrip().startswith("```")
        kind = "code" if is_code or is_fence else kind_of(text)
        is_code ^= is_fence
        if kind == "heading":
            level = len(text) - len(text.lstrip("#"))
            below = below[: level - 1] + (text[level:].strip(),)
        found.append(Line(number, kind, text, below))
    return found


def cells(text):
    """The cells of a row, parted by bars that aren't escaped."""
    return [it.strip() for it in re.split(r"(?<!\\)\|", text.strip())[1:-1]]


def tables(path):
    """The tables of a document."""
    found, before = [], None
    for line in lines(path):
        if line.kind == "table":
            if before != "table":
                found.append(Table(line.below, cells(line.text), []))
            elif not re.fullmatch(r"[-|: ]+", line.text):
                found[-1].rows.append((line.number, cells(line.text)))
        before = line.kind
    return found


def blocks(path):
    """The blocks of code of a document: the line of each, its language, and its text."""
    found, begun = [], None
    for line in lines(path):
        if line.kind != "code":
            continue
        if not line.text.lstrip().startswith("```"):
            begun[2].append(line.text)
        elif begun is None:
            begun = (line.number, line.text.strip().strip("`"), [])
        else:
            found.append((begun[0], begun[1], "".join(f"{it}\n" for it in begun[2])))
            begun = None
    return found


def spans(text):
    """The words in a text that are marked as code."""
    return re.findall(r"`([^`]+)`", text)


def links(path):
    """Where the links and pictures of a document lead, with their lines."""
    return [
        (line.number, target)
        for line in lines(path)
        if line.kind != "code"
        for target in re.findall(r"\]\(([^)\s]+)\)", line.text)
    ]


def anchors(path):
    """The names by which the headings of a document are linked to: in lower case, with hyphens for spaces, and without signs."""
    heads = [line.text.lstrip("#").strip().lower() for line in lines(path) if line.kind == "heading"]
    return {re.sub(r"[^\w\- ]", "", it).replace(" ", "-") for it in heads}
