"""RFCs and their sections, for the check of the documents: the rows of the table that says which are followed, and what is cited.

A section is the tuple of its parts, such as (4, 3, 2); that of an appendix begins with the position of its letter, after all numbers.
The empty tuple stands for the whole RFC."""

import re
from typing import NamedTuple

import markdown
import sources

NUMBER, APPENDIX = r"[1-9]\d*(?:\.\d+)*", r"[A-Z](?:\.\d+)*"
CITED = re.compile(rf"\bRFC (\d+)(?:,? sections? ({NUMBER}(?:(?:, | and |, and | to ){NUMBER})*)|,? appendix ({APPENDIX}))?")
# What stands between two lines of a comment, a quotation or prose.
MARGIN = re.compile(r"\s*\n\s*(?://[/!]?|--|#|>)?\s*")


class Row(NamedTuple):
    """A row of the table: its line, its RFC, the sections that it names, what is said of them, and what names calls and words."""

    line: int
    rfc: int
    sections: list[tuple[int, ...]]
    kept: str
    named: str


class Told(NamedTuple):
    """Of which sections the table tells, by their RFC, and of which RFCs it tells without rows."""

    sections: dict[int, set[tuple[int, ...]]]
    without: set[int]

    def has(self, rfc, section):
        """A row tells of the section, of one within it, or of the whole RFC."""
        told = self.sections.get(rfc, ())
        return rfc in self.without or any(not one or one[: len(section)] == section for one in told)


def section_of(text):
    return tuple(int(it) if it.isdigit() else 100 + ord(it) for it in text.split("."))


def text_of(section):
    return "section " + ".".join(str(it) if it < 100 else chr(it - 100) for it in section) if section else "as a whole"


def sections_in(text):
    """The sections that a text names, whatever steps of them it names."""
    return [section_of(it) for it in re.findall(rf"\b(?:{NUMBER}|{APPENDIX})\b", re.sub(r"step \w+", "", text))]


def rfc_of(text):
    """The RFC that a heading or a cell begins with, or none."""
    found = re.match(r"RFC (\d+)\b", text)
    return int(found[1]) if found else None


def rows(path):
    """The rows of RFCs, in order: those of the RFC of the heading above, or of the one that their first cell begins with."""
    for table in markdown.tables(path):
        for line, (section, *cells) in table.rows if table.head[0] == "Section" else ():
            rfc = rfc_of(section) or rfc_of(table.below[-1])
            kept, *named = cells[1:]
            yield Row(line, rfc, sections_in(re.sub(r"^RFC \d+,?", "", section)), kept, " ".join(named))


def told_in(path):
    told = Told({}, set())
    for row in rows(path):
        told.sections.setdefault(row.rfc, set()).update(row.sections or [()])
    for table in markdown.tables(path):
        if table.head[0] == "RFC":
            told.without.update(int(it) for _, row in table.rows for it in re.findall(r"RFC (\d+)", row[0]))
    return told


def cited_in_text(text):
    """The RFCs that a text cites, each with a section, the empty one where it names none."""
    for rfc, sections, appendix in CITED.findall(MARGIN.sub(" ", text)):
        yield from ((int(rfc), it) for it in sections_in(sections or appendix) or [()])


def cited_in(path):
    return cited_in_text(sources.read(path))
