#!/usr/bin/env python3
"""Checks that the documents are true, as far as their text can be compared with the sources. Prints what isn't, with file and line,
and ends with status 1 if anything isn't.

- The README's first session is the example's, and its answers are those of examples/answers; it has at most 160 lines, and docs/ 4,500.
- Blocks of Rattle are lines of a source: those of the README and of DENIALS of crates/library_example.
- The README's list of crates is what crates.txt has below library_example, and its toolchain has the logic that `rt version` prints.
- README and PROMISES name each crate of the toolchain that is trusted.
- Each contract, clause, word of the definitions, lemma, crate and file that a table names exists, and each name that is marked as code
  occurs somewhere in the sources. A row of a table has as many cells as the table's head.
- If a table shows the way from a rule to its body, the body's file uses the definition (or a word that begins with it), and RFCS names
  it for that section.
- DEFINITIONS has each crate with definitions, and each crate has a layer (tools/gate/derived.py writes what the documents have from the
  sources alone).
- RFCS names definitions of the crates that it says, its rows are in order, and each section that is cited elsewhere has a row, or
  its RFC is one of those without.
- Links lead to files and headings that exist. Prose has at most 120 characters a line."""

import functools
import os
import re
import subprocess
import sys

sys.dont_write_bytecode = True
sys.path.append(os.path.dirname(os.path.dirname(os.path.realpath(__file__))))

import derived
import markdown
import rfcs
import sources

README, ARCHITECTURE, DEFINITIONS = "README.md", "docs/ARCHITECTURE.md", "docs/DEFINITIONS.md"
DIFFERENCES, PROMISES, RFCS = "docs/DIFFERENCES.md", "docs/PROMISES.md", "docs/RFCS.md"
LONGEST_README, LONGEST_DOCS, LONGEST_PROSE = 160, 4500, 120
EXAMPLE = "crates/library_example/src"

# The crates of crates.txt that are parts of the standard library.
OF_STD = {"core", "std_alloc"}

# Names that are marked as code and stand in no source: of hickory-server and of the toolchain's library.
ELSEWHERE = {"in_memory", "RecursiveError"}


def documents():
    return sources.files_below(".", ".md")


@functools.cache
def crates():
    return sources.crates()


@functools.cache
def names_of(crate):
    return sources.names_of(crate)


@functools.cache
def all_names():
    """The names of all crates together."""
    names = sources.Names()
    for crate in crates():
        names.add(names_of(crate))
    return names


@functools.cache
def all_words():
    """The words of all that isn't a document."""
    paths = [it for it in sources.files_below(".", "") if not it.endswith((".md", ".svg"))]
    paths = [it for it in paths if os.path.getsize(f"{sources.TOP}/{it}") < 10**6 and it != "tools/gate/documents.py"]
    return {word for path in paths for word in re.findall(r"[\w'-]*\w'?", f"{path} {sources.read(path)}".replace("/", " "))}


@functools.cache
def all_files():
    return {it for it in sources.files_below(".", "")}


# ---- blocks and lines


def check_first_path(path):
    """A block that shows a run of the program shows what examples/answers has; and the README has the first path."""
    texts = [text for _, _, text in markdown.blocks(path)]
    if path == README and sources.read("examples/first-path.txt") not in texts:
        yield 1, "no block is examples/first-path.txt"
    for number, _, text in markdown.blocks(path):
        run = re.match(r"\$ \./zonectl \S+ < examples/(\S+)\n(.+)", text, re.S)
        if run and run[2] != sources.read(f"examples/answers/{run[1]}"):
            yield number, f"this isn't what examples/answers/{run[1]} has"


def check_rust(path):
    """A block of Rattle stands, line for line, in a source."""
    folder = EXAMPLE if path in (README, "docs/DENIALS.md") else "crates"
    texts = [sources.read(it) for it in sources.files_below(folder, ".rt")]
    for number, language, block in markdown.blocks(path):
        if language == "rust" and not any(f"\n{block}" in f"\n{text}" for text in texts):
            yield number, f"these lines don't stand in {folder}"


def check_lengths(path):
    found = markdown.lines(path)
    if path == README and len(found) > LONGEST_README:
        yield len(found), f"{len(found)} lines, and not {LONGEST_README} at most"
    if path == README and (together := sum(len(markdown.lines(it)) for it in documents() if it.startswith("docs/"))) > LONGEST_DOCS:
        yield 1, f"docs/ has {together} lines, and not {LONGEST_DOCS} at most"
    for line in found:
        if line.kind in ("prose", "heading") and len(line.text) > LONGEST_PROSE:
            yield line.number, f"{len(line.text)} characters, and not {LONGEST_PROSE} at most"


def check_links(path):
    for number, target in markdown.links(path):
        if re.match(r"https?:", target):
            continue
        name, _, anchor = target.partition("#")
        file = os.path.normpath(os.path.join(os.path.dirname(path), name)) if name else path
        if not os.path.exists(f"{sources.TOP}/{file}"):
            yield number, f"no file {file} is there"
        elif anchor and anchor not in markdown.anchors(file):
            yield number, f"{file} has no heading #{anchor}"


# ---- the README's crates and toolchain


def check_readme(path):
    if path != README:
        return
    text = " ".join(sources.read(README).split())
    listed = re.search(r"lines of \[crates\.txt\]\(crates\.txt\):(.*?)\. ", text)
    needed = sources.standing_below("library_example", crates())[:-1]
    if not listed or markdown.spans(listed[1]) != needed:
        yield 1, f"the crates below library_example are {', '.join(needed)}"
    version = subprocess.run(["rt", "version"], capture_output=True, text=True).stdout.strip()
    # Kits of one logic differ in what no proof rests on.
    logic = version[version.find("logic "):]
    if f"whose `rt version` ends with `{logic}`" not in text:
        yield 1, f"rt version prints {version}"


def check_trusted(path):
    """What is trusted names each crate of the toolchain that a crate which isn't one of tests stands on."""
    if path in (README, PROMISES):
        text = sources.read(path)
        used = {it for crate, below in crates().items() if not derived.IS_TEST.search(crate) for it in below if it not in crates()}
        yield from ((1, f"what is trusted doesn't name {it}") for it in sorted(used - OF_STD) if f"`{it}`" not in text)


# ---- what tables name


def names_for(crate):
    return names_of(crate) if crate in crates() else all_names()


def without_crate(name):
    crate, _, rest = name.partition("::")
    return rest if crate in crates() else name


def of_crate(item):
    """An item of a cell without the crate that stands behind it, if one does; and that crate."""
    found = re.fullmatch(r"(.*) of `(\w+)`", item.strip())
    return found.groups() if found and found[2] in crates() else (item.strip(), "")


def wrong_contracts(cell, crate):
    """Items part by semicolons. Each is functions, types or records of definitions, perhaps with clauses that each of those has
    which have clauses, and perhaps of another crate."""
    for item in cell.split(";"):
        words, other = of_crate(item)
        names = names_for(other or crate)
        owners, _, clauses = words.partition("clause")
        for owner in map(without_crate, markdown.spans(owners)):
            if not names.has(owner):
                yield f"no contract {owner}"
            for clause in markdown.spans(clauses):
                if clause not in names.clauses.get(owner, [clause]):
                    yield f"{owner} has no clause {clause}"


def wrong_parts(cell, crate):
    """A part of a record of definitions, and what it says."""
    return wrong_definitions(cell.partition(":")[0], crate)


def wrong_definitions(cell, crate):
    for span in markdown.spans(cell):
        name = span.split()[0]
        if name not in all_names().definitions and name not in all_names().clauses and name not in all_names().files:
            yield f"no definition {name}"


def wrong_own_definitions(cell, crate):
    """Items part by semicolons: public words of definitions, and the crate that has them."""
    for item in filter(None, cell.split(";")):
        words, owner = of_crate(item)
        for word in markdown.spans(words):
            if not owner:
                yield f"no crate stands behind {word}"
            elif word not in names_of(owner).definitions:
                yield f"{owner} has no definition {word}"


def wrong_files(cell, crate):
    """Files of definitions, lemmas and sources, by the ends of their paths."""
    for span in markdown.spans(cell):
        if re.fullmatch(r"[\w/]+\.(rt|antt)", span) and not any(f"/{it}".endswith(f"/{span}") for it in all_files()):
            yield f"no file {span}"
        elif re.fullmatch(r"[A-Z]\w+", span) and span not in all_names().files and not all_names().has(span):
            yield f"no file of definitions or lemmas {span}"


def wrong_sources(cell, crate):
    """Files of a crate's src, or of its proofs and definitions where they have no end."""
    for span in markdown.spans(cell):
        inside = f"crates/{crate}/src/{span}"
        if span not in names_for(crate).files and not os.path.exists(f"{sources.TOP}/{inside}"):
            yield f"no file {span} of {crate}"


def wrong_crates(cell, crate):
    for span in markdown.spans(cell):
        if span not in crates():
            yield f"no crate {span}"


def wrong_laws(cell, crate):
    for span in markdown.spans(cell):
        if f"laws::{span}" not in all_names().clauses:
            yield f"no law {span}"


# What the cells below a word of a table's head are; parts in DEFINITIONS alone.
COLUMNS = {
    "Contract": wrong_contracts,
    "Call": wrong_contracts,
    "Words": wrong_definitions,
    "Word": wrong_definitions,
    "Definition": wrong_own_definitions,
    "Relation": wrong_definitions,
    "Part": wrong_parts,
    "Lemmas": wrong_files,
    "Begin with": wrong_files,
    "Then": wrong_files,
    "File": wrong_sources,
    "File of `src/`": wrong_sources,
    "Crate": wrong_crates,
    "Law": wrong_laws,
}


def crate_of(table, row):
    """The crate that a row speaks of: that of its own cell, or of the heading above."""
    own = markdown.spans(row[table.head.index("Crate")]) if "Crate" in table.head else []
    above = [it.split("/")[0] for head in table.below for it in markdown.spans(head)]
    return (own or above or [""])[0]


def check_tables(path):
    for table in markdown.tables(path):
        for number, row in table.rows:
            if len(row) != len(table.head):
                yield number, f"{len(row)} cells below a head of {len(table.head)}"
            for head, cell in zip(table.head, row):
                if head in COLUMNS and (head != "Part" or path == DEFINITIONS):
                    yield from ((number, it) for it in COLUMNS[head](cell, crate_of(table, row)))


# ---- what documents have to name


def check_layers(path):
    """Each crate but those of tests has a layer."""
    if path == ARCHITECTURE:
        listed = [it for layer in derived.LAYERS.values() for it in layer]
        for crate in crates():
            if (crate in listed) == bool(derived.IS_TEST.search(crate)):
                yield 1, f"the layers of tools/gate/derived.py don't tell of {crate}"


def check_definitions(path):
    """Each crate that has definitions is named."""
    if path != DEFINITIONS:
        return
    named = {it for line in markdown.lines(path) for it in markdown.spans(line.text)}
    there = {it for it in crates() if any(not file.endswith("/Lib.antt") for file in sources.files_below(f"crates/{it}/specs", ".antt"))}
    yield from ((1, f"{it}, which has definitions, isn't named") for it in sorted(there - named))


def check_ways(path):
    """A row that names a definition and the file of a body: the file uses one of the definitions, and a row of RFCS about the sections
    that the row cites names each."""
    for table in markdown.tables(path):
        if not {"RFC", "Definition", "Body"} <= set(table.head):
            continue
        for number, row in table.rows:
            rfc, definition, body = (row[table.head.index(it)] for it in ("RFC", "Definition", "Body"))
            words = [it for it in markdown.spans(definition) if it not in crates()]
            files = [it for it in markdown.spans(body) if os.path.exists(f"{sources.TOP}/{it}")]
            if not any(re.search(rf"\b{it}", sources.read(file)) for it in words for file in files):
                yield number, f"{body} uses none of {', '.join(words)}"
            cited = set(rfcs.cited_in_text(rfc))
            named = {it for told in rfcs.rows(RFCS) if any((told.rfc, one) in cited for one in told.sections) for it in markdown.spans(told.named)}
            yield from ((number, f"no row of {RFCS} about {rfc} names {it}") for it in words if it not in named)


# ---- the table of RFCs


def check_rfcs(path):
    """Its rows are in order and say whether they are kept; what they say of a definition or a contract names one."""
    if path != RFCS:
        return
    before = ()
    for row in rfcs.rows(path):
        order = (row.line, row.rfc, row.sections[0] if row.sections else ())
        if before and order[0] == before[0] + 1 and order[1:] < before[1:]:
            yield row.line, "this section belongs before the one above"
        before = order
        if not re.match(r"(yes|in part|no)\b", row.kept):
            yield row.line, "it begins with none of yes, in part and no"
        elif row.kept.startswith("yes") and not markdown.spans(row.named):
            yield row.line, "no definition and no contract is named"


def check_citations(path):
    """Each RFC that a document or a source cites, and each section, has a row, or the RFC is one without rows."""
    if path != RFCS:
        return
    told = rfcs.told_in(path)
    yield from ((1, f"RFC {it} has rows, and stands among those without") for it in sorted(told.without & set(told.sections)))
    for cited in sources.files_below(".", ".md", ".rt", ".antt", ".py", ".c", ".h", ".rs"):
        for rfc, section in rfcs.cited_in(cited) if cited != path else ():
            if not told.has(rfc, section):
                yield 1, f"no row tells of RFC {rfc} {rfcs.text_of(section)}, which {cited} cites"


# ---- names in prose


def is_path(word):
    return re.search(r"\w/\w|\.(rt|antt|py|edit|txt|svg)$", word) is not None


def is_name(word):
    """Whether a word can only be a name of code: with an underscore, of several parts, or with a capital inside."""
    return re.search(r"\w_\w|::|[a-z][A-Z]", word) is not None


def has_path(word):
    """Whether a file or a folder has a path that ends so. What stands for any name, as FUNCTION, is passed over, and what the
    toolchain makes."""
    end = f"/{word.strip('/')}/"
    return re.search(r"\*|[A-Z]{4}|\bout/|/declared", word) is not None or any(end in f"/{it}/" for it in all_files())


def missing(span):
    """The names in what is marked as code that stand in no source. A span that ends with a dot is a name of the DNS."""
    if span.endswith("."):
        return
    for word in re.findall(r"[\w*./-]*[\w*]", span):
        if is_path(word):
            if not has_path(word):
                yield word
        else:
            parts = [it for it in word.removeprefix("./").split(".") if is_name(it)]
            yield from (it for it in parts if it not in all_words() and it not in ELSEWHERE)


def check_names(path):
    """Each name that is marked as code stands somewhere in the sources; what hickory-server has stands in its own column."""
    for line in markdown.lines(path):
        if line.kind == "code":
            continue
        text = line.text
        if path == DIFFERENCES and line.kind == "table":
            text = "|".join(markdown.cells(text)[1:])
        for span in markdown.spans(text):
            yield from ((line.number, f"no {it} is in the sources") for it in missing(span))


CHECKS = [
    check_first_path,
    check_rust,
    check_lengths,
    check_links,
    check_readme,
    check_trusted,
    check_tables,
    check_layers,
    check_definitions,
    check_ways,
    check_rfcs,
    check_citations,
    check_names,
]


def main():
    wrong = [f"{path}:{number}: {it}" for path in documents() for check in CHECKS for number, it in check(path)]
    for it in sorted(set(wrong)):
        print(f"documents: {it}")
    return 1 if wrong else 0


if __name__ == "__main__":
    sys.exit(main())
