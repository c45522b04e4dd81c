#!/usr/bin/env python3
"""Writes what the documents have from the sources alone: the crates, with their dependencies, from crates.txt and the comments at the top
of their files; and the laws, from their comments. Such a part is between two lines, `<!-- NAME: tools/gate/derived.py -->` and
`<!-- end -->`.

    tools/gate/derived.py                  writes these parts
    tools/gate/derived.py --check          writes nothing, and reports which of them aren't up to date
    tools/gate/derived.py modules CRATE    prints what each file of a crate is about, from the comment with which it begins"""

import os
import re
import sys

sys.dont_write_bytecode = True
sys.path.append(os.path.dirname(os.path.dirname(os.path.realpath(__file__))))

import sources

# The layers of the crates, the lowest first.
LAYERS = {
    "names and data": ["zone_proto", "zone_sha1"],
    "text and wire": ["message_reading", "message_writing", "message_hmac", "message_tsig", "message_notify", "message_cookies", "message_options", "ready_answers", "input_reads", "line_text", "zone_scanner", "key_files", "zone_tokens", "service_parameters", "record_fields",
                      "zone_file", "file_origins", "zone_texts", "included_texts", "zone_file_writer", "zone_printing"],
    "the zone": ["lookup_types", "zone_handler", "zone_frozen", "zone_map", "zone_signing", "zone_denial", "zone_verify", "zone_publication", "zone_builder", "zone_lookup", "zone_in_memory"],
    "signing": ["zone_keys", "zone_trimming", "zone_planning", "zone_digest", "zone_keeping", "zone_planner", "held_plans", "zone_rollover"],
    "changes": ["zone_secondary", "transfer_reading", "signed_transfers", "transferred_zones", "update_policy", "update_rules", "update_permission", "update_message", "update_answers", "update_denials", "update_signing", "journal_frames", "journal_files", "message_series", "zone_journal", "difference_messages", "kept_steps", "recalled_steps", "step_answers", "condensed_answers", "zone_difference", "zone_history", "shown_zones", "condensed_steps", "zone_update", "update_in_place", "chain_changes", "signed_changes", "signed_in_place", "hashed_changes"],
    "what it proves": ["denial_validation", "denial_laws", "response_laws", "server_laws", "signing_laws", "incremental_laws", "transfer_laws", "update_laws"],
    "the server": ["zone_origins", "zone_response", "zone_server", "served_frames", "transfer_messages", "server_options", "ready_denials", "ready_referrals", "ready_table", "call_handles", "zone_database", "arrival_calls", "held_transfers", "held_steps", "held_updates", "signed_versions", "signed_updates", "keyed_frames", "updating_frames", "transfer_calls", "update_calls", "journal_calls", "notify_calls", "expiry_calls", "plan_calls", "signed_calls", "file_calls", "text_calls", "ningkraet"],
    "programs": ["zonectl_commands", "zonectl_session", "zonectl", "host_texts", "zone_check", "zone_sign", "zoned", "secondaryd", "zone_store"],
}
TESTS = "tests and examples"
IS_TEST = re.compile("_rows|^alloc_failures$|^library_example$")


def layer_of(crate):
    return next((name for name, crates in LAYERS.items() if crate in crates), TESTS)


def by_layers():
    """The crates by their layers, the lowest first, each layer in the order of crates.txt."""
    return {name: [it for it in sources.crates() if layer_of(it) == name] for name in [*LAYERS, TESTS]}


def sources_of(crate):
    return sources.files_below(f"crates/{crate}/src", ".rt")


def head_of(path):
    """The first paragraph of the comment that a source begins with."""
    found = []
    for line in sources.read(path).split("\n"):
        text = re.fullmatch(r"//[/!]? (.+)", line)
        if not text:
            break
        found.append(text[1].strip())
    return " ".join(found)


def first_sentence(text):
    """What stands before the first point that ends a sentence."""
    found = re.match(r"(.*?[a-z0-9)`*])\. (?=[A-Z`\[])", text)
    return in_cell(found[1] if found else text).rstrip(".")


def in_cell(text):
    """A text for a cell, its links to items as names."""
    return re.sub(r"\[(`[^`]+`)\](?![(\[])", r"\1", text).replace("|", "\\|")


def head_of_crate(crate):
    return head_of(next(it for it in sources_of(crate) if it.endswith(("src/lib.rt", "src/main.rt"))))


def code_words(words):
    return ", ".join(f"`{it}`" for it in words)


def crates():
    parts = []
    for name, below in by_layers().items():
        rows = [f"| `{it}` | {first_sentence(head_of_crate(it))} | {code_words(sources.crates()[it])} |" for it in below]
        parts.append("\n".join([f"**{name[0].upper()}{name[1:]}**", "", "| Crate | Contents | Depends on |", "|---|---|---|", *rows]))
    return "\n\n".join(parts)


def module_rows(crate):
    for path in sources_of(crate):
        name = path.removeprefix(f"crates/{crate}/src/")
        if name not in ("lib.rt", "main.rt", "proofs.rt"):
            yield f"{name:32} {first_sentence(head_of(path))}"


def print_modules(crate):
    print("\n".join(module_rows(crate)))


def law_rows(crate, path):
    """The laws of a file, each with its comment and the names of its clauses."""
    comment, name, clauses = [], None, []
    for line in sources.read(path).split("\n"):
        if line.startswith("///"):
            comment.append(line[3:].strip())
        elif found := re.match(r"pub fn (\w+)", line):
            name, clauses = found[1], []
        elif found := re.match(r" +ensures (\w+) \{", line):
            clauses.append(found[1])
        elif line in ("{}", "{") and name:
            told = f"`{name}`" + (f", clauses {code_words(clauses)}" if clauses else "")
            yield f"| `{crate}` | {told} | {in_cell(' '.join(it for it in comment if it))} |"
            comment, name = [], None
        elif not line.startswith(("#[", " ")):
            comment, name = [], None


def laws():
    rows = [row for crate in sources.crates() for path in sources_of(crate) if path.endswith("laws.rt") for row in law_rows(crate, path)]
    return "\n".join(["| Crate | Contract | Says |", "|---|---|---|", *rows])


PARTS = {"docs/ARCHITECTURE.md": {"crates": crates}, "docs/PROMISES.md": {"laws": laws}}


def written(path):
    """The document as it is to be."""
    text = sources.read(path)
    for name, part in PARTS[path].items():
        begin, end = f"<!-- {name}: tools/gate/derived.py -->\n", "\n<!-- end -->"
        before, behind = text.split(begin)
        text = f"{before}{begin}\n{part()}\n{end}{behind.split(end, 1)[1]}"
    return text


def headless():
    """The sources of a crate that begin with no comment, so that nothing says their subject."""
    for path in sources.files_below("crates", ".rt"):
        if "/src/" in path and not path.endswith("/proofs.rt") and not head_of(path):
            yield path


def main():
    if sys.argv[1:2] == ["modules"]:
        return print_modules(sys.argv[2])
    stale = {path: text for path in PARTS if (text := written(path)) != sources.read(path)}
    missing = list(headless())
    for path in missing:
        print(f"derived: {path} begins with no comment that says its subject")
    if sys.argv[1:] == ["--check"]:
        for path in stale:
            print(f"derived: {path} isn't as tools/gate/derived.py writes it")
        return 1 if stale or missing else 0
    for path, text in stale.items():
        with open(f"{sources.TOP}/{path}", "w", encoding="utf-8") as it:
            it.write(text)
    return 1 if missing else 0


if __name__ == "__main__":
    sys.exit(main())
