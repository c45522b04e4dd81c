"""Judges the zone files of the folder zone_faults, each of which has one fault or none, by zone_check and by the tools of other servers.

The first line of a file says what is wrong, as `; Fault of words: an IPv4 address with 256`, or what it shows, as `; Good: ..`. Each tool
refuses a file, warns, or says nothing; those that look at signatures alone are given signed files alone. zone_check has to be as strict
as the strictest of them, but for MILDER, and has to take each good file without a word.
"""
import glob
import os
import subprocess

ORIGIN = "example.com."
FOLDER = os.path.join(os.path.dirname(os.path.realpath(__file__)), "zone_faults")

TOOLS = {
    "named-checkzone": ["named-checkzone", "-i", "local", ORIGIN],
    "kzonecheck": ["kzonecheck", "-o", ORIGIN],
    "nsd-checkzone": ["nsd-checkzone", ORIGIN],
    "ldns-verify-zone": ["ldns-verify-zone"],
    "dnssec-verify": ["dnssec-verify", "-o", ORIGIN],
}
OF_SIGNED = {"ldns-verify-zone", "dnssec-verify"}
# What the tools but dnssec-verify, which tells what it does, say of a file that they take.
USUAL = ("loaded serial", "OK", "is ok", "Zone is verified")

GROUPS = [*(f"Fault of {it}" for it in ["words", "lines", "records", "hosts", "signatures", "denials"]), "Good"]

REFUSES, WARNS, TAKES = "refused", "warned", "taken"
STRICTNESS = {TAKES: 0, WARNS: 1, REFUSES: 2}

# Where zone_check is milder than the strictest, and why.
HOSTS = "the zone is answered as it stands, and nothing else in it is at fault"
MILDER = {
    "ns-alias": HOSTS,
    "ns-address": HOSTS,
    "ns-no-address": HOSTS,
    "glue-missing": HOSTS,
    "signature-wrong": "signatures aren't verified",
    "outside": "the record is left out, as BIND does",
    "wildcard-ns": "RFC 4592 section 4.2 doesn't forbid it",
}


def judgement(status, said):
    """What a tool thinks of a file, by its status and what it says."""
    if status:
        return REFUSES
    lines = [it for it in said.splitlines() if it.strip() and not any(usual in it for usual in USUAL)]
    return WARNS if lines else TAKES


def judged(words, path):
    ran = subprocess.run([*words, os.path.basename(path)], cwd=FOLDER, capture_output=True, text=True, errors="replace", check=False)
    return ran.returncode, ran.stdout + ran.stderr, ran.stderr


def groups_and_files():
    """Each file with its group and what it shows, in the order of groups."""
    found = []
    for path in sorted(glob.glob(f"{FOLDER}/*.zone")):
        with open(path, encoding="utf-8-sig") as it:
            group, _, what = it.readline()[2:].strip().partition(": ")
        found.append((group, what, path))
    return found


def is_signed(path):
    with open(path, encoding="utf-8-sig") as it:
        return " RRSIG " in it.read()


def judgements(program, tools):
    """What each tool thinks of each file: rows of a group, what is wrong, a name, and the judgements by tool, ours first."""
    rows = []
    for group, what, path in groups_and_files():
        status, _, err = judged([program, "--at", "now"], path)
        row = {"zone_check": REFUSES if status else WARNS if err else TAKES}
        for name, words in tools.items():
            if name not in OF_SIGNED or is_signed(path):
                status, said, _ = judged(words, path)
                row[name] = judgement(status, "" if name == "dnssec-verify" else said)
        rows.append((group, what, os.path.basename(path)[: -len(".zone")], row))
    return rows


def wrong_rows(rows):
    """What isn't as it should be: a good file that isn't taken, a milder judgement than the strictest, or an exception that is none."""
    wrong = []
    for group, what, name, row in rows:
        ours = STRICTNESS[row["zone_check"]]
        strictest = max((STRICTNESS[it] for tool, it in row.items() if tool != "zone_check"), default=0)
        if group == "Good":
            if ours:
                wrong.append(f"{name}: {what}: {row['zone_check']} by zone_check")
        elif (ours < strictest) != (name in MILDER):
            wrong.append(f"{name}: {what}: {row}")
        elif not ours and name not in MILDER:
            wrong.append(f"{name}: {what}: taken by all")
    return wrong


def table(rows, names):
    """The table of docs/ZONE_CHECK.md: of how many files of a group each tool refuses some, and warns of some."""
    lines = [f"| Faults | {' | '.join(f'`{it}`' for it in names)} |", "|---" * (len(names) + 1) + "|"]
    for group in GROUPS:
        of = [row for it, _, _, row in rows if it == group]
        cells = []
        for name in names:
            seen = [row[name] for row in of if name in row]
            cells.append(f"{seen.count(REFUSES)} + {seen.count(WARNS)}" if seen else "")
        lines.append(f"| {group.removeprefix('Fault ')}: {len(of)} | {' | '.join(cells)} |")
    return "\n".join(lines)


def compare(program, tools):
    """Judges all files. Gives what is wrong, and the table."""
    rows = judgements(program, {name: TOOLS[name] for name in tools})
    return wrong_rows(rows), table(rows, ["zone_check", *tools])
