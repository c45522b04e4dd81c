#!/usr/bin/env python3
"""Compares what zone_check reads with what the tools of other servers read, on zone files that are made here: written ones, random
ones and one with the shape of the root zone, as they are and signed with NSEC and with NSEC3. If a tool is missing, what needs it is
left out, and a line says so. Not part of the gate.

  tools/compare/other_tools.py [SEED]

What zone_check prints for a file has to be what named-compilezone prints for it, line by line once both are sorted, except for the
spelling that NAMES and the lists after it describe; and when named-compilezone reads it, it has to give the same as the file itself.
So does each line of data of record_types.txt, but for those for which it says why they aren't read here.
Files with a fault have to be rejected by zone_check and by the checkers of BIND, NSD and Knot, except for a list of those that one of
them accepts. The files of the folder zone_faults, each with one fault or none, are judged by these checkers and by ldns-verify-zone and
dnssec-verify too (zone_faults.py). The tools are Debian's packages bind9-utils, ldnsutils, nsd, knot and knot-dnssecutils. The status is
1 if anything differs.
"""
import ipaddress
import os
import random
import re
import shutil
import subprocess
import sys
import tempfile

sys.dont_write_bytecode = True
sys.path.append(os.path.dirname(os.path.dirname(os.path.realpath(__file__))))

import peers
import signed_zones
import zone_faults

ORIGIN = "example.com."

WRITTEN = """\
$ORIGIN example.com.
$TTL 1h
@ IN SOA ns1 hostmaster ( 2026112601 ; serial
        2h 15m
        2w 1h )
  NS ns1
  NS ns2.example.net.
  MX 10 mail
ns1 A 192.0.2.1
    AAAA 2001:db8::1
mail 300 IN A 192.0.2.2
MAIL IN 300 AAAA 2001:db8::2
www CNAME @
txt TXT "hello world" foo "a;b" "q\\"uote" "\\065\\000\\255"
srv SRV 0 5 5060 sip
sip A 192.0.2.3
*.wild TXT "star"
a\\.b A 192.0.2.4
\\100x A 192.0.2.5
deep.empty.node A 192.0.2.6
sub NS ns.sub
ns.sub A 192.0.2.53
safe NS ns.sub
safe DS 60485 13 2 ( 2BB183AF5F22588179A53B0A98631FAD1A292118
 2BB183AF5F22588179A53B0A )
caa CAA 0 issue "ca.example.net; account=x"
tlsa TLSA 3 1 1 d2abde240d7cd3ee6b4b28c54df034b97983a1d16e8a410e4561cb106618e971
ssh SSHFP 2 1 123456789abcdef67890123456789abcdef67890
hinfo HINFO "PC" "Linux"
naptr NAPTR 100 50 "s" "z3950+I2L+I2C" "" _z3950._tcp.example.net.
ptr PTR www.example.org.
dname DNAME other.example.net.
gen TYPE731 \\# 6 abcdef ( 01 23
 45 )
gen2 A \\# 4 0A000001
"""

# Each with a fault of its own.
HEAD = "$ORIGIN example.com.\n$TTL 3600\n@ SOA ns host 1 2 3 4 5\n@ NS ns\nns A 192.0.2.1\n"
FAULTY = {
    "an address of three numbers": "x A 192.0.2",
    "an address with 256": "x A 192.0.2.256",
    "an address of a name": "x A www",
    "IPv6 with two gaps": "x AAAA 2001::db8::1",
    "a label of 64 octets": "a" * 64 + " A 192.0.2.1",
    "an empty label": "a..b A 192.0.2.1",
    "a parenthesis that isn't closed": "x A ( 192.0.2.1",
    "a parenthesis that isn't open": "x A 192.0.2.1 )",
    "a quote that isn't closed": 'x TXT "a',
    "data that are missing": "x A",
    "data too many": "x A 192.0.2.1 192.0.2.2",
    "a preference that is no number": "x MX ten mail",
    "a preference of 65536": "x MX 65536 mail",
    "no type": "x 300 IN",
    "a type that isn't one": "x ADDRESS 192.0.2.1",
    "a TTL that isn't one": "$TTL hour",
    "a control entry that isn't one": "$TTLS 3600",
    "generic data that are short": "x TYPE731 \\# 3 abcd",
    "generic data that aren't hex": "x TYPE731 \\# 2 xyzt",
    "a string of 256 octets": f'x TXT "{"a" * 256}"',
    "an escape of 256": 'x TXT "\\256"',
    "a class that isn't the zone's": "x CH A 192.0.2.1",
    "base64 that isn't": "x DNSKEY 256 3 13 ****",
    "a name of 256 octets": ".".join(["a" * 63] * 4) + " A 192.0.2.1",
}
# Which of the others take a file that zone_check refuses, and what they make of it.
TAKEN = {
    ("a parenthesis that isn't closed", "nsd"): "the entry ends with the file",
    ("a preference of 65536", "nsd"): "0",
    ("generic data that are short", "nsd"): "as many octets as there are",
    ("an escape of 256", "nsd"): "the three digits, with a warning",
    ("a string of 256 octets", "knot"): "two strings",
}


class Failed(Exception):
    pass


def run(*words, folder=None, **how):
    ran = subprocess.run(words, cwd=folder, capture_output=True, text=True, errors="replace", check=False, **how)
    return ran.returncode, ran.stdout, ran.stderr


def need(*names):
    """Whether these tools are there; says which one isn't."""
    lacking = [it for it in names if not shutil.which(it)]
    for it in lacking:
        print(f"left out, for want of {it}")
    return not lacking


def done(*words, folder=None):
    status, out, err = run(*words, folder=folder)
    if status:
        raise Failed(f"{' '.join(words)}: status {status}: {err.strip()[-500:] or out.strip()[-500:]}")
    return out


def printed(program, path):
    return done(program, "--print", path, ORIGIN)


def compiled(path):
    """What named-compilezone makes of a file: one record a line."""
    out = f"{path}.compiled"
    done("named-compilezone", "-i", "none", "-k", "ignore", "-m", "ignore", "-M", "ignore", "-S", "ignore", "-q", "-s", "full", "-o", out, ORIGIN, path)
    with open(out, encoding="latin-1") as it:
        return it.read()


# Where named-compilezone and zone_check spell the same otherwise, by types: in names (which words of the data are names), in base64 and
# hex (from which word on they are one text), and in an IPv6 address that ends with an IPv4 one. NSEC3 has letters in either case. Data of
# other types that named-compilezone prints in a form of their own, as NAPTR, are compared by what it reads alone.
NAMES = {"PTR": [0], "DNAME": [0], "NS": [0], "CNAME": [0], "SOA": [0, 1], "MX": [1], "SRV": [3], "RRSIG": [7], "NSEC": [0]}
TEXTS = {"DS": 3, "CDS": 3, "DNSKEY": 3, "CDNSKEY": 3, "RRSIG": 8, "TLSA": 3, "SSHFP": 2}
QUOTED = {"TXT", "SPF", "CAA", "HINFO"}
ALIKE = {"A", "AAAA", "NSEC3", "NSEC3PARAM", *NAMES, *TEXTS, *QUOTED}


def spelled_name(name):
    """A name as zone_check spells it: octets that aren't plain as \\DDD."""
    octets = re.sub(r"\\(\d{3})|\\(.)", lambda it: it[0] if it[1] else f"\\{ord(it[2]):03}", name)
    return re.sub(r"\\\d{3}|[^A-Za-z0-9_*.-]", lambda it: it[0] if len(it[0]) > 1 else f"\\{ord(it[0]):03}", octets)


def spelled(line):
    """A line of named-compilezone as zone_check spells it; none for data that are compared by what is read of them."""
    owner, ttl, group, kind, *data = line.split(None, 4)
    data = data[0] if data else ""
    words = data.split()
    if kind.startswith("TYPE") or words[:1] == ["\\#"]:
        data = " ".join([*words[:2], "".join(words[2:])]).strip()
    elif kind not in ALIKE:
        return None
    elif kind == "AAAA":
        data = str(ipaddress.IPv6Address(data)) if "." in data else data
    elif kind.startswith("NSEC3"):
        data = " ".join(it.lower() if i < 5 else it for i, it in enumerate(words))
    elif kind not in QUOTED:
        for i in NAMES.get(kind, []):
            words[i] = spelled_name(words[i])
        if first := TEXTS.get(kind):
            words[first:] = ["".join(words[first:])]
        data = " ".join(words)
    return f"{spelled_name(owner)} {ttl} {group} {kind} {data}"


def spelled_lines(text, unlike):
    """The lines of a text, sorted, but for comments and those of types that are spelled unlike."""
    lines = [it for it in text.splitlines() if not it.startswith(";")]
    return sorted(it for it in lines if it.split(None, 4)[3] not in unlike)


def differing(what, one, other):
    if one != other:
        lines = [f"  {it}" for pair in zip(one, other) if pair[0] != pair[1] for it in pair][:4]
        raise Failed("\n".join([f"{what}: {len(one)} and {len(other)} lines", *lines]))


def compare(program, path, what):
    text, lines = f"{path}.printed", printed(program, path)
    with open(text, "w", encoding="ascii") as it:
        it.write(lines)
    read = compiled(path)
    unlike = {it.split(None, 4)[3] for it in read.splitlines() if not it.startswith(";") and spelled(it) is None}
    wanted = "\n".join(filter(None, (spelled(it) for it in read.splitlines() if not it.startswith(";"))))
    differing(f"{what}, as it is printed", spelled_lines(wanted, unlike), spelled_lines(lines, unlike))
    one, other = read.splitlines(), compiled(text).splitlines()
    differing(what, one, other)
    print(f"{what}: {len(one)} records are the same")


# ---- types

def compare_types(program, folder):
    """What is read of each spelling of the data of each type, and what of it as it is printed."""
    with open(os.path.join(os.path.dirname(os.path.realpath(__file__)), "record_types.txt"), encoding="ascii") as it:
        lines = [line.rstrip("\n") for line in it if not line.startswith("#")]
    wrong, same = [], 0
    for line in lines:
        data, _, reason = line.partition(" # ")
        path, text = f"{folder}/type", f"{folder}/type.printed"
        owner = "@" if data.startswith("SOA ") else "x"
        write(path, f"{HEAD.replace('@ SOA ns host 1 2 3 4 5', '') if owner == '@' else HEAD}{owner} 60 {data}\n")
        wanted = compiled(path)
        status, out, err = run(program, "--print", path, ORIGIN)
        if reason:
            wrong += [] if status == 1 else [f"{data}: is read, and stands in the list as one that isn't"]
        elif status:
            wrong.append(f"{data}: {err.strip()}")
        elif compiled(write(text, out)) != wanted:
            wrong.append(f"{data}: {out.splitlines()[-1]}")
        else:
            same += 1
    if wrong:
        raise Failed("\n".join(wrong))
    print(f"{same} spellings of data are read and printed alike, and {len(lines) - same} aren't read here")


# ---- zones

def random_label(rolls):
    letters = "abcdefghijklmnopqrstuvwxyzABCXYZ0123456789-_"
    label = "".join(rolls.choice(letters) for _ in range(rolls.randint(1, 12))).strip("-") or "x"
    return label + rolls.choice(["", "", "", "", "\\.y", "\\032z", "\\@", "\\(", "\\;", '\\"'])


def random_data(rolls):
    name = rolls.choice(["ns", "@", "a.b", "elsewhere.example.net.", "."])
    word = "".join(rolls.choice("abc XYZ;()@.") for _ in range(rolls.randint(0, 30)))
    octets = bytes(rolls.randrange(256) for _ in range(rolls.randint(0, 20)))
    groups = ":".join(f"{rolls.randrange(65536):x}" for _ in range(8))
    return rolls.choice([
        f"A {'.'.join(str(rolls.randrange(256)) for _ in range(4))}",
        f"AAAA {groups}",
        f"AAAA {rolls.randrange(65536):x}::{rolls.randrange(65536):x}",
        f"MX {rolls.randrange(65536)} {name}",
        f"SRV {rolls.randrange(65536)} {rolls.randrange(65536)} {rolls.randrange(65536)} {name}",
        f'TXT "{word}" x{rolls.randrange(100)}',
        f"PTR {name}",
        f"TYPE{rolls.randrange(1000, 60000)} \\# {len(octets)} {octets.hex()}",
        f'CAA {rolls.randrange(256)} issue "{word}"',
        f'HINFO "{word}" cpu',
        f'NAPTR {rolls.randrange(65536)} 1 "s" "x+{rolls.randrange(10)}" "!^.*$!{rolls.randrange(100)}!" {name}',
        f"SSHFP 1 1 {rolls.randrange(2 ** 160):040x}",
        f"TLSA 3 1 1 {octets.hex()}00",
    ])


def random_zone(rolls, count):
    lines, owner = [HEAD], "@"
    for _ in range(count):
        owner = rolls.choice(["", "", ".".join(random_label(rolls) for _ in range(rolls.randint(1, 3)))]) or owner
        head = rolls.choice(["", f"{rolls.randrange(100000)} ", "IN ", "in 2h ", "1d IN "])
        lines.append(f"{owner} {head}{random_data(rolls)}{rolls.choice(['', ' ; a comment', ' ( ; more', ''])}")
        if lines[-1].endswith("; more"):
            lines.append(")")
    return "\n".join(lines) + "\n"


def root_shaped(count):
    """Delegations with glue, each third one signed."""
    lines = [HEAD]
    for i in range(count):
        lines += [f"tld{i} NS a.nic.tld{i}", f"tld{i} NS b.nic.tld{i}", f"a.nic.tld{i} A 192.0.2.{i % 256}", f"b.nic.tld{i} AAAA 2001:db8::{i:x}"]
        if i % 3 == 0:
            lines.append(f"tld{i} DS {i} 13 2 {'%064x' % i}")
    return "\n".join(lines) + "\n"


# ---- signed ones

def ways():
    """Each signer that is there with each kind of denials, and with a salt where NSEC3 has no opt-out."""
    those = signed_zones.signers()
    for signer in signed_zones.SIGNERS.keys() - set(those):
        print(f"left out, for want of {signer}, or of what it needs")
    return [signed_zones.Way(signer, kind, "aabbccdd" if kind == "nsec3" else "") for signer in those for kind in signed_zones.KINDS]


# What a tool can't read, though the others can.
UNREAD = {("the written zone", "ldns-signzone"): "text with the octet 0"}


def signed_file(folder, path, way):
    try:
        return signed_zones.signed(folder, ORIGIN, path, way)[0]
    except subprocess.CalledProcessError as error:
        raise Failed(f"{path}, {way}: {(error.stderr or '').strip()[-500:]}") from error


def compare_signed(program, path, folder, what, way):
    """Compares a zone as one of the tools signs it, and looks whether its chain is found closed, without a word."""
    if reason := UNREAD.get((what, way.signer)):
        print(f"{what}: {way.signer} doesn't read {reason}")
        return
    signed = signed_file(folder, path, way)
    compare(program, signed, f"{what}, signed by {way}")
    status, out, err = run(program, signed, ORIGIN)
    if status or err or not out.endswith(f", a closed chain of {'NSEC' if way.kind == 'nsec' else 'NSEC3'}\n"):
        raise Failed(f"{what}, signed by {way}: {out}{err}")
    print(f"{what}, signed by {way}: a closed chain")


# ---- files with a fault

def checkers():
    """How each of the checkers that are there is called."""
    calls = {"bind": ["named-checkzone", "-i", "none", "-k", "ignore", "-q", ORIGIN], "nsd": ["nsd-checkzone", ORIGIN], "knot": ["kzonecheck", "-o", ORIGIN]}
    return {name: words for name, words in calls.items() if need(words[0])}


def compare_faults(program, folder):
    others, wrong = checkers(), []
    for what, line in FAULTY.items():
        path = f"{folder}/faulty"
        with open(path, "w", encoding="ascii") as it:
            it.write(f"{HEAD}{line}\n")
        status, _, err = run(program, path, ORIGIN)
        if status != 1 or not err.startswith(f"{path}:"):
            wrong.append(f"{what}: zone_check has status {status}")
        taken = [name for name, words in others.items() if run(*words, path)[0] == 0]
        if unknown := [it for it in taken if (what, it) not in TAKEN]:
            wrong.append(f"{what}: taken by {', '.join(unknown)}; zone_check says {err.strip()}")
    if wrong:
        raise Failed("\n".join(wrong))
    print(f"{len(FAULTY)} files with a fault are refused")


def compare_corpus(program):
    wrong, table = zone_faults.compare(program, [it for it in zone_faults.TOOLS if need(it)])
    print(table)
    if wrong:
        raise Failed("\n".join(wrong))
    print("the files of zone_faults are judged as the strictest of these judges them, but for those that are said to be taken")


def write(path, text):
    with open(path, "w", encoding="ascii") as it:
        it.write(text)
    return path


def main(words):
    seed = int(words[0]) if words else 1
    program = peers.program("zone_check")
    if not need("named-compilezone"):
        return 0
    wrong, signing = 0, ways()
    with tempfile.TemporaryDirectory(prefix="zones-") as folder:
        os.chmod(folder, 0o755)
        rolls = random.Random(seed)
        zones = {"the written zone": WRITTEN, "a zone of 2000 delegations": root_shaped(2000)}
        zones.update({f"random zone {i}": random_zone(rolls, 300) for i in range(20)})
        tasks = [(compare_faults, program, folder), (compare_types, program, folder), (compare_corpus, program)]
        for i, (what, text) in enumerate(zones.items()):
            path = write(f"{folder}/zone{i}", text)
            tasks.append((compare, program, path, what))
            if not what.startswith("random"):
                tasks += [(compare_signed, program, path, folder, what, way) for way in signing]
        for call, *given in tasks:
            try:
                call(*given)
            except Failed as failed:
                wrong += 1
                print(f"WRONG {failed}")
    return 1 if wrong else 0


if __name__ == "__main__":
    sys.exit(main(sys.argv[1:]))
