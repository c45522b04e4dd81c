#!/usr/bin/env python3
"""Has real clients query ./serve: dig, drill, kdig and dnspython, over UDP and TCP, with DNSSEC and without, behind front.py and, if cc
and make are available, by ningkraetd. Each has to read the code, AA, the answer and the kind of authority section given in the table below;
what is too large for UDP has to come over TCP. Behind front.py each also fetches the zones by AXFR, and has to get each record of the
files. Then delv, a client that validates, asks the same with the key of each zone: it has to say `fully validated`, or `unsigned
answer` where the zone gives no proof. If a tool is missing, it is left out, and a line says so. Not part of the gate.

  tools/compare/real_clients.py

The zones are made here and signed by dnssec-signzone: with NSEC, with NSEC3, and with NSEC3 and opt-out; each has a signed child and an
unsigned one that are served too, and one of each that isn't. The tools are Debian's packages bind9-dnsutils, ldnsutils, knot-dnsutils,
python3-dnspython and bind9-utils. The status is 1 if a client reads anything else.
"""
import contextlib
import dataclasses
import importlib.util
import os
import random
import re
import shutil
import subprocess
import sys
import tempfile

sys.dont_write_bytecode = True
sys.path.append(os.path.dirname(os.path.dirname(os.path.realpath(__file__))))

import library
import peers
import signed_zones
from peers import connected, found, free_port
from signed_zones import Way, delegation_signer
from sources import TOP

SYSTEM_PYTHON = "/usr/bin/python3"

# The zones, and how dnssec-signzone signs each.
ZONES = {
    "nsec.test.": Way(kind="nsec"),
    "nsec3.test.": Way(kind="nsec3", salt="aabbccdd", iterations=1),
    "optout.test.": Way(kind="opt-out"),
}

# More than a datagram takes.
LARGE = [f'"{number:0200}"' for number in range(12)]

# What each zone has, `@` for its origin, and what its children have.
RECORDS = [
    ("@", "SOA", "ns.@ host.@ 1 7200 900 1209600 300"),
    ("@", "NS", "ns.@"),
    ("@", "MX", "10 mail.@"),
    ("ns.@", "A", "192.0.2.53"),
    ("mail.@", "A", "192.0.2.25"),
    ("mail.@", "AAAA", "2001:db8::25"),
    ("www.@", "CNAME", "mail.@"),
    ("text.@", "TXT", '"one" "two words"'),
    *(("large.@", "TXT", text) for text in LARGE),
    ("*.wild.@", "A", "192.0.2.7"),
    ("deep.empty.@", "A", "192.0.2.9"),
    ("old.@", "DNAME", "new.@"),
    ("www.new.@", "A", "192.0.2.80"),
    ("signed.@", "NS", "ns.signed.@"),
    ("ns.signed.@", "A", "192.0.2.61"),
    ("unsigned.@", "NS", "ns.unsigned.@"),
    ("ns.unsigned.@", "A", "192.0.2.62"),
    ("away.@", "NS", "ns.away.@"),
    ("away.@", "DS", f"12345 13 2 {'ab' * 32}"),
    ("ns.away.@", "A", "192.0.2.63"),
    ("far.@", "NS", "ns.far.@"),
    ("ns.far.@", "A", "192.0.2.64"),
]
CHILD = [
    ("@", "SOA", "ns.@ host.@ 1 7200 900 1209600 300"),
    ("@", "NS", "ns.@"),
    ("ns.@", "A", "192.0.2.61"),
    ("www.@", "A", "192.0.2.8"),
]


@dataclasses.dataclass(frozen=True)
class Question:
    """A question, and what a client has to read. A kind is the type of the set in the authority section: SOA where there is no data,
    NS in a referral. Nothing proves what a child says that isn't signed; and where a wildcard answers in a zone with opt-out, nothing
    proves that the name itself isn't there (RFC 5155 section 9.2)."""

    name: str
    record_type: str
    answers: tuple = ()
    code: str = "NOERROR"
    kind: str = ""
    is_signed: bool = True
    expands: bool = False


QUESTIONS = [
    Question("@", "SOA", ("@ SOA ns.@ host.@ 1 7200 900 1209600 300",)),
    Question("@", "NS", ("@ NS ns.@",)),
    Question("@", "MX", ("@ MX 10 mail.@",)),
    Question("ns.@", "A", ("ns.@ A 192.0.2.53",)),
    Question("Mail.@", "AAAA", ("mail.@ AAAA 2001:db8::25",)),
    Question("www.@", "A", ("www.@ CNAME mail.@", "mail.@ A 192.0.2.25")),
    Question("text.@", "TXT", ('text.@ TXT "one" "two words"',)),
    Question("large.@", "TXT", tuple(f"large.@ TXT {text}" for text in LARGE)),
    Question("www.old.@", "A", ("old.@ DNAME new.@", "www.old.@ CNAME www.new.@", "www.new.@ A 192.0.2.80")),
    Question("a.b.wild.@", "A", ("a.b.wild.@ A 192.0.2.7",), expands=True),
    Question("b.wild.@", "MX", kind="SOA"),
    Question("ns.@", "MX", kind="SOA"),
    Question("empty.@", "A", kind="SOA"),
    Question("nothere.@", "A", code="NXDOMAIN", kind="SOA"),
    Question("a.b.ns.@", "A", code="NXDOMAIN", kind="SOA"),
    Question("signed.@", "A", kind="SOA"),
    Question("www.signed.@", "A", ("www.signed.@ A 192.0.2.8",)),
    Question("nothere.signed.@", "A", code="NXDOMAIN", kind="SOA"),
    Question("unsigned.@", "DS", kind="SOA"),
    Question("www.unsigned.@", "A", ("www.unsigned.@ A 192.0.2.8",), is_signed=False),
    Question("nothere.unsigned.@", "A", code="NXDOMAIN", kind="SOA", is_signed=False),
    Question("away.@", "DS", (f"away.@ DS 12345 13 2 {'ab' * 32}",)),
    Question("far.@", "DS", kind="SOA"),
    Question("www.away.@", "A", kind="NS"),
    Question("www.far.@", "A", kind="NS"),
]

# The words of a client's command, for a question of which these are known, with DNSSEC and by TCP or without.
COMMANDS = {
    "dig": "dig @127.0.0.1 -p {port} {name} {type} +norecurse +noall +comments +answer +authority {+dnssec} {+tcp}",
    "drill": "drill {-D} {-t} -o rd -p {port} {name} @127.0.0.1 {type}",
    "kdig": "kdig @127.0.0.1 -p {port} {name} {type} +norecurse {+dnssec} {+tcp}",
}
TRANSFERS = {
    "dig": "dig @127.0.0.1 -p {port} {name} AXFR +noall +answer",
    "drill": "drill -p {port} {name} @127.0.0.1 AXFR",
    "kdig": "kdig @127.0.0.1 -p {port} {name} AXFR +noall +answer",
}


# ---- what clients say


def line_of(owner, record_type, data):
    """A record in one form, whichever client wrote it: hex and base64 are written with spaces and without."""
    return f"{owner} {record_type} {''.join(data.split())}".lower()


def lines_of(text):
    """The records of a text in this form. drill says something of keys behind them."""
    split = (line.split(" ;{")[0].split(None, 4) for line in text.splitlines() if line.strip() and not line.startswith(";"))
    return {line_of(owner, record_type, data) for owner, _, _, record_type, data in split}


def section(text, title):
    """The text of a section, up to an empty line."""
    found_at = re.search(rf"^;; {title} SECTION:.*\n((?:[^;\n].*\n)*)", text, re.M)
    return found_at.group(1) if found_at else ""


def read_of(text):
    """What a client read: the code, whether AA is set and TC isn't, the answers, and the types of the authority section; signatures and
    denials are delv's to judge."""
    code = re.search(r"(?:status|rcode): (\w+)", text)
    flags = re.search(r"^;; flags:([ a-z]*)", text, re.M | re.I)
    if not code or not flags:
        return ("no response",)
    words = flags.group(1).split()
    answers = {line for line in lines_of(section(text, "ANSWER")) if line.split()[1] != "rrsig"}
    kinds = {line.split()[1] for line in lines_of(section(text, "AUTHORITY"))} - {"rrsig", "nsec", "nsec3", "ds"}
    return code.group(1), "aa" in words, "tc" in words, answers, kinds


def asked(client, port, question, dnssec, tcp):
    """What a client read of the response to a question."""
    if client == "dnspython":
        return read_of(asked_by_dnspython(port, question, dnssec, tcp))
    words = {"port": port, "name": question.name, "type": question.record_type}
    words |= {"+dnssec": "+dnssec" if dnssec else "", "-D": "-D" if dnssec else "", "+tcp": "+tcp" if tcp else "", "-t": "-t" if tcp else "-a"}
    command = COMMANDS[client].format(**words).split()
    return read_of(written_by(client, command))


def written_by(client, command):
    """What a client writes."""
    return subprocess.run([found(client), *command[1:]], stdout=subprocess.PIPE, stderr=subprocess.DEVNULL, text=True).stdout


def response_to(port, question, dnssec, tcp):
    """The response that dnspython gets."""
    query = dns.message.make_query(question.name, question.record_type, want_dnssec=dnssec)
    query.flags = 0
    ask = dns.query.tcp if tcp else lambda *words, **others: dns.query.udp_with_fallback(*words, **others)[0]
    return ask(query, "127.0.0.1", port=port, timeout=5)


def asked_by_dnspython(port, question, dnssec, tcp):
    """What dnspython read, in the words of dig."""
    response = response_to(port, question, dnssec, tcp)
    parts = [f"status: {dns.rcode.to_text(response.rcode())}", f";; flags: {dns.flags.to_text(response.flags).lower()}"]
    for title, sets in (("ANSWER", response.answer), ("AUTHORITY", response.authority)):
        parts += [f";; {title} SECTION:", *(it.to_text() for it in sets), ""]
    return "\n".join(parts)


def badly_signed(port, question, keys):
    """The sets of a response whose signatures dnspython finds no key for; and `no proof` in a referral without DS and without denial."""
    response, word, bad = response_to(port, question, True, True), dns.rdatatype.to_text, []
    sets = {(it.name, word(it.rdtype), word(it.covers)): it for it in response.answer + response.authority}
    renamed = [owner for owner, kind, _ in sets if kind == "DNAME"]
    for (owner, kind, _), it in sets.items():
        is_made = kind == "CNAME" and any(owner.is_subdomain(above) for above in renamed)
        if kind == "RRSIG" or is_made or question.kind == kind == "NS":
            continue
        try:
            dns.dnssec.validate(it, sets[owner, "RRSIG", kind], keys)
        except (KeyError, dns.dnssec.ValidationFailure) as error:
            bad.append(f"{owner} {kind} {error}")
    is_proved = any(kind in ("DS", "NSEC", "NSEC3") for _, kind, _ in sets)
    return bad + ["no proof"] * (question.kind == "NS" and not is_proved)


def transferred(client, port, origin):
    """The records of a zone that a client takes."""
    if client == "dnspython":
        messages = dns.query.xfr("127.0.0.1", origin, port=port, timeout=5, relativize=False)
        zone = dns.zone.from_xfr(messages, relativize=False)
        return lines_of("\n".join(f"{name} {ttl} IN {dns.rdatatype.to_text(it.rdtype)} {it}" for name, ttl, it in zone.iterate_rdatas()))
    command = TRANSFERS[client].format(port=port, name=origin).split()
    return lines_of(written_by(client, command))


def validated(port, anchors, origin, question):
    """What delv says of the response to a question."""
    words = ["@127.0.0.1", "-p", str(port), "-a", anchors, f"+root={origin}", question.name, question.record_type]
    run = subprocess.run([found("delv"), *words], stdout=subprocess.PIPE, stderr=subprocess.STDOUT, text=True)
    said = re.findall(r"^; ((?:negative response, )?(?:fully validated|unsigned answer))$", run.stdout, re.M)
    return said[-1] if said else run.stdout.strip()


# ---- what they have to say


def at(origin, text):
    """A text with the origin of a zone in the place of `@`."""
    return text.replace("@", origin)


def questions_of(origin):
    """The questions for a zone."""
    for it in QUESTIONS:
        answers = tuple(at(origin, answer) for answer in it.answers)
        yield dataclasses.replace(it, name=at(origin, it.name), answers=answers)


def wanted_read(question):
    """What a client has to read."""
    answers = {line_of(*answer.split(None, 2)) for answer in question.answers}
    return question.code, question.kind != "NS", False, answers, {question.kind.lower()} - {""}


def wanted_word(origin, question):
    """What delv has to say. Of a name error and of no data in a zone with opt-out it says `fully validated` too, by signatures and
    covers, where a resolver leaves AD clear."""
    is_insecure = not question.is_signed or question.expands and ZONES[origin].opts_out
    return ("" if question.answers else "negative response, ") + ("unsigned answer" if is_insecure else "fully validated")


# ---- zones and fronts


def made(folder):
    """The zones' files by their origins, children first, and the file of their keys for delv."""
    files, anchors = {}, []
    for origin, signing in ZONES.items():
        for child, way in ((f"signed.{origin}", signing), (f"unsigned.{origin}", None)):
            records = [tuple(at(child, part) for part in record) for record in CHILD]
            files[child] = signed_file(folder, child, records, way)
        records = [tuple(at(origin, part) for part in record) for record in RECORDS]
        records.append((f"signed.{origin}", "DS", delegation_signer(folder, f"signed.{origin}")))
        files[origin] = signed_file(folder, origin, records, signing)
        anchors.append(signed_zones.static_anchor(folder, origin))
    return files, signed_zones.keep_anchors(f"{folder}/anchors", anchors)


def signed_file(folder, origin, records, way):
    """The file of a zone, signed where there is a way."""
    path = signed_zones.written(folder, origin, records)
    return signed_zones.signed(folder, origin, path, way)[0] if way else path


def fronts(folder, files):
    """The fronts that are there: the name of each, its port, and the words by which it is started."""
    zones = [f"{origin}={path}" for origin, path in files.items()]
    port = free_port()
    yield "front.py", port, [f"{TOP}/serve", *zones, "--port", str(port), "--transfers"]
    found = subprocess.run([f"{TOP}/tools/build/program", "path", "ningkraet"], stdout=subprocess.PIPE, text=True) if shutil.which("cc") else None
    if not found or found.returncode:
        print("real_clients: cc, or the library, isn't there, so nothing is asked of ningkraetd")
        return
    words = ["make", "-s", "-C", f"{TOP}/server", f"OUT={folder}/daemon", "LIBRARY=" + " ".join(library.flags(found.stdout.strip())), f"{folder}/daemon/ningkraetd"]
    subprocess.run(words, check=True)
    port = free_port()
    with open(f"{folder}/conf", "w", encoding="utf-8") as it:
        it.write(f"listen 127.0.0.1 {port}\nlisten ::1 {port}\n" + "".join(f"zone {origin} {path}\n" for origin, path in files.items()))
    yield "ningkraetd", port, [f"{folder}/daemon/ningkraetd", "-c", f"{folder}/conf"]


@contextlib.contextmanager
def running(words):
    """A front that runs as long as this."""
    front = peers.begun(words)
    try:
        yield
    finally:
        peers.end(front)


# ---- all of it


def read_otherwise(client, port):
    """How many responses a client read, and those that it read otherwise than it has to."""
    count, otherwise = 0, []
    for origin in ZONES:
        for question in questions_of(origin):
            for dnssec, tcp in ((False, False), (False, True), (True, False), (True, True)):
                read, count = asked(client, port, question, dnssec, tcp), count + 1
                if read != wanted_read(question):
                    otherwise.append(f"{question.name} {question.record_type}{' DO' * dnssec}{' TCP' * tcp}: {read}")
    return count, otherwise


def taken_otherwise(client, port, files):
    """How many zones a client took, and those of which it has other records than their files."""
    otherwise = []
    for origin, path in files.items():
        with open(path, encoding="ascii") as it:
            records = lines_of(it.read())
        taken = transferred(client, port, origin)
        otherwise += [f"{origin}: {sorted(taken ^ records)[:2]}"] if taken != records else []
    return len(files), otherwise


def signed_otherwise(port):
    """How many responses of signed zones dnspython looked at, and what it found badly signed."""
    count, otherwise, signed = 0, [], [*ZONES, *(f"signed.{origin}" for origin in ZONES)]
    keys = [response_to(port, Question(origin, "DNSKEY"), True, True).answer[0] for origin in signed]
    keys = {it.name: it for it in keys}
    for origin in ZONES:
        for question in (it for it in questions_of(origin) if it.is_signed):
            bad, count = badly_signed(port, question, keys), count + 1
            otherwise += [f"{question.name} {question.record_type}: {bad}"] if bad else []
    return count, otherwise


def judged_otherwise(port, anchors):
    """How many responses delv judged, and those of which it says otherwise than it has to."""
    count, otherwise = 0, []
    for origin in ZONES:
        for question in (it for it in questions_of(origin) if it.kind != "NS"):
            said, wanted, count = validated(port, anchors, origin, question), wanted_word(origin, question), count + 1
            otherwise += [f"{question.name} {question.record_type}: {said}, and not {wanted}"] if said != wanted else []
    return count, otherwise


def tell(front, client, what, counted):
    """Tells what came of it, and whether anything was otherwise."""
    count, otherwise = counted
    print(f"{front}, {client}: {count} {what}, {len(otherwise)} otherwise", *otherwise[:5], sep="\n    ", flush=True)
    return bool(otherwise)


def with_dnspython():
    """Whether dnspython is there: where the system's own Python alone has it, all goes on there."""
    try:
        import dns.dnssec, dns.message, dns.query, dns.zone
    except ImportError:
        words = [SYSTEM_PYTHON, "-c", "import dns"]
        if os.path.realpath(sys.executable) != os.path.realpath(SYSTEM_PYTHON) and shutil.which(SYSTEM_PYTHON):
            if subprocess.run(words, stderr=subprocess.DEVNULL).returncode == 0:
                os.execv(SYSTEM_PYTHON, [SYSTEM_PYTHON, *sys.argv])
        return False
    globals()["dns"] = dns
    return True


def found_module(name):
    return importlib.util.find_spec(name) is not None


def main():
    clients = [*(it for it in COMMANDS if found(it)), *(["dnspython"] if with_dnspython() else [])]
    for client in [it for it in (*COMMANDS, "dnspython") if it not in clients]:
        print(f"real_clients: {client} isn't there, so it asks nothing")
    missing = [tool for tool in ("dnssec-keygen", "dnssec-signzone") if not found(tool)]
    if missing:
        print(f"real_clients: {', '.join(missing)}: not there, so no zone can be signed, and nothing is asked")
        return 0
    if not found("delv"):
        print("real_clients: delv isn't there, so it validates nothing")
    if "dnspython" in clients and not found_module("cryptography"):
        print("real_clients: dnspython has no cryptography, so it looks at no signature")
    peers.program("zoned")
    random.seed(1)
    differs = False
    with tempfile.TemporaryDirectory() as folder:
        files, anchors = made(folder)
        for front, port, words in fronts(folder, files):
            with running(words):
                connected(port).close()
                for client in clients:
                    differs |= tell(front, client, "responses", read_otherwise(client, port))
                    if front == "front.py":
                        differs |= tell(front, client, "transfers", taken_otherwise(client, port, files))
                if "dnspython" in clients and found_module("cryptography"):
                    differs |= tell(front, "dnspython", "responses with signatures", signed_otherwise(port))
                if found("delv"):
                    differs |= tell(front, "delv", "verdicts", judged_otherwise(port, anchors))
    return 1 if differs else 0


if __name__ == "__main__":
    sys.exit(__doc__ if len(sys.argv) > 1 else main())
