#!/usr/bin/env python3
"""The most expensive queries for zoned that are known, each beside a plain one of its kind: hostile_messages.py sends them one by one, and
`bench/run hostile` has their table. They are measured in instructions if valgrind is installed, and otherwise in microseconds of a
processor, which other work of the machine makes longer.

  tools/compare/dear_queries.py

Has NSD and Knot DNS answer them over UDP, with one worker each, and prints the microseconds of a processor that each query takes them
outside the kernel.

They are for names of 110 labels and more, of 255 octets, and with an octet 0 in each label: names that don't exist, without signatures,
with NSEC and with NSEC3; names that a wildcard answers for, below a zone cut and below a DNAME; deep names that exist, deep empty
non-terminals, and names beside these; and IXFR with an authority section as large as a message allows. The signed zones are made by
dnssec-signzone.
"""
import dataclasses
import glob
import os
import re
import socket
import struct
import subprocess
import sys
import tempfile
import time

sys.dont_write_bytecode = True
sys.path.append(os.path.dirname(os.path.dirname(os.path.realpath(__file__))))

import frames
import peers
import signed_zones
from peers import found, received

# No response should take more than so many times what a plain one of its kind takes.
BOUND = 8

ORIGIN = "example."
HOSTS = 1000
# As many labels as a name has room for beside the zone's; and as many of a name that is there.
MANY, DEEP = 110, 100
WIDE = ".".join(["l" * 63] * 3)
DEEPEST = "e." * DEEP + ORIGIN
RECORDS = [
    (ORIGIN, "SOA", "ns.example. host.example. 1 7200 900 1209600 300"),
    (ORIGIN, "NS", "ns.example."),
    ("ns.example.", "A", "192.0.2.1"),
    ("*.w.example.", "A", "192.0.2.2"),
    ("cut.example.", "NS", "ns.cut.example."),
    ("ns.cut.example.", "A", "192.0.2.3"),
    ("from.example.", "DNAME", "to.example."),
    ("a.empty.example.", "A", "192.0.2.4"),
    (DEEPEST, "A", "192.0.2.5"),
    *((f"host{number}.{ORIGIN}", "A", "192.0.2.6") for number in range(HOSTS)),
]

# How the zones are signed. Fifty are the most iterations that a zone should have (RFC 9276 section 3.2 has servers refuse more than a low
# number, and validators stop at some).
SIGNED = {
    "unsigned": None,
    "NSEC": signed_zones.Way(kind="nsec"),
    "NSEC3": signed_zones.Way(kind="nsec3"),
    "NSEC3, 50 iterations": signed_zones.Way(kind="nsec3", iterations=50),
}

DO = ["edns=4096", "do"]

# What is dear of a query.
LABELS, ZEROS, WIDTH = f"{MANY} labels", f"{MANY} labels of an octet 0", "255 octets"
BELOW_EMPTY, ZEROS_BELOW = f"below an empty name of {DEEP - 4} labels", f"labels of an octet 0, below an empty name of {DEEP // 2}"
EMPTY, DEEP_NAME = f"an empty name of {DEEP - 1} labels", f"a name of {DEEP} labels"
LARGE = "4,600 records in the authority section"

# What is asked: a plain question of a kind, and the names and types of dear ones.
many = {LABELS: "a." * MANY, ZEROS: "\\000." * MANY}
ASKED = [
    ("a name that isn't there", "nothere.example. A", {
        **{dear: f"{labels}{ORIGIN} A" for dear, labels in many.items()},
        WIDTH: f"{'k' * 63}.{WIDE[:-10]}.example. A",
        BELOW_EMPTY: f"x.{DEEPEST[8:]} A",
        ZEROS_BELOW: "\\000." * 55 + f"{DEEPEST[DEEP:]} A",
    }),
    ("no data", "empty.example. A", {EMPTY: f"{DEEPEST[2:]} A", DEEP_NAME: f"{DEEPEST} MX"}),
    ("an address", "host1.example. A", {DEEP_NAME: f"{DEEPEST} A"}),
    ("a wildcard's", "a.w.example. A", {dear: f"{labels}w.example. A" for dear, labels in many.items()}),
    ("a referral", "a.cut.example. A", {dear: f"{labels}cut.example. A" for dear, labels in many.items()}),
    ("below a DNAME", "a.from.example. A", {dear: f"{labels}from.example. A" for dear, labels in many.items()}),
]

# Microseconds that a time is taken over at least, and how many times, of which the least counts.
ENOUGH, RUNS = 20_000, 5


@dataclasses.dataclass(frozen=True)
class Part:
    """A dear query and a plain one of its kind, and what tells them apart."""

    zone: str
    kind: str
    dear: str
    plain_message: bytes
    dear_message: bytes


def incremental(count):
    """A query for an incremental transfer of the zone with so many records in its authority section, of which the first is the SOA, and the
    others have no data."""
    head = struct.pack("!HHHHHH", 1, 0, 1, 0, count, 0) + frames.octets_of(ORIGIN) + struct.pack("!HH", frames.TYPES["IXFR"], 1)
    return head + frames.start_of_authority(1) + struct.pack("!HHHIH", 0xC00C, 10, 1, 0, 0) * (count - 1)


def parts():
    """All parts."""
    for zone, way in SIGNED.items():
        words = DO if way else []
        for kind, plain, dear in ASKED:
            for told, question in dear.items():
                yield Part(zone, kind, told, *(frames.query([*it.split(), *words]) for it in (plain, question)))
    # (RFC 1995 section 3 has one record there, the SOA)
    yield Part("unsigned", "IXFR", LARGE, incremental(1), incremental(4600))


def files(folder):
    """The zones' files; of the unsigned one alone where there is no dnssec-signzone."""
    is_there = "dnssec-signzone" in signed_zones.signers()
    found = {}
    for number, (zone, way) in enumerate(SIGNED.items()):
        if way and not is_there:
            print(f"dnssec-signzone isn't there, so the zone {zone} isn't made")
            continue
        os.mkdir(f"{folder}/{number}")
        path = signed_zones.written(f"{folder}/{number}", ORIGIN, RECORDS)
        found[zone] = signed_zones.signed(f"{folder}/{number}", ORIGIN, path, way)[0] if way else path
    return found


# ---- what a message takes


class Measured:
    """A zoned, and what messages take it."""

    def __init__(self, before, zoned, path):
        words = [*before, zoned, "--limits", "--transfers", f"{ORIGIN}={path}"]
        self.process = subprocess.Popen(words, stdin=subprocess.PIPE, stdout=subprocess.PIPE, stderr=subprocess.DEVNULL)
        self.ask(frames.query([ORIGIN, "SOA"]), 1)

    def ask(self, message, count):
        """Hands over a message so many times, and reads what is answered."""
        self.process.stdin.write((struct.pack("!HH", 65535, len(message)) + message) * count)
        self.process.stdin.flush()
        for _ in range(count):
            received(self.process.stdout.read)

    def end(self):
        self.process.stdin.close()
        self.process.wait()


class Counted(Measured):
    """Measured by the instructions of a message, as callgrind counts them."""

    UNIT, COUNT = "Instructions", 5
    # (callgrind counts an instruction that copies a whole message as one for each octet: the C library is to do without such)
    PLAIN_COPIES = "GLIBC_TUNABLES=glibc.cpu.x86_rep_movsb_threshold=2147483647:glibc.cpu.x86_rep_stosb_threshold=2147483647"

    def __init__(self, zoned, path):
        self.counts = f"{path}.counts"
        super().__init__(["env", self.PLAIN_COPIES, "valgrind", "--tool=callgrind", f"--callgrind-out-file={self.counts}"], zoned, path)

    def control(self, word):
        subprocess.run(["callgrind_control", word, str(self.process.pid)], stdout=subprocess.DEVNULL, stderr=subprocess.DEVNULL, check=True)

    def cost(self, message):
        self.control("--zero")
        self.ask(message, self.COUNT)
        self.control("--dump")
        [dumped] = glob.glob(f"{glob.escape(self.counts)}.*")
        with open(dumped, encoding="utf-8", errors="replace") as it:
            total = int(re.search(r"^totals: (\d+)", it.read(), re.M)[1])
        os.remove(dumped)
        return total / self.COUNT


def worked(process):
    """The nanoseconds of a processor that a process has taken."""
    with open(f"/proc/{process.pid}/schedstat", encoding="ascii") as it:
        return int(it.read().split()[0])


class Timed(Measured):
    """Measured by the microseconds of a processor that a message takes."""

    UNIT = "Microseconds"

    def __init__(self, zoned, path):
        super().__init__([], zoned, path)

    def time(self, message, count):
        """Those of one message, of so many that are handed over together."""
        before = worked(self.process)
        self.ask(message, count)
        return (worked(self.process) - before) / count / 1000

    def cost(self, message):
        """The least of some times, each of so many messages that they take ENOUGH microseconds, and together have no more than the pipe holds."""
        count = 1
        while count < (1 << 15) // len(message) and self.time(message, count) * count < ENOUGH:
            count *= 2
        return min(self.time(message, count) for _ in range(RUNS))


def costs(measure, zoned, folder):
    """Each part, with what its plain query and its dear one take zoned."""
    plain = {}
    for zone, path in files(folder).items():
        measured = measure(zoned, path)
        for part in (it for it in parts() if it.zone == zone):
            key = zone, part.kind
            plain[key] = plain.get(key) or measured.cost(part.plain_message)
            dear = measured.cost(part.dear_message)
            # (other work of the machine makes a time longer, and none shorter)
            yield part, plain[key], dear if dear <= BOUND * plain[key] else min(dear, measured.cost(part.dear_message))
        measured.end()


def told(zoned, folder):
    """Prints the table, and gives whether each part is within the bound."""
    measure = Counted if found("valgrind") else Timed
    print(f"| Zone | What is asked | What is dear of it | {measure.UNIT} | of a plain one | Ratio | |")
    print("|---|---|---|---|---|---|---|", flush=True)
    is_well = True
    for part, plain, dear in costs(measure, zoned, folder):
        is_within = dear <= BOUND * plain
        verdict = f"{'within' if is_within else 'beyond'} {BOUND}"
        print(f"| {part.zone} | {part.kind} | {part.dear} | {dear:,.1f} | {plain:,.1f} | {dear / plain:,.1f} | {verdict} |", flush=True)
        is_well = is_well and is_within
    return is_well


# ---- other servers

# The other servers, and what has each work with one process or thread.
OTHERS = {
    "nsd": lambda text: text.replace("server:\n", "server:\n server-count: 1\n", 1),
    "knotd": lambda text: text.replace("server:\n", "server:\n udp-workers: 1\n tcp-workers: 1\n background-workers: 1\n", 1),
}
# How many queries are sent for a figure, and how many of them wait for an answer at a time.
SENT, WAITING = 100_000, 50


def user_seconds(pid):
    """The seconds that a process and those below it have worked outside the kernel."""
    with open(f"/proc/{pid}/stat", encoding="ascii", errors="replace") as it:
        ticks = int(it.read().rpartition(")")[2].split()[11])
    with open(f"/proc/{pid}/task/{pid}/children", encoding="ascii") as it:
        return ticks / os.sysconf("SC_CLK_TCK") + sum(map(user_seconds, it.read().split()))


def microseconds(server, client, message):
    before = user_seconds(server.pid)
    for _ in range(SENT // WAITING):
        for _ in range(WAITING):
            client.send(message)
        for _ in range(WAITING):
            client.recv(65535)
    return (user_seconds(server.pid) - before) / SENT * 1e6


def others_costs(name, zone, path, folder):
    """Each part of a zone, with the microseconds that its plain query and its dear one take another server."""
    port = peers.free_port()
    server = peers.begun(peers.configured(name, f"{folder}/{name}-{port}", port, peers.zones_text(name, {ORIGIN: path}), OTHERS[name]))
    try:
        peers.connected(port).close()
        time.sleep(1)
        with socket.socket(socket.AF_INET, socket.SOCK_DGRAM) as client:
            client.settimeout(10)
            client.connect(("127.0.0.1", port))
            for part in (it for it in parts() if it.zone == zone and it.kind != "IXFR"):
                yield part, *(microseconds(server, client, it) for it in (part.plain_message, part.dear_message))
    finally:
        peers.end(server)


def main():
    print("| Server | Zone | What is asked | What is dear of it | Microseconds | of a plain one |")
    print("|---|---|---|---|---|---|", flush=True)
    with tempfile.TemporaryDirectory() as folder:
        made = files(folder)
        for name in (it for it in OTHERS if found(it)):
            for zone, path in made.items():
                for part, plain, dear in others_costs(name, zone, path, folder):
                    print(f"| {name} | {zone} | {part.kind} | {part.dear} | {dear:.1f} | {plain:.1f} |", flush=True)


if __name__ == "__main__":
    main()
