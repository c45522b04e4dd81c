#!/usr/bin/env python3
"""Sends zoned messages that no client should send, a million unless another count is given: random octets, queries with some octets
changed, also for transfers, and prefixes of good queries, each with a limit of its own. Answers have to come in order, only to messages
that have a header and aren't responses, with the message's identifier, opcode and RD, without AD and CD, and within its limit. Not part
of the gate.

  tools/compare/hostile_messages.py [COUNT [SEED]]

Prints how long it took, in a process that also makes and checks the messages, and how much memory the program had at its peak, for a
tenth of them and for all: the two figures of memory should be alike. The tenth is sent one by one, and the processor time of the slowest
is printed. With them go the most expensive queries that are known (dear_queries.py), each by itself: a table has what each costs beside a
plain one of its kind. The status is 1 if an answer is wrong, or if an expensive query costs more than eight times as much as the plain
one. Signed zones are made by dnssec-signzone, of Debian's package
bind9-utils; without it only the unsigned zone is queried.
"""
import os
import random
import struct
import subprocess
import sys
import tempfile
import time

sys.dont_write_bytecode = True
sys.path.append(os.path.dirname(os.path.dirname(os.path.realpath(__file__))))

import dear_queries
import frames
import peers
from dear_queries import worked
from questions import is_answered, turned
from sources import TOP

ZONE = f"example.com.={TOP}/examples/zones/example.zone"
NAMES = ["example.com.", "www.example.com.", "no.example.com.", "a.b.sub.example.com.", "com.", "*.example.com.", "x" * 63 + ".example.com."]
TYPES = ["A", "NS", "SOA", "MX", "AAAA", "DS", "RRSIG", "NSEC", "DNSKEY", "ANY", "CNAME", "TXT", "AXFR", "IXFR"]
# The serial of the zone, which goes out whole in one message, and some before and after it.
SERIALS = [2026112601, 2026112600, 2026112602, 0, 4294967295]
LIMITS = [0, 1, 511, 512, 513, 1231, 1232, 1400, 4096, 65534, 65535]

# How many messages are handed over before their answers are read.
TOGETHER = 200


def good():
    """The octets of a query as clients send them."""
    words = [random.choice(NAMES), random.choice(TYPES), f"id={random.randrange(65536)}"]
    words += [it for it in ("rd", "ad", "cd") if random.random() < 0.3]
    words += [f"serial={random.choice(SERIALS)}"] if random.random() < 0.2 else []
    if random.random() < 0.6:
        words += [f"edns={random.choice([0, 512, 1232, 4096, 65535])}", *(["do"] if random.random() < 0.5 else [])]
    return frames.query(words)


def messages():
    """Messages without end."""
    while True:
        kind = random.random()
        if kind < 0.3:
            yield random.randbytes(random.choice([0, 1, 11, 12, 13, 17, 29, 64, 512]))
        elif kind < 0.8:
            yield turned(good())
        else:
            octets = good()
            yield octets[: random.randrange(len(octets) + 1)]


def fault(message, limit, response):
    """What is wrong with a response, if anything is."""
    if len(response) < 12 or len(response) > max(limit, 512):
        return f"{len(response)} octets"
    (number, flags), (own_number, own_flags) = struct.unpack_from("!HH", message), struct.unpack_from("!HH", response)
    if number != own_number:
        return "another identifier"
    if not own_flags & 0x8000 or (flags ^ own_flags) & 0x7900 or own_flags & 0x0030:
        return f"flags {own_flags:04x} to {flags:04x}"
    return None


def tried(program, count, together):
    """Hands over so many messages, so many of them together: what was wrong, how many octets of memory the program had at its most, and the
    nanoseconds of a processor that it took longest for those together, but for the first, for which it loads the zone."""
    source, left, wrong, took, before = messages(), count, [], 0, None
    with tempfile.TemporaryFile() as faults:
        pipe = subprocess.PIPE
        served = subprocess.Popen([program, "--limits", "--transfers", ZONE], stdin=pipe, stdout=pipe, stderr=faults)
        while left > 0 and not wrong:
            some = [(next(source), random.choice(LIMITS)) for _ in range(min(left, together))]
            left -= len(some)
            served.stdin.write(b"".join(struct.pack("!HH", limit, len(it)) + it for it, limit in some))
            served.stdin.flush()
            for message, limit in some:
                if is_answered(message):
                    (length,) = struct.unpack("!H", served.stdout.read(2))
                    told = fault(message, limit, served.stdout.read(length))
                    wrong += [f"{told}: {message.hex()} within {limit}"] if told else []
            after = worked(served)
            took, before = max(took, after - (after if before is None else before)), after
        with open(f"/proc/{served.pid}/status", encoding="ascii") as it:
            most = next(int(line.split()[1]) for line in it if line.startswith("VmHWM:"))
        served.stdin.close()
        wrong += ["more is answered"] if served.stdout.read() else []
        wrong += [f"status {served.returncode}"] if served.wait() else []
    return wrong, most, took


def main(count="1000000", seed="1"):
    path = peers.program("zoned")
    random.seed(int(seed))
    for some, together in ((int(count) // 10, 1), (int(count), TOGETHER)):
        began = time.monotonic()
        wrong, most, took = tried(path, some, together)
        slowest = f", at most {took / 1000:.0f} microseconds of a processor for one" if together == 1 else ""
        print(f"{some} messages: {time.monotonic() - began:.1f} s, {most} kilobytes{slowest}", flush=True)
        if wrong:
            print(*wrong[:5], sep="\n")
            return 1
    with tempfile.TemporaryDirectory() as folder:
        return 0 if dear_queries.told(path, folder) else 1


if __name__ == "__main__":
    peers.called(main, __doc__)
