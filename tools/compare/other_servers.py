#!/usr/bin/env python3
"""Compares what zoned answers with what NSD, Knot DNS and BIND answer, section by section, for random zones and queries that are made
here. If a tool is missing, what needs it is left out, and a line says so. Not part of the gate.

  tools/compare/other_servers.py [SEED [ROUNDS]]

The zones are those of random_zones.py: glue and text at zone cuts, MINIMUM above the TTL of the SOA, names with octets that aren't
letters, and in either case. They are unsigned, or signed by dnssec-signzone, ldns-signzone or kzonesign, with NSEC, with NSEC3, or with
opt-out; and some with NSEC3 have a second chain, the rest of an old one or NSEC records as well (signed_zones.py). A round has twelve
zones without DNAME, four with some, four with records below these too, and four whose origin owns one; two zones with three children
each, one of them with its DS, one signed without, and one unsigned; and, by themselves, a root zone and a child of it. Each question is
asked with DNSSEC and without, for names below DNAME too; now and then over UDP as well, where TC has to be set for what doesn't fit.

BIND gets the zones that named-checkzone accepts: it rejects hosts of an NS set that have no address. NSD and Knot reject records below a
DNAME, which RFC 6672 section 2.4 forbids, so only BIND is asked about these. Knot doesn't load every zone with two NSEC3PARAM records,
and now and then orders names with an octet 0 differently from RFC 4034 section 6.1, so it gets neither.

The tools are Debian's packages nsd, knot, bind9, bind9-utils, ldnsutils and knot-dnssecutils. The status is 1 if an answer differs in more
than what a server may choose, as server_choices.py lists it, or if zoned denies by several chains at once.
"""
import collections
import os
import random
import socket
import struct
import subprocess
import sys
import tempfile

sys.dont_write_bytecode = True
sys.path.append(os.path.dirname(os.path.dirname(os.path.realpath(__file__))))

import frames
import peers
import signed_zones
from peers import SERVERS, found
from questions import chains, queries, sections, zone_of
from random_zones import MADE, dnames, is_below
from served_zones import files, made, parent_and_children
from server_choices import compared_sections, is_left_out
from signed_zones import cased

# By how many of all questions one is asked by UDP too, and the words and limits of these.
BY_UDP = 12
DATAGRAMS = [([], 512), (["edns=512", "do"], 512), (["edns=1232", "do"], 1232)]

# How many zones of a round have children.
PARENTS = 2


# ---- zones


def zones_together(folder, signers):
    """The zones of a round, by those that are served together."""
    some_way = lambda least=0.25: signed_zones.some_way(signers, least)
    zones = {}
    for letter, (make, count) in MADE.items():
        for number in range(count):
            origin, way = f"{letter}{number}.test.", some_way()
            zones[origin] = made(folder, origin, make(origin, bool(way)), way)
    for number in range(PARENTS):
        children = [("signed", some_way(0), True), ("island", some_way(0), False), ("unsigned", None, False)]
        zones |= parent_and_children(folder, f"p{number}.test.", some_way(0), children)
    return [zones, parent_and_children(folder, ".", some_way(), [("child", some_way(), True)])]


# ---- questions and answers


class Asked:
    """A server and zoned, which are asked the same."""

    def __init__(self, server, zoned, stream, port):
        self.server, self.zoned, self.stream, self.port = server, zoned, stream, port
        self.count, self.differing = 0, collections.defaultdict(list)

    def of_zoned(self, message, limit):
        self.zoned.stdin.write(struct.pack("!HH", limit, len(message)) + message)
        self.zoned.stdin.flush()
        return peers.received(self.zoned.stdout.read)

    def by_tcp(self, message):
        """The response of zoned, and that of the server."""
        return self.of_zoned(message, 65535), peers.asked(self.stream, message)

    def by_udp(self, message, limit):
        with socket.socket(socket.AF_INET, socket.SOCK_DGRAM) as it:
            it.settimeout(peers.LISTENS)
            it.connect(("127.0.0.1", self.port))
            it.send(message)
            return self.of_zoned(message, limit), it.recv(65535)

    def differ(self, what, question, ours, theirs):
        sides = (("only zoned:", ours, theirs), (f"only {self.server}:", theirs, ours))
        only = [f"{who} {line[:90]}" for it in ours for who, one, other in sides for line in one[it] if line not in other[it]]
        self.differing[what].append(f"{question}: {only}")

    def compare(self, zones, name, kind, words):
        """Asks both, and keeps what differs. Gives whether anything of it counts."""
        origin = zone_of(name, kind, zones)
        zone = zones[origin]
        message = frames.query([cased(name) if random.random() < 0.3 else name, kind, *words])
        (our_head, ours), (their_head, theirs) = map(sections, self.by_tcp(message))
        if is_left_out(self.server, name, kind, words, our_head, ours, zone, zones):
            return False
        self.count += 1
        if len(chains(ours)) > 1:
            self.differ("several chains", f"{name} {kind}", ours, theirs)
        ours, theirs = compared_sections(self.server, origin, zone, name, our_head[1], ours, theirs)
        parts = [section for section in ours if ours[section] != theirs[section]] + ["header"] * (our_head != their_head)
        if parts:
            self.differ(" ".join(parts), f"{name} {kind} {' '.join(words)}", ours, theirs)
        return True

    def compare_datagrams(self, name, kind):
        """Asks both by UDP. Where there is room for all that both send by TCP, TC is clear; and where there is for neither, and nothing stands
        in the additional section that could be left out, it is set."""
        words, limit = random.choice(DATAGRAMS)
        message = frames.query([name, kind, *words])
        whole = self.by_tcp(message)
        fit = [len(it) <= limit for it in whole]
        may_be_cut = fit[0] != fit[1] or not fit[0] and any(sections(it)[1]["ADDITIONAL"] for it in whole)
        if may_be_cut or sections(whole[0])[0][1] == frames.YXDOMAIN:
            return
        self.count += 1
        cut = [bool(it[2] & 2) for it in self.by_udp(message, limit)]
        if cut != [not fit[0]] * 2:
            self.differing["TC"].append(f"{name} {kind} {' '.join(words)}: {cut[0]} of zoned, {cut[1]} of {self.server}, {'within' if fit[0] else 'beyond'} {limit}")


def compare(asked, zones):
    """Asks both for all zones."""
    for origin, zone in zones.items():
        for name, kind, words in queries(origin, zone.records):
            if asked.compare(zones, name, kind, words) and kind != "ANY" and random.random() < 1 / BY_UDP:
                asked.compare_datagrams(name, kind)


def is_taken(server, origin, zone):
    """Whether a server loads a zone, and takes it for what it is: BIND looks closer at what stands in it, but for records below a DNAME."""
    words = [found("named-checkzone"), "-k", "ignore", "-i", "none", origin, zone.path]
    if server == "named":
        return subprocess.run(words, stdout=subprocess.DEVNULL).returncode == 0
    if server == "knotd" and (any("\\000" in owner for owner, _, _ in zone.records) or zone.way and zone.way.beside == "second"):
        return False
    return not any(is_below(owner, it) for owner, _, _ in zone.records for it in dnames(zone.records))


def compared(server, folder, zones, zoned):
    """How many questions a server was asked, and those that it answers otherwise than zoned does from the same files."""
    port, own = peers.free_port(), f"{tempfile.mkdtemp(prefix=server, dir=folder)}/own"
    theirs = peers.begun(peers.configured(server, own, port, peers.zones_text(server, files(zones))))
    words = [f"{origin}={path}" for origin, path in files(zones).items()]
    ours = subprocess.Popen([zoned, "--limits", *words], stdin=subprocess.PIPE, stdout=subprocess.PIPE, stderr=subprocess.DEVNULL)
    try:
        with peers.connected(port) as stream:
            peers.await_zones(stream, zones)
            asked = Asked(server, ours, stream, port)
            compare(asked, zones)
            return asked.count, asked.differing
    finally:
        ours.stdin.close()
        peers.end(theirs)
        ours.wait()


def tell(server, asked, differing):
    print(f"{server}: {asked} questions, {sum(map(len, differing.values()))} answered differently", flush=True)
    for parts, examples in differing.items():
        print(len(examples), parts, *examples[:2], sep="\n    ")


def main(seed="1", rounds="1"):
    servers = [server for server in SERVERS if found(server) and (server != "named" or found("named-checkzone"))]
    for server in SERVERS.keys() - set(servers):
        print(f"other_servers: {server} isn't there, so nothing is compared with it")
    signers = signed_zones.signers()
    for signer in signed_zones.SIGNERS.keys() - set(signers):
        print(f"other_servers: {signer}, or what it needs, isn't there, so it signs no zone")
    path, differs = peers.program("zoned"), False
    random.seed(int(seed))
    for _ in range(int(rounds)):
        with tempfile.TemporaryDirectory() as folder:
            together = zones_together(folder, signers)
            for server in servers:
                for zones in together:
                    taken = {origin: zone for origin, zone in zones.items() if is_taken(server, origin, zone)}
                    asked, differing = compared(server, folder, taken, path)
                    tell(server, asked, differing)
                    differs = differs or bool(differing)
    return 1 if differs else 0


if __name__ == "__main__":
    peers.called(main, __doc__)
