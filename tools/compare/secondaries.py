#!/usr/bin/env python3
"""Has NSD and Knot DNS, as secondaries, fetch zones from zoned by AXFR, and then, after a NOTIFY, a later version of each by IXFR. Their
copies are compared with what the same server reads from the zone files as a primary. The zones are made here: random ones without
signatures, with NSEC and with NSEC3; one with many names, which takes several messages; and one with an RRset that doesn't fit into a
message. If a server is missing, it is left out, and a line says so. Not part of the gate.

  tools/compare/secondaries.py [SEED [ROUNDS]]

The servers are Debian's packages nsd and knot; zones are signed by the signers of signed_zones.py. The status is 1 if a copy differs
from its zone, or doesn't arrive.
"""
import dataclasses
import os
import random
import socket
import struct
import sys
import tempfile
import time

sys.dont_write_bytecode = True
sys.path.append(os.path.dirname(os.path.dirname(os.path.realpath(__file__))))

import frames
import peers
import served_zones
import signed_zones
from peers import connected, found, free_port
from random_zones import random_zone

# What a server's configuration says of each zone: as a primary, which reads its file, and as a secondary of zoned.
NSD = 'zone:\n name: "{origin}"\n zonefile: "{path}"\n provide-xfr: 127.0.0.1 NOKEY\n'
KNOT = ' - domain: "{origin}"\n   file: "{path}"\n   zonefile-load: whole\n   semantic-checks: off\n   acl: all\n'
KNOT_HEAD = "remote:\n - id: zoned\n   address: 127.0.0.1@{served}\nacl:\n - id: all\n   address: 127.0.0.1\n   action: [transfer, notify]\nzone:\n"
PRIMARY = {"nsd": NSD, "knotd": KNOT}
SECONDARY = {
    "nsd": 'zone:\n name: "{origin}"\n request-xfr: 127.0.0.1@{served} NOKEY\n allow-notify: 127.0.0.1 NOKEY\n provide-xfr: 127.0.0.1 NOKEY\n',
    "knotd": ' - domain: "{origin}"\n   file: "{folder}/{origin}copy"\n   master: zoned\n   acl: all\n',
}

# Zones that a server gives nobody, as a primary either: Knot DNS none with a set that no message has room for.
NOT_GIVEN = {"knotd": {"large.test."}}

# Seconds in which a copy has to come.
COMES = 30


# ---- zones


def many_names(origin):
    """A zone of many names."""
    records = [(origin, "SOA", f"ns.{origin} h.{origin} 1 7200 900 1209600 300"), (origin, "NS", f"ns.{origin}")]
    return records + [(f"host{number}.{origin}", "A", f"192.0.2.{number % 250}") for number in range(5000)]


def large_set(origin):
    """A zone with a set of more octets than a message has."""
    records = [(origin, "SOA", f"ns.{origin} h.{origin} 1 7200 900 1209600 300"), (origin, "NS", f"ns.{origin}")]
    return records + [(f"large.{origin}", "TXT", f'"{number:0255}"') for number in range(300)] + [(f"z.{origin}", "A", "192.0.2.1")]


def made_zones():
    """The records of each zone, and how it is signed."""
    signers = signed_zones.signers()
    if not signers:
        print("secondaries: there is no signer, so no zone is signed")
    ways = {f"z{number}.test.": signed_zones.some_way(signers, 0.25) for number in range(12)}
    zones = {origin: random_zone(origin, way is not None) for origin, way in ways.items()}
    # (Knot doesn't load each zone with two NSEC3PARAM records)
    ways = {origin: dataclasses.replace(way, beside="") if way and way.beside == "second" else way for origin, way in ways.items()}
    zones |= {"many.test.": many_names("many.test."), "large.test.": large_set("large.test.")}
    return zones, ways


def later(records):
    """The next version of a zone: a serial more, and one name."""
    origin = records[0][0]
    return [(owner, kind, data.replace(" 1 7200", " 2 7200")) for owner, kind, data in records] + [(f"later.{origin}", "A", "192.0.2.9")]


# ---- copies


def messages(read):
    """The messages of a connection, up to its end."""
    while len(head := read(2)) == 2:
        (length,) = struct.unpack("!H", head)
        message = read(length)
        if len(message) == length:
            yield message


def transferred(port, origin):
    """The records that a server gives of a zone, sorted, without the second SOA; none where it doesn't give it to its end, as one may not
    that is about to take the zone."""
    lines, query = [], frames.query([origin, "AXFR"])
    with connected(port) as stream:
        stream.sendall(peers.framed(query))
        for message in messages(stream.makefile("rb").read):
            text = list(frames.message_lines(message))
            lines += text[text.index(";; ANSWER SECTION:") + 1 :] if ";; ANSWER SECTION:" in text else []
            if not lines or len(lines) > 1 and lines[0] == lines[-1]:
                return sorted(line.lower() for line in lines[:-1])
    return []


def serial(lines):
    """The serial of a copy."""
    return next((int(line.split()[6]) for line in lines if line.split()[3] == "soa"), None)


def come(port, origin, wanted):
    """The copy that a server has of a zone once it has this serial, or the one that it has when the time is over."""
    until = time.monotonic() + COMES
    while serial(lines := transferred(port, origin)) != wanted and time.monotonic() < until:
        time.sleep(0.2)
    return lines


def begun(server, folder, port, zones):
    """Starts a server with this configuration of its zones."""
    return peers.begun(peers.configured(server, folder, port, zones))


def zone_texts(server, forms, words, zones):
    """What a configuration says of zones."""
    head = KNOT_HEAD.format(**words) if server == "knotd" else ""
    return head + "".join(forms[server].format(origin=origin, path=path, **words) for origin, path in zones.items())


def read_by(server, folder, files):
    """What a server reads of zone files, as a primary."""
    port = free_port()
    process = begun(server, folder, port, zone_texts(server, PRIMARY, {"served": 1}, files))
    try:
        return {origin: transferred(port, origin) for origin in files}
    finally:
        peers.end(process)


def served_by_zoned(zoned, port, files):
    """Starts zoned behind its front."""
    return peers.begun(peers.front(zoned, port, files, "--transfers"))


def notify(port, origin):
    """Tells a secondary that a zone has changed (RFC 1996)."""
    with socket.socket(socket.AF_INET, socket.SOCK_DGRAM) as it:
        it.sendto(frames.query([origin, "SOA", "opcode=4"]), ("127.0.0.1", port))


def differing(server, zoned, folder, versions):
    """The zones of which a secondary has another copy than its zone, at one version and then the next."""
    served, port, differ = free_port(), free_port(), []
    words = {"served": served, "folder": f"{folder}/{server}"}
    ours, theirs = served_by_zoned(zoned, served, versions[0]), None
    try:
        connected(served).close()
        theirs = begun(server, f"{folder}/{server}", port, zone_texts(server, SECONDARY, words, versions[0]))
        for version, files in enumerate(versions, 1):
            if version > 1:
                peers.end(ours)
                ours = served_by_zoned(zoned, served, files)
                connected(served).close()
                for origin in files:
                    notify(port, origin)
            read = read_by(server, f"{folder}/{server}{version}", files)
            copies = {origin: come(port, origin, version) for origin in files}
            differ += [f"{origin} {version}" for origin in files if not read[origin] or copies[origin] != read[origin]]
    finally:
        peers.end(*filter(None, (theirs, ours)))
    return differ


def main(seed="1", rounds="1"):
    servers = [server for server in PRIMARY if found(server)]
    for server in PRIMARY.keys() - set(servers):
        print(f"secondaries: {server} isn't there, so it takes nothing")
    path, differs = peers.program("zoned"), False
    random.seed(int(seed))
    for _ in range(int(rounds)):
        zones, ways = made_zones()
        with tempfile.TemporaryDirectory() as folder:
            versions = []
            for number, change in enumerate([lambda records: records, later], 1):
                os.makedirs(f"{folder}/{number}")
                write = lambda origin: served_zones.made(f"{folder}/{number}", origin, change(zones[origin]), ways.get(origin)).path
                versions.append({origin: write(origin) for origin in zones})
            for server in servers:
                given = [{it: files[it] for it in files if it not in NOT_GIVEN.get(server, ())} for files in versions]
                differ = differing(server, path, folder, given)
                print(f"{server}: {len(given[0])} zones, two versions of each, {len(differ)} copies differ", *differ[:5], sep="\n    ", flush=True)
                differs = differs or bool(differ)
    return 1 if differs else 0


if __name__ == "__main__":
    peers.called(main, __doc__)
