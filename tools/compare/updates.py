#!/usr/bin/env python3
"""tools/compare/updates.py [SEED [ROUNDS [FOLDER]]]: the C library, BIND and Knot DNS get the same random updates of a zone (RFC 2136), signed by one
of two keys (TSIG), of which one may change all, and the other little. After each, all have answered with the same code, and have the same
records; the HMAC of Python judges the TSIG of each response of the library. Then nsupdate and knsupdate are clients of the library. If a tool is
missing, it is left out, and a line says so. Not part of the gate: it needs cc, and opens sockets on loopback. It ends what it starts.

What they do otherwise: BIND looks at who may change what before the prerequisites, and leaves the serial where changes undo each other (sections
3.3 and 3.6 of RFC 2136 allow that); it drops DS records where there is no NS (section 3.4.2.2 has each record added). Knot DNS keeps the TTL that a set has (section 3.4.2.2 has the record replaced, with its TTL); its rules of
who may change what are of whole messages, so that it gets the updates which the library didn't refuse, under the key that may change all.

The servers are Debian's packages bind9 and knot, and the tools are those of bind9-dnsutils and knot-dnsutils. FOLDER is what `./build ningkraet`
made; where none is named it is what `tools/build/program path ningkraet` gives. The status is 1 if anything differs.
"""
import base64
import os
import random
import socket
import struct
import subprocess
import sys
import tempfile
import threading
import time
from ctypes import CDLL, POINTER, Structure, byref, c_char_p, c_size_t, c_uint16, c_uint32, c_uint64, c_void_p, create_string_buffer, string_at

sys.dont_write_bytecode = True
sys.path.append(os.path.dirname(os.path.dirname(os.path.realpath(__file__))))

import peers
from keyed_transfers import KEY, KEYS, OTHER, SECRET, judged, signed, wire
from tsig_judge import name_at, parted

ORIGIN = "zone.example."
ZONE = "$TTL 300\n@ SOA ns host 7 3600 600 86400 60\n@ NS ns\nns A 192.0.2.1\na A 192.0.2.2\na A 192.0.2.3\na.b TXT one\nkept A 192.0.2.4\nalias CNAME a\n"
A, NS, CNAME, SOA, MX, TXT, DS, AXFR, ANY = 1, 2, 5, 6, 15, 16, 43, 252, 255
IN, NONE, ANY_CLASS = 1, 254, 255
NOERROR, REFUSED = 0, 5
# The codes of prerequisites (RFC 2136 section 2.2). BIND looks at its policy before them, and the library behind them (section 3.3).
UNMET = (3, 6, 7, 8)
# Each rule: a key, a name, whether it is about all below that too, types, and whether it denies them. OTHER may change all; KEY addresses and texts
# at `a` and below it, and most of what is at `b` and below it.
RULES = [
    (OTHER, ORIGIN, True, (ANY,), False),
    (KEY, f"kept.b.{ORIGIN}", False, (ANY,), True),
    (KEY, f"a.{ORIGIN}", True, (A, TXT), False),
    (KEY, f"b.{ORIGIN}", True, (), False),
]
WORDS = {A: "A", TXT: "TXT", ANY: "ANY"}
BIND = 'zone "{origin}" {{ type primary; file "{path}"; check-integrity no; check-mx ignore; allow-transfer {{ any; }}; update-policy {{ {policy} }}; }};\n'
BIND_KEY = 'key "{key}" {{ algorithm hmac-sha256; secret "{secret}"; }};\n'
KNOT = (
    "key:\n - id: {key}\n   algorithm: hmac-sha256\n   secret: {secret}\n"
    "acl:\n - id: all\n   key: {key}\n   action: update\n - id: anybody\n   address: 127.0.0.1\n   action: transfer\n"
    "zone:\n"
)
KNOT_ZONE = ' - domain: "{origin}"\n   file: "{path}"\n   zonefile-sync: -1\n   zonefile-load: whole\n   semantic-checks: off\n   acl: [all, anybody]\n'
SERVERS = {"named": "BIND", "knotd": "Knot DNS"}
NAMES = [ORIGIN, *(f"{it}.{ORIGIN}" for it in ("a", "b", "a.a", "kept.b", "c.b", "alias", "kept", "new", "x.y.new"))]
# What the tools are told: a record that is added, and one that needs a record that isn't there.
TOLD = "server 127.0.0.1 {port}\nzone {origin}\nkey hmac-sha256:{key} {secret}\n{change}\nsend\nquit\n"
CHANGES = {"update add {name} 60 A 192.0.2.77": True, "prereq yxdomain nobody.{origin}\nupdate add other.{origin} 60 A 192.0.2.78": False}
SECONDS = 20
# Octets that the library has room for, for a message or a zone file; and how often each type is among changes.
ROOM, WEIGHTS = 1 << 20, {A: 6, TXT: 4, MX: 2, NS: 2, CNAME: 2, DS: 1, SOA: 1}


class Message(Structure):
    _fields_ = [("octets", c_char_p), ("octets_length", c_size_t), ("address", c_char_p), ("address_length", c_size_t), ("moment", c_uint64), ("limit", c_size_t), ("transport", c_uint32)]


class Rule(Structure):
    _fields_ = [
        *(field for it in ("origin", "key", "name") for field in ((it, c_char_p), (f"{it}_length", c_size_t))),
        *(("types", POINTER(c_uint16)), ("types_length", c_size_t), ("scope", c_uint32), ("denies", c_uint32)),
    ]


def pair(octets):
    """Octets as a pointer and a length."""
    return octets, c_size_t(len(octets))


class Held:
    """The zone in the library, with its keys and rules; anybody may have it."""

    def __init__(self, folder):
        self.library = CDLL(f"{folder}/libningkraet.so")
        self.zones, self.updates, self.access, self.transfer = c_void_p(), c_void_p(), c_void_p(), c_void_p()
        self.room, self.written, self.changed = create_string_buffer(ROOM), c_size_t(), c_uint32()
        keys, whole = pair(KEYS.encode()), (self.room, c_size_t(ROOM), byref(self.written))
        self.whole = whole
        self.done("nk_zones_new", self.zones)
        self.done("nk_updates_keys", self.updates, *keys, *whole)
        self.done("nk_zones_keys", self.access, *keys, *whole)
        self.take(ORIGIN, ZONE, RULES)

    def take(self, zone, text, rules):
        """Takes a zone of this text, and the rules of who may change it."""
        origin = pair(zone.encode())
        self.done("nk_zones_load", self.zones, *origin, *pair(text.encode()), *self.whole)
        self.done("nk_zones_allow", self.access, *origin, *pair(b""))
        for key, name, below, types, denies in rules:
            texts = [field for it in (zone, key, name) for field in (it.encode(), len(it))]
            rule = Rule(*texts, (c_uint16 * (len(types) + 1))(*types), len(types), int(below), int(denies))
            self.done("nk_updates_rule", self.updates, byref(rule))

    def shown(self, records):
        """Those records of the zone that are compared."""
        return records

    def call(self, name, handle, *words):
        return self.library[name](byref(handle), *words)

    def done(self, name, handle, *words):
        if code := self.call(name, handle, *words):
            sys.exit(f"updates: {name} gives {code}")

    def message(self, octets, transport):
        return byref(Message(octets, len(octets), b"\x7f\0\0\1", 4, int(time.time()), 1232, transport))

    def updated(self, octets):
        """The response to an update, and whether a zone changed."""
        self.done("nk_zones_update", self.zones, byref(self.updates), self.message(octets, 0), *self.whole, byref(self.changed))
        return string_at(self.room, self.written.value), bool(self.changed.value)

    def text(self):
        """The zone as a zone file."""
        self.done("nk_zones_write", self.zones, *pair(ORIGIN.encode()), *self.whole)
        return string_at(self.room, self.written.value).decode("ascii")

    def answers(self, octets, steps=None):
        """The messages of the answer over TCP; what changed, if steps have it, where they are given."""
        begun = self.call("nk_transfer_begin", self.transfer, byref(self.zones), byref(self.access), self.message(octets, 1), *self.whole)
        if steps:
            self.done("nk_transfer_steps", self.transfer, byref(steps), *pair(octets))
        while self.call("nk_transfer_next", self.transfer, c_uint64(int(time.time())), *self.whole) == NOERROR:
            yield string_at(self.room, self.written.value)
        if not begun:
            sys.exit("updates: the library doesn't send its zone")


def policy(rules):
    """What BIND's configuration says of who may change what in a zone."""
    return " ".join(
        f"{'deny' if denies else 'grant'} {key} {'subdomain' if below else 'name'} {name} {' '.join(WORDS[it] for it in types)};" for key, name, below, types, denies in rules
    )


def configuration(server, files):
    """What the configuration of a server says of its keys, and of zones in these files. Who has the key OTHER may change all in any of them."""
    secret = base64.b64encode(SECRET).decode()
    if server == "knotd":
        return KNOT.format(key=OTHER, secret=secret) + "".join(KNOT_ZONE.format(origin=origin, path=path) for origin, path in files.items())
    keys = "".join(BIND_KEY.format(key=key, secret=secret) for key in (KEY, OTHER))
    rules = {origin: RULES if origin == ORIGIN else all_by_other(origin) for origin in files}
    return keys + "".join(BIND.format(origin=origin, path=path, policy=policy(rules[origin])) for origin, path in files.items())


def all_by_other(origin):
    """The rule by which who has the key OTHER may change all in a zone."""
    return [(OTHER, origin, True, (ANY,), False)]


class Peer:
    """The same zones in another server, by their origins."""

    def __init__(self, server, folder, zones=None):
        self.server, self.folder, self.times = server, folder, 0
        self.begin(zones or {ORIGIN: ZONE})

    def begin(self, zones):
        """Begins with zones of these texts."""
        self.port, self.times = peers.free_port(), self.times + 1
        folder = f"{self.folder}{self.times}"
        os.mkdir(folder)
        for origin, text in zones.items():
            with open(f"{folder}/{origin}zone", "w", encoding="ascii") as it:
                it.write(text)
        files = {origin: f"{folder}/{origin}zone" for origin in zones}
        self.process = peers.begun(peers.configured(self.server, f"{folder}/server", self.port, configuration(self.server, files)))
        with peers.connected(self.port) as stream:
            peers.await_zones(stream, zones)
            if peers.asked(stream, query(next(iter(zones)), SOA))[3] & 15:
                sys.exit(f"updates: {SERVERS[self.server]} doesn't read the zone that is in {folder}")

    def begin_anew(self, text):
        self.end()
        self.begin({ORIGIN: text})

    def end(self):
        peers.end(self.process)

    def shown(self, records):
        return records

    def updated(self, octets):
        with socket.socket(socket.AF_INET, socket.SOCK_DGRAM) as it:
            it.settimeout(SECONDS)
            it.sendto(octets, ("127.0.0.1", self.port))
            return it.recv(65535)

    def answers(self, octets):
        with socket.create_connection(("127.0.0.1", self.port), SECONDS) as stream:
            yield peers.asked(stream, octets)


# ---- messages


def plain_data(message, kind, data, at):
    """The data of a record, which begin there, with their names whole."""
    lead, names = {NS: (0, 1), CNAME: (0, 1), MX: (2, 1), SOA: (0, 2)}.get(kind, (len(data), 0))
    parts, place = [data[:lead]], at + lead
    for _ in range(names):
        name, place = name_at(message, place)
        parts.append(name)
    return b"".join(parts) + message[place : at + len(data)] if names else data


def each_record(messages):
    """The records of answers, in their order."""
    for message in messages:
        for start, kind, _, ttl, data, section in parted(message):
            if section == 0:
                name, behind = name_at(message, start)
                yield name, kind, ttl, plain_data(message, kind, data, behind + 10)


def records_in(messages):
    """The records of answers, each once."""
    return set(each_record(messages))


def query(name, kind):
    return struct.pack("!HHHHHH", 0x4E4B, 0, 1, 0, 0, 0) + wire(name) + struct.pack("!HH", kind, IN)


def zone_of(server, origin=ORIGIN):
    return server.shown(records_in(server.answers(query(origin, AXFR))))


def serial_of(records):
    return next(struct.unpack_from("!I", it[3], len(it[3]) - 20)[0] for it in records if it[1] == SOA)


def without_start(records):
    return {it for it in records if it[1] != SOA}


def without_times(records):
    """Records without their TTLs, and without the SOA."""
    return {(name, kind, data) for name, kind, _, data in without_start(records)}


def without_orphans(records):
    """Records without DS where there is no NS, and without the SOA."""
    cuts = {it[0] for it in records if it[1] == NS}
    return {it for it in without_start(records) if it[1] != DS or it[0] in cuts}


# ---- updates


def entry(name, kind, family, ttl=0, data=b""):
    return wire(name) + struct.pack("!HHIH", kind, family, ttl, len(data)) + data


def start_data(serial):
    return wire(f"ns.{ORIGIN}") + wire(f"host.{ORIGIN}") + struct.pack("!5I", serial, 3600, 600, 86400, 60)


def random_data(kind):
    number = random.randrange(1, 5)
    return {
        A: bytes([192, 0, 2, number]),
        TXT: bytes([4]) + b"txt%d" % number,
        MX: struct.pack("!H", number) + wire(random.choice(NAMES)),
        # (BIND refuses an NS of the zone itself whose name in the zone has no address)
        NS: wire(f"ns{number}.other.test."),
        CNAME: wire(random.choice(NAMES)),
        DS: struct.pack("!HBB", number, 13, 2) + bytes(32),
        SOA: start_data(random.choice([1, 7, 8, 9, 20, 3_000_000_000])),
    }[kind]


def random_kind():
    return random.choices(list(WEIGHTS), list(WEIGHTS.values()))[0]


def random_need():
    """A prerequisite (RFC 2136 section 2.4)."""
    name, kind = random.choice(NAMES), random.choice([A, TXT, MX, NS, ANY])
    if kind != ANY and random.random() < 0.4:
        return entry(name, kind, IN, 0, random_data(kind))
    return entry(name, kind, random.choice([ANY_CLASS, NONE]))


def random_change():
    """A change (section 2.5)."""
    name, kind, way = random.choice(NAMES), random_kind(), random.random()
    # (BIND passes over an NS of a wildcard in silence, and reads no zone file with a DS at the origin)
    kind = A if kind == NS and name.startswith("*") or kind == DS and name == ORIGIN else kind
    if way < 0.55:
        return entry(name, kind, IN, random.choice([60, 300]), random_data(kind))
    if way < 0.75:
        return entry(name, kind, NONE, 0, random_data(kind))
    return entry(name, kind if way < 0.9 else ANY, ANY_CLASS)


def update(needs, changes):
    head = struct.pack("!HHHHHH", random.randrange(65536), 5 << 11, 1, len(needs), len(changes), 0)
    return head + wire(ORIGIN) + struct.pack("!HH", SOA, IN) + b"".join(needs) + b"".join(changes)


def random_update():
    needs = [random_need() for _ in range(random.choice([0, 0, 0, 1, 2]))]
    return update(needs, [random_change() for _ in range(random.choice([0, 1, 1, 1, 2, 3, 4]))])


# ---- what is compared


def compared(held, peer, octets, key, code):
    """What another server makes of an update otherwise than the library, which answered with this code, and what it may; then that is made good."""
    if peer.server == "knotd":
        if code == REFUSED:
            return None, False
        key = OTHER
    theirs = peer.updated(signed(octets, key)[0])[3] & 15
    mine, others = zone_of(held), zone_of(peer)
    # (what a key may not delete may be absent: then the library says NOERROR, as nothing changes, and BIND REFUSED)
    if code != theirs and not (peer.server == "named" and theirs == REFUSED and (code in UNMET or code == NOERROR and mine == others)):
        return f"{code}, and {SERVERS[peer.server]} {theirs}", False
    if mine == others:
        return None, False
    steps = serial_of(mine) - serial_of(others)
    undone = without_start(mine) == without_start(others) and steps == 1
    timed = peer.server == "knotd" and without_times(mine) == without_times(others) and steps in (0, 1)
    dropped = peer.server == "named" and without_orphans(mine) == without_orphans(others) and without_start(mine) > without_start(others) and steps in (0, 1)
    if not undone and not timed and not dropped:
        return f"only here {mine - others}, only in {SERVERS[peer.server]} {others - mine}", False
    peer.begin_anew(held.text())
    return None, True


def differences(held, others, rounds):
    """What they make of the same updates, where it isn't the same; how many were answered with which code; and how many servers did what they may."""
    wrong, codes, allowed = [], {}, {it.server: 0 for it in others}
    for number in range(rounds):
        key, octets = random.choice([KEY, OTHER, OTHER]), random_update()
        message, mac = signed(octets, key)
        before = zone_of(held)
        ours, changed = held.updated(message)
        code = ours[3] & 15
        codes[code] = codes.get(code, 0) + 1
        if not judged([ours], key, mac).right or changed != (zone_of(held) != before) or changed and code != NOERROR:
            wrong.append(f"{number}: the response isn't signed, or tells wrongly whether the zone changed: {message.hex()}")
        for it in others:
            differs, may = compared(held, it, octets, key, code)
            allowed[it.server] += may
            if differs:
                wrong.append(f"{number}: {differs}: {octets.hex()}")
                it.begin_anew(held.text())
    return wrong, codes, allowed


def serve(held, port):
    """Answers updates over UDP and TCP, one after the other."""
    here, streams = socket.socket(socket.AF_INET, socket.SOCK_DGRAM), socket.create_server(("127.0.0.1", port))
    here.bind(("127.0.0.1", port))

    def datagrams():
        while True:
            octets, client = here.recvfrom(65535)
            here.sendto(held.updated(octets)[0], client)

    def connections():
        while True:
            with streams.accept()[0] as stream:
                stream.sendall(peers.framed(held.updated(peers.received(stream.makefile("rb").read))[0]))

    for it in (datagrams, connections):
        threading.Thread(target=it, daemon=True).start()


def wrong_of_tool(tool, held, port):
    """What is wrong with the updates of a tool: over UDP, and over TCP."""
    wrong = []
    for way in ([], ["-v"]):
        name = f"{tool}{len(way)}.{ORIGIN}"
        for change, is_taken in CHANGES.items():
            words = TOLD.format(port=port, origin=ORIGIN, key=OTHER, secret=base64.b64encode(SECRET).decode(), change=change.format(name=name, origin=ORIGIN))
            ran = subprocess.run([peers.found(tool), *way], input=words, stdout=subprocess.PIPE, stderr=subprocess.STDOUT, text=True, timeout=60)
            if (ran.returncode == 0) != is_taken:
                wrong.append(f"{tool} {way}: status {ran.returncode}: {ran.stdout.strip()}")
        if (wire(name), A, 60, bytes([192, 0, 2, 77])) not in zone_of(held):
            wrong.append(f"{tool} {way}: its record isn't there")
    return wrong


def main(seed="1", rounds="300", folder=None):
    random.seed(int(seed))
    held, wrong, others = Held(folder or peers.program("ningkraet")), [], []
    with tempfile.TemporaryDirectory() as room:
        try:
            for server, name in SERVERS.items():
                if peers.found(server):
                    others.append(Peer(server, f"{room}/{server}"))
                else:
                    print(f"updates: left out: {name} isn't there")
            wrong, codes, allowed = differences(held, others, int(rounds))
        finally:
            for it in others:
                it.end()
    told = ", ".join(f"{SERVERS[server]} after {count}" for server, count in allowed.items())
    print(f"updates: {rounds} updates, by their codes {dict(sorted(codes.items()))}; other zones, as they may be: {told or 'none'}")
    port = peers.free_port()
    serve(held, port)
    for tool in ("nsupdate", "knsupdate"):
        if peers.found(tool):
            wrong += wrong_of_tool(tool, held, port)
        else:
            print(f"updates: left out: {tool} isn't there")
    print("\n".join(f"updates: {it}" for it in wrong) or "updates: nothing differs")
    return bool(wrong)


if __name__ == "__main__":
    peers.called(main, __doc__, 3)
