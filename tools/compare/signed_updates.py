#!/usr/bin/env python3
"""tools/compare/signed_updates.py [SEED [ROUNDS [FOLDER [WORD..]]]]: the C library has a zone that is signed by keys outside it, with NSEC, with NSEC3 and with
opt-out, and gets random updates of it (RFC 2136), each signed by one of two keys (TSIG): the zone after it is planned (nk_update_prepare), signed by
python3-cryptography, and committed with its journal. BIND and Knot DNS get the same updates of the same zone without signatures: the codes, and
the records but for those of DNSSEC, have to be the same, as updates.py has it. After each hundred updates dnssec-verify, ldns-verify-zone and
kzonecheck judge the zone as nk_zones_write writes it: its chain and each of its signatures. The zone as it was at first, to which the journal is
replayed, has to be that zone, and so has that of the hundred before with what changed since (IXFR), as it was noted and by the journal. Words choose:
nsec, nsec3 or opt-out that way alone; alone leaves BIND and Knot DNS out. If a tool is missing, it is left out, and a line says so. Not part of the
gate: it opens sockets on loopback. It ends what it starts.

The tools are Debian's packages bind9, knot, bind9-utils, ldnsutils and knot-dnssecutils; dnssec-keygen of bind9-utils makes the keys. FOLDER is as for
updates.py. The status is 1 if anything differs, or a judge doesn't accept a zone.
"""
import os
import random
import struct
import sys
import tempfile
import time
from ctypes import Structure, byref, c_char_p, c_size_t, c_uint32, c_uint64, c_void_p, create_string_buffer, string_at

sys.dont_write_bytecode = True
sys.path.append(os.path.dirname(os.path.dirname(os.path.realpath(__file__))))

import peers
import signed_zones
import signing_keys
import updates
from signers import JUDGES, is_of_zone, run
from keyed_transfers import IXFR, question
from updates import AXFR, DS, NOERROR, NS, ORIGIN, ROOM, SERVERS, SOA, Held, Peer, differences, each_record, pair, query, records_in, serial_of

# Types that only a signed zone has, by their numbers and words.
SIGNED = {46: "RRSIG", 47: "NSEC", 48: "DNSKEY", 50: "NSEC3", 51: "NSEC3PARAM"}
# What the zone has besides that of updates.py: a delegation that is signed, with its address below it, one that isn't, a wildcard, and names between which
# there are no others. Updates are about these names too.
MORE = f"sub NS ns.sub\nsub DS 1 13 2 {'00' * 32}\nns.sub A 192.0.2.9\nplain NS ns.other.test.\n*.wild A 192.0.2.5\nx.y.z TXT deep\n"
MORE += "".join(f"h{number} A 192.0.2.{number}\n" for number in range(1, 21))
NAMES = ["sub", "ns.sub", "x.sub", "plain", "below.plain", "*.wild", "q.wild", "x.y.z", "y.z", *(f"h{number}" for number in range(1, 31))]
# Seconds in which signatures hold, before now and after it, and for how long they have to hold to stay; a salt; updates between two judgements; and
# how many records of what changed are kept.
BEFORE, AFTER, HOLD, SALT, BETWEEN, MOST = 3600, 30 * 86400, 5 * 86400, b"\xaa\xbb", 100, 1 << 20
NO_PLAN, NO_MORE = 20, 27
OUTSIDE = ("dnssec-verify", "ldns-verify-zone", "kzonecheck")


class Zone(Structure):
    """nk_signed_zone."""

    _fields_ = [
        *(field for it in ("origin", "keys", "salt") for field in ((it, c_char_p), (f"{it}_length", c_size_t))),
        *((it, c_uint64) for it in ("held_from", "held_until")),
    ]


class Signing(Structure):
    """nk_signing."""

    _fields_ = [*((it, c_uint64) for it in ("inception", "expiration")), *((it, c_uint32) for it in ("jitter", "key_ttl", "denial", "iterations", "asks_parent"))]


def unsigned(text):
    """The lines of a zone file, as the library writes it, without what only a signed zone has."""
    return "".join(f"{line}\n" for line in text.splitlines() if not set(line.split()[2:4]) & set(SIGNED.values()))


class SignedHeld(Held):
    """The zone in the library, which keys outside sign, with its journal."""

    def __init__(self, folder, keys, kind):
        self.plan, self.update, self.frame, self.length, self.made = c_void_p(), c_void_p(), create_string_buffer(ROOM), c_size_t(), 0
        super().__init__(folder)
        now, files, salt = int(time.time()), signing_keys.publics(keys, ORIGIN), SALT if kind != "nsec" else b""
        self.signers = signing_keys.signers(keys, signing_keys.names(files))
        public = b"".join(struct.pack("!H", len(it)) + it for it in map(signing_keys.public_of, files))
        self.how = Signing(now - BEFORE, now + AFTER, 0, 300, signed_zones.KINDS.index(kind), 0 if kind == "nsec" else 1, 0)
        self.zone = Zone(ORIGIN.encode(), len(ORIGIN), public, len(public), salt, len(salt), now, now + HOLD)
        self.done("nk_plan_begin", self.plan, byref(self.zones), *pair(ORIGIN.encode()), *pair(public), byref(self.how), *pair(salt))
        self.sign()
        self.done("nk_plan_finish", self.plan, byref(self.zones))
        self.first, self.journal, self.steps = super().text(), b"", c_void_p()
        self.done("nk_steps_new", self.steps, c_uint32(MOST))
        self.note()

    def shown(self, records):
        """Records without those that only a signed zone has."""
        return {it for it in records if it[1] not in SIGNED}

    def text(self):
        return unsigned(super().text())

    def sign(self):
        """Makes the signatures that the plan asks for."""
        number = c_uint32()
        while (code := self.call("nk_plan_next", self.plan, byref(number), *self.whole)) == NOERROR:
            self.done("nk_plan_sign", self.plan, *pair(self.signers[number.value](string_at(self.room, self.written.value))))
            self.made += 1
        if code not in (NO_MORE, NO_PLAN):
            sys.exit(f"signed_updates: nk_plan_next gives {code}")

    def updated(self, octets):
        room = self.frame, c_size_t(ROOM), byref(self.length)
        asked = byref(self.plan), byref(self.zones), byref(self.updates), self.message(octets, 0), byref(self.zone), byref(self.how)
        self.done("nk_update_prepare", self.update, *asked, *self.whole, *room)
        response = string_at(self.room, self.written.value)
        self.sign()
        if (code := self.call("nk_update_sign", self.update, byref(self.plan), byref(self.zones), *room)) not in (NOERROR, NO_PLAN):
            sys.exit(f"signed_updates: nk_update_sign gives {code}")
        frame = string_at(self.frame, self.length.value)
        if frame:
            self.journal += frame
            self.done("nk_update_commit", self.update, byref(self.zones))
            self.note()
        return response, bool(frame)

    def signed_text(self):
        return super().text()

    def note(self):
        self.done("nk_steps_note", self.steps, byref(self.zones), *pair(ORIGIN.encode()))

    def replayed(self, folder):
        """The zone to which the journal leads, over the zone as it was at first, and what changed in it by the journal."""
        other, intact, steps = Held(folder), c_size_t(), c_void_p()
        other.done("nk_zones_load", other.zones, *pair(ORIGIN.encode()), *pair(self.first.encode()), *other.whole)
        other.done("nk_zones_replay", other.zones, *pair(ORIGIN.encode()), *pair(self.journal), byref(intact))
        other.done("nk_steps_new", steps, c_uint32(MOST))
        other.done("nk_steps_recall", steps, byref(other.zones), *pair(ORIGIN.encode()), *pair(self.journal))
        return other, steps


def zone_by_changes(held, steps, older):
    """The records of the zone by what changed since it had these (IXFR, RFC 1995 section 4)."""
    (_, *changes), zone, is_added = list(each_record(held.answers(question(ORIGIN, IXFR, serial_of(older)), steps))), set(older), True
    for it in changes[:-1]:
        is_added ^= it[1] == SOA
        (zone.add if is_added else zone.discard)(it)
    return zone


def records_of(held):
    """All records of the zone, those that only a signed zone has among them."""
    return records_in(held.answers(query(ORIGIN, AXFR)))


def judged(path):
    """What the judges say against a zone."""
    for judge in filter(peers.found, OUTSIDE):
        first, *others = JUDGES[judge](path, ORIGIN)
        status, out, err = run(peers.found(first), *others)
        if status and not is_of_zone(judge, err + out):
            yield f"{judge}: {(err or out).strip()[-600:]}"


def wrong_of(kind, folder, room, rounds, servers):
    """What is wrong with the zone signed in one way, beside these servers."""
    os.mkdir(f"{room}/keys")
    signed_zones.keys(f"{room}/keys", ORIGIN)
    held, others, wrong, codes, allowed = SignedHeld(folder, f"{room}/keys", kind), [], [], {}, {}
    path, begun, older = f"{room}/zone", held.made, records_of(held)
    try:
        others += [Peer(server, f"{room}/{server}", {ORIGIN: held.text()}) for server in servers]
        for first in range(0, rounds, BETWEEN):
            differ, counts, may = differences(held, others, min(BETWEEN, rounds - first))
            for total, more in ((codes, counts), (allowed, may)):
                total |= {it: total.get(it, 0) + count for it, count in more.items()}
            text = held.signed_text()
            with open(path, "w", encoding="ascii") as it:
                it.write(text)
            other, steps = held.replayed(folder)
            if other.text() != text:
                differ.append("the journal doesn't lead to the zone")
            zone = records_of(held)
            if zone != older and (zone_by_changes(held, held.steps, older) != zone or zone_by_changes(other, steps, older) != zone):
                differ.append("what changed doesn't lead to the zone")
            older = zone
            wrong += [f"{kind}, after {first}: {it}" for it in [*differ, *judged(path)]]
    finally:
        for it in others:
            it.end()
    told = ", ".join(f"{SERVERS[server]} after {count}" for server, count in allowed.items())
    print(f"signed_updates: {kind}: {rounds} updates, by their codes {dict(sorted(codes.items()))}; {held.made - begun} signatures, of a zone that has "
          f"{text.count(' RRSIG ') or text.count('RRSIG')}; other zones, as they may be: {told or 'none'}; {len(wrong)} wrong", flush=True)
    return wrong


def main(seed="1", rounds="300", folder=None, *words):
    random.seed(int(seed))
    folder, wrong = folder or peers.program("ningkraet"), []
    updates.ZONE += MORE
    updates.NAMES += [f"{it}.{ORIGIN}" for it in NAMES]
    updates.WEIGHTS |= {NS: 4, DS: 2}
    servers = () if "alone" in words else tuple(SERVERS)
    for tool in (*servers, *OUTSIDE):
        if not peers.found(tool):
            print(f"signed_updates: left out: {tool} isn't there")
    for kind in [it for it in signed_zones.KINDS if it in words] or signed_zones.KINDS:
        with tempfile.TemporaryDirectory() as room:
            wrong += wrong_of(kind, folder, room, int(rounds), filter(peers.found, servers))
    print("\n".join(f"signed_updates: {it}" for it in wrong) or "signed_updates: nothing is wrong")
    return bool(wrong)


if __name__ == "__main__":
    peers.called(main, __doc__, 7)
