#!/usr/bin/env python3
"""Has validators query zoned: Unbound, a resolver, through the front end of ./serve, and delv. Unbound has to find each response secure, and
answer in turn with the same code and the same records; a response from a zone with opt-out may lack AD (RFC 5155 section 9.2), but must
not be bogus. If a tool is missing, what needs it is left out, and a line says so. Not part of the gate.

  tools/compare/validating_resolver.py [SEED [ROUNDS]]

The zones are random ones (random_zones.py) that dnssec-signzone, ldns-signzone and kzonesign sign, with NSEC, and with NSEC3, with opt-out
and without; some with NSEC3 have a second chain, the rest of an old one, or NSEC records as well (signed_zones.py). A round has twelve of
them, two with DNAME, and two with three children each, which are served too: one has its DS record in the parent, so Unbound has to find
it secure by the parent's key; one is signed without DS, and one is unsigned, so Unbound has to find these insecure, by proof. A root zone
with such a child is queried by itself. delv is asked 40 questions about each zone that has something beside its chain, and has to say
`fully validated`.

The tools are Debian's packages unbound, bind9-utils, bind9-dnsutils, ldnsutils and knot-dnssecutils. The status is 1 if a validator answers
anything else. These questions are left out:

- those that lead out of the zone, to a zone cut or into a loop, because there is no server there that could answer them, or because an
  alias into another zone ends where it does;
- with opt-out, those for names that don't exist below an empty non-terminal that no NSEC3 record matches, if there is a wildcard above
  that. RFC 5155 has no proof of such a name error: the wildcard would have to be denied. Unbound finds what BIND sends for it bogus too;
- with opt-out, those for no data at an empty non-terminal that no NSEC3 record matches, if the record that covers it, or its next closer
  name, is that of the sibling wildcard, and the wildcard owns the type or an alias. No other record covers the name, and Unbound takes
  that one for the wildcard's, which has what is asked for. Which questions these are is computed from the digests of the zone's names;
- those whose aliases lead below one DNAME twice, and those for CNAME, DNAME or ANY below one: Unbound answers SERVFAIL or continues, with
  what BIND sends for them too; and those for DNAME at a name that gets too long, whose response it leaves without AD;
- those that a wildcard answers under a name that itself begins with `*`, which Unbound takes for the wildcard's own; delv doesn't;
- of delv, those for DS at an origin, which it asks for in the parent zone, and that isn't served.
"""
import dataclasses
import os
import random
import struct
import subprocess
import sys
import tempfile

sys.dont_write_bytecode = True
sys.path.append(os.path.dirname(os.path.dirname(os.path.realpath(__file__))))

import frames
import nsec3
import peers
import served_zones
import server_choices
import signed_zones
from peers import asked, connected, found, free_port
from questions import queries, sections, zone_of
from random_zones import above, is_below, random_zone, zone_with_dnames
from signed_zones import BESIDE, KINDS, OTHER_ITERATIONS, OTHER_SALT

RESOLVER = """server:
 username: ""
 chroot: ""
 directory: "{folder}"
 pidfile: ""
 use-syslog: no
 interface: 127.0.0.1
 port: {port}
 do-ip6: no
 do-daemonize: no
 do-not-query-localhost: no
 module-config: "validator iterator"
 qname-minimisation: no
 aggressive-nsec: no
 harden-below-nxdomain: no
 target-fetch-policy: "0 0 0 0 0"
 local-zone: "test." nodefault
"""

# How many zones of a round have no children and no DNAME; how many have DNAME, and how many have children.
ZONES, WITH_DNAMES, PARENTS = 12, 2, 2

# Seconds in which Unbound has to answer.
ANSWERS = 5

# How many questions for a zone with something beside its chain delv is asked.
DELVED = 40


def asked_anew(port, message):
    """The message that a server answers over a connection of its own, or none where that takes too long."""
    with connected(port) as stream:
        stream.settimeout(ANSWERS)
        try:
            return asked(stream, message)
        except (OSError, struct.error):
            return None


def types_and_owners(lines):
    return {(line.split()[3], line.split()[0]) for line in lines}


def is_whole(name, kind, parts):
    """Whether a zone's response doesn't send a resolver elsewhere: it has what is asked for, or an SOA that says there is none."""
    kinds = {word for word, _ in types_and_owners(parts["ANSWER"])}
    return kind.lower() in kinds or any(word == "soa" for word, _ in types_and_owners(parts["AUTHORITY"]))


def is_twice_below_dname(kind, parts):
    """Whether aliases lead below one DNAME twice, or below one a type is asked for that would end there."""
    owners = {word: [owner for its, owner in types_and_owners(parts["ANSWER"]) if its == word] for word in ("dname", "cname")}
    made = [sum(is_below(it, dname) for it in owners["cname"]) for dname in owners["dname"]]
    return max(made, default=0) > 1 or bool(made) and max(made) > 0 and kind in ("CNAME", "DNAME", "ANY")


def is_made_as_a_star(records, parts):
    """Whether a wildcard answers under a name that begins with `*`."""
    owners = {owner for owner, _, _ in records}
    return any(owner.startswith("*.") and owner not in owners for _, owner in types_and_owners(parts["ANSWER"]))


def from_origin(origin, name):
    """The names from the origin down to a name."""
    names = [name]
    while names[-1] != origin:
        names.append(above(names[-1]))
    return names[::-1]


def matched_names(origin, records):
    """The names of a zone with opt-out that an NSEC3 set matches: those that are neither an unsigned delegation nor below a zone cut, and
    what stands above these (RFC 5155 section 7.1)."""
    cuts = {owner for owner, kind, _ in records if kind == "NS" and owner != origin}
    left_out = cuts - {owner for owner, kind, _ in records if kind == "DS"}
    runs = [from_origin(origin, owner) for owner, _, _ in records]
    return {name for run in runs if run[-1] not in left_out and not cuts & set(run[:-1]) for name in run}


def is_covered_by_star(origin, name, kind, zone):
    """Whether no set matches a name, and the one that covers its next closer name is that of the wildcard beside that, which has what is
    asked for; in either chain, where there are two."""
    matched, run = matched_names(origin, zone.records), from_origin(origin, name)
    if name in matched:
        return False
    closer = next(it for it in run if it not in matched)
    star = f"*.{above(closer)}" if above(closer) != "." else "*."
    has_it = any(owner == star and its_kind in (kind, "CNAME") for owner, its_kind, _ in zone.records)
    second = [(OTHER_SALT, OTHER_ITERATIONS)] if zone.way.beside == "second" else []
    parameters = [(zone.way.salt, zone.way.iterations), *second]
    return has_it and any(is_of_star(matched, closer, star, bytes.fromhex(salt), iterations) for salt, iterations in parameters)


def is_of_star(matched, closer, star, *parameters):
    """Whether the set that covers a name is that of a wildcard."""
    digests = {nsec3.digest(it, *parameters): it for it in matched}
    before = [it for it in digests if it < nsec3.digest(closer, *parameters)] or digests
    return digests[max(before)] == star


def is_left_out(origin, name, kind, code, parts, zones):
    zone = zones[origin]
    if server_choices.leads_into_other_zone(parts, origin, zones) or not is_whole(name, kind, parts) or is_made_as_a_star(zone.records, parts):
        return True
    if is_twice_below_dname(kind, parts) or code == frames.YXDOMAIN and kind == "DNAME":
        return True
    has_no_proof = zone.opts_out and server_choices.has_no_proof(name, code, zone.records)
    return has_no_proof or zone.opts_out and not code and not parts["ANSWER"] and is_covered_by_star(origin, name, kind, zone)


def data(lines):
    """Records without their TTL, and without signatures, which a resolver may leave out beside an alias."""
    records = [line.split() for line in lines]
    return sorted({(it[0], *it[2:]) for it in records if it[3] != "rrsig"})


@dataclasses.dataclass
class Sums:
    """How many responses were looked at and were secure, and what a validator answers otherwise."""

    count: int = 0
    secure: int = 0
    differing: list = dataclasses.field(default_factory=list)
    delved: int = 0
    delved_otherwise: list = dataclasses.field(default_factory=list)


def look_at(sums, zones, origin, anchored, served, resolver):
    """Asks for one zone, and for what its children answer of its names."""
    for name, kind, words in queries(origin, zones[origin].records):
        answering = zone_of(name, kind, zones)
        if not words or kind == "DS" and name in anchored:
            continue
        (_, code), parts = sections(asked(served, frames.query([name, kind, *words])))
        if is_left_out(answering, name, kind, code, parts, zones):
            continue
        told = f"{answering} by {zones[answering].way}"
        message = asked_anew(resolver, frames.query([name, kind, "rd", *words]))
        if not message:
            sums.differing.append((told, f"{name} {kind}: no answer in {ANSWERS} seconds"))
            continue
        (_, their_code), their_parts = sections(message)
        is_secure, must_be = bool(message[3] & 0x20), answering in anchored and not zones[answering].opts_out
        sums.count, sums.secure = sums.count + 1, sums.secure + is_secure
        is_same = (code, data(parts["ANSWER"])) == (their_code, data(their_parts["ANSWER"]))
        if not is_same or is_secure < must_be or is_secure and answering not in anchored:
            sums.differing.append((told, f"{name} {kind}: code {code} and {their_code}, {'secure' if is_secure else 'not secure'}"))


def delve(sums, zones, origin, anchors, served, stream):
    """Asks delv for a zone."""
    asks = [(name, kind) for name, kind, words in queries(origin, zones[origin].records) if words and zone_of(name, kind, zones) == origin]
    asks = [it for it in asks if it != (origin, "DS")]
    for name, kind in random.sample(asks, min(DELVED, len(asks))):
        (_, code), parts = sections(asked(stream, frames.query([name, kind, "edns=4096", "do"])))
        if is_left_out(origin, name, kind, code, parts, zones):
            continue
        words = [found("delv"), "@127.0.0.1", "-p", str(served), "-a", anchors, f"+root={origin}", "+tcp", name, kind]
        said = subprocess.run(words, stdout=subprocess.PIPE, stderr=subprocess.STDOUT, text=True, errors="replace").stdout
        sums.delved += 1
        if "fully validated" not in said and not zones[origin].opts_out or "bogus" in said or "broken" in said:
            sums.delved_otherwise.append(f"{name} {kind} of {zones[origin].way}: {' '.join(said.split())[:150]}")


# ---- zones and servers


def plain(way):
    """The same way without salt and iterations with opt-out, whose digests are computed here."""
    return dataclasses.replace(way, salt="", iterations=0) if way.opts_out else way


def zones_together(folder, signers):
    """The zones of a round by those that are served together, and the zones whose keys are trust anchors, with the children that they sign."""
    zones, number = {}, 0
    turn = lambda: plain(signed_zones.random_way(random.choice(signers), random.choice(KINDS), random.choice(("", "", "", *BESIDE))))
    for number in range(ZONES):
        beside = ("", *BESIDE)[number % 4]
        way = plain(signed_zones.random_way(signers[number % len(signers)], KINDS[number % 3] if not beside else KINDS[1 + number % 2], beside))
        zones[f"z{number}.test."] = served_zones.made(folder, f"z{number}.test.", random_zone(f"z{number}.test.", True), way)
    for number in range(WITH_DNAMES):
        zones[f"d{number}.test."] = served_zones.made(folder, f"d{number}.test.", zone_with_dnames(f"d{number}.test.", True), turn())
    for number in range(PARENTS):
        children = [("signed", turn(), True), ("island", turn(), False), ("unsigned", None, False)]
        zones |= served_zones.parent_and_children(folder, f"p{number}.test.", turn(), children)
    return [zones, served_zones.parent_and_children(folder, ".", turn(), [("signed", turn(), True)])]


def anchors_of(zones):
    """The zones whose keys Unbound is given."""
    return [it for it in zones if not any(is_below(it, other) or other == "." != it for other in zones)]


def configured(folder, zones, port, served):
    """Writes the resolver's configuration, with the keys of the zones as trust anchors."""
    lines = [RESOLVER.format(folder=folder, port=port)]
    lines += [f' trust-anchor-file: "{signed_zones.anchor(folder, origin)}"\n' for origin in anchors_of(zones)]
    lines += [f'stub-zone:\n name: "{origin}"\n stub-addr: 127.0.0.1@{served}\n' for origin in zones]
    with open(f"{folder}/unbound.conf", "w", encoding="ascii") as it:
        it.write("".join(lines))
    return f"{folder}/unbound.conf"


def for_delv(folder, origin):
    """The file of a zone's key, as delv reads it."""
    return signed_zones.keep_anchors(f"{folder}/{origin}anchor", [signed_zones.static_anchor(folder, origin)])


def look_at_all(sums, folder, zones, zoned):
    """Asks for all zones that are served together."""
    served, port = free_port(), free_port()
    front = peers.begun(peers.front(zoned, served, served_zones.files(zones)))
    resolver = peers.begun([found("unbound"), "-d", "-c", configured(folder, zones, port, served)])
    anchored = {it for it in zones if it in anchors_of(zones) or it.startswith("signed.")}
    try:
        for origin, zone in zones.items():
            # (a connection to the front ends where nothing comes by it for a while)
            with connected(served) as ours:
                look_at(sums, zones, origin, anchored, ours, port)
            if found("delv") and zone.way and zone.way.beside and origin in anchors_of(zones):
                with connected(served) as ours:
                    delve(sums, zones, origin, for_delv(folder, origin), served, ours)
    finally:
        peers.end(resolver, front)


def tell(sums):
    """Tells what came of it; what is otherwise by the zones, each with its first question."""
    by_zone = {}
    for zone, question in sums.differing:
        by_zone.setdefault(zone, []).append(question)
    shown = [f"{zone}: {len(those)}, as {those[0]}" for zone, those in by_zone.items()]
    print(f"{sums.count} responses, {sums.secure} of them secure, {len(sums.differing)} answered otherwise", *shown, sep="\n    ")
    print(f"delv: {sums.delved} responses, {len(sums.delved_otherwise)} otherwise", *sums.delved_otherwise[:5], sep="\n    ", flush=True)


def main(seed="1", rounds="1"):
    signers = signed_zones.signers()
    if not found("unbound") or not signers:
        print("validating_resolver: unbound, or a signer, isn't there, so nothing is asked")
        return 0
    for tool in [it for it in (*signed_zones.SIGNERS, "delv") if it not in signers and not (it == "delv" and found(it))]:
        print(f"validating_resolver: {tool}, or what it needs, isn't there, so it is left out")
    path, differs = peers.program("zoned"), False
    random.seed(int(seed))
    for _ in range(int(rounds)):
        sums = Sums()
        with tempfile.TemporaryDirectory() as folder:
            for zones in zones_together(folder, signers):
                look_at_all(sums, folder, zones, path)
        tell(sums)
        differs = differs or bool(sums.differing or sums.delved_otherwise)
    return 1 if differs else 0


if __name__ == "__main__":
    peers.called(main, __doc__)
