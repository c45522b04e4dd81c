"""The zones of the benchmark, and the commands of each phase with the expected answers."""

import bisect
import os
import random
import sys
from typing import NamedTuple

sys.path.append(f"{os.path.dirname(os.path.realpath(__file__))}/../tools")

import nsec3

ORIGIN = "example.com."


class Phase(NamedTuple):
    """Commands of one kind, and the lines that answer each; and those of hickory-server where they differ. Without a title
    they aren't timed."""

    title: str
    commands: list[str]
    answers: list[str]
    others: list[str] = []


class DeniedZone(NamedTuple):
    """A zone that NSEC or NSEC3 records deny: what makes it, fills it and adds a signer; how it is secured; queries for a
    denial, which leave it as it is; and what comes in between the two."""

    title: str
    load: Phase
    secure: Phase
    questions: list[Phase]
    later: Phase = Phase("", [], [])

    def phases(self):
        return [self.secure, self.later, *self.questions]


class Workload(NamedTuple):
    """What fills a zone; questions, which leave it as it is; changes, which leave it so when all are made; a
    transfer of it whole; securings, each of which follows one more signer; and zones of their own that NSEC or NSEC3
    records deny."""

    load: Phase
    questions: list[Phase]
    changes: list[Phase]
    transfer: Phase
    securings: list[Phase]
    denied: list[DeniedZone]

    def titles(self):
        phases = [self.load, *self.questions, *self.changes, self.transfer, *self.securings]
        phases += [phase for zone in self.denied for phase in zone.phases()]
        return [phase.title for phase in phases if phase.title]


def address(i):
    return f"10.{i >> 16 & 255}.{i >> 8 & 255}.{i & 255}"


def answer(*records, more=()):
    return "\n".join([f"answer {len(records)}", *records, f"additional {len(more)}", *more])


def taken(title, commands):
    """Commands that are all answered by yes."""
    return Phase(title, commands, ["yes"] * len(commands))


def asked(title, questions, others=()):
    """Queries, each with its answer, and those of hickory-server where they differ."""
    return Phase(title, [f"lookup {query}" for query, _ in questions], [reply for _, reply in questions], list(others))


def flattened(ttl, name, aname, address):
    """The answer of an ANAME's owner that has the addresses of its target, with this TTL."""
    return answer(f"{name} {ttl} IN A {address.split()[-1]}", more=[f"{name} {aname.format('IN ')}", address.format("IN ")])


# The numbers of the types that stand in the zones.
NUMBERS = {
    "A": 1,
    "NS": 2,
    "CNAME": 5,
    "SOA": 6,
    "MX": 15,
    "TXT": 16,
    "AAAA": 28,
    "SRV": 33,
    "RRSIG": 46,
    "NSEC": 47,
    "DNSKEY": 48,
    "NSEC3PARAM": 51,
    "ANAME": 65305,
}


def place(name):
    """What names are ordered by: the labels from the last on."""
    return name.encode().split(b".")[-2::-1]


def key(record):
    """What the sets of a zone are ordered by: the place of the owner, and the number of the type."""
    owner, _, kind, *_ = record.split()
    return place(owner), NUMBERS[kind]


def written(record):
    """A record of a line that adds it, as the program writes it."""
    owner, ttl, kind, *data = record.split()
    if kind == "AAAA":
        data = [":".join(f"{int(group, 16):04x}" for group in data[0].split(":"))]
    if kind in ("MX", "SRV"):
        data[-1] = data[-1].rstrip(".") + "."
    return " ".join([owner, ttl, "IN", kind, *data])


def transferred(adds):
    """The answer to a transfer of the zone that these lines fill: its records between two of the SOA."""
    records = [line.removeprefix("add ") for line in adds]
    soa = [written(record) for record in records if record.split()[2] == "SOA"]
    others = [written(record) for record in sorted(records, key=key) if record.split()[2] != "SOA"]
    return "\n".join([f"transfer {2 * len(soa) + len(others)}", *soa, *others, *soa])


def parent(name):
    return name.split(".", 1)[1]


def ancestors(name):
    """The name and what is above it, up to the origin."""
    while name != ORIGIN:
        yield name
        name = parent(name)
    yield ORIGIN


def owned_types(adds):
    """The types that the names of the zone own that these lines fill, whose origin has a key beside them, by the names that
    stand below no cut."""
    types = {ORIGIN: {"DNSKEY"}}
    for line in adds:
        _, owner, _, kind, *_ = line.split()
        types.setdefault(owner, set()).add(kind)
    cuts = {owner for owner, kinds in types.items() if "NS" in kinds}
    # (what stands below a cut is its glue, one label longer)
    return {owner: kinds for owner, kinds in types.items() if parent(owner) not in cuts}


def type_list(types):
    return sorted(types, key=NUMBERS.get)


def nsec_records(adds):
    """The NSEC records of the zone that these lines fill, by their owners and in the order of these: one for each name that
    stands below no cut, with the next such name and the types that it owns."""
    types = owned_types(adds)
    owners = sorted(types, key=place)
    records = {}
    for owner, after in zip(owners, [*owners[1:], ORIGIN]):
        listed = type_list(types[owner] | {"RRSIG", "NSEC"})
        records[owner] = f"{owner} 300 IN NSEC {after} {' '.join(listed)}"
    return records


def hashed(name, iterations=0):
    """The digest of a name by SHA-1, without salt, in base32hex (RFC 5155 section 5). An octet of a label may stand as \\DDD."""
    return nsec3.label(nsec3.digest(name, iterations=iterations))


def nsec3_records(adds, iterations=0):
    """The NSEC3 records of the zone that these lines fill, by the digests of their names and in the order of these: one for
    each name that stands below no cut, and for each empty name above it, with the digest that comes next and the types that
    the name owns."""
    types = owned_types(adds)
    types[ORIGIN].add("NSEC3PARAM")
    for owner in list(types):
        while owner != ORIGIN:
            owner = parent(owner)
            types.setdefault(owner, set())
    listed = {hashed(name, iterations): type_list(kinds | {"RRSIG"} if kinds else kinds) for name, kinds in types.items()}
    digests = sorted(listed)
    return {
        digest: " ".join([f"{digest}.{ORIGIN} 300 IN NSEC3 1 0 {iterations} - {after}", *listed[digest]])
        for digest, after in zip(digests, [*digests[1:], digests[0]])
    }


def proof(*records):
    """The answer to a query for a denial, each record once."""
    records = list(dict.fromkeys(records))
    return "\n".join([f"proof {len(records)}", *records])


def denials(title, adds, absent, present):
    """Queries for a denial of names that own no NSEC set in the zone that these lines fill, and of names that do and own no
    TXT."""
    records = nsec_records(adds)
    owners = list(records)
    places = [place(owner) for owner in owners]
    shown = {ancestor for owner in owners for ancestor in ancestors(owner)}

    def closest(name):
        return records[owners[bisect.bisect(places, place(name)) - 1]]

    def star(name):
        return f"*.{next(ancestor for ancestor in ancestors(parent(name)) if ancestor in shown)}"

    denied = [proof(closest(star(name)), closest(name)) for name in absent]
    questions = [Phase(title, [f"deny {name} A" for name in absent], denied)]
    if present:
        questions.append(Phase("deny a type", [f"deny {name} TXT" for name in present], [proof(records[name]) for name in present]))
    return questions


def hashed_denials(adds, absent, present):
    """The same queries where NSEC3 denies the zone. The parents of the names that aren't there are there."""
    records = nsec3_records(adds)
    digests = list(records)

    def match(name):
        return records[hashed(name)]

    def cover(name):
        return records[digests[bisect.bisect(digests, hashed(name)) - 1]]

    def enclosed(name):
        return proof(*sorted([match(parent(name)), cover(name), cover(f"*.{parent(name)}")]))

    return [
        Phase("deny a name by NSEC3", [f"deny {name} A" for name in absent], [enclosed(name) for name in absent]),
        Phase("deny a type by NSEC3", [f"deny {name} TXT" for name in present], [proof(match(name)) for name in present]),
    ]


def denied_zone(kind, title, adds, questions):
    """The zone that these lines fill, of this kind."""
    load = Phase("", [f"kind {kind}", *adds, "key 7"], ["ok", *["yes"] * len(adds), "ok"])
    return DeniedZone(title, load, Phase(f"secure with {title}", ["secure 1000"], ["ok 2"]), questions)


def sparsely_denied_zone(adds, absent):
    """The zone that these lines fill, whose SOA comes first, of which every thousandth line is there when it is secured by
    NSEC. The denied names stand far behind the last owner of NSEC before them."""
    first = [adds[0], *(line for line in adds[1::1000] if " A " in line and not line.startswith("add ns."))]
    early = set(first)
    rest = [line for line in adds if line not in early]
    title = "NSEC at every thousandth name"
    zone = denied_zone("nsec", title, first, denials("deny a name among few NSEC sets", first, absent, []))
    return zone._replace(later=taken("", rest))


def hosts_and_cuts(names, percent):
    """The addresses of this many names without the cuts among them, of which every second stands one level deeper, below
    a name that owns nothing; and the cuts, so many in a hundred."""
    cuts = [f"cut{i:06d}.{ORIGIN}" for i in range(max(1, names * percent // 100))]
    hosts = {}
    for i in range(names - len(cuts)):
        group = f"group{i % 997:03d}." if i % 2 else ""
        hosts[f"host{i:06d}.{group}{ORIGIN}"] = address(i)
    return hosts, cuts


def addresses(hosts):
    return [f"add {host} 300 A {data}" for host, data in hosts.items()]


def delegation(i, cut):
    """A cut and its glue."""
    return [f"add {cut} 3600 NS ns.{cut}", f"add ns.{cut} 3600 A {address(i)}"]


SOA = f"add {ORIGIN} 3600 SOA ns.{ORIGIN} host.{ORIGIN} 1 7200 600 86400 300"


def delegations(names):
    """Lines that fill a zone of this many names, of which a fifth are cuts."""
    hosts, cuts = hosts_and_cuts(names, 20)
    adds = addresses(hosts) + [line for i, cut in enumerate(cuts) for line in delegation(i, cut)]
    random.Random(names).shuffle(adds)
    return [SOA, *adds]


def workload(names, lookups):
    """A zone of this many names: 1 % are cuts with glue, and of the others every second one stands one level deeper,
    below a name that owns nothing. Beside them there is a wildcard, and for each hundred names a chain of two aliases
    and an address, which an SRV and an ANAME lead to too, a name of four types, and one of two mail exchanges with their
    addresses. A tenth of the names are changed, in small zones up to half of them. So
    many lookups are different ones."""
    pick = random.Random(names)
    hosts, cuts = hosts_and_cuts(names, 1)
    count = max(1, names // 10, min(names // 2, 2500))
    aliases = [f"alias{i:06d}.{ORIGIN}" for i in range(count)]
    chains = [
        (
            f"first{i:06d}.{ORIGIN} 300 {{}}CNAME second{i:06d}.{ORIGIN}",
            f"second{i:06d}.{ORIGIN} 300 {{}}CNAME third{i:06d}.{ORIGIN}",
            f"third{i:06d}.{ORIGIN} 300 {{}}A {address(i)}",
        )
        for i in range(len(cuts))
    ]
    rich = [f"rich{i:06d}.{ORIGIN}" for i in range(len(cuts))]
    # (the first of two exchanges is the one that is followed, so these are added in order)
    mails = [
        (
            f"mail{i:06d}.{ORIGIN} 300 {{}}MX 10 one{i:06d}.{ORIGIN}",
            f"mail{i:06d}.{ORIGIN} 300 {{}}MX 20 two{i:06d}.{ORIGIN}",
            f"one{i:06d}.{ORIGIN} 300 {{}}A {address(i)}",
            f"one{i:06d}.{ORIGIN} 300 {{}}AAAA 2001:0db8:0000:0000:0000:0000:0000:0001",
            f"two{i:06d}.{ORIGIN} 300 {{}}A 192.0.2.1",
        )
        for i in range(len(cuts))
    ]
    services = [(f"service{i:06d}.{ORIGIN} 300 {{}}SRV 0 0 53 third{i:06d}.{ORIGIN}", chains[i][2]) for i in range(len(cuts))]
    flats = [(f"flat{i:06d}.{ORIGIN}", f"300 {{}}ANAME third{i:06d}.{ORIGIN}", chains[i][2]) for i in range(len(cuts))]

    adds = addresses(hosts)
    for i, cut in enumerate(cuts):
        adds += delegation(i, cut)
        adds += [f"add {link.format('')}" for link in chains[i]]
        adds += [f"add {services[i][0].format('')}", f"add {flats[i][0]} {flats[i][1].format('')}"]
        for data in ("TXT 61", "AAAA 2001:db8:0:0:0:0:0:1", "SRV 0 0 53 ns", "MX 10 ns"):
            adds.append(f"add {rich[i]} 300 {data}")
    adds.append(f"add *.wild.{ORIGIN} 300 A 192.0.2.1")
    pick.shuffle(adds)
    adds += [f"add {record.format('')}" for mail in mails for record in mail]
    adds.insert(0, SOA)

    known = list(hosts)
    fewer = range(max(1, lookups // 4))
    exact = [pick.choice(known) for _ in range(lookups)]
    cut_off = [pick.choice(cuts) for _ in fewer]
    starred = [f"a{i}.b.wild.{ORIGIN}" for i in fewer]
    chained = [pick.choice(chains) for _ in fewer]
    many_typed = [pick.choice(rich) for _ in fewer]
    mailed = [pick.choice(mails) for _ in fewer]
    served = [pick.choice(services) for _ in fewer]
    aliased = [pick.choice(flats) for _ in fewer]
    without_text = [pick.choice(known) for _ in fewer]
    questions = [
        asked("exact lookup", [(f"{host} A", answer(f"{host} 300 IN A {hosts[host]}")) for host in exact]),
        asked("referral", [(f"www.{cut} A", answer(f"{cut} 3600 IN NS ns.{cut}")) for cut in cut_off]),
        asked("wildcard two levels deep", [(f"{name} A", answer(f"{name} 300 IN A 192.0.2.1")) for name in starred]),
        asked(
            "chain of three",
            [(f"{chain[0].split()[0]} A", answer(*(link.format("IN ") for link in chain))) for chain in chained],
        ),
        asked("ANY at four types", [(f"{name} ANY", answer(f"{name} 300 IN MX 10 ns.")) for name in many_typed]),
        asked(
            "MX with two targets",
            [
                (f"{mail[0].split()[0]} MX", answer(*(it.format("IN ") for it in mail[:2]), more=[it.format("IN ") for it in mail[2:4]]))
                for mail in mailed
            ],
        ),
        asked("SRV", [(f"{it[0].split()[0]} SRV", answer(it[0].format("IN "), more=[it[1].format("IN ")])) for it in served]),
        asked(
            "ANAME with A",
            [(f"{flat[0]} A", flattened(300, *flat)) for flat in aliased],
            # (its flattened records have the TTL 0)
            others=[flattened(0, *flat) for flat in aliased],
        ),
        asked("no such name", [(f"none{i}.{ORIGIN} A", "error NXDomain") for i in fewer]),
        asked("no such type", [(f"{host} TXT", "error NameExists") for host in without_text]),
    ]

    pick.shuffle(aliases)
    changed = pick.sample(known, min(count, len(known)))
    changes = [
        taken("add an alias", [f"add {alias} 300 CNAME old.{ORIGIN}" for alias in aliases]),
        taken("replace a set", [f"add {alias} 300 CNAME new.{ORIGIN}" for alias in aliases]),
        taken("append to a set", [f"add {host} 300 A 192.0.2.1" for host in changed]),
        taken("remove a set", [f"drop {host} A" for host in changed]),
        taken("", [f"drop {alias} CNAME" for alias in aliases]),
        taken("", [f"add {host} 300 A {hosts[host]}" for host in changed]),
    ]
    # (the first command adds a signer, and isn't timed)
    securings = [
        Phase("secure with one signer", ["key 7", "secure 1000"], ["ok", "ok 2"]),
        Phase("secure with two signers", ["key 8", "secure 1000"], ["ok", "ok 3"]),
    ]
    transfer = Phase("transfer", ["transfer"], [transferred(adds)])
    # (a name beside that of a host stands behind it, before all others)
    beside = [host.replace(".", "x.", 1) for host in (pick.choice(known) for _ in fewer)]
    many_cuts = delegations(names)
    hashes, optout = "nsec3 - 0", "nsec3 - 0 optout"
    denied = [
        denied_zone("nsec", "NSEC at 1 % cuts", adds, denials("deny a name", adds, beside, without_text)),
        sparsely_denied_zone(adds, beside),
        denied_zone("nsec", "NSEC at 20 % cuts", many_cuts, []),
        denied_zone(hashes, "NSEC3 at 1 % cuts", adds, hashed_denials(adds, beside, without_text)),
        denied_zone(hashes, "NSEC3 at 20 % cuts", many_cuts, []),
        denied_zone(optout, "NSEC3 and opt-out at 1 % cuts", adds, []),
        denied_zone(optout, "NSEC3 and opt-out at 20 % cuts", many_cuts, []),
    ]
    return Workload(taken("add", adds), questions, changes, transfer, securings, denied)
