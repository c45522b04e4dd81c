"""Zones that were made to be slow, with plain ones beside them: what fills each, and what is asked about it."""

import bisect
from typing import NamedTuple

from measure import MEMORY
from workload import ORIGIN, SOA, Phase, address, answer, hashed, nsec3_records, nsec_records, place, proof, taken, transferred, written

# What is told of a zone besides the answers: the time to fill it, and memory.
FILLING = "fill, for a record"
PEAK, RECORD = MEMORY


class Zone(NamedTuple):
    """What fills a zone, and what is asked of it, which leaves it as it is."""

    load: Phase
    asked: list[Phase]


class Pair(NamedTuple):
    """A zone that was made to be slow and a plain one; for each thing that is asked of the one, something is asked of the other.
    And what else is told of both."""

    title: str
    slow: Zone
    plain: Zone
    told: list[str] = []


def filled(records):
    """What fills a zone with these records."""
    return taken("", [SOA, *(f"add {record}" for record in records)])


def denied(kind, records):
    """What fills a zone with these records and secures it with denials of this kind."""
    adds = filled(records).commands
    return Phase("", [f"kind {kind}", *adds, "key 7", "secure 1000"], ["ok", *["yes"] * len(adds), "ok", "ok 2"])


def asked(title, question, reply):
    return Phase(title, [question], [reply])


def changed(title, record):
    """A record that is added, and its set, which is dropped."""
    owner, _, kind, *_ = record.split()
    return Phase(title, [f"add {record}", f"drop {owner} {kind}"], ["yes", "yes"])


def lines(records):
    """The records of an answer."""
    return [written(record) for record in records]


def named(records, owner):
    """The records of an answer that has them under another owner."""
    return lines(f"{owner} {record.split(' ', 1)[1]}" for record in records)


def hosts(n, under=ORIGIN):
    """So many names below another, each with an address."""
    return [f"host{i:06d}.{under} 300 A {address(i)}" for i in range(n)]


def chain(kind, owners, end):
    """A record of this type at each of these owners, which leads to the next one, and from the last to the end."""
    return [f"{owner} 300 {kind} {target}" for owner, target in zip(owners, [*owners[1:], end])]


def in_a_row(prefix, n):
    return [f"{prefix}{i:06d}.{ORIGIN}" for i in range(n)]


def found(record):
    """The query that finds this record alone."""
    owner, _, kind, *_ = record.split()
    return asked("look up a set", f"lookup {owner} {kind}", answer(written(record)))


def added(under=ORIGIN):
    """A name below another that comes and goes."""
    return changed("add and drop a name", f"new.{under} 300 A 192.0.2.1")


def listed(records):
    """A transfer of the zone that these records fill."""
    return asked("list the zone", "transfer", transferred(filled(records).commands))


def plain_names(n, *questions):
    """A zone of so many names, each with an address."""
    return Zone(filled(hosts(n)), list(questions))


def eight_aliases(owners, end):
    """A chain of eight aliases, and the query that follows it."""
    records = chain("CNAME", owners, end)
    return records, asked("follow eight aliases", f"lookup {owners[0]} A", answer(*lines(records)))


ADDRESS = f"address.{ORIGIN} 300 A 192.0.2.1"
MAIL = f"mail.{ORIGIN} 300 MX 10 "


def aliases_in_a_row(n):
    run = chain("CNAME", in_a_row("alias", n), f"address.{ORIGIN}")
    mail = f"{MAIL}{run[0].split()[0]}"
    query = asked("look up the MX", f"lookup mail.{ORIGIN} MX", answer(written(mail), more=lines([*run, ADDRESS])))
    more = changed("add and drop an alias", f"new.{ORIGIN} 300 CNAME {run[0].split()[0]}")
    slow = Zone(filled([*run, ADDRESS, mail]), [query, more])
    return Pair("an MX whose host leads through n aliases", slow, plain_names(n, listed(hosts(n)), added()), [PEAK])


def aname_zone(n):
    """A zone of so many ANAME in a row, and the query for the address that the first one has."""
    run = chain("ANAME", in_a_row("aname", n), f"address.{ORIGIN}")
    owner = run[0].split()[0]
    query = asked("look up the address", f"lookup {owner} A", answer(*named([ADDRESS], owner), more=lines([*run, ADDRESS])))
    more = changed("add and drop an ANAME", f"new.{ORIGIN} 300 ANAME {owner}")
    return Zone(filled([*run, ADDRESS]), [query, more])


def anames_in_a_row(n):
    return Pair("n ANAME, each to the next", aname_zone(n), plain_names(n, listed(hosts(n)), added()), [PEAK])


def many_types(n):
    name = f"many.{ORIGIN}"
    records = [f"{name} 300 TYPE{i} 00" for i in range(1001, 1001 + n)]
    more = changed("add and drop a set", f"{name} 300 TYPE{1001 + n} 00")
    slow = Zone(filled(records), [found(records[-1]), more])
    return Pair("a name of n types", slow, plain_names(n, found(hosts(n)[-1]), added()), [FILLING])


def large_set(n, owner):
    return [f"{owner} 300 A {address(i)}" for i in range(n)]


def stored_set(n):
    """A zone with a set of so many addresses, and the query for it."""
    records = large_set(n, f"large.{ORIGIN}")
    return Zone(filled(records), [asked("list the stored set", f"lookup large.{ORIGIN} A", answer(*lines(records)))])


def addresses_of_one_name(n):
    slow = stored_set(n)
    again = Phase("add the last record again", slow.load.commands[-1:], ["no"])
    plain = Phase("add a record again", [f"add {hosts(n)[-1]}"], ["no"])
    slow = slow._replace(asked=[*slow.asked, again])
    return Pair("a set of n addresses", slow, plain_names(n, listed(hosts(n)), plain), [FILLING])


def addresses_of_a_star(n):
    records = large_set(n, f"*.{ORIGIN}")
    query = asked("list it under another name", f"lookup a.{ORIGIN} A", answer(*named(records, f"a.{ORIGIN}")))
    return Pair("a star with n addresses", Zone(filled(records), [query]), stored_set(n), [PEAK])


def addresses_of_an_aname(n):
    records = large_set(n, f"large.{ORIGIN}")
    aname = f"www.{ORIGIN} 300 ANAME large.{ORIGIN}"
    reply = answer(*named(records, f"www.{ORIGIN}"), more=lines([aname, *records]))
    query = asked("list them under its name, and the set", f"lookup www.{ORIGIN} A", reply)
    return Pair("an ANAME to n addresses", Zone(filled([*records, aname]), [query]), stored_set(n), [PEAK])


def zone_of_names(names, new):
    """A zone of these names, each with an address, and another that is looked up in vain, and comes and goes."""
    records = [f"{name} 300 A {address(i)}" for i, name in enumerate(names)]
    missing = asked("look up a name that isn't there", f"lookup {new} A", "error NXDomain")
    return Zone(filled(records), [found(records[-1]), missing, changed("add and drop a name", f"{new} 300 A 192.0.2.1")])


def names_with_octet(octet, n, label="a"):
    """A zone of so many names of 103 labels, of which the first has this octet and the next hundred are alike."""
    rest = f"{f'{label}.' * 100}{ORIGIN}"
    return zone_of_names([f"{octet}{i:06d}.{rest}" for i in range(n)], f"{octet}.{rest}")


def octets_of_zero(n):
    return Pair("n names of 103 labels, an octet 0 in one", names_with_octet("\\000", n), names_with_octet("\\001", n), [RECORD])


def labels_of_zero(n):
    slow, plain = (names_with_octet(octet, n, octet) for octet in ("\\000", "\\001"))
    return Pair("n names of 103 labels, an octet 0 in 101", slow, plain, [RECORD])


def plain_zone_of_names(n):
    return zone_of_names([f"host{i:06d}.{ORIGIN}" for i in range(n)], f"new.{ORIGIN}")


def deep_names(n):
    rest = f"{'a.' * 97}{ORIGIN}"
    slow = zone_of_names([f"host{i:06d}.{rest}" for i in range(n)], f"new.{rest}")
    return Pair("n names of 100 labels", slow, plain_zone_of_names(n), [RECORD])


def long_names(n):
    rest = f"{f'{63 * chr(97)}.' * 3}{ORIGIN}"
    slow = zone_of_names([f"{i:049d}.{rest}" for i in range(n)], f"{49 * 'n'}.{rest}")
    return Pair("n names of 255 octets", slow, plain_zone_of_names(n), [RECORD])


def denial(records, name):
    """The query that NSEC denies a name by, of a zone with these records, whose name it would be right below the origin."""
    circle = nsec_records(filled(records).commands)
    before = [owner for owner in circle if place(owner) < place(name)]
    return asked("deny a name", f"deny {name} A", proof(circle[ORIGIN], circle[before[-1]]))


def names_below_a_cut(n):
    cut = [f"cut.{ORIGIN} 300 NS ns.example.net."]
    behind = f"cuu.{ORIGIN}"
    zones = [[*cut, *hosts(n, f"cut.{ORIGIN}")], [*cut, *hosts(n)]]
    slow, plain = (Zone(denied("nsec", it), [denial(it, behind), added()]) for it in zones)
    return Pair("a name just after a cut with n names below it", slow, plain)


def names_below_an_empty_one(n):
    zones = [hosts(n, f"empty.{ORIGIN}"), [*hosts(n - 1), f"host.empty.{ORIGIN} 300 A 192.0.2.1"]]
    query = asked("look up the empty name", f"lookup empty.{ORIGIN} A", "error NameExists")
    slow, plain = (Zone(filled(it), [query, added(f"empty.{ORIGIN}")]) for it in zones)
    return Pair("an empty name with n names below it", slow, plain)


def names_beside_a_star(n):
    star = f"*.wild.{ORIGIN} 300 A 192.0.2.1"
    query = asked("look up a name that it answers for", f"lookup a.wild.{ORIGIN} A", answer(*named([star], f"a.wild.{ORIGIN}")))
    zones = [[star, *hosts(n, f"wild.{ORIGIN}")], [star, *hosts(n)]]
    slow, plain = (Zone(filled(it), [query, added(f"wild.{ORIGIN}")]) for it in zones)
    return Pair("a star beside n names", slow, plain)


def chain_through_stars(n, above):
    """A chain of eight aliases of stars, whose names have these labels in the place of the star; beside each star stand others."""
    levels = [f"level{i}.{ORIGIN}" for i in range(9)]
    _, query = eight_aliases([f"{above}{level}" for level in levels[:8]], f"{above}{levels[8]}")
    stars = [f"*.{level} 300 CNAME {above}{after}" for level, after in zip(levels, levels[1:])]
    beside = [record for level in levels[:8] for record in hosts(n // 8, level)]
    aliases, plain = eight_aliases(in_a_row("alias", 8), f"none.{ORIGIN}")
    return Zone(filled([*stars, *beside]), [query, added(levels[0])]), Zone(filled([*aliases, *hosts(n)]), [plain, added()])


def chain_of_stars(n):
    return Pair("eight aliases of stars, beside n names", *chain_through_stars(n, "x."))


def chain_of_deep_stars(n):
    return Pair("the same, with names of 100 labels", *chain_through_stars(n, "x." * 97))


def aliases_in_a_ring(n):
    owners = in_a_row("alias", n)
    ring = chain("CNAME", owners, owners[0])
    mail = f"{MAIL}{owners[0]}"
    _, first = eight_aliases(owners[:8], owners[8 % n])
    query = asked("look up an MX into it", f"lookup mail.{ORIGIN} MX", answer(written(mail), more=lines(ring)))
    aliases, plain = eight_aliases(in_a_row("alias", 8), f"none.{ORIGIN}")
    records = [*aliases, *hosts(n)]
    slow = Zone(filled([*ring, mail]), [first, query, changed("add and drop an alias", f"new.{ORIGIN} 300 CNAME {owners[0]}")])
    return Pair("n aliases in a ring", slow, Zone(filled(records), [plain, listed(records), added()]), [PEAK])


def sets_that_do_not_reach(n):
    records = hosts(n)
    load, name = denied("nsec", records), f"new.{ORIGIN}"
    last = records[-1].split()[0]
    broken = Phase("", [*load.commands, f"drop {last} NSEC"], [*load.answers, "yes"])
    alone = asked("deny a name", f"deny {name} A", proof(nsec_records(filled(records).commands)[ORIGIN]))
    return Pair("n NSEC sets of which none reaches", Zone(broken, [alone, added()]), Zone(load, [denial(records, name), added()]))


def hashed_denial(title, circle, name, iterations):
    """The query that NSEC3 denies a name by, of a zone with this circle, whose closest encloser is the origin."""
    digests = list(circle)
    closer = ".".join(name.split(".")[-4:])
    covered = [hashed(it, iterations) for it in (closer, f"*.{ORIGIN}")]
    covers = [circle[digests[bisect.bisect(digests, it) - 1]] for it in covered]
    return asked(title, f"deny {name} A", proof(*sorted([circle[hashed(ORIGIN, iterations)], *covers])))


def hashed_zone(n, iterations):
    """A zone that NSEC3 denies with so many iterations."""
    records = hosts(n)
    circle = nsec3_records(filled(records).commands, iterations)
    short = hashed_denial("deny a name", circle, f"new.{ORIGIN}", iterations)
    deep = hashed_denial("deny a name of 100 labels", circle, f"{'a.' * 98}{ORIGIN}", iterations)
    return Zone(denied(f"nsec3 - {iterations}", records), [short, deep, added()])


def many_iterations(n):
    return Pair("NSEC3 with 65535 iterations", hashed_zone(n, 65535), hashed_zone(n, 0))


# Names of 110 labels right below the origin: with a letter in each, and with an octet 0.
ABSENT = {"deny a name of 110 labels": f"{'a.' * 110}{ORIGIN}", "deny one of 110 labels of an octet 0": "\\000." * 110 + ORIGIN}


def absent_names(title, load, question):
    """A zone that is asked for long names that aren't there, and the same zone that is asked for a short one."""
    slow = [question(told, name) for told, name in ABSENT.items()]
    return Pair(title, Zone(load, slow), Zone(load, [question("deny a name", f"a.{ORIGIN}")] * len(slow)))


def absent_unsigned(n):
    return absent_names("long names, unsigned", filled(hosts(n)), lambda told, name: asked(told, f"lookup {name} A", "error NXDomain"))


def absent_by_nsec(n):
    # (each of the names stands between the origin and the first host, so that the origin's record denies it and the star)
    circle = nsec_records(filled(hosts(n)).commands)
    question = lambda told, name: asked(told, f"deny {name} A", proof(circle[ORIGIN]))
    return absent_names("long names, with NSEC", denied("nsec", hosts(n)), question)


def absent_by_nsec3(n):
    circle = nsec3_records(filled(hosts(n)).commands)
    question = lambda told, name: hashed_denial(told, circle, name, 0)
    return absent_names("long names, with NSEC3", denied("nsec3 - 0", hosts(n)), question)


# The zones, and the size of the smaller one of each.
ZONES = [
    (aliases_in_a_row, 4000),
    (anames_in_a_row, 4000),
    (many_types, 2000),
    (addresses_of_one_name, 5000),
    (addresses_of_a_star, 5000),
    (addresses_of_an_aname, 5000),
    (octets_of_zero, 5000),
    (labels_of_zero, 5000),
    (names_below_a_cut, 25000),
    (names_below_an_empty_one, 25000),
    (deep_names, 25000),
    (long_names, 25000),
    (names_beside_a_star, 25000),
    (chain_of_stars, 25000),
    (chain_of_deep_stars, 25000),
    (aliases_in_a_ring, 25000),
    (sets_that_do_not_reach, 25000),
    (absent_unsigned, 10000),
    (absent_by_nsec, 10000),
    (absent_by_nsec3, 10000),
    (many_iterations, 10),
]
