"""Random zones, and random zones with DNAME, which other_servers.py, secondaries.py, validating_resolver.py and closed_zones.py use.

A name is text as tools/frames.py writes it: octets other than letters, digits, `-`, `_` and `*` are `\\DDD`, including a dot within a
label, so that its labels are what is between dots.
"""
import random

# The target of a DNAME; below it LABEL makes a name of 255 octets, which no name may have more of (RFC 1035 section 2.3.4).
LONG = ".".join(["l" * 63] * 3)
LABEL = "k" * 53

# What a zone with DNAME has beside random records. Names that don't end with a dot are of the zone.
DNAMES = f"""\
from DNAME to
from A 192.0.2.2
from TXT "t"
to A 192.0.2.3
a.to A 192.0.2.4
a.e.to AAAA 2001:db8::1
b.to CNAME a.to
c.to CNAME a.from
d.to CNAME gone
g.to CNAME from
f.to MX 10 a.from
*.v.to TXT "t"
*.w.to CNAME b.from
over DNAME from
a.under DNAME e.to
away DNAME out.side.
gone DNAME to.gone2
gone MX 10 a.gone
circle DNAME round
round DNAME circle
cut NS ns.cut
ns.cut A 192.0.2.5
at DNAME cut
below DNAME a.cut
long DNAME {LONG}
a.{LONG} A 192.0.2.6
"""

# What some of them have below a DNAME, where it isn't found.
OCCLUDED = """\
a.from TXT "t"
x.from A 192.0.2.7
y.from CNAME a.to
b.x.from MX 10 x.from
n.from NS ns.n.from
ns.n.from A 192.0.2.8
*.away A 192.0.2.9
"""


# Labels that few names have: with octets 0 and 255, a dot, a space, and what stands beside the star in order.
ODD = (r"\000", r"a\000b", r"a\046b", r"b\032c", r"\255", r"\001", "-", r"\041")

# The least TTL of a negative response, which may be more than that of the SOA record (RFC 2308 section 3).
MINIMA = (60, 300, 300, 9000)


def under(labels, origin):
    """The name with these labels before an origin, which may be the root."""
    return f"{labels}." if origin == "." else f"{labels}.{origin}"


def above(name):
    """The name above one that isn't the root."""
    return name.split(".", 1)[1] or "."


def random_name(origin):
    labels = [random.choice(ODD if random.random() < 0.04 else "abcd") for _ in range(random.choice([1, 1, 2, 2, 3]))]
    if random.random() < 0.25:
        labels[0] = "*"
    return under(".".join(labels), origin)


def random_records(origin, owned, signed):
    """One or a few records of one name; none where a CNAME would stand beside another."""
    owner, kind = random_name(origin), random.choice(["A", "A", "AAAA", "TXT", "MX", "CNAME", "CNAME", "NS", "NS", "SRV"])
    if owned.get(owner) == {"CNAME"} or kind == "CNAME" and owner in owned or kind == "NS" and "*" in owner:
        return []
    owned.setdefault(owner, set()).add(kind)
    target = random.choice([random_name(origin), random_name(origin), owner if "*" in owner else f"ns.{owner}", "out.side."])
    address = f"192.0.2.{random.randint(1, 250)}"
    data = {"A": address, "AAAA": f"2001:db8::{random.randint(1, 999):x}", "TXT": '"t"', "MX": f"10 {target}", "SRV": f"1 2 3 {target}"}
    records = [(owner, kind, data.get(kind, target))]
    return records + at_cut(owner, owned, address, signed) if kind == "NS" else records


def at_cut(owner, owned, address, signed):
    """What stands at a cut and below it besides a server: glue, at the cut itself too, text that nobody is given, and DS."""
    records = []
    if random.random() < 0.7 and owned.get(f"ns.{owner}") != {"CNAME"}:
        owned.setdefault(f"ns.{owner}", set()).add("A")
        records.append((f"ns.{owner}", "A", address))
    if random.random() < 0.3:
        owned[owner] |= {"A"}
        records += [(owner, "NS", owner), (owner, "A", address)]
    if random.random() < 0.15:
        owned[owner] |= {"TXT"}
        records.append((owner, "TXT", '"beside the cut"'))
    if signed and random.random() < 0.4:
        records.append((owner, "DS", "12345 13 2 " + "00" * 32))
    return records


def random_zone(origin, signed):
    owned, host = {}, under("ns", origin)
    records = [(origin, "SOA", f"{host} {under('h', origin)} 1 7200 900 1209600 {random.choice(MINIMA)}"), (origin, "NS", host)]
    # (BIND gives up a zone whose own servers have no address)
    records += [(origin, "NS", random_name(origin))] * (random.random() < 0.4) + [(host, "A", "192.0.2.1")]
    for _ in range(random.randint(8, 22)):
        records += random_records(origin, owned, signed)
    return list(dict.fromkeys(records))


def is_below(name, owner):
    return name.endswith(f".{owner}")


def dnames(records):
    return {owner: data for owner, kind, data in records if kind == "DNAME"}


def stated(origin, lines):
    """The records of lines of text."""
    for owner, kind, data in (line.split(" ", 2) for line in lines.splitlines()):
        has_name = kind in ("DNAME", "CNAME", "NS", "MX") and not data.endswith(".")
        yield f"{owner}.{origin}", kind, f"{data}.{origin}" if has_name else data


def zone_with_occluded(origin, signed):
    """A zone with DNAME, and with records below these."""
    # (BIND gives up a zone whose own servers have no address)
    records = [it for it in random_zone(origin, signed) if it[:2] != (origin, "NS") or it[2] == f"ns.{origin}"]
    records += stated(origin, DNAMES + OCCLUDED)
    for _ in range(3):
        owner, target = random_name(origin), random.choice([random_name(origin), f"to.{origin}", "out.side."])
        if "*" not in owner + target and not any(it == owner and kind in ("CNAME", "NS", "DNAME") for it, kind, _ in records):
            records.append((owner, "DNAME", target))
    return records


def zone_with_dnames(origin, signed):
    """A zone with DNAME, and nothing below these."""
    records = zone_with_occluded(origin, signed)
    return [it for it in records if not any(is_below(it[0], owner) for owner in dnames(records))]


def zone_of_dname(origin, signed):
    """A zone of which the origin owns a DNAME, so that nothing stands below it."""
    target = random.choice(["out.side.", f"{LONG}.{origin}"])
    records = [(origin, "SOA", "ns.out.side. h.out.side. 1 7200 900 1209600 300"), (origin, "NS", "ns.out.side.")]
    return [*records, (origin, "A", "192.0.2.1"), (origin, "MX", f"10 a.{origin}"), (origin, "DNAME", target)]


def names_below(records, names):
    """Names below each DNAME: those to which it gives one of these names, of several labels, and one that becomes too long below LONG."""
    for owner, target in dnames(records).items():
        yield from (f"{name.removesuffix(target)}{owner}" for name in names if is_below(name, target))
        yield from (f"{labels}.{owner}" for labels in ("x", "b.x", "a.b.x", LABEL, f"{LABEL}k"))


# How the zones of a round are made, by the first letter of their origin, and how many of each.
MADE = {"z": (random_zone, 12), "d": (zone_with_dnames, 4), "o": (zone_with_occluded, 4), "a": (zone_of_dname, 4)}
