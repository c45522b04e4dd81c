"""Questions for zoned and other servers, as messages, and what is read from the answers. Names are text as in random_zones.py."""
import random

import frames
from random_zones import above, dnames, is_below, names_below, under


def fits(name):
    """Whether a name has at most 255 octets, and labels of at most 63 (RFC 1035 section 2.3.4)."""
    octets = frames.octets_of(name)
    return len(octets) <= 255 and all(len(frames.octets_of(label)) <= 65 for label in name.split(".") if label)


def queries(origin, records):
    """Names that stand in a zone, are named there, stand above these, or below, each with each type, with DNSSEC and without."""
    names = {data.split()[-1] for _, kind, data in records if kind in ("NS", "CNAME", "MX", "SRV", "DNAME")}
    names |= {owner for owner, _, _ in records}
    names |= {above(name) for name in names if name not in (origin, ".")}
    names |= {under(random.choice("abcdx"), name) for name in sorted(names)} | set(names_below(records, names))
    for name in sorted(name for name in names if name.endswith(origin) and fits(name)):
        kinds = ["DNAME"] * bool(dnames(records)) + ["ANY"] * any(is_below(name, owner) for owner in dnames(records))
        for kind in ("A", "AAAA", "NS", "MX", "TXT", "CNAME", "DS", "SRV", *kinds):
            yield name, kind, []
            yield name, kind, ["edns=4096", "do"]


def zone_of(name, kind, zones):
    """The origin of the zone that answers: the longest one at or above the name, and for DS above it, if there is one (RFC 4035 section
    3.1.4.1)."""
    at = [origin for origin in zones if name == origin or origin == "." or is_below(name, origin)]
    strictly = [origin for origin in at if origin != name]
    return max(strictly if kind == "DS" and strictly else at, key=len)


def sections(message):
    """Code and flags, and the records of each section, sorted."""
    parts, section = {"ANSWER": [], "AUTHORITY": [], "ADDITIONAL": []}, None
    for line in frames.message_lines(message):
        if line.endswith(" SECTION:"):
            section = line.split()[1]
        elif section in parts:
            parts[section].append(line.lower())
    return (message[2] & 6, message[3] & 15), {section: sorted(lines) for section, lines in parts.items()}


def chains(parts):
    """Which chains the denials of a response are of: NSEC, and the algorithm, iterations and salt of NSEC3 records."""
    kinds = set()
    for line in parts["AUTHORITY"]:
        words = line.split()
        if words[3] == "nsec":
            kinds.add("nsec")
        elif words[3] == "nsec3":
            data = bytes.fromhex(words[6])
            kinds.add((data[0], data[2:5 + data[4]].hex()))
    return kinds


# ---- messages that no client should send


def turned(octets, chance=random):
    """Octets of which some are others, or gone, or more, by chance."""
    octets = bytearray(octets)
    for _ in range(chance.randint(1, 6)):
        at = chance.randrange(len(octets) + 1)
        how = chance.random()
        if how < 0.6 and at < len(octets):
            octets[at] = chance.choice([0, 1, 63, 64, 192, 255, chance.randrange(256)])
        elif how < 0.8:
            del octets[at : at + chance.randint(1, 12)]
        else:
            octets[at:at] = chance.randbytes(chance.randint(1, 12))
    return bytes(octets)


def is_answered(message):
    """Whether a message gets an answer: it has a header, and is no response (RFC 1035 section 4.1.1)."""
    return len(message) >= 12 and not message[2] & 0x80
