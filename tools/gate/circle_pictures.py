"""The pictures of the chains of NSEC and NSEC3 records, for the zones of RFC 4035 and RFC 5155: the names on them, a name that is
denied, and the records that deny it. The names are computed from the lines of examples/, by the rules of the standards, and have to
be those that the program gives there (examples/answers)."""

import math
import re

import nsec3
import sources
import svg

ORIGIN = ("example",)
WIDTH, MIDDLE, RADIUS, FOOT = 740, (370, 245), 190, 500


def labels(text):
    """A name without escapes as its labels, leftmost first."""
    return tuple(it for it in text.lower().split(".") if it)


def text_of(name):
    return ".".join(name) + "."


def is_above(upper, lower):
    return len(upper) < len(lower) and lower[len(lower) - len(upper) :] == upper


def canonical(names):
    """Names in the order of RFC 4034 section 6.1, each once."""
    return sorted(set(names), key=lambda name: [it.encode() for it in reversed(name)])


def sets_of(example):
    """The types of each owner that the lines of an example add, and the key's at the origin."""
    types = {ORIGIN: {"DNSKEY"}}
    for owner, kind in re.findall(r"^add (\S+) \d+ (\S+) ", sources.read(f"examples/{example}"), re.M):
        types.setdefault(labels(owner), set()).add(kind)
    return types


def authoritative(types):
    """The names that no zone cut stands above (RFC 4035 section 2.3)."""
    cuts = [name for name in types if "NS" in types[name] and name != ORIGIN]
    return [name for name in types if not any(is_above(cut, name) for cut in cuts)]


def with_ancestors(names):
    """Names with those between them and the origin (RFC 5155 section 7.1)."""
    return {name[at:] for name in names for at in range(len(name)) if is_above(ORIGIN, name[at:])} | {ORIGIN}


def need(holds, what):
    if not holds:
        raise SystemExit(f"circle_pictures: {what} isn't what examples/answers has")


def nsec_names():
    """The names on the circle of the zone of RFC 4035, in order; the program's NSEC records have the same next names."""
    names = canonical(authoritative(sets_of("rfc4035.txt")))
    answers = sources.read("examples/answers/rfc4035.txt")
    for owner, after in re.findall(r"^(\S+) \d+ IN NSEC (\S+) ", answers, re.M):
        at = names.index(labels(owner))
        need(names[(at + 1) % len(names)] == labels(after), f"the name after {owner}")
    return names


def nsec3_names():
    """The names on the circle of the zone of RFC 5155 with their digests, in the order of these; the program lists the same
    digests as owners."""
    types = sets_of("rfc5155.txt")
    counted = [name for name in authoritative(types) if name == ORIGIN or types[name] != {"NS"}]
    hashed = sorted((digest_5155(name), name) for name in with_ancestors(counted))
    listed = re.search(r"^circle (\d+)\n((?:\S+\n)+?)(?=error)", sources.read("examples/answers/rfc5155.txt"), re.M)
    need([it for it, _ in hashed] == re.findall(r"^(\w{32})\.", listed[2], re.M), "the circle")
    return hashed


def digest_5155(name):
    return nsec3.label(nsec3.digest(text_of(name), bytes.fromhex("aabbccdd"), 12))


def point(turn, radius=RADIUS):
    """A point at a part of a turn, which begins at the top and goes clockwise."""
    way = 2 * math.pi * turn
    return MIDDLE[0] + radius * math.sin(way), MIDDLE[1] - radius * math.cos(way)


def arc(picture, begin, end, colour, width):
    """An arrow along the circle."""
    steps = [begin + (end - begin) * at / 24 for at in range(1, 23)]
    picture.path([point(it) for it in steps], colour, width)
    picture.head(point(steps[-1]), point(steps[-4]), colour, 5 + 1.8 * width)


def beside(picture, turn, lines, colour, outward=1):
    """Lines of text at a part of a turn, outside the circle or, where `outward` is -1, inside it."""
    x, y = point(turn, RADIUS + 16 * outward)
    side, height = math.sin(2 * math.pi * turn) * outward, math.cos(2 * math.pi * turn) * outward
    anchor = "middle" if abs(side) < 0.2 else ("start" if side > 0 else "end")
    up = (1 + height) / 2 * (len(lines) - 1)
    for at, line in enumerate(lines):
        picture.text(x, y + 4 - 5 * height + 16 * (at - up), line, 13, colour, anchor, outward < 0 and at == 0)


def ring(picture, owners, told):
    """The circle through the owners, each with its lines of text; the arrows from those in `told` have the colour that stands
    there, as they are the sets that deny."""
    for at, lines in enumerate(owners):
        begin, end = at / len(owners), (at + 1) / len(owners)
        colour = told.get(at)
        arc(picture, begin, end, colour or svg.LIGHT, 3 if colour else 1.6)
        beside(picture, begin, lines, colour or svg.BLACK)
    for at in range(len(owners)):
        picture.dot(*point(at / len(owners)), 5, told.get(at, svg.GREY))


def between(picture, owners, at, lines, colour):
    """A name that isn't there, in the gap behind an owner; what is said of it stands inside the circle."""
    turn = (at + 0.5) / len(owners)
    picture.dot(*point(turn), 6, "white", colour)
    beside(picture, turn, lines, colour, -1)


def gap_of(values, value):
    """Behind which of ascending values a value stands; before the first it is the last."""
    return max((at for at, it in enumerate(values) if it < value), default=len(values) - 1)


def title(picture, lines):
    for at, line in enumerate(lines):
        picture.text(MIDDLE[0], MIDDLE[1] - 40 + 20 * at, line, 13 if at else 15, svg.GREY)


def legend(picture, lines):
    for at, (colour, words) in enumerate(lines):
        picture.dot(30, FOOT + 22 * at, 5, colour)
        picture.text(44, FOOT + 4 + 22 * at, words, 13, svg.BLACK, "start")


def draw_nsec():
    names = nsec_names()
    denied, star = labels("ml.example."), labels("*.example.")
    order = canonical(names + [denied, star])
    gap = {name: names.index(order[order.index(name) - 1]) for name in (denied, star)}
    picture = svg.Picture(WIDTH, FOOT + 40, "The NSEC chain of the zone of RFC 4035: the two records that deny ml.example.")
    ring(picture, [[text_of(it)] for it in names], {gap[denied]: svg.RED, gap[star]: svg.ORANGE})
    between(picture, names, gap[denied], [text_of(denied)], svg.RED)
    between(picture, names, gap[star], [text_of(star)], svg.ORANGE)
    title(picture, ["NSEC chain", "in canonical order", "hollow: doesn't exist"])
    legend(
        picture,
        [
            (svg.RED, f"covers {text_of(denied)}, which is asked for: the NSEC record of {text_of(names[gap[denied]])}"),
            (svg.ORANGE, f"covers its wildcard, at the closest encloser {text_of(ORIGIN)}: the record of {text_of(names[gap[star]])}"),
        ],
    )
    return picture.svg()


def draw_nsec3():
    hashed = nsec3_names()
    digests, names = zip(*hashed)
    denied, closer, encloser = labels("a.c.x.w.example."), labels("c.x.w.example."), labels("x.w.example.")
    star = ("*",) + encloser
    gap = {name: gap_of(digests, digest_5155(name)) for name in (closer, star)}
    picture = svg.Picture(WIDTH, FOOT + 62, "The NSEC3 chain of the zone of RFC 5155: the three records that deny a.c.x.w.example.")
    owners = [[text_of(name) if len(name[0]) < 32 else "a host by a digest", f"{it[:8]}.."] for it, name in hashed]
    ring(picture, owners, {gap[closer]: svg.RED, gap[star]: svg.ORANGE, names.index(encloser): svg.GREEN})
    between(picture, names, gap[closer], [text_of(closer), f"{digest_5155(closer)[:8]}.."], svg.RED)
    between(picture, names, gap[star], [text_of(star), f"{digest_5155(star)[:8]}.."], svg.ORANGE)
    title(picture, ["NSEC3 chain", "in the order of digests", "hollow: doesn't exist"])
    legend(
        picture,
        [
            (svg.GREEN, f"the record of {text_of(encloser)}, the closest encloser of {text_of(denied)}, which is asked for"),
            (svg.RED, f"covers the next closer name {text_of(closer)}: the record of {text_of(names[gap[closer]])}"),
            (svg.ORANGE, f"covers the wildcard {text_of(star)}: the record of {text_of(names[gap[star]])}"),
        ],
    )
    return picture.svg()
