"""Draws the table that bench/load prints: what an answer costs each server, one field for each kind of zone, in it the bars of each mix of
queries."""
import svg

COLOURS = {"ningkraetd": svg.BLUE, "nsd": svg.ORANGE, "knotd": svg.GREEN, "named": svg.RED}
NAMES = {"nsd": "NSD", "knotd": "Knot DNS", "named": "BIND"}
ZONES = {"unsigned": "not signed", "nsec": "signed, NSEC", "nsec3": "signed, NSEC3", "opt-out": "signed, NSEC3 with opt-out"}
MIXES = {"most": "9 of 10 exist", "absent": "names that don't exist", "referrals": "referrals", "zones": "in 1,000 zones"}
ACROSS, WIDTH, HEIGHT, TOP = 2, 450, 190, 58
# Where the axes of a field stand in it, and the width of a bar and of the gap between the bars of two mixes.
LEFT, RIGHT, ABOVE, BELOW, BAR, GAP = 14, 10, 36, 26, 22, 16


def cells(line):
    return [it.strip() for it in line.strip().strip("|").split("|")]


def figures(text):
    """Of each kind of zone and each mix of queries over UDP the microseconds in each server."""
    found, heads = {}, None
    for line in text.split("\n"):
        row = cells(line)
        if row[0] == "Queries":
            heads = row
        elif heads and len(row) == len(heads) and not row[0].startswith("-"):
            it = dict(zip(heads, row))
            if it["Way"] == "udp":
                found.setdefault(it["Zone"], {}).setdefault(it["Queries"], {})[it["Server"]] = float(it["Microseconds in it"])
    return found


def field(picture, x, y, title, by_mix):
    """One kind of zone."""
    bottom, left = y + HEIGHT - BELOW, x + LEFT
    most = max(value for by_server in by_mix.values() for value in by_server.values())
    picture.text(left, y + 16, title, 12, svg.BLACK, "start")
    picture.path([(left, bottom), (x + WIDTH - RIGHT, bottom)], svg.GREY, 1)
    at = left + BAR / 2
    for mix in [it for it in MIXES if it in by_mix]:
        begin = at
        for server in [it for it in COLOURS if it in by_mix[mix]]:
            value = by_mix[mix][server]
            top = bottom - value / most * (bottom - y - ABOVE)
            picture.path([(at, bottom), (at, top)], COLOURS[server], BAR - 3)
            picture.text(at, top - 3, f"{value:.1f}", 9, COLOURS[server])
            at += BAR
        picture.text((begin + at - BAR) / 2, bottom + 14, MIXES[mix], 9, svg.GREY)
        at += GAP


def draw(text, head, told):
    by_zone = figures(text)
    servers = [it for it in COLOURS if any(it in each for by_mix in by_zone.values() for each in by_mix.values())]
    picture = svg.Picture(ACROSS * WIDTH + 20, TOP + (len(by_zone) + 1) // ACROSS * HEIGHT, told)
    picture.text(20, 24, head, 13, svg.BLACK, "start")
    for at, server in enumerate(servers):
        picture.dot(26 + 130 * at, 42, 4, COLOURS[server])
        picture.text(36 + 130 * at, 46, NAMES.get(server, server), 12, COLOURS[server], "start")
    for at, zone in enumerate([it for it in ZONES if it in by_zone]):
        field(picture, 8 + at % ACROSS * WIDTH, TOP + at // ACROSS * HEIGHT, ZONES[zone], by_zone[zone])
    return picture.svg()
