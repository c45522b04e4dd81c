"""The picture of a query's way through the crates, from the octets that arrive to those that leave: each box is a crate with what it does
and in which call, each arrow what is passed on. The calls have to exist."""

import sources
import svg

WIDTH, HEIGHT, GAP = 214, 92, 60

# The way, box by box: crate, call, and what it does.
WAY = [
    ("message_reading", "read_query", ["octets become a query,", "or the first cause why not"]),
    ("zone_server", "zone_for", ["the zone of the longest", "origin at or above the name"]),
    ("zone_response", "walk", ["the descent to the first cut or", "DNAME, aliases, the wildcard"]),
    ("zone_response", "respond", ["code, AA and sections; what", "proves it; addresses and glue"]),
    ("message_writing", "write_response", ["groups within the limit,", "compressed; TC if one is left out"]),
]
HANDED = ["query", "zone", "path", "sections"]
# What is asked on the way, and by which boxes of it.
BESIDE = [
    ("zone_database", "served", ["the zones that were loaded,", "and how each denies"], 1),
    ("zone_map", "exists", ["the sets of the zone in one", "map, in canonical order"], 2),
    ("zone_denial", "closest_nsec", ["the closest NSEC record", "at or before a name"], 3),
]


def is_there(crate, call):
    return sources.names_of(crate).has(call)


def card(picture, x, y, crate, call, words, fill):
    if not is_there(crate, call):
        raise SystemExit(f"query_picture: {crate} has no {call}")
    picture.box(x, y, WIDTH, HEIGHT, fill)
    picture.text(x + WIDTH / 2, y + 22, crate, 13.5, svg.BLACK, "middle", True)
    picture.text(x + WIDTH / 2, y + 40, call, 12, svg.BLUE)
    for at, line in enumerate(words):
        picture.text(x + WIDTH / 2, y + 60 + 16 * at, line, 12)


def arrow(picture, tail, tip):
    picture.path([tail, tip], svg.GREY, 1.6)
    picture.head(tip, tail, svg.GREY, 9)


def draw():
    step = WIDTH + GAP
    picture = svg.Picture(step * 3 + 30, 560, "A query's way through the crates, from the octets that arrive to those that leave")
    # Three boxes from left to right, and below them two back.
    places = [(20, 70), (20 + step, 70), (20 + 2 * step, 70), (20 + 2 * step, 300), (20 + step, 300)]
    picture.text(20, 30, "ningkraet (C) or serve_frames of zone_server (zoned) pass in the octets of a query", 13, svg.BLACK, "start")
    arrow(picture, (20 + WIDTH / 2, 38), (20 + WIDTH / 2, 68))
    for (crate, call, words), (x, y) in zip(WAY, places):
        card(picture, x, y, crate, call, words, "#e8f0fa")
    for at, words in enumerate(HANDED):
        (x, y), (right, below) = places[at], places[at + 1]
        if y == below:
            begin, end = (x + WIDTH, x + WIDTH + GAP - 2) if right > x else (x, x - GAP + 2)
            arrow(picture, (begin, y + HEIGHT / 2), (end, y + HEIGHT / 2))
            picture.text((begin + end) / 2, y + HEIGHT / 2 - 8, words, 11, svg.GREY)
        else:
            arrow(picture, (x + WIDTH / 2 + 70, y + HEIGHT), (x + WIDTH / 2 + 70, below - 2))
            picture.text(x + WIDTH / 2 + 76, (y + HEIGHT + below) / 2, words, 11, svg.GREY, "start")
    arrow(picture, (20 + step, 300 + HEIGHT / 2), (150, 300 + HEIGHT / 2))
    picture.text(20, 300 + HEIGHT / 2 - 4, "the octets of", 13, svg.BLACK, "start")
    picture.text(20, 300 + HEIGHT / 2 + 14, "the response", 13, svg.BLACK, "start")
    for (crate, call, words, at), (x, y) in zip(BESIDE, [(20, 190), (20 + step + 20, 190), (20 + 2 * step, 440)]):
        card(picture, x, y, crate, call, words, "#f3f7ee")
        over = places[at]
        tip = (over[0] + 40, over[1] + HEIGHT + 2) if over[1] < y else (over[0] + 40, over[1])
        tail = (min(max(over[0] + 40, x + 20), x + WIDTH - 20), y)
        picture.path([tail, tip], svg.GREY, 1.2, "4 3")
    picture.text(20, 545, "blue: the way of the query; green: what is asked on the way", 12, svg.GREY, "start")
    return picture.svg()
