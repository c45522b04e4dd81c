"""The picture of the crates and of their dependencies, drawn from crates.txt without the crates of tests: a crate is above those that it
uses. A line that others imply is omitted, such as that to a crate which a crate between the two uses. Where crates stand is found here
too: a row for each, an order within the rows in which few lines cross, and places in which they are short. A line that passes a row has
a place of its own in it, so that none goes through a crate."""

import functools
import os

import derived
import sources
import svg

ROW, HEIGHT, MARGIN, GAP, LINE = 54, 26, 14, 14, 12
# How many crates a row has at most.
MOST = 9
SWEEPS = 40

# The colours of the layers.
COLOURS = {
    "names and data": "#dfe7f3",
    "text and wire": "#d9efe4",
    "the zone": "#fdf1dc",
    "signing": "#f3e1ef",
    "changes": "#e4e4f7",
    "what it proves": "#fbe3df",
    "the server": "#dff0f5",
    "programs": "#f6f3cf",
}
OTHER = "#eeeeee"


def used(listed):
    """What each crate uses of the repository's own."""
    return {name: [it for it in below if it in listed] for name, below in listed.items()}


def below_all(uses, name):
    """All that a crate uses, by others too."""
    found = set(uses[name])
    for it in uses[name]:
        found |= below_all(uses, it)
    return found


def plain_uses(uses):
    """What each crate uses and no other crate that it uses does."""
    return {name: [it for it in below if not any(it in below_all(uses, other) for other in below)] for name, below in uses.items()}


def width_of(name):
    return 14 + 7.1 * len(name)


def is_program(name):
    return os.path.exists(f"{sources.TOP}/crates/{name}/src/main.rt")


def rows_of(uses, users):
    """The row of each crate, above those that it uses: row after row takes those above which the most rows have to come, and no more than
    fit in it; then crates that more crates use than they use go up as far as they can."""
    heights = {}
    for name in reversed(list(uses)):
        heights[name] = 1 + max((heights[it] for it in users[name]), default=-1)
    rows, row = {}, 0
    while len(rows) < len(uses):
        free = [name for name in uses if name not in rows and all(rows.get(it, row) < row for it in uses[name])]
        free.sort(key=lambda name: (-heights[name], -len(users[name])))
        rows.update({name: row for name in free[:MOST]})
        row += 1
    for name in reversed(list(uses)):
        if users[name] and len(users[name]) >= len(uses[name]):
            for higher in range(min(rows[it] for it in users[name]) - 1, rows[name], -1):
                if list(rows.values()).count(higher) < MOST:
                    rows[name] = higher
                    break
    return rows


def ways_of(uses, rows):
    """The places that each line goes through, from the upper crate to the lower: a crate is its name, and a place in a row between is the
    two crates and the row."""
    return {(name, it): [name, *((name, it, row) for row in range(rows[name] - 1, rows[it], -1)), it] for name, below in uses.items() for it in below}


def mean(values, other):
    return sum(values) / len(values) if values else other


def crossings(orders, above, below):
    """How many pairs of lines cross."""
    count = 0
    for lower, upper in zip(orders, orders[1:]):
        place = {it: number for number, it in enumerate(lower)}
        ends = [place[other] for it in upper for other in sorted(below[it], key=place.get)]
        count += sum(ends[i] > ends[j] for i in range(len(ends)) for j in range(i + 1, len(ends)))
    return count


def ordered(orders, above, below):
    """The rows in an order in which few lines cross: each place goes where the middle of its neighbours is, up and down in turns."""
    best = (crossings(orders, above, below), orders)
    for sweep in range(SWEEPS):
        orders = [list(row) for row in orders]
        rows = range(1, len(orders)) if sweep % 2 == 0 else range(len(orders) - 2, -1, -1)
        for row in rows:
            near, by = (orders[row - 1], below) if sweep % 2 == 0 else (orders[row + 1], above)
            place = {it: number / max(1, len(near) - 1) for number, it in enumerate(near)}
            own = {it: number / max(1, len(orders[row]) - 1) for number, it in enumerate(orders[row])}
            orders[row].sort(key=lambda it: mean([place[other] for other in by[it]], own[it]))
        exchanged(orders, above, below)
        count = crossings(orders, above, below)
        if count < best[0]:
            best = (count, [list(row) for row in orders])
    return best[1]


def exchanged(orders, above, below):
    """Exchanges neighbours where fewer lines cross then."""
    for number, row in enumerate(orders):
        places = []
        for other, by in ((number - 1, below), (number + 1, above)):
            if 0 <= other < len(orders):
                places.append(({it: at for at, it in enumerate(orders[other])}, by))

        def crossed(left, right):
            return sum(place[a] > place[b] for place, by in places for a in by[left] for b in by[right])

        for at in range(len(row) - 1):
            if crossed(row[at], row[at + 1]) > crossed(row[at + 1], row[at]):
                row[at], row[at + 1] = row[at + 1], row[at]


def space(it):
    return width_of(it) + GAP if isinstance(it, str) else LINE


def placed(orders, above, below):
    """How far to the right each place stands: near the middle of its neighbours, and beside the others of its row."""
    x = {}
    for row in orders:
        at = 0.0
        for it in row:
            x[it] = at + space(it) / 2
            at += space(it)
    for sweep in range(3 * SWEEPS):
        for row in orders if sweep % 2 == 0 else orders[::-1]:
            # lines stay straight before all
            centre = mean([x[it] for it in row], 0)
            wanted = {it: mean([x[other] for other in [*above[it], *below[it]]], centre) for it in row}
            packed(row, wanted, x)
    least = min(x[it] - space(it) / 2 for it in x)
    return {it: at - least + MARGIN for it, at in x.items()}


def packed(row, wanted, x):
    """Puts the places of a row where they are wanted, or as near as their order and their widths allow: those that would stand in one
    another are moved together, to where they are on average."""
    groups = []
    for it in row:
        groups.append([[it], wanted[it] - space(it) / 2, space(it), 1])
        while len(groups) > 1 and groups[-2][1] + groups[-2][2] > groups[-1][1]:
            right, left = groups.pop(), groups.pop()
            count = left[3] + right[3]
            start = (left[1] * left[3] + (right[1] - left[2]) * right[3]) / count
            groups.append([left[0] + right[0], start, left[2] + right[2], count])
    for items, start, _, _ in groups:
        at = start
        for it in items:
            x[it] = at + space(it) / 2
            at += space(it)


@functools.cache
def layout():
    """The rows of the crates, how far to the right each place stands, and the ways of the lines."""
    listed = {name: below for name, below in sources.crates().items() if derived.layer_of(name) != derived.TESTS}
    uses = plain_uses(used(listed))
    users = {name: [it for it in uses if name in uses[it]] for name in uses}
    rows = rows_of(uses, users)
    ways = ways_of(uses, rows)
    above, below = {it: [] for it in uses}, {it: [] for it in uses}
    for way in ways.values():
        for upper, lower in zip(way, way[1:]):
            above.setdefault(lower, []).append(upper)
            below.setdefault(upper, []).append(lower)
            above.setdefault(upper, []), below.setdefault(lower, [])
    orders = [[] for _ in range(max(rows.values()) + 1)]
    layers = list(derived.LAYERS)
    for it in sorted(above, key=lambda it: (layers.index(derived.layer_of(it if isinstance(it, str) else it[0])), str(it))):
        orders[rows[it] if isinstance(it, str) else it[2]].append(it)
    orders = ordered(orders, above, below)
    return rows, placed(orders, above, below), ways


def draw():
    rows, x, ways = layout()
    width = max(x[it] + space(it) / 2 for it in x) + MARGIN
    height = ROW * (max(rows.values()) + 1) + 56
    picture = svg.Picture(round(width), height, "The crates: each stands above those that it uses")

    def y(row):
        return height - 76 - ROW * row

    def end(name, near, side):
        """Where a line leaves a crate, below or above it, on its way to a place."""
        most = width_of(name) / 2 - 12
        return x[name] + max(-most, min(most, (x[near] - x[name]) / 4)), y(rows[name]) + side * HEIGHT / 2

    for way in ways.values():
        points = [end(way[0], way[1], 1)]
        for it in way[1:-1]:
            # (beside the crates of its row a line goes straight down)
            points += [(x[it], y(it[2]) - HEIGHT / 2), (x[it], y(it[2]) + HEIGHT / 2)]
        picture.path([*points, end(way[-1], way[-2], -1)], "#9a9a9a")
    for name, row in rows.items():
        colour = svg.BLACK if is_program(name) else svg.GREY
        picture.box(x[name] - width_of(name) / 2, y(row) - HEIGHT / 2, width_of(name), HEIGHT, COLOURS.get(derived.layer_of(name), OTHER), colour)
        picture.text(x[name], y(row) + 4, name, 11.5, bold=is_program(name))
    at = MARGIN
    for layer in derived.LAYERS:
        picture.box(at, height - 44, 13, 13, COLOURS.get(layer, OTHER))
        picture.text(at + 18, height - 33, layer, 11.5, svg.BLACK, "start")
        at += 34 + 6.6 * len(layer)
    words = "A crate stands above those that it uses; what others imply isn't drawn. In bold: programs."
    picture.text(MARGIN, height - 12, words, 11.5, svg.GREY, "start")
    return picture.svg()
