#!/usr/bin/env python3
"""Draws the crates of crates.txt.

Run in the repository's root: python3 tools/map.py writes docs/map.svg. With --check nothing is written, and the exit status is 1 where the
file differs.

A crate stands above all that it stands on. Of what crates.txt lists, only what is not reached by way of another crate is drawn as a line.
Apart, below, are the programs (what has a src/main.rt) and what programs alone stand on. Crates of the kit are left out.
"""

import sys
from html import escape
from pathlib import Path

CRATES, MAP = "crates.txt", "docs/map.svg"

CHAR, SMALL_CHAR = 7.3, 6.7  # a letter's width in a box, and beside one
BOX_HEIGHT, PAD = 24, 9  # a box's height, and the room between a name and the sides of its box
GAP, BEND_GAP, LAYER = 14, 12, 62  # between two boxes of a layer, beside a line that passes a layer, from layer to layer
MARGIN, WIDEST = 16, 7  # around the drawing; the most boxes in a layer, where what stands above allows
ROLES = [("_laws", "#dff0df", "laws"), ("_lemmas", "#fbf0d0", "lemmas"), ("", "#e3ecf7", "definitions and code")]


# ---- the crates


def read_crates(text):
    """Each crate with all that it stands on, in the order of crates.txt. After a name can stand that it is a static library."""
    crates = {}
    for line in text.splitlines():
        line = line.split("#")[0].strip()
        if line:
            name, _, below = line.partition(":")
            crates[name.split()[0]] = below.split()
    return crates


def is_program(name):
    return Path("crates", name, "src/main.rt").exists()


def direct(crates):
    """Of each crate, what it stands on and does not reach by way of another; crates of the kit left out."""
    reached = {}
    for name in crates:
        reach(crates, name, reached)
    return {
        name: [b for b in below if b in crates and not any(b in reached[o] for o in below if o in crates)]
        for name, below in crates.items()
    }


def reach(crates, name, reached):
    if name not in reached:
        reached[name] = set()
        for below in crates.get(name, []):
            reached[name] |= {below} | reach(crates, below, reached)
    return reached[name]


def apart(crates):
    """The programs, and what programs alone stand on."""
    names = [name for name in crates if is_program(name)]
    for name in reversed(crates):
        users = [user for user, below in crates.items() if name in below]
        if users and all(user in names for user in users) and name not in names:
            names.append(name)
    return [name for name in crates if name in names]


# ---- layers


def layers_of(graph):
    """A layer for each crate, above all that it stands on: lines short, no layer too wide."""
    layer = {}
    for name in graph:
        lowest(graph, name, layer)
    users = {name: [user for user in graph if name in graph[user]] for name in graph}
    top = max(layer.values(), default=0)
    for _ in range(20):
        moved = False
        for name in graph:
            low = 1 + max((layer[b] for b in graph[name]), default=-1)
            high = min((layer[u] for u in users[name]), default=top + 1) - 1
            best = min(range(low, high + 1), key=lambda at: (cost(graph, users, layer, name, at), at))
            moved |= best != layer[name]
            layer[name] = best
        if not moved:
            break
    return layer


def lowest(graph, name, layer):
    if name not in layer:
        layer[name] = 1 + max((lowest(graph, below, layer) for below in graph[name]), default=-1)
    return layer[name]


def cost(graph, users, layer, name, at):
    """How long the lines of a crate would be in a layer, and how much too many boxes would stand there."""
    length = sum(at - layer[b] for b in graph[name])
    if users[name]:
        length += max(layer[u] for u in users[name]) - at
    others = sum(1 for other in graph if other != name and layer[other] == at)
    return length + 3 * max(0, others + 1 - WIDEST)


def with_bends(graph, layer):
    """Rows of places, and the steps between neighbouring rows. A line that passes a layer has a bend there, shared by all lines from one crate."""
    rows = [[] for _ in range(max(layer.values(), default=0) + 1)]
    for name in graph:
        rows[layer[name]].append(name)
    steps = []
    for name in graph:
        users = [user for user in graph if name in graph[user]]
        at = name
        for row in range(layer[name] + 1, max((layer[u] for u in users), default=0) + 1):
            steps += [(at, user) for user in users if layer[user] == row]
            if any(layer[user] > row for user in users):
                bend = (name, row)
                rows[row].append(bend)
                steps.append((at, bend))
                at = bend
    return rows, steps


# ---- the order in a layer


def ordered(rows, steps):
    """Each row in an order with few crossings: by the mean place of the neighbours, up and down, and then by exchanges."""
    ups, downs = neighbours(steps)
    best = [list(row) for row in rows]
    for turn in range(24):
        upward = turn % 2 == 0
        for r in range(1, len(rows)) if upward else range(len(rows) - 2, -1, -1):
            fixed = {place: i for i, place in enumerate(rows[r - 1 if upward else r + 1])}
            near = downs if upward else ups
            own = {place: i for i, place in enumerate(rows[r])}
            rows[r].sort(key=lambda place: (mean([fixed[n] for n in near.get(place, [])], own[place]), own[place]))
        exchange(rows, downs)
        if crossings(rows, downs) < crossings(best, downs):
            best = [list(row) for row in rows]
    return best


def neighbours(steps):
    ups, downs = {}, {}
    for low, high in steps:
        ups.setdefault(low, []).append(high)
        downs.setdefault(high, []).append(low)
    return ups, downs


def mean(values, otherwise):
    return sum(values) / len(values) if values else otherwise


def crossings(rows, downs):
    return sum(crossings_between(rows[r - 1], rows[r], downs) for r in range(1, len(rows)))


def crossings_between(lower, upper, downs):
    at = {place: i for i, place in enumerate(lower)}
    ends = [sorted(at[d] for d in downs.get(place, [])) for place in upper]
    return sum(1 for i, first in enumerate(ends) for second in ends[i + 1 :] for a in first for b in second if a > b)


def exchange(rows, downs):
    """Neighbours of a row are exchanged while that takes crossings away."""
    better = True
    while better:
        better = False
        for r, row in enumerate(rows):
            for i in range(len(row) - 1):
                before = around(rows, r, downs)
                row[i], row[i + 1] = row[i + 1], row[i]
                if around(rows, r, downs) < before:
                    better = True
                else:
                    row[i], row[i + 1] = row[i + 1], row[i]


def around(rows, r, downs):
    low = crossings_between(rows[r - 1], rows[r], downs) if r > 0 else 0
    return low + (crossings_between(rows[r], rows[r + 1], downs) if r + 1 < len(rows) else 0)


# ---- places


def width(place):
    return len(place) * CHAR + 2 * PAD if isinstance(place, str) else 0


def room(left, right):
    gap = GAP if isinstance(left, str) and isinstance(right, str) else BEND_GAP
    return width(left) / 2 + gap + width(right) / 2


def placed(rows, steps):
    """The middle of each place: near the middle of its neighbours, in the row's order, with room between."""
    ups, downs = neighbours(steps)
    x = {}
    for row in rows:
        at = 0.0
        for i, place in enumerate(row):
            at += room(row[i - 1], place) if i else 0
            x[place] = at
    for turn in range(300):
        for row in rows if turn % 2 == 0 else reversed(rows):
            near = [downs.get(p, []) + ups.get(p, []) for p in row]
            wish = [mean([x[n] for n in ns], x[p]) for p, ns in zip(row, near)]
            weight = [1 if isinstance(p, str) else 3 for p in row]
            for place, at in zip(row, apart_by(row, wish, weight)):
                x[place] = at
    left = min(x[p] - width(p) / 2 for p in x)
    return {p: x[p] - left + MARGIN for p in x}


def apart_by(row, wish, weight):
    """The places nearest to the wished ones, by squares, that keep the row's order and room."""
    offset, total = [], 0.0
    for i, place in enumerate(row):
        total += room(row[i - 1], place) if i else 0
        offset.append(total)
    blocks = []  # mean of wish less offset, weight, number of places
    for w, o, k in zip(wish, offset, weight):
        blocks.append([w - o, k, 1])
        while len(blocks) > 1 and blocks[-2][0] > blocks[-1][0]:
            value, k2, n = blocks.pop()
            last = blocks[-1]
            last[0] = (last[0] * last[1] + value * k2) / (last[1] + k2)
            last[1] += k2
            last[2] += n
    flat = [value for value, _, n in blocks for _ in range(n)]
    return [value + o for value, o in zip(flat, offset)]


# ---- the drawing


def colour(name):
    return next(fill for ending, fill, _ in ROLES if name.endswith(ending))


def box(name, left, middle):
    w = width(name)
    return (
        f'<rect x="{left:.1f}" y="{middle - BOX_HEIGHT / 2:.1f}" width="{w:.1f}" height="{BOX_HEIGHT}" rx="4" fill="{colour(name)}" stroke="#8a97a8"/>'
        f'<text x="{left + w / 2:.1f}" y="{middle + 4:.1f}" text-anchor="middle">{escape(name)}</text>'
    )


def line(low, high, x, y):
    """From the top of a box, or a bend, to the bottom of the box or bend above it."""
    half = BOX_HEIGHT / 2
    from_y = y[low] - (half if isinstance(low, str) else 0)
    to_y = y[high] + (half if isinstance(high, str) else 0)
    turn = (from_y + to_y) / 2
    return f'<path d="M{x[low]:.1f} {from_y:.1f}C{x[low]:.1f} {turn:.1f} {x[high]:.1f} {turn:.1f} {x[high]:.1f} {to_y:.1f}"/>'


def programs(names, graph, top, wide):
    """The programs in as many columns as have room, each with what it stands on."""
    for columns in range(len(names), 0, -1):
        tall = -(-len(names) // columns)
        split = [names[i : i + tall] for i in range(0, len(names), tall)]
        boxes = [max(width(name) for name in column) + PAD for column in split]
        words = [max(len(", ".join(graph[name])) for name in column) * SMALL_CHAR for column in split]
        if columns == 1 or sum(boxes) + sum(words) + 2 * GAP * (len(split) - 1) <= wide:
            break
    parts, left = [], float(MARGIN)
    for column, own, beside in zip(split, boxes, words):
        for i, name in enumerate(column):
            middle = top + i * (BOX_HEIGHT + 8) + BOX_HEIGHT / 2
            parts.append(box(name, left, middle))
            parts.append(f'<text x="{left + own:.1f}" y="{middle + 4:.1f}" font-size="11" fill="#555">{escape(", ".join(graph[name]))}</text>')
        left += own + beside + 2 * GAP
    return parts, tall * (BOX_HEIGHT + 8)


def legend(top):
    parts, left = [], float(MARGIN)
    for _, fill, words in ROLES:
        parts.append(f'<rect x="{left:.1f}" y="{top - 10}" width="14" height="14" rx="3" fill="{fill}" stroke="#8a97a8"/>')
        parts.append(f'<text x="{left + 20:.1f}" y="{top + 1}" fill="#555">{words}</text>')
        left += 20 + len(words) * CHAR + 24
    return parts


def drawing(crates):
    graph = direct(crates)
    names = apart(crates)
    stack = {name: below for name, below in graph.items() if name not in names}
    rows, steps = with_bends(stack, layers_of(stack))
    rows = ordered(rows, steps)
    x = placed(rows, steps)
    head = 2 * MARGIN + 14
    y = {p: head + BOX_HEIGHT / 2 + (len(rows) - 1 - r) * LAYER for r, row in enumerate(rows) for p in row}
    wide = max(max(x[p] + width(p) / 2 for p in x) - MARGIN, 700)
    bottom = head + (len(rows) - 1) * LAYER + BOX_HEIGHT + 34
    below, tall = programs(names, graph, bottom + 18, wide) if names else ([], 0)
    size = (wide + 2 * MARGIN, bottom + 18 + tall + MARGIN)
    parts = [
        f'<svg xmlns="http://www.w3.org/2000/svg" viewBox="0 0 {size[0]:.0f} {size[1]:.0f}" font-family="DejaVu Sans Mono, Menlo, Consolas, monospace" font-size="12">',
        "<title>The crates of crates.txt: each stands on those that its lines lead down to</title>",
        '<rect width="100%" height="100%" fill="#ffffff"/>',
        *legend(MARGIN + 12),
        '<g fill="none" stroke="#9aa5b1" stroke-width="1.3">',
        *(line(low, high, x, y) for low, high in steps),
        "</g>",
        *(box(p, x[p] - width(p) / 2, y[p]) for row in rows for p in row if isinstance(p, str)),
        f'<path d="M{MARGIN} {bottom - 16}H{size[0] - MARGIN:.0f}" stroke="#cccccc"/>',
        f'<text x="{MARGIN}" y="{bottom + 4}" fill="#555">programs, and what they alone share: each with what it stands on</text>' if names else "",
        *below,
        "</svg>",
    ]
    return "\n".join(part for part in parts if part) + "\n"


def main():
    with open(CRATES, encoding="utf-8") as file:
        svg = drawing(read_crates(file.read()))
    if sys.argv[1:] == ["--check"]:
        try:
            with open(MAP, encoding="utf-8") as file:
                same = file.read() == svg
        except FileNotFoundError:
            same = False
        if not same:
            sys.exit(f"{MAP} is not the map of {CRATES}: run make map")
    elif sys.argv[1:]:
        sys.exit("usage: tools/map.py [--check]")
    else:
        with open(MAP, "w", encoding="utf-8") as file:
            file.write(svg)


if __name__ == "__main__":
    main()
