#!/usr/bin/env python3
"""Draws the rooms of the crates from crates.txt: the picture docs/layers.svg and the tables in docs/ARCHITECTURE.md.

    docs/layers.py            writes both
    docs/layers.py --check    writes nothing and fails if either is not what crates.txt says

In crates.txt a line "## ROOM: what it is for" begins a room. A crate's line names what it uses; the comment right
above it says what it holds. Either way of running fails if a crate uses one of a room that its own room may not use,
or one that does not stand above it in crates.txt: so nothing reaches up, and no two crates use each other.

In the picture each room is a lane. In its lane a crate stands one row above the highest crate that it uses there, and
a thin arrow leads to each crate of the lane that it uses and does not reach by other arrows. Where such a use leads
out of the lane, one thick arrow from lane to lane stands for all of that pair; the tables name them.
"""

import collections
import html
import pathlib
import re
import sys
import textwrap

ROOT = pathlib.Path(__file__).resolve().parent.parent
PICTURE = ROOT / "docs" / "layers.svg"
PAGE = ROOT / "docs" / "ARCHITECTURE.md"
MARKS = ("<!-- layers: made by docs/layers.py -->\n", "<!-- end of layers -->\n")

ABOUT = (
    "In the picture a thin arrow leads from a crate to one of its room that it uses, and a thick arrow from a room to "
    "one that some of its crates use. Arrows, and the uses in the tables, are only those that no others imply: a "
    "crate may also use what these reach. [crates.txt](../crates.txt) names every use, with the toolchain's library "
    "io, which is left out here. Kind, as in the picture: F is functions with what is proved of them, T is "
    "definitions and theorems alone, P is a program."
)

# Each room, the lowest first, with the rooms besides itself that its crates may use.
MAY_USE = {
    "base": [],
    "engine": ["base"],
    "action language": ["base", "engine"],
    "text": ["base", "action language"],
    "lent laws": ["base", "engine", "action language", "text"],
    "faces": ["base", "engine", "action language", "text", "lent laws"],
    "tests and benchmarks": ["base", "engine", "action language", "text", "lent laws", "faces"],
}

# The lanes by bands, the highest first: where each begins and ends, from the left.
BANDS = [
    {"tests and benchmarks": (20, 1916)},
    {"faces": (780, 1624)},
    {"lent laws": (1092, 1312)},
    {"engine": (20, 448), "action language": (492, 1180), "text": (1224, 1860)},
    {"base": (20, 1916)},
]
# Where a thick arrow goes down, from the left; None where it goes straight across to the lane on the left.
DOWN = {
    ("tests and benchmarks", "faces"): 1202,
    ("tests and benchmarks", "engine"): 80,
    ("tests and benchmarks", "action language"): 558,
    ("tests and benchmarks", "text"): 1794,
    ("tests and benchmarks", "base"): 1888,
    ("faces", "lent laws"): 1202,
    ("faces", "engine"): 388,
    ("faces", "action language"): 936,
    ("faces", "text"): 1416,
    ("lent laws", "action language"): 1136,
    ("lent laws", "text"): 1268,
    ("action language", "engine"): None,
    ("text", "action language"): None,
    ("engine", "base"): 234,
    ("action language", "base"): 836,
    ("text", "base"): 1542,
}
APART = "tests and benchmarks"  # its lane has a colour of its own

Crate = collections.namedtuple("Crate", "room holds uses")
Lane = collections.namedtuple("Lane", "left right top bottom said arrows at")
Kind = collections.namedtuple("Kind", "letter says fill border")
KINDS = {
    "functions": Kind("F", "functions", "#cfe3f5", ""),
    "theorems": Kind("T", "definitions and theorems alone", "#dcefd5", ' stroke-dasharray="5 3"'),
    "program": Kind("P", "a program", "#f8dfbd", ' stroke-width="3"'),
}

WIDE, HIGH, GAP, STEP, BEND = 188, 28, 20, 54, 6  # a crate's box, from box to box and row to row, a bend's width
TAB, HEAD, SPREAD = 22, 8, 28  # the part of a box for its letter, an arrow's head, from arrow to arrow at a box
EDGE, PAD, GUTTER = 20, 16, 38  # around the picture, inside a lane, between bands
TITLE, LINE, LETTER = 22, 16, 6.5  # a lane's name, a line of what it is for, the width of a letter there
LEGEND = 84


def read_rooms():
    """What each room is for, and each crate with its room, what it holds and the crates of this repository it uses."""
    rooms, crates, room, said = {}, {}, None, ""
    for line in (ROOT / "crates.txt").read_text().splitlines():
        if line.startswith("## "):
            room, _, what = (part.strip() for part in line[2:].partition(":"))
            rooms[room], said = what, ""
        elif line.startswith("#"):
            said = line[1:].strip()
        else:
            head, colon, uses = line.partition(":")
            if colon:
                crates[head.split()[0]] = Crate(room, said, uses.split())
            said = ""
    known = {name: crate._replace(uses=[use for use in crate.uses if use in crates]) for name, crate in crates.items()}
    return rooms, known


def faults(rooms, crates):
    """What is wrong in crates.txt: rooms that are not those of MAY_USE, and crates that use what they may not."""
    found = [] if list(rooms) == list(MAY_USE) else ["the rooms are not " + ", ".join(MAY_USE) + ", in this order"]
    found += [f"{room} does not say what it is for" for room, what in rooms.items() if not what]
    seen = set()
    for name, crate in crates.items():
        if crate.room not in MAY_USE:
            found.append(f"{name} stands in no room that docs/layers.py knows")
            continue
        if not crate.holds:
            found.append(f"{name} has no comment above it")
        for use in crate.uses:
            other = crates[use].room
            if other != crate.room and other not in MAY_USE[crate.room]:
                found.append(f"{name} uses {use}, but {crate.room} may not use {other}")
            elif use not in seen:
                found.append(f"{name} uses {use}, which does not stand above it")
        seen.add(name)
    return found


def kind(name):
    """What a crate is, by its sources: a program, functions, or definitions and theorems alone."""
    source = ROOT / "crates" / name / "src"
    if (source / "main.rt").is_file():
        return "program"
    code = "".join(file.read_text() for file in source.rglob("*.rt"))
    return "functions" if re.search(r"\bfn ", code) else "theorems"


def direct_uses(crates):
    """What each crate uses and does not reach through others that it uses. Those that it uses come before it."""
    reach, direct = {}, {}
    for name, crate in crates.items():
        beyond = set().union(*(reach[use] for use in crate.uses))
        reach[name] = beyond | set(crate.uses)
        direct[name] = [use for use in crate.uses if use not in beyond]
    return direct


def levels(uses):
    """Each crate's row in its lane, the lowest 0. One that uses none stands right below the lowest that uses it."""
    level = {}
    for name in uses:
        level[name] = 1 + max((level[use] for use in uses[name]), default=-1)
    for name in uses:
        users = [level[user] for user in uses if name in uses[user]]
        if not uses[name] and users:
            level[name] = min(users) - 1
    return level


def paths(uses, level):
    """Each arrow as the crates and, in the rows between, the bends that it goes through, from the top down."""
    found = []
    for name in uses:
        for use in uses[name]:
            bends = [(name, use, row) for row in range(level[name] - 1, level[use], -1)]
            found.append((name, *bends, use))
    return found


def wide(node):
    """How wide a crate or a bend is."""
    return WIDE if isinstance(node, str) else BEND


def spots(row):
    """Where each crate and bend of a row has its middle, the middle of the row being 0."""
    left = -(sum(map(wide, row)) + GAP * (len(row) - 1)) / 2
    found = {}
    for node in row:
        found[node] = left + wide(node) / 2
        left += wide(node) + GAP
    return found


def ordered(level, arrows):
    """The rows with crates and bends, each ordered by the middle of what it is joined to in the rows beside it."""
    rows = [[] for _ in range(1 + max(level.values()))]
    for name in level:
        rows[level[name]].append(name)
    joined = collections.defaultdict(list)
    for arrow in arrows:
        for bend in arrow[1:-1]:
            rows[bend[2]].append(bend)
        for upper, lower in zip(arrow, arrow[1:]):
            joined[upper].append(lower)
            joined[lower].append(upper)
    up, down = range(1, len(rows)), range(len(rows) - 2, -1, -1)
    for turn, beside in [(up, -1), (down, 1)] * 12:
        for row in turn:
            place, middle = spots(rows[row + beside]), spots(rows[row])
            for node in rows[row]:
                near = [place[other] for other in joined[node] if other in place]
                middle[node] = sum(near) / len(near) if near else middle[node]
            rows[row].sort(key=middle.get)
    return rows


def wrapped(words, letters):
    """Words as lines of at most so many letters."""
    return textwrap.wrap(words, letters, break_on_hyphens=False)


def laid_out(room, crates, direct):
    """The arrows inside a room, and its rows of crates and bends, the lowest first."""
    names = [name for name, crate in crates.items() if crate.room == room]
    uses = {name: [use for use in direct[name] if use in names] for name in names}
    level = levels(uses)
    arrows = paths(uses, level)
    return arrows, ordered(level, arrows)


def lanes(rooms, crates, direct):
    """Each room's lane: its edges, what it is for in lines, its arrows, and where its crates and bends are."""
    found, top = {}, EDGE
    for band in BANDS:
        inside = {room: laid_out(room, crates, direct) for room in band}
        said = {room: wrapped(rooms[room], int((band[room][1] - band[room][0] - 2 * PAD) / LETTER)) for room in band}
        bottom = top + TITLE + 2 * PAD + HIGH
        bottom += max(LINE * len(said[room]) + STEP * (len(inside[room][1]) - 1) for room in band)
        for room, (left, right) in band.items():
            arrows, rows = inside[room]
            at = {}
            for number, row in enumerate(rows):
                for node, spot in spots(row).items():
                    at[node] = ((left + right) / 2 + spot, bottom - PAD - HIGH - STEP * number)
            if min(x - wide(node) / 2 for node, (x, _) in at.items()) < left + PAD:
                sys.exit(f"docs/layers.py: in BANDS the lane of {room} is too narrow")
            found[room] = Lane(left, right, top, bottom, said[room], arrows, at)
        top = bottom + GUTTER
    return found


def marker(name, size, colour):
    """An arrow's head, begun where its line ends."""
    return (f'<marker id="{name}" markerUnits="userSpaceOnUse" orient="auto" refY="{size / 2:g}" markerWidth="{size}" '
            f'markerHeight="{size}"><path d="M0 0L{HEAD} {size / 2:g}L0 {size}z" fill="{colour}"/></marker>')


def spread(lane, end, beside):
    """How far from its crate's middle each arrow begins or ends, so that the arrows of a crate stand side by side."""
    found = {}
    for name in lane.at:
        mine = [arrow for arrow in lane.arrows if arrow[end] == name]
        mine.sort(key=lambda arrow: lane.at[arrow[beside]][0])
        found.update({arrow: SPREAD * (number - (len(mine) - 1) / 2) for number, arrow in enumerate(mine)})
    return found


def thin_arrow(points):
    """A line through points, upright at each of them, with the arrow's head at its end."""
    drawn = f"M{points[0][0]:g} {points[0][1]:g}"
    for (x, y), (to, end) in zip(points, points[1:]):
        half = (end - y) / 2
        drawn += f"C{x:g} {y + half:g} {to:g} {end - half:g} {to:g} {end:g}"
    return f'<path d="{drawn}" fill="none" stroke="#666" marker-end="url(#thin)"/>'


def thick_arrow(upper, lower, x):
    """A line from lane to lane, down at x from the upper lane's edge or side, or straight across where x is None."""
    middle = (upper.top + upper.bottom) / 2
    if x is None:
        drawn = f"M{upper.left} {middle:g}H{lower.right + HEAD}"
    elif upper.left < x < upper.right:
        drawn = f"M{x} {upper.bottom}V{lower.top - HEAD}"
    else:
        side = upper.left if x < upper.left else upper.right
        drawn = f"M{side} {middle:g}H{x}V{lower.top - HEAD}"
    return f'<path d="{drawn}" fill="none" stroke="#333" stroke-width="2.5" marker-end="url(#thick)"/>'


def written(x, y, words, more=""):
    """Words in the picture, begun at a place unless more says otherwise."""
    return f'<text x="{x:g}" y="{y:g}"{more}>{html.escape(words)}</text>'


def box(x, y, width, height, what):
    """A box with the colour, the border and the letter of a kind, so that it is told without the colour too."""
    return [
        f'<rect x="{x:g}" y="{y:g}" width="{width}" height="{height}" rx="4" '
        f'fill="{what.fill}" stroke="#444"{what.border}/>',
        written(x + TAB / 2, y + height / 2 + 5, what.letter, ' text-anchor="middle" font-weight="bold"'),
    ]


def lane_drawn(room, lane):
    """A lane with its name, what it is for, its arrows and its crates."""
    fill = "#fbf3e6" if room == APART else "#f4f6f8"
    out = [
        f'<rect x="{lane.left}" y="{lane.top}" width="{lane.right - lane.left}" height="{lane.bottom - lane.top}" '
        f'rx="8" fill="{fill}" stroke="#7a8594"/>',
        written(lane.left + PAD, lane.top + TITLE, room.capitalize(), ' font-size="15" font-weight="bold"'),
    ]
    for number, line in enumerate(lane.said, 1):
        out.append(written(lane.left + PAD, lane.top + TITLE + LINE * number, line, ' font-size="12"'))
    begins, ends = spread(lane, 0, 1), spread(lane, -1, -2)
    for arrow in lane.arrows:
        x, y = lane.at[arrow[0]]
        points = [(x + begins[arrow], y + HIGH)]
        for x, y in (lane.at[bend] for bend in arrow[1:-1]):
            points += [(x, y), (x, y + HIGH)]
        x, y = lane.at[arrow[-1]]
        out.append(thin_arrow([*points, (x + ends[arrow], y - HEAD)]))
    for name in (node for node in lane.at if isinstance(node, str)):
        x, y = lane.at[name]
        out += box(x - WIDE / 2, y, WIDE, HIGH, KINDS[kind(name)])
        out.append(written(x + TAB / 2, y + 19, name, ' text-anchor="middle"'))
    return out


def legend(top):
    """What the boxes and the arrows of the picture stand for."""
    out, x = [], EDGE
    for what in KINDS.values():
        out += box(x, top, TAB, 20, what)
        out.append(written(x + TAB + 8, top + 15, what.says))
        x += TAB + 40 + 8 * len(what.says)
    y = top + 40
    out.append(f'<path d="M{EDGE} {y}h24" stroke="#666" marker-end="url(#thin)"/>')
    out.append(written(EDGE + 42, y + 5, "a crate uses a crate of its room"))
    out.append(f'<path d="M{EDGE + 320} {y}h24" stroke="#333" stroke-width="2.5" marker-end="url(#thick)"/>')
    words = "crates of a room use crates of another room; the tables say which. What other arrows imply is not drawn."
    out.append(written(EDGE + 362, y + 5, words))
    return out


def picture(rooms, crates, direct):
    """The picture: the lanes, a thick arrow for each pair of rooms that a direct use leads over, and the legend."""
    lane = lanes(rooms, crates, direct)
    pairs = {(crates[name].room, crates[use].room): "" for name in crates for use in direct[name]}
    pairs = [(upper, lower) for upper, lower in pairs if upper != lower]
    lacking = [f"{upper} to {lower}" for upper, lower in pairs if (upper, lower) not in DOWN]
    if lacking:
        sys.exit("docs/layers.py: DOWN has no place for the arrow from " + ", from ".join(lacking))
    width, bottom = EDGE + max(one.right for one in lane.values()), max(one.bottom for one in lane.values())
    height = bottom + LEGEND
    out = [
        f'<svg xmlns="http://www.w3.org/2000/svg" viewBox="0 0 {width} {height}" width="{width}" height="{height}" '
        'font-family="sans-serif" font-size="13" role="img">',
        "<title>The rooms of the crates, and which crate and which room uses which</title>",
        f'<defs>{marker("thin", 8, "#666")}{marker("thick", 13, "#333")}</defs>',
        f'<rect width="{width}" height="{height}" fill="#fff"/>',
    ]
    for room in lane:
        out += lane_drawn(room, lane[room])
    out += [thick_arrow(lane[upper], lane[lower], DOWN[upper, lower]) for upper, lower in pairs]
    return "\n".join([*out, *legend(bottom + PAD + 8), "</svg>"]) + "\n"


def row(name, crate, direct):
    """A crate's row. Its kind is a letter, so the words for it in front of what the crate holds are left out."""
    holds = re.sub(r"^(theorems?|a program): ", "", crate.holds)
    return f"| [{name}] | {holds} | {KINDS[kind(name)].letter} | {', '.join(direct[name])} |"


def tables(rooms, crates, direct):
    """The picture's link and a table for each room. A crate's link is written below the tables, to keep rows short."""
    lines = ["![The rooms of the crates, and which uses which](layers.svg)", "", *wrapped(ABOUT, 120)]
    for room, what in rooms.items():
        may = "This room may use: " + (", ".join(MAY_USE[room]) or "no other")
        lines += ["", f"### {room.capitalize()}", "", *wrapped(f"{what[0].upper()}{what[1:]}. {may}.", 120), ""]
        lines += ["| Crate | Holds | Kind | Uses |", "|---|---|---|---|"]
        lines += [row(name, crate, direct) for name, crate in crates.items() if crate.room == room]
    return "\n".join([*lines, "", *(f"[{name}]: ../crates/{name}" for name in crates)]) + "\n"


def main():
    """Writes the picture and the tables, or compares them with what stands there."""
    rooms, crates = read_rooms()
    wrong = faults(rooms, crates)
    if wrong:
        sys.exit("\n".join("crates.txt: " + fault for fault in wrong))
    page = PAGE.read_text() if PAGE.is_file() else ""
    start, end = page.find(MARKS[0]), page.find(MARKS[1])
    if start < 0 or end < start:
        sys.exit("docs/ARCHITECTURE.md has no place for the tables")
    direct = direct_uses(crates)
    made = {
        PICTURE: picture(rooms, crates, direct),
        PAGE: page[: start + len(MARKS[0])] + tables(rooms, crates, direct) + page[end:],
    }
    if sys.argv[1:] == ["--check"]:
        stale = [file.name for file, text in made.items() if not file.is_file() or file.read_text() != text]
        if stale:
            sys.exit(f"{', '.join(stale)}: not what crates.txt says; run docs/layers.py")
    elif sys.argv[1:]:
        sys.exit(__doc__)
    else:
        for file, text in made.items():
            file.write_text(text)


if __name__ == "__main__":
    main()
