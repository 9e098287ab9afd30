#!/usr/bin/env python3
"""Draws docs/map.svg, the map of the crates, from crates.txt.

    docs/map.py           writes docs/map.svg
    docs/map.py --check   writes nothing, and exits with 1 where docs/map.svg is not what crates.txt gives

Each heading `# ..` of crates.txt is a room, with the crates below it. A room stands one row above the highest room that
it uses. A line joins a room with one that it uses, unless it also uses that one by way of another. The same crates.txt
always gives the same bytes.
"""
import pathlib
import sys
from xml.sax.saxutils import escape

HERE = pathlib.Path(__file__).resolve().parent
CRATES = HERE.parent / "crates.txt"
MAP = HERE / "map.svg"

CHAR = 6.4  # the width of a character of 11 px
LINE = 16  # the height of a line of names
PAD = 10  # inside a room
GAP = 26  # between two rooms of a row
ROW = 54  # between two rows
WIDTH = 250  # of a room

STYLE = """
  .room { fill: #f6f8fa; stroke: #8c959f; }
  .title { font: bold 12px sans-serif; fill: #1f2328; }
  .name { font: 11px monospace; fill: #424a53; }
  .line { stroke: #8c959f; fill: none; }
  @media (prefers-color-scheme: dark) {
    .room { fill: #161b22; stroke: #6e7681; }
    .title { fill: #e6edf3; }
    .name { fill: #b1bac4; }
    .line { stroke: #6e7681; }
  }
"""


def read_rooms():
    """The rooms in their order, each with its title and its crates, and for each crate those that it uses."""
    rooms, uses = [], {}
    for line in CRATES.read_text().splitlines():
        if line.startswith("# "):
            rooms.append((line[2:], []))
        elif ":" in line:
            name, used = line.split(":", 1)
            uses[name.split()[0]] = used.split()
            rooms[-1][1].append(name.split()[0])
    own = {crate for _, crates in rooms for crate in crates}
    return rooms, {name: [u for u in used if u in own] for name, used in uses.items()}


def room_uses(rooms, uses):
    """For each room the rooms before it whose crates its crates use."""
    home = {crate: number for number, (_, crates) in enumerate(rooms) for crate in crates}
    below = []
    for number, (_, crates) in enumerate(rooms):
        below.append({home[u] for crate in crates for u in uses[crate]} & set(range(number)))
    return below


def reach(below):
    """For each room all rooms below it."""
    whole = []
    for used in below:
        whole.append(set(used).union(*[whole[u] for u in used]) if used else set())
    return whole


def rows_of(below):
    row = []
    for used in below:
        row.append(1 + max((row[u] for u in used), default=-1))
    return row


def lines_of(title, width):
    """A title in lines of at most so many pixels."""
    out = [""]
    for word in title.split():
        if out[-1] and (len(out[-1]) + 1 + len(word)) * 6.6 > width:
            out.append("")
        out[-1] = (out[-1] + " " + word).strip()
    return out


def draw():
    rooms, uses = read_rooms()
    below = room_uses(rooms, uses)
    whole = reach(below)
    direct = [{u for u in used if not any(u in whole[v] for v in used)} for used in below]
    row = rows_of(below)
    tall = [
        2 * PAD + LINE * (len(lines_of(title, WIDTH - 2 * PAD)) + len(crates)) for title, crates in rooms
    ]
    depth = max(row) + 1
    members = [[n for n in range(len(rooms)) if row[n] == r] for r in range(depth)]
    wide = max(len(m) for m in members)
    full = wide * WIDTH + (wide + 1) * GAP
    place, top = {}, GAP
    for r in reversed(range(depth)):
        used = len(members[r]) * WIDTH + (len(members[r]) - 1) * GAP
        left = (full - used) / 2
        high = max(tall[n] for n in members[r])
        for n in members[r]:
            place[n] = (left, top + high - tall[n])
            left += WIDTH + GAP
        top += high + ROW
    height = top - ROW + GAP
    out = [
        f'<svg xmlns="http://www.w3.org/2000/svg" width="{full:.0f}" height="{height:.0f}" viewBox="0 0 {full:.0f} {height:.0f}">',
        "<title>The crates of ocmd: each room stands on those below it that a line leads to</title>",
        f"<style>{STYLE}</style>",
    ]
    for n, used in enumerate(direct):
        for k, u in enumerate(sorted(used)):
            x1 = place[n][0] + WIDTH * (k + 1) / (len(used) + 1)
            y1 = place[n][1] + tall[n]
            over = sorted(m for m, d in enumerate(direct) if u in d)
            x2 = place[u][0] + WIDTH * (over.index(n) + 1) / (len(over) + 1)
            y2 = place[u][1]
            middle = (y1 + y2) / 2
            out.append(
                f'<path class="line" d="M{x1:.0f} {y1:.0f} C{x1:.0f} {middle:.0f} {x2:.0f} {middle:.0f} {x2:.0f} {y2:.0f}"/>'
            )
    for n, (title, crates) in enumerate(rooms):
        x, y = place[n]
        out.append(f'<rect class="room" x="{x:.0f}" y="{y:.0f}" width="{WIDTH}" height="{tall[n]}" rx="6"/>')
        at = y + PAD + 10
        for text in lines_of(title, WIDTH - 2 * PAD):
            out.append(f'<text class="title" x="{x + PAD:.0f}" y="{at:.0f}">{escape(text)}</text>')
            at += LINE
        for crate in crates:
            out.append(f'<text class="name" x="{x + PAD:.0f}" y="{at:.0f}">{escape(crate)}</text>')
            at += LINE
    out.append("</svg>")
    return "\n".join(out) + "\n"


def main():
    drawn = draw()
    if sys.argv[1:] == ["--check"]:
        if not MAP.is_file() or MAP.read_text() != drawn:
            sys.exit("map.py: docs/map.svg is not the map of crates.txt; docs/map.py draws it")
    elif sys.argv[1:]:
        sys.exit(__doc__)
    else:
        MAP.write_text(drawn)


main()
