#!/usr/bin/env python3
"""Draws which crate stands on which, as crates.txt says, so that the picture stays true.

    tools/house/architecture_picture.py > docs/pictures/architecture.svg
    tools/house/architecture_picture.py --check docs/pictures/architecture.svg

A line goes from a crate down to one that it stands on, where it doesn't stand on that one through another crate too. The crate on which most
stand is a bar below all others. Crates that no program needs, as tests and laws, are dashed. Status: 0 where it was drawn, or where
the file is what is drawn; 1 where it isn't; 2 where the command line is none of the above.
"""

import sys
from graphlib import TopologicalSorter
from pathlib import Path
from statistics import fmean as mean
from typing import NamedTuple
from xml.sax.saxutils import escape

from crate_list import all_below, crates_below

PROGRAM = "bml_replay"
BOX_WIDTH, BOX_HEIGHT, LANE, GAP, ROW = 100, 38, 10, 10, 88
MARGIN = 10
MOST_IN_ROW = 7
LEGEND = ["A line goes down to a crate on which the upper one stands.", "Dashed are tests and laws, on which no program stands."]
SWEEPS = 40


class Place(NamedTuple):
    """What stands in a row: a crate, or where a line passes on its way to one further down."""

    name: str
    target: str = ""  # of the line that passes

    def width(self):
        return LANE if self.target else BOX_WIDTH


def lowest_first(crates):
    """Returns the crates, each after those that it stands on."""
    return {name: crates[name] for name in TopologicalSorter(crates).static_order()}


def needed_lines(crates, below):
    """Returns for each crate those that it stands on without another one between."""
    return {name: [it for it in direct if not any(it in below[other] for other in direct)] for name, direct in crates.items()}


def levels_of(lines):
    """Returns the row of each crate, counted from the bottom: as low as it can stand, or higher where a row would be too long."""
    levels = {}
    for name, below in lines.items():
        levels[name] = max((levels[it] + 1 for it in below), default=0)
    users = {name: [user for user, below in lines.items() if name in below] for name in lines}
    for level in range(max(levels.values())):
        row = [name for name in lines if levels[name] == level]
        free = [name for name in row if users[name] and all(levels[user] > level + 1 for user in users[name])]
        for name in free[: max(0, len(row) - MOST_IN_ROW)]:
            levels[name] = level + 1
    return levels


def rows_of(lines, levels):
    """Returns the rows from the bottom, and the pairs of places in neighbouring rows between which a line goes, the upper one first."""
    rows = [[Place(name) for name in lines if levels[name] == level] for level in range(max(levels.values()) + 1)]
    pairs = []
    for name, below in lines.items():
        for target in below:
            passed = [Place(f"{name}@{level}", target) for level in range(levels[name] - 1, levels[target], -1)]
            for place, level in zip(passed, range(levels[name] - 1, levels[target], -1)):
                rows[level].append(place)
            chain = [Place(name), *passed, Place(target)]
            pairs += zip(chain, chain[1:])
    return rows, pairs


def crossings(rows, neighbours):
    """Returns how many pairs of lines cross."""
    count = 0
    for upper, lower in zip(rows[1:], rows):
        at = {place: number for number, place in enumerate(lower)}
        ends = [sorted(at[it] for it in neighbours[place] if it in at) for place in upper]
        flat = [end for group in ends for end in group]
        count += sum(1 for number, end in enumerate(flat) for other in flat[number + 1 :] if other < end)
    return count


def ordered(rows, neighbours):
    """Returns the rows in an order in which few lines cross: each place goes where its neighbours are on average, row by row."""
    best, least = rows, crossings(rows, neighbours)
    rows = [list(row) for row in rows]
    for sweep in range(SWEEPS):
        numbers = range(1, len(rows)) if sweep % 2 else range(len(rows) - 2, -1, -1)
        for number in numbers:
            other = rows[number - 1] if sweep % 2 else rows[number + 1]
            at = {place: (spot + 0.5) / len(other) for spot, place in enumerate(other)}
            own = {place: (spot + 0.5) / len(rows[number]) for spot, place in enumerate(rows[number])}

            rows[number].sort(key=lambda place: mean([at[it] for it in neighbours[place] if it in at] or [own[place]]))
        count = crossings(rows, neighbours)
        if count < least:
            best, least = [list(row) for row in rows], count
    return best


def pushed(row, wishes, width):
    """Returns middles that are as wished, or further on where a place before is in the way, and then back where the picture ends."""
    steps = [(one.width() + two.width()) / 2 + GAP for one, two in zip(row, row[1:])]
    found = []
    for at, place in enumerate(row):
        found.append(max(wishes[place], found[-1] + steps[at - 1] if at else place.width() / 2))
    most = width - row[-1].width() / 2
    for at in range(len(row) - 1, -1, -1):
        found[at] = min(found[at], most)
        most = found[at] - steps[at - 1]
    return found


def spread(row, wishes, width):
    """Returns the middles of the places of a row: near to what is wished, in this order, and without overlap."""
    forth = pushed(row, wishes, width)
    back = [width - it for it in pushed(row[::-1], {place: width - wish for place, wish in wishes.items()}, width)][::-1]
    return {place: (one + two) / 2 for place, one, two in zip(row, forth, back)}


def middles(rows, neighbours, width):
    """Returns where the middle of each place is: in the end where its neighbours are on average, as far as its row lets it."""
    found = {place: width * (at + 0.5) / len(row) for row in rows for at, place in enumerate(row)}
    for sweep in range(SWEEPS):
        for row in rows if sweep % 2 else rows[::-1]:
            wishes = {place: mean([found[it] for it in neighbours[place]] or [found[place]]) for place in row}
            found.update(spread(row, wishes, width))
    return {place: MARGIN + middle for place, middle in found.items()}


def box(name, x, y, width, is_needed, note=""):
    """Returns a box with a crate's name, over two lines where it is long."""
    fill, line = ("#e8f0fa", 'stroke="#30507c"') if is_needed else ("#fff", 'stroke="#808890" stroke-dasharray="4 3"')
    cuts = [at + 1 for at, letter in enumerate(name) if letter == "_"] if len(name) > 12 else []
    at = min(cuts, key=lambda cut: max(cut, len(name) - cut), default=0)
    texts = [name[:at], name[at:]] if at else [name + note]
    shapes = [f'<rect x="{x:.0f}" y="{y}" width="{width}" height="{BOX_HEIGHT}" rx="5" fill="{fill}" {line}/>']
    for number, text in enumerate(texts):
        down = y + BOX_HEIGHT / 2 + 4 + (number - (len(texts) - 1) / 2) * 14
        shapes.append(f'<text x="{x + width / 2:.0f}" y="{down:.0f}">{escape(text)}</text>')
    return shapes


def chain_path(points):
    """Returns a line that goes down through points, upright at each."""
    path = f"M{points[0][0]:.0f} {points[0][1]:.0f}"
    for (x, y), (to_x, to_y) in zip(points, points[1:]):
        middle = (y + to_y) / 2
        path += f"C{x:.0f} {middle:.0f} {to_x:.0f} {middle:.0f} {to_x:.0f} {to_y:.0f}"
    return path


def picture(crates):
    """Returns the picture as SVG."""
    below = all_below(crates)
    base = max(crates, key=lambda name: sum(1 for it in below.values() if name in it))
    needed = {PROGRAM, *below[PROGRAM]}
    lines = {name: [it for it in found if it != base] for name, found in needed_lines(crates, below).items() if name != base}
    levels = levels_of(lines)
    rows, pairs = rows_of(lines, levels)
    neighbours = {place: [] for row in rows for place in row}
    for upper, lower in pairs:
        neighbours[upper].append(lower)
        neighbours[lower].append(upper)
    rows = ordered(rows, neighbours)
    width = max(sum(place.width() + GAP for place in row) - GAP for row in rows)
    at = middles(rows, neighbours, width)
    top = {place: MARGIN + (len(rows) - 1 - number) * ROW for number, row in enumerate(rows) for place in row}
    drawn = [f'<text x="{MARGIN}" y="{20 + 18 * number}" text-anchor="start">{text}</text>' for number, text in enumerate(LEGEND)]
    for upper, lower in pairs:
        ends = [(at[upper], top[upper] + BOX_HEIGHT), (at[lower], top[lower])]
        passes = [(at[upper], top[upper])] if upper.target else []
        words = 'stroke="#30507c"' if upper.name.split("@")[0] in needed else 'stroke="#a8b0b8" stroke-dasharray="4 3"'
        drawn.append(f'<path d="{chain_path(passes + ends)}" fill="none" {words}/>')
    for row in rows:
        for place in row:
            if not place.target:
                drawn += box(place.name, at[place] - BOX_WIDTH / 2, top[place], BOX_WIDTH, place.name in needed)
    free = sorted(name for name in lines if base not in below[name])
    bottom = MARGIN + len(rows) * ROW
    drawn += box(base, MARGIN, bottom, width, True, f": below all others but {', '.join(free)}" if free else ": below all others")
    width, height = width + 2 * MARGIN, bottom + BOX_HEIGHT + MARGIN
    head = f'<svg xmlns="http://www.w3.org/2000/svg" width="{width}" height="{height}" viewBox="0 0 {width} {height}"'
    title = "<title>Which crate stands on which</title>"
    ground = f'<rect width="{width}" height="{height}" fill="#fff"/>'
    return "\n".join([f'{head} font-family="sans-serif" font-size="13" text-anchor="middle">', title, ground, *drawn, "</svg>"]) + "\n"


def main(words):
    if words and (words[0] != "--check" or len(words) != 2):
        print("usage: architecture_picture.py [--check FILE]", file=sys.stderr)
        return 2
    drawn = picture(lowest_first(crates_below()))
    if not words:
        print(drawn, end="")
        return 0
    try:
        is_same = Path(words[1]).read_text(encoding="utf-8") == drawn
    except (OSError, UnicodeDecodeError) as fault:
        print(f"architecture_picture.py: {fault}", file=sys.stderr)
        return 1
    print(f"{words[1]} is {'' if is_same else 'not '}what crates.txt says")
    return 0 if is_same else 1


if __name__ == "__main__":
    sys.exit(main(sys.argv[1:]))
