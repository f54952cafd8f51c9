#!/usr/bin/env python3
"""Compares display lists that build on earlier ones with those that are made from nothing.

usage: try_displays.py PROGRAM [--seed N] [--pages N] [--first N] [--keep FOLDER]

A case is worked out from the seed (1) and its number: a page of nested elements with a style sheet, inline styles and handlers that write and read
styles and texts and move the focus, or two pages that launch each other; and a record of keys, releases and ticks. There are N cases (1,000), from
--first (1) on. Each is run once with `show` after every item of its record, once with one `show` alone, at a place that chance picks, and once
with one at the end. A `show` changes nothing that is printed later. So what the first run prints between and in its display lists has to be what
the others print there. In them, the values of styles are worked out anew, since nothing was asked for before.

A case that differs is left in FOLDER (differing-displays): `stream.ts`, `record.txt`, and what each run wrote. Printed are the cases, the runs,
their display lists and the boxes in these. Status: 0 where nothing differed, 1 where something did, 2 where nothing could be run.
"""

import argparse
import os
import random
import subprocess
import sys
import tempfile
from pathlib import Path

from places import ROOT  # noqa: F401 (first, so that the others are found)

from journals import keep
from sent_modules import BML, REPLAY, carousel_sections, sent

TAGS = ("div", "p", "p", "span", "a", "input", "object")
CLASSES = ("c", "d", "e")
STATES = ("normalStyle", "focusStyle", "activeStyle")
SCRIPT_NAMES = {
    "color-index": "colorIndex",
    "font-size": "fontSize",
    "visibility": "visibility",
    "left": "left",
    "top": "top",
    "width": "width",
    "background-color-index": "backgroundColorIndex",
    "border-width": "borderWidth",
    "z-index": "zIndex",
    "nav-index": "navIndex",
    "nav-up": "navUp",
    "nav-down": "navDown",
}
# the inherited ones, which are what a display could keep wrongly, come up most
INHERITED = ("color-index", "font-size", "visibility")
KEYS = (1, 2, 3, 4, 18, 18, 19, 21, 22, 23, 24)


def value_of(dice, name):
    if name == "visibility":
        return dice.choice(("visible", "visible", "hidden"))
    if name in ("left", "top", "width", "border-width", "font-size"):
        return f"{dice.randrange(100)}px"
    if name == "z-index":
        return str(dice.randrange(-2, 3))
    return str(dice.randrange(8))


def declarations(dice, most):
    names = [dice.choice(INHERITED) if dice.random() < 0.5 else dice.choice([*SCRIPT_NAMES]) for _ in range(dice.randrange(most + 1))]
    return ";".join(f"{name}:{value_of(dice, name)}" for name in names)


def selector(dice, elements):
    front = dice.choice(("*", dice.choice(TAGS), f".{dice.choice(CLASSES)}", f"#n{dice.randrange(elements)}"))
    return front + dice.choice(("", "", ":focus", ":active"))


def sheet(dice, elements):
    return " ".join(f"{selector(dice, elements)}{{{declarations(dice, 3)}}}" for _ in range(dice.randrange(12)))


class Page:
    """A page that chance makes, and that may launch another one."""

    def __init__(self, dice, other):
        self.dice, self.other = dice, other
        self.elements = dice.choice((3, 8, 20, 60))
        self.made = 0

    def document(self):
        dice = self.dice
        script = "var n = 0;" + "".join(f"function f{number}() {{ n = n + 1; {self.statements()} }}" for number in range(4))
        timer = 'browser.setInterval("f0()", 100, 0);' if dice.random() < 0.3 else ""
        inside = ""
        while self.made < self.elements:
            inside += self.element(1)
        head = f"<style>{sheet(dice, self.elements)}</style><script><![CDATA[{script}{timer}]]></script>"
        style = f"used-key-list:basic data-button;{declarations(dice, 2)}"
        return f'<bml><head>{head}</head><body style="{style}" onload="f1();">{inside}</body></bml>'.encode()

    def element(self, level):
        dice, number = self.dice, self.made
        self.made += 1
        tag, inside = dice.choice(TAGS), ""
        while self.made < self.elements and level < 12 and dice.random() < 0.5:
            inside += self.element(level + 1)
        text = f"t{number}" if dice.random() < 0.6 else ""
        focus = f"nav-index:{dice.randrange(8)};nav-down:{dice.randrange(8)};nav-up:{dice.randrange(8)};" if dice.random() < 0.6 else ""
        attributes = f' id="n{number}" style="{focus}{declarations(dice, 2)}"'
        if dice.random() < 0.5:
            attributes += f' class="{dice.choice(CLASSES)}"'
        if dice.random() < 0.2:
            attributes += f' accesskey="{dice.choice("BRGY")}"'
        for name in ("onkeydown", "onkeyup", "onclick", "onfocus", "onblur"):
            if dice.random() < 0.2:
                attributes += f' {name}="f{dice.randrange(4)}();"'
        return f"<{tag}{attributes}>{text}{inside}</{tag}>"

    def node(self):
        return f'document.getElementById("n{self.dice.randrange(self.elements)}")'

    def style(self):
        return f"{self.node()}.{self.dice.choice(STATES)}"

    def statements(self):
        return " ".join(self.statement() for _ in range(self.dice.randrange(1, 5)))

    def statement(self):
        dice = self.dice
        name = dice.choice(INHERITED) if dice.random() < 0.6 else dice.choice([*SCRIPT_NAMES])
        form = dice.random()
        if form < 0.5:
            return f'{self.style()}.{SCRIPT_NAMES[name]} = "{value_of(dice, name)}";'
        if form < 0.7:
            return f"{self.style()}.{SCRIPT_NAMES[name]} = {self.style()}.{SCRIPT_NAMES[name]};"
        if form < 0.85:
            return f"if ({self.node()}.firstChild != null) {{ {self.node()}.focus(); }}"
        if form < 0.95:
            return f"{self.node()}.{dice.choice(('focus', 'blur'))}();"
        return f'if (n % 3 == 0) {{ browser.launchDocument("{self.other}"); }}'


def stream_of(documents):
    """Returns the packets of a carousel with these documents, the first of which is the start document."""
    return sent(carousel_sections([(number, BML, document) for number, document in enumerate(documents)]))[0]


def record_of(dice):
    """Returns the items of a record after `all`, without any `show`."""
    items = ["all"]
    for _ in range(dice.randrange(1, 12)):
        form = dice.random()
        if form < 0.6:
            items.append(f"key {dice.choice(KEYS)}")
        elif form < 0.8:
            items.append(f"release {dice.choice(KEYS)}")
        else:
            items.append(f"tick {dice.choice((50, 100, 250))}")
    return items


def with_shows(items, places):
    """Returns the record with a `show` after the items at these places."""
    return "".join(item + "\n" + ("show\n" if place in places else "") for place, item in enumerate(items))


def parts_of(output, items, places):
    """Returns what a run wrote: all that is in no display list, and the display lists by the places after which they were asked for."""
    beside, lists, ended = [], {}, iter(sorted(places))
    within = None
    for line in output.split(b"\n"):
        front = line.split(b" ")[0]
        if front == b"show":
            within = lists.setdefault(next(ended, None), [])
        elif front not in (b"box", b"text", b"picture", b"focus"):
            within = None
        (beside if within is None else within).append(line)
    return beside, lists


def asked_for():
    parser = argparse.ArgumentParser(usage="try_displays.py PROGRAM [--seed N] [--pages N] [--first N] [--keep FOLDER]")
    parser.add_argument("program")
    parser.add_argument("--seed", type=int, default=1)
    parser.add_argument("--pages", type=int, default=1000)
    parser.add_argument("--first", type=int, default=1)
    parser.add_argument("--keep", default="differing-displays")
    return parser.parse_args()


class Trial:
    """A case: what it is run over, and what its runs wrote."""

    def __init__(self, program, room, seed, number):
        self.program, self.room = program, room
        dice = random.Random(f"{seed} {number}")
        documents = [Page(dice, "/40/0001").document(), Page(dice, "/40/0000").document()]
        self.stream, self.items = stream_of(documents), record_of(dice)
        every = range(len(self.items))
        self.asked = [set(every), {dice.choice(every)}, {len(self.items) - 1}]
        self.written = []

    def run(self):
        """Returns whether all runs say the same."""
        Path(self.room, "stream.ts").write_bytes(self.stream)
        for places in self.asked:
            Path(self.room, "record.txt").write_text(with_shows(self.items, places))
            keep(self.room, None)
            command = [self.program, *REPLAY]
            ran = subprocess.run(command, cwd=self.room, stdin=subprocess.DEVNULL, stdout=subprocess.PIPE, check=False)
            if ran.returncode:
                return False
            self.written.append(ran.stdout)
        parts = [parts_of(output, self.items, places) for output, places in zip(self.written, self.asked)]
        beside, lists = parts[0]
        self.lists = [found for _, part in parts for found in part.values()]
        same = all(part[0] == beside for part in parts)
        return same and all(lists[place] == found for _, part in parts for place, found in part.items())

    def keep(self, folder):
        os.makedirs(folder, exist_ok=True)
        Path(folder, "stream.ts").write_bytes(self.stream)
        for number, places in enumerate(self.asked):
            Path(folder, f"record-{number}.txt").write_text(with_shows(self.items, places))
        for number, output in enumerate(self.written):
            Path(folder, f"written-{number}.txt").write_bytes(output)


def main():
    asked = asked_for()
    program = os.path.abspath(asked.program)
    if not os.access(program, os.X_OK):
        print(f"try_displays.py: {program} can't be run", file=sys.stderr)
        sys.exit(2)
    differing, runs, lists, boxes = [], 0, 0, 0
    with tempfile.TemporaryDirectory(prefix="displays-") as room:
        for number in range(asked.first, asked.first + asked.pages):
            trial = Trial(program, room, asked.seed, number)
            if not trial.run():
                differing.append(number)
                trial.keep(Path(asked.keep, str(number)))
                print(f"case {number} differs: {asked.keep}/{number}", flush=True)
                continue
            runs += len(trial.written)
            lists += len(trial.lists)
            boxes += sum(line.startswith(b"box ") for found in trial.lists for line in found)
    print(f"{asked.pages:,} cases, {runs:,} runs, {lists:,} display lists, {boxes:,} boxes; {len(differing)} differ")
    sys.exit(1 if differing else 0)


if __name__ == "__main__":
    main()
