#!/usr/bin/env python3
"""Measures how long a release build takes over display lists that follow each other, and over documents that launch
each other.

usage: measure_displays.py PROGRAM [--rounds N]

Module 0000 of a carousel on PID 256 is the start document, and module 0001 another one in some cases. The record has
`all`, and then the same lines again and again: a key whose handler changes something, and `show` in most. Each case
is run with so many repetitions and with none; `each` is the difference of their processor seconds by the repetitions,
in milliseconds. Each is run N times (3), of which the best counts. Status: 0 where each run ended well and wrote as
many display lists and loads as are due, else 1.
"""

import subprocess
import sys
from collections.abc import Iterator, Sequence
from typing import NamedTuple

from measuring import MOST_BYTES, MOST_NODES, replayed, with_script, words

from sent_modules import BML, OPTIONS, carousel_sections, sent


class Case(NamedTuple):
    """The documents, the lines of the record that are repeated, how often, and how many display lists and loads each
    repetition gives."""

    name: str
    documents: Sequence[bytes]
    lines: str
    times: int
    shows: int
    loads: int


def document(script: str, body: str) -> bytes:
    return with_script(script, body).encode("ascii")


def boxes(handler: str) -> str:
    """As many elements as there is room for; the first has the focus and this handler, and the second can have it,
    too."""
    first = f'<p id="x" style="nav-index:0;nav-down:1" onkeydown="{handler}">x</p>'
    second = f'<p id="y" style="nav-index:1;nav-down:0" onkeydown="{handler}">y</p>'
    return first + second + "<p/>" * (MOST_NODES - 10)


def changed(statement: str) -> bytes:
    return document(
        f"var n = 0; var x = document.getElementById('x'); function k() {{ n++; {statement} }}", boxes("k();")
    )


def launching(other: str, size: int) -> bytes:
    """A document of that many bytes, whose key launches another one."""
    launch = f"browser.launchDocument('/40/{other}');"
    front = document("", f'<p id="x" style="nav-index:0" onkeydown="{launch}">x</p><p>%</p>')
    return front.replace(b"%", b"t" * (size - len(front)))


def one_text(size: int) -> bytes:
    """A document of that many bytes with one text, whose characters are as high as may be, in a box without a width."""
    front, end = b'<bml><body><p style="font-size:32767px">', b"</p></body></bml>"
    return front + b"t" * (size - len(front) - len(end)) + end


def inputs(count: int) -> bytes:
    """A document of that many nodes, each but two of which is an input with a text, in a box without a width."""
    item = '<input value="%"/>'.replace("%", "t" * 46)
    return f"<bml><body>{item * (count - 2)}</body></bml>".encode("ascii")


def cases() -> Iterator[Case]:
    yield Case("show again, nothing changed", (changed(""),), "show\n", 20, 1, 0)
    yield Case(
        "a colour written, and show", (changed("x.normalStyle.colorIndex = n % 8;"),), "key 19\nshow\n", 20, 1, 0
    )
    yield Case("a text written, and show", (changed("x.firstChild.data = n;"),), "key 19\nshow\n", 20, 1, 0)
    yield Case("the focus moves, and show", (changed(""),), "key 2\nshow\n", 20, 1, 0)
    body = "document.getElementById('x').parentNode"
    turns = f"var b = {body}.normalStyle; var s = x.normalStyle; while (true) {{ b.colorIndex = 1; s.colorIndex; }}"
    yield Case("the body's colour written, one in it read, in turns", (changed(turns),), "key 19\n", 5, 0, 0)
    for size in (MOST_BYTES // 2, MOST_BYTES):
        yield Case(f"rows, one text, {size:,} bytes, no width", (one_text(size),), "rows 64 right\n", 2, 1, 0)
    for count in (MOST_NODES // 2, MOST_NODES):
        yield Case(f"rows, an input in {count:,} nodes but two", (inputs(count),), "rows 64 right\n", 2, 1, 0)
    two = (launching("0001", 1_000_000), launching("0000", 1_000_000))
    yield Case("two documents of 1 MB that launch each other", two, "key 19\n", 200, 0, 1)
    many = tuple(
        document(
            "",
            f'<p id="x" style="nav-index:0" onkeydown="browser.launchDocument(\'/40/{it}\');">x</p>'
            + "<p/>" * (MOST_NODES - 8),
        )
        for it in ("0001", "0000")
    )
    yield Case("two documents of 16,384 nodes that launch each other", many, "key 19\n", 200, 0, 1)


def stream_of(documents: Sequence[bytes]) -> bytes:
    """Returns the packets of a carousel with these documents: the start document comes last."""
    modules = [(number, BML, text) for number, text in enumerate(documents)]
    return sent(carousel_sections(modules[::-1]))[0]


def is_due(case: Case, count: int, ran: subprocess.CompletedProcess[bytes]) -> bool:
    lines = ran.stdout.split(b"\n")
    shows, loads = (sum(line.startswith(front) for line in lines) for front in (b"show ", b"load "))
    return ran.returncode == 0 and (shows, loads) == (case.shows * count, 1 + case.loads * count)


def main() -> int:
    program, rounds = words("measure_displays.py")
    faults = 0
    print(f"{'case':54} {'first':>7} {'all':>8} {'each, ms':>9}")
    for case in cases():
        stream, taken, well = stream_of(case.documents), [], True
        for count in (0, case.times):
            record = ("all\n" + case.lines * count).encode("ascii")
            ran, _, processor = replayed(program, OPTIONS, stream, record, rounds)
            well = well and is_due(case, count, ran)
            taken.append(processor)
        faults += not well
        each = (taken[1] - taken[0]) / case.times * 1000
        print(f"{case.name:54} {taken[0]:7.3f} {taken[1]:8.3f} {each:9.3f}{'' if well else '  not as due'}")
    return 1 if faults else 0


if __name__ == "__main__":
    sys.exit(main())
