#!/usr/bin/env python3
"""Measures how long a release build takes over binary tables that are as hard as the limits let them be.

usage: measure_tables.py PROGRAM [--rounds N] [WORD..]

Modules of bytes come on PID 256, and after them a document as module 0000, whose scripts open them as tables. The
record has `all`, then a key again and again, whose handler looks at cells or searches, and last a key that tells how
often, and `show`. What the program writes is compared with what is due.

`opened` is the run without these keys, in seconds of the processor, with the MiB that it holds. `handler` is what each
of them adds, in milliseconds of the processor, `calls` how often it looks or searches, and `call` what each of these
adds, in microseconds, with the steps of its loop. The last column has the MiB of the whole run. Each is run N times
(3), of which the best counts, within 1 GiB of addresses and a minute of the processor. With --checked, for a program
that `checked_program.py` made, it is within more, and with one such key. With words only the cases are run whose names
have one of them. Status: 0 where all was as due, 1 where a run went wrong.
"""

import argparse
import os
import re
import sys
import tempfile
from collections.abc import Iterator, Sequence
from typing import NamedTuple

from bounded_runs import BoundedRuns
from measuring import MOST_BYTES, with_script

from sent_modules import BML, FILES, OPTIONS, announcement, block_sections, sent
from transport import TYPE_DESCRIPTOR, descriptor

MOST_ROWS = 4_096
PLAIN = descriptor(TYPE_DESCRIPTOR, b"application/octet-stream")
PIECE = 39  # fields of the text that scripts double
TURN, TELL = "key 1\n", "key 2\nshow\n"
FIRST = "var n = 0; var f = '%s';"
HANDLER = (
    "function k() { if (document.currentEvent.keyCode == 1) { %s }"
    " else document.getElementById('t').firstChild.data = 'calls ' + n; }"
)
BODY = '<p id="t" style="left:0px;top:0px;width:960px;height:540px;nav-index:0;" onkeydown="k();">-</p>'


class Case(NamedTuple):
    """The bytes of the modules, the scripts that open them, what a key's handler does, how many such keys there are,
    and whether its steps end it each time."""

    name: str
    modules: Sequence[bytes]
    scripts: Sequence[str]
    handler: str
    keys: int
    is_stopped: bool


class Ran(NamedTuple):
    """The processor seconds and the MiB of a run, how many calls its handlers made, and whether it came to what is
    due."""

    seconds: float
    memory: float
    calls: int
    as_due: bool


def doubled(field: str, times: int) -> list[str]:
    """Scripts that make the structure of 39 such fields, doubled so often. Each has steps of its own, and none could
    make more than 1,600,000 codes."""
    first = FIRST % (f"{field}," * PIECE)
    return [first, *["f = f + f;"] * times, "f = f.substring(0, f.length - 1);"]


def opened(count: int = 1) -> str:
    """A script that opens so many modules, or one of them so often."""
    return "".join(f"var t = browser.openTable('/40/{number:04x}', f);" for number in range(1, count + 1))


def wide(field: str, spelling: bytes, last: bytes, value: str, times: int) -> Case:
    """A row of fields, whose last is looked at again and again."""
    width = PIECE << times
    row = spelling * (width - 1) if field == "S:1V" else bytes(width // 8)
    row = row + last if field == "S:1V" else row[:-1] + last
    loop = f"while (browser.tableCell(t, 0, {width - 1}) == {value}) n++;"
    return Case(f"the last cell of {width:,} fields {field}", [row], [*doubled(field, times), opened()], loop, 20, True)


def searches(name: str, rows: bytes, field: str, wanted: str) -> Case:
    """Searches that find nothing, as many as the steps allow."""
    loop = f"var x = {wanted}; while (browser.tableSearch(t, 0, 0, x, 4096).length == 0) n++;"
    return Case(name, [rows], [FIRST % field, opened()], loop, 1, True)


def searches_of_texts(rows: bytes, wanted: str, count: int) -> Case:
    """The same with so many searches: as many as the steps allow would take most of a minute."""
    loop = f"var x = {wanted}; for (; n < {count}; n++) browser.tableSearch(t, 0, 0, x, 4096);"
    name = f"{count:,} searches of 4,096 texts that differ at the end"
    return Case(name, [rows], [FIRST % "S:1V", opened()], loop, 1, False)


def matches(count: int) -> Case:
    """A handler with so many searches, each of which finds all rows."""
    loop = f"for (var i = 0; i < {count}; i++) if (browser.tableSearch(t, 0, 0, 0, 4096).length == 4096) n++;"
    name = f"{count:,} searches that find 4,096 rows"
    return Case(name, [bytes(MOST_ROWS)], [FIRST % "U:1B", opened()], loop, 1, False)


def sixteen(name: str, data: bytes, scripts: Sequence[str]) -> Case:
    """Sixteen modules, each opened as a table. The handler looks at a cell of the last one."""
    loop = "if (browser.tableRows(16) == browser.tableRows(1) && browser.tableCell(16, 0, 0) == '') n++;"
    return Case(f"16 tables of {name}", [data] * 16, [*scripts, opened(16)], loop, 1, False)


def cases() -> Iterator[Case]:
    for times in (9, 11, 13):
        yield wide("S:1V", b"\x02ab", b"\x02xy", "'xy'", times)
        yield wide("B:1b", b"", b"\x01", "true", times)
    yield searches("searches of 4,096 numbers, none found", bytes(4 * MOST_ROWS), "U:4B", "1")
    yield searches("searches of 4,096 bits, none found", bytes(MOST_ROWS), "B:1b", "true")
    text = b"\xff" + b"a" * 255
    yield searches_of_texts(text * MOST_ROWS, f"'{'a' * 254}b'", 500)
    for count in (50, 100, 200):
        yield matches(count)
    yield sixteen("1 MiB, 4,096 rows of a text and zeros", bytes(MOST_BYTES), [FIRST % ("S:64B," * 3 + "S:64B")])
    many = FIRST % ("S:1V," * 255 + "S:1V")
    yield sixteen("1 MiB, 4,096 rows of 256 empty texts", bytes(MOST_BYTES), [many])
    widest = doubled("S:1V", 13)
    yield sixteen("958,464 bytes, 3 rows of 319,488 empty texts", bytes(3 * (PIECE << 13)), widest)


def document_of(case: Case) -> bytes:
    scripts = "".join(f"<script><![CDATA[{script}]]></script>" for script in case.scripts)
    page = with_script(HANDLER % case.handler, BODY)
    return page.replace("</head>", f"{scripts}</head>").encode("ascii")


class Room:
    """A folder in which a program's runs begin one after the other."""

    def __init__(self, program: str, folder: str, is_checked: bool) -> None:
        self.program, self.folder, self.is_checked = program, folder, is_checked
        self.runs = BoundedRuns(folder, is_checked)

    def run(self, case: Case, document: bytes, packets: int, keys: int) -> Ran:
        with open(f"{self.folder}/{FILES[1]}", "w") as record:
            record.write("all\n" + TURN * keys + TELL)
        words = [self.program, "replay", *OPTIONS, *FILES]
        status, seconds, memory = self.runs.run(words, f"{self.folder}/out", f"{self.folder}/err")
        with open(f"{self.folder}/out", encoding="latin-1") as out:
            lines = out.read().splitlines()
        first = [f"module 40 {number:04x} 01 {len(data)}" for number, data in enumerate(case.modules, 1)]
        first += [f"module 40 0000 01 {len(document)}", "load /40/0000"]
        stops = ["stop Budget keydown"] * (keys if case.is_stopped else 0)
        told = re.search(r"^text .* calls (\d+)$", "\n".join(lines), re.MULTILINE)
        calls = int(told[1]) if told else -1
        begun = len(first) + len(stops)
        as_due = status == 0 and lines[:begun] == first + stops and lines[-1] == f"end {packets}"
        return Ran(seconds, memory / 1024, calls, as_due and (calls > 0) == (keys > 0))

    def best(self, rounds: int, case: Case, document: bytes, packets: int, keys: int) -> Ran:
        return min(self.run(case, document, packets, keys) for _ in range(rounds))


def measured(room: Room, rounds: int, case: Case) -> bool:
    """Prints what a case costs, and returns whether its runs came to what is due."""
    document = document_of(case)
    modules = [(number, PLAIN, data) for number, data in enumerate(case.modules, 1)]
    sections = [announcement([(0, BML, document), *modules])]
    for number, _, data in [*modules, (0, BML, document)]:
        sections += block_sections(number, data)
    stream, packets = sent(sections)
    with open(f"{room.folder}/{FILES[0]}", "wb") as file:
        file.write(stream)
    keys = 1 if room.is_checked else case.keys
    alone = room.best(rounds, case, document, packets, 0)
    whole = room.best(rounds, case, document, packets, keys)
    added = whole.seconds - alone.seconds
    costs = f"{alone.seconds:8.3f} {alone.memory:6.1f}"
    if whole.calls > keys:
        calls = f"{whole.calls // keys:7,} {added / whole.calls * 1e6:9.2f} {whole.memory:6.1f}"
        costs += f" {added / keys * 1e3:9.2f} {calls}"
    as_due = alone.as_due and whole.as_due
    print(f"{case.name:62} {costs}{'' if as_due else '  not what is due'}", flush=True)
    return as_due


def main() -> int:
    parser = argparse.ArgumentParser(usage="measure_tables.py PROGRAM [--rounds N] [--checked] [WORD..]")
    parser.add_argument("program")
    parser.add_argument("words", nargs="*")
    parser.add_argument("--rounds", type=int, default=3)
    parser.add_argument("--checked", action="store_true")
    asked = parser.parse_intermixed_args()
    wanted = [case for case in cases() if not asked.words or any(word in case.name for word in asked.words)]
    print(f"{'case':62} {'opened':>8} {'MiB':>6} {'handler':>9} {'calls':>7} {'call':>9} {'MiB':>6}")
    with tempfile.TemporaryDirectory(prefix="measure-") as folder:
        room = Room(os.path.abspath(asked.program), folder, asked.checked)
        well = [measured(room, max(1, asked.rounds), case) for case in wanted]
        room.runs.end()
    return 0 if all(well) else 1


if __name__ == "__main__":
    sys.exit(main())
