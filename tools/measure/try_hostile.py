#!/usr/bin/env python3
"""Runs a program over inputs that are as hostile as chance makes them, and tells what came of them.

usage: try_hostile.py PROGRAM [--seed N] [--minutes M] [--cases N] [--kind KIND..] [--first N] [--keep FOLDER] [--keep-all] [--checked]

The kinds are `streams`, `entities`, `documents`, `styles`, `scripts`, `records` and `areas`, which are kept: those of the examples and rows, mutated;
others that are made by their grammars; and some at the limits of docs/FORMATS.md. A case is worked out from the seed (1), its kind, its number, and the
examples and rows as they are. Each kind has N cases (3,000), from --first (1) on; they take turns, and end after M minutes (10). Each run begins with nothing kept, but for areas.
It has at most 1 GiB of addresses and 60 seconds of the processor, and goes well if

- it ends by itself, with status 0, or with 2 where a line of its record is bad, or with 7 where what is kept has another length than an area
- or it is stopped at its bound of time, and handlers that took all their steps have used up this time: half a second at most for each that a line tells of
- what is kept after it is an area, or is as it was before
- it writes to standard error what belongs to this status, and nothing else
- each line that it writes is whole, has a form that README.md tells, and stands where it may
- at status 0 `end` is its last line, with as many packets as the record takes
- it writes the line that is due, where the case is at a limit and has one

A case that goes wrong is left in FOLDER (hostile-cases): `stream.ts`, `record.txt`, `args`, what is kept before it, what was written, and in `told` what is wrong. So is
one that takes more than 2 seconds of the processor, or that ends with `no memory`; both are told, and go well. With --keep-all
each case is left there. With --checked the program is one that `checked_program.py` compiled, which stops where a check of its own fails: it has as
many addresses as it asks for and 280 seconds, and more than 20 seconds are told. Printed are for each kind the cases, their statuses, the processor seconds, the greatest resident memory,
and how many lines of each form were written. Status: 0 where all went well, 1 where one went wrong, 2 where nothing could be run.
"""

import argparse
import collections
import os
import random
import re
import signal
import statistics
import sys
import tempfile
import time
from pathlib import Path
from typing import NamedTuple

from bounded_runs import BoundedRuns
from hostile_areas import EARLIER_AREA_SIZE, area_case
from hostile_streams import stream_case
from hostile_texts import document_case, entity_case, record_case, script_case, style_case

from journals import AREA_SIZE, keep, kept_in
from line_rows import bad_line_told
from recordings import cut
from transport import PACKET_SIZE

KINDS = {
    "streams": stream_case,
    "entities": entity_case,
    "documents": document_case,
    "styles": style_case,
    "scripts": script_case,
    "records": record_case,
    "areas": area_case,
}
TOLD_PROCESSOR, TOLD_CHECKED = 2.0, 20.0  # seconds; more is told
HANDLER, CHECKED_HANDLER = 0.5, 10  # seconds, at most, of a handler that takes all its steps
NO_AREA, NO_MEMORY = 7, 9

# What a record has

MOST_LINE = 128
ITEMS = {
    b"all": None,
    b"show": None,
    b"packets": range(1, 1 << 32),
    b"key": (*range(1, 15), *range(18, 25)),
    b"release": (*range(1, 15), *range(18, 25)),
    b"tick": range(1, 3_600_001),
    b"random": range(1 << 32),
}

# What a line of the output has

WHOLE, PLUS = rb"-?(?:0|[1-9][0-9]*)", rb"(?:0|[1-9][0-9]*)"
BYTES, WORD = rb"(?:[^\x00-\x1f%\x7f]|%(?:[01][0-9A-F]|25|7F))*", rb"(?:[^\x00-\x20%\x7f]|%(?:[01][0-9A-F]|20|25|7F))+"
MODULE, PATH, PLACE = rb"[0-9a-f]{2} [0-9a-f]{4}", rb"/[0-9a-f]{2}/[0-9a-f]{4}(?:/%b)?" % WORD, rb"%b %b %b %b" % (WHOLE, WHOLE, PLUS, PLUS)
ITEM_EVENTS = rb"EventMessageFired|ModuleUpdated|ModuleLocked|DataButtonPressed|DataEventChanged"
FORMS = {
    b"module": rb"%b [0-9a-f]{2} %b" % (MODULE, PLUS),
    b"skip": rb"%b (?:compressed|large)" % MODULE,
    b"gone": MODULE,
    b"dataevent": rb"40 (?:[0-9]|1[0-5]) (?:[0-9]|1[0-5])",
    b"load": PATH,
    b"refuse": rb"%b (?:Malformed|WrongRoot|TooDeep|TooManyNodes)" % PATH,
    b"badscript": rb"%b [1-9][0-9]*" % PATH,
    b"stop": rb"(?:Budget|Depth|NotCallable|NotObject|Unresolved) (?:script|load|unload|focus|blur|click|keydown|keyup|timer|%b)" % ITEM_EVENTS,
    b"lost": rb"(?:load|unload|focus|blur|click|keydown|keyup|default|timer|%b)" % ITEM_EVENTS,
    b"launch": PATH,
    b"sound": PLUS,
    b"kept": rb"nvram://~/(?:[0-9]|[1-3][0-9]|4[0-7]) (?:[1-9]|[1-5][0-9]|6[0-4])",
    b"show": PLUS,
    b"box": rb"%b %b %b %b" % (PLACE, PLUS, PLUS, PLUS),
    b"text": rb"%b %b %b %b" % (PLACE, PLUS, PLUS, BYTES),
    b"picture": rb"%b %b %b" % (PLACE, WORD, WORD),
    b"focus": PLACE,
    b"end": PLUS,
}
FORM = re.compile(rb"|".join(rb"(?:%b %b)" % form for form in FORMS.items()))
# The lines after which these may stand.
BEHIND = {
    b"box": {b"show", b"box", b"text", b"picture"},
    b"text": {b"box", b"text", b"picture"},
    b"picture": {b"box", b"text", b"picture"},
    b"focus": {b"show", b"box", b"text", b"picture"},
}


class Ran(NamedTuple):
    """How a case ended, what it took, what it wrote and what is wrong."""

    number: int
    status: int
    processor: float
    memory: int
    stdout: bytes
    stderr: bytes
    faults: list[str]

    def stopped(self):
        """How many handlers took all their steps, as its lines tell."""
        return self.stdout.count(b"\nstop Budget ")

    def is_paid(self, is_checked):
        """Whether it was stopped at its bound of time, and its handlers have used up this time; in a build with checks each takes longer."""
        most = CHECKED_HANDLER if is_checked else HANDLER
        return self.status in (-signal.SIGKILL, -signal.SIGXCPU) and self.processor <= most * self.stopped()


def item_of(line):
    """Returns the item of a line of a record and its number, which is None where it has none; None where the line asks for nothing, and
    False where it is bad."""
    fields = re.split(rb"[ \t]+", line.strip(b" \t"))
    if len(line) > MOST_LINE:
        return False
    if fields[0] == b"" or fields[0].startswith(b"#"):
        return None
    numbers = ITEMS.get(fields[0], False)
    if numbers is False or len(fields) != (1 if numbers is None else 2):
        return False
    if numbers is None:
        return fields[0], None
    if not re.fullmatch(rb"[0-9]{1,10}", fields[1]) or int(fields[1]) not in numbers:
        return False
    return fields[0], int(fields[1])


def read_record(record, packets):
    """Returns how many of so many packets a record takes, and the number of its first bad line, or None."""
    taken = 0
    *lines, last = record.split(b"\n")
    lines = [line.removesuffix(b"\r") for line in lines] + [last]
    for number, line in enumerate(lines, 1):
        item = item_of(line)
        if item is False:
            return taken, number
        if item and item[0] == b"all":
            taken = packets
        elif item and item[0] == b"packets":
            taken = min(packets, taken + item[1])
    return taken, None


def faults_of_lines(lines):
    """Yields what is wrong with the lines of an output."""
    before = b""
    for number, line in enumerate(lines, 1):
        name = line.split(b" ", 1)[0]
        if not FORM.fullmatch(line):
            yield f"line {number} has no known form: {line[:100]!r}"
        elif before not in BEHIND.get(name, {before}) or before == b"end":
            yield f"line {number} stands where it may not: {line[:100]!r}"
        before = name


def is_bad_line_told(stderr, record, number):
    """Whether standard error has the status of a bad line, and what stands in it after the name of the record, which may be a whole path."""
    status, shown = bad_line_told(record, number).splitlines(keepends=True)
    return stderr.startswith(status) and stderr.endswith(shown) and stderr.count(b"\n") == 2


def faults_of(case, before, status, stdout, stderr, kept):
    """Yields what is wrong with a run, which began with what was kept before and left this kept."""
    taken, bad_line = read_record(case.record, len(cut(case.stream, PACKET_SIZE, True)[0]))
    is_no_area = before is not None and len(before) not in (0, EARLIER_AREA_SIZE, AREA_SIZE)
    told = {0: b"", NO_AREA: b"bad area length %d\n" % len(before or b""), NO_MEMORY: b"no memory\n"}
    if kept != before and (is_no_area or kept is None or len(kept) != AREA_SIZE):
        yield f"{len(kept or b'')} bytes are kept"
    if is_no_area and stdout:
        yield "it writes lines, though what is kept is no area"
    if status not in (NO_MEMORY, NO_AREA if is_no_area else 2 if bad_line else 0):
        yield f"the status is {status}" if status >= 0 else f"it was stopped by signal {-status}"
    if status in told and stderr != told[status] or status == 2 and not is_bad_line_told(stderr, case.record, bad_line or 1):
        yield f"standard error has {stderr[:100]!r}"
    *lines, rest = stdout.split(b"\n")
    if rest:
        yield f"the last line has no end: {rest[:100]!r}"
    yield from faults_of_lines(lines)
    if (lines[-1:] == [b"end %d" % taken]) != (status == 0):
        yield f"the last line is {lines[-1][:100] if lines else b''!r}, and {taken} packets were there to take"
    if case.due and status == 0 and case.due not in lines:
        yield f"there is no line {case.due!r}"


class Trial:
    """A program, the room for its files, and what came of its cases so far."""

    def __init__(self, program, asked, room):
        self.program = program
        self.asked = asked
        self.room = room
        self.runs = BoundedRuns(room, asked.checked)
        self.most = TOLD_CHECKED if asked.checked else TOLD_PROCESSOR
        self.ran = {kind: [] for kind in asked.kind}
        self.words = {kind: collections.Counter() for kind in asked.kind}

    def files(self, folder):
        return [os.path.join(folder, name) for name in ("stream.ts", "record.txt", "stdout", "stderr")]

    def run(self, kind, number):
        """Runs a case, and keeps what it came to."""
        case = KINDS[kind](random.Random(f"{self.asked.seed} {kind} {number}"))
        stream, record, stdout, stderr = self.files(self.room)
        Path(stream).write_bytes(case.stream)
        Path(record).write_bytes(case.record)
        keep(self.room, None)
        for name, content in (case.files or {}).items():
            Path(self.room, name).write_bytes(content)
        before = kept_in(self.room)
        status, processor, memory = self.runs.run([self.program, "replay", *case.options, stream, record], stdout, stderr)
        written, error = Path(stdout).read_bytes(), Path(stderr).read_bytes()
        faults = list(faults_of(case, before, status, written, error, kept_in(self.room)))
        self.words[kind].update(line.split(b" ", 1)[0].decode("ascii", "replace") for line in written.split(b"\n")[:-1])
        ran = Ran(number, status, processor, memory, written, error, faults)
        ran = ran._replace(faults=[]) if ran.is_paid(self.asked.checked) else ran
        if ran.faults or processor > self.most or status == NO_MEMORY or self.asked.keep_all:
            self.keep(kind, case, ran)
        self.ran[kind].append(ran._replace(stdout=b"", stderr=b""))

    def keep(self, kind, case, ran):
        """Leaves a case in the folder that was asked for, and tells of it."""
        folder = Path(self.asked.keep) / f"{kind}-{self.asked.seed}-{ran.number}"
        folder.mkdir(parents=True, exist_ok=True)
        cost = f"{ran.processor:.2f} seconds of the processor, {ran.memory / 1024:.0f} MiB"
        told = ran.faults or [f"{cost}, status {ran.status}, {ran.stopped():,} handlers took all their steps"]
        for path, data in zip(self.files(folder), (case.stream, case.record, ran.stdout, ran.stderr)):
            Path(path).write_bytes(data)
        for name, content in (case.files or {}).items():
            (folder / name).write_bytes(content)
        (folder / "args").write_text(" ".join(["replay", *case.options, "stream.ts", "record.txt"]) + "\n")
        (folder / "told").write_text("\n".join([*told, ""]))
        if not self.asked.keep_all or ran.faults:
            print(f"{'WRONG' if ran.faults else 'told '} {folder}: {told[0]}", flush=True)

    def report(self, kind):
        """Prints what came of the cases of a kind, and returns how many went wrong."""
        ran = self.ran[kind]
        if not ran:
            print(f"{kind:10} no case")
            return 0
        wrong = sum(bool(it.faults) for it in ran)
        statuses = ", ".join(f"{count:,} of status {status}" for status, count in sorted(collections.Counter(it.status for it in ran).items()))
        slowest, largest = max(ran, key=lambda it: it.processor), max(ran, key=lambda it: it.memory)
        print(f"{kind:10} {len(ran):,} cases: {statuses}; {wrong:,} went wrong")
        print(f"{'':10} {statistics.median(it.processor for it in ran):.4f} seconds of the processor in the median,", end=" ")
        print(f"{slowest.processor:.3f} in case {slowest.number}; {largest.memory / 1024:.1f} MiB in case {largest.number}")
        print(f"{'':10} lines: {', '.join(f'{word} {count:,}' for word, count in self.words[kind].most_common())}")
        return wrong


def asked_for():
    """Returns what the command line asks for."""
    parser = argparse.ArgumentParser(usage=__doc__.split("\n\n")[1].removeprefix("usage: "))
    parser.add_argument("program")
    parser.add_argument("--seed", type=int, default=1)
    parser.add_argument("--minutes", type=float, default=10)
    parser.add_argument("--cases", type=int, default=3_000)
    parser.add_argument("--kind", nargs="+", choices=KINDS, default=list(KINDS))
    parser.add_argument("--first", type=int, default=1)
    parser.add_argument("--keep", default="hostile-cases")
    parser.add_argument("--keep-all", action="store_true")
    parser.add_argument("--checked", action="store_true")
    return parser.parse_args()


def main():
    asked = asked_for()
    program = os.path.abspath(asked.program)
    if not (os.path.isfile(program) and os.access(program, os.X_OK)):
        print(f"try_hostile.py: {asked.program} is no program: build it first", file=sys.stderr)
        return 2
    begin = time.monotonic()
    with tempfile.TemporaryDirectory(prefix="hostile-") as room:
        trial = Trial(program, asked, room)
        for number in range(asked.first, asked.first + asked.cases):
            for kind in asked.kind:
                if time.monotonic() - begin < 60 * asked.minutes:
                    trial.run(kind, number)
        trial.runs.end()
    print(f"seed {asked.seed}, from case {asked.first} on, {time.monotonic() - begin:.0f} seconds by the clock")
    return 1 if sum([trial.report(kind) for kind in asked.kind]) else 0


if __name__ == "__main__":
    sys.exit(main())
