#!/usr/bin/env python3
"""Measures how long a release build takes over streams in which each section changes as much as the limits let it.

usage: measure_changes.py PROGRAM [--rounds N]

What the program writes at the end is compared with what is due. Each stream is run N times (3), of which the best
counts. `each` is in microseconds of the processor for one such section. Status: 0 where all was as due, 1 where a run
went wrong.
"""

import sys
from collections.abc import Iterator

from measuring import MOST_BYTES, replayed, words

from sent_modules import DATA_PID, OPTIONS
from transport import (
    DATA_STREAM,
    ElementaryStream,
    Module,
    ddb_section,
    dii_section,
    packets_of_sections,
    pat_section,
    pmt_section,
)

Sections = Iterator[tuple[int, bytes]]  # each with its PID
MAP_PID = 496
MOST_MODULES = 32  # of so many bytes
MOST_ENTRIES = 400


def maps(count: int) -> Sections:
    """PMTs with 16 components, and between them such as have one other."""
    full = [ElementaryStream(DATA_STREAM, DATA_PID + place, 0x40 + place) for place in range(16)]
    other = [ElementaryStream(DATA_STREAM, 0x200, 0x80)]
    yield 0, pat_section([(1, MAP_PID)])
    for number in range(count):
        yield MAP_PID, pmt_section(1, other if number % 2 else full)


def announced(count: int, modules: int, size: int) -> Sections:
    """DIIs that announce so many modules, each in another version than before."""
    for number in range(count):
        entries = [Module(module, number % 256, size) for module in range(modules)]
        yield DATA_PID, dii_section(number, 1, 4000, entries)


def begun(count: int) -> Sections:
    """DIIs that announce 32 MiB anew, and after each for each of its modules one block from near its end."""
    for number in range(count):
        entries = [Module(module, number % 256, MOST_BYTES) for module in range(MOST_MODULES)]
        yield DATA_PID, dii_section(number, 1, 17, entries)
        for module in range(MOST_MODULES):
            yield DATA_PID, ddb_section(1, module, number % 256, 60_000, b"x" * 17)


# Each with its sections, the number of those that change much, and the words after `replay`.
STREAMS: list[tuple[str, Sections, int, list[str]]] = [
    ("PMTs, 16 components and another", maps(2_000), 2_000, []),
    ("DIIs, 32 modules of 1 MiB", announced(500, MOST_MODULES, MOST_BYTES), 500, OPTIONS),
    ("the same with one block of each", begun(100), 100, OPTIONS),
    ("DIIs, 400 modules of 1,000 bytes", announced(1_000, MOST_ENTRIES, 1_000), 1_000, OPTIONS),
]


def main() -> int:
    program, rounds = words("measure_changes.py")
    wrong = 0
    print(f"{'stream':34} {'bytes':>10} {'processor':>10} {'each':>8}")
    for name, sections, count, options in STREAMS:
        stream, packets = packets_of_sections(sections)
        ran, _, processor = replayed(program, options, stream, b"all\n", rounds)
        as_due = ran.returncode == 0 and ran.stdout == f"end {packets}\n".encode("ascii")
        wrong += not as_due
        each = processor / count * 1e6
        print(f"{name:34} {len(stream):10,} {processor:10.3f} {each:8.0f}{'' if as_due else '  not what is due'}")
    return 1 if wrong else 0


if __name__ == "__main__":
    sys.exit(main())
