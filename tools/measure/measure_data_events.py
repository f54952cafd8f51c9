#!/usr/bin/env python3
"""Measures how long a release build takes over data events that do as much as the limits let them.

usage: measure_data_events.py PROGRAM [--rounds N]

Each DII has another data_event_id than the one before, in turns 0 and 1. What the program writes is compared with what
is due, line by line. Each stream is run N times (3), of which the best counts. `processor` is in seconds too, and says
more than `seconds` where other work shares the machine. Status: 0 where all was as due, 1 where a run went wrong.
"""

import sys
from collections.abc import Iterator, Sequence
from functools import partial

from measuring import Measured, measure_all, with_script, words

from sent_modules import BML, sent
from transport import Module, ddb_section, dii_section

BLOCK_SIZE = 4_000
MOST_ITEMS = 16_000
# So many of those that are subscribed run. More have handlers, but not all: a document has 1 MiB at most.
RUN, WITH_HANDLERS = 256, 1_000


def download_of(number: int) -> int:
    """The downloadId of the DII with a number, whose top four bits are the data_event_id."""
    return (number % 2) << 28 | 1


def announcement(number: int, document: bytes) -> bytes:
    return dii_section(number, download_of(number), BLOCK_SIZE, [Module(0, 1, len(document), BML)])


def blocks(number: int, document: bytes) -> Iterator[bytes]:
    for place, at in enumerate(range(0, len(document), BLOCK_SIZE)):
        yield ddb_section(download_of(number), 0, 1, place, document[at : at + BLOCK_SIZE])


def told(number: int) -> str:
    """The line of the data event with a number, from 1 on."""
    return f"dataevent 40 {(number - 1) % 2} {number % 2}"


def loaded(document: bytes) -> list[str]:
    return [f"module 40 0000 01 {len(document)}", "load /40/0000"]


def without_documents(count: int) -> tuple[list[bytes], list[str]]:
    """Data events over a document that never comes."""
    sections = [announcement(number, b"x") for number in range(count + 1)]
    return sections, [told(number) for number in range(1, count + 1)]


def over_documents(count: int, document: bytes) -> tuple[list[bytes], list[str]]:
    """Data events, each of which ends the document that came in the one before."""
    sections, lines = [], []
    for number in range(count + 1):
        sections += [announcement(number, document), *blocks(number, document)]
        lines += [*([told(number)] if number else []), *loaded(document)]
    return sections, lines


def over_items(count: int, document: bytes, stopped: int) -> tuple[list[bytes], list[str]]:
    """Data events over a document that comes again after each, and of whose handlers so many are stopped."""
    sections, lines = over_documents(count, document)
    stops = ["stop Budget DataEventChanged"] * stopped
    return sections, [line for one in lines for line in ([one, *stops] if one.startswith("dataevent") else [one])]


def with_items(count: int, handler: str) -> bytes:
    """A document with so many items that are subscribed to data events, of which the first have handlers."""

    def item(more: str) -> str:
        return f'<beitem type="DataEventChanged" subscribe="subscribe"{more}/>'

    items = item(f' onoccur="{handler}"') * WITH_HANDLERS + item("") * (count - WITH_HANDLERS)
    return with_script("var n = 0; function f() { while (true) ; }", items).encode("ascii")


def is_due(lines: Sequence[str], packets: int, written: bytes) -> bool:
    return written.decode("ascii").splitlines() == [*lines, f"end {packets}"]


def cases() -> Iterator[Measured]:
    small = with_script("var n = 0;", "<p>-</p>").encode("ascii")
    runs = [
        ("10,000 data events without a document", without_documents(10_000)),
        ("10,000 data events, each ends a document", over_documents(10_000, small)),
        ("a data event over 16,000 items, of which 256 run", over_items(1, with_items(MOST_ITEMS, "n++;"), 0)),
        ("the same, and each takes all its steps", over_items(1, with_items(MOST_ITEMS, "f();"), RUN)),
    ]
    for name, (sections, lines) in runs:
        stream, packets = sent(sections)
        yield Measured(f"{name:52}", stream, b"all\n", partial(is_due, lines, packets))


def main() -> int:
    return measure_all(*words("measure_data_events.py"), f"{'stream':52}", cases())


if __name__ == "__main__":
    sys.exit(main())
