#!/usr/bin/env python3
"""Measures how long a release build takes over pages that act as much as the limits let them.

usage: measure_pages.py PROGRAM [--rounds N]

Module 0000 of a carousel on PID 256 is a document, and the record has keys or ticks after `all`. Some pages have
sections of event messages after the document. What the program writes is compared with what is due: a line for the
module, `load`, as many lines of lost events and stopped handlers as are said beside each, and `end`. Each is run N
times (3), of which the best counts. `processor` is in seconds too, and says more than `seconds` where other work
shares the machine. Status: 0 where all was as due, 1 where a run went wrong.
"""

import sys
from collections.abc import Iterator, Sequence
from functools import partial
from typing import NamedTuple

from measuring import Measured, measure_all, with_script, words

from sent_modules import BML, carousel_sections, sent
from transport import EventMessage, event_message, stream_descriptors_section


Messages = Sequence[EventMessage]  # of a section


class Page(NamedTuple):
    """A document, the lines of the record after `all`, how many lines tell of lost events and of stops, and the
    messages of each section after the document."""

    name: str
    document: str
    record: str
    lost: int
    stopped: int
    messages: Sequence[Messages] = ()


def many_nodes(count: int) -> str:
    """As many elements as that leaves room for, each of which can have the focus."""
    return "".join(
        f'<a style="nav-index:{place % 32768};nav-down:{(place + 1) % count}" onkeydown="n++;"/>'
        for place in range(count)
    )


def with_items(count: int, attributes: str) -> str:
    """A document with so many event items that are subscribed, alike but for their places."""
    item = f'<beitem type="EventMessageFired" subscribe="subscribe"{attributes}/>'
    return with_script("var n = 0;", item * count)


def section_of_messages(count: int, version: int) -> Messages:
    """So many messages of different ids and groups in a version."""
    return tuple(EventMessage(group=number // 256, id=number % 256, version=version) for number in range(count))


def item_pages() -> Iterator[Page]:
    for count in (3_950, 7_900, 15_800):
        items = with_items(count, ' es_ref=""')
        yield Page(
            f"100 sections of 300 messages, {count:,} items for none",
            items,
            "",
            0,
            0,
            (section_of_messages(300, 1),) * 100,
        )
    # Of 300 times 16,000 posts 256 find a place.
    yield Page(
        "a section of 300 messages that fire 16,000 items",
        with_items(16_000, ""),
        "",
        4_799_744,
        0,
        (section_of_messages(300, 1),),
    )
    items = with_items(240, ' onoccur="n++;"')
    versions = tuple(section_of_messages(1, version) for version in range(200))
    yield Page("200 messages that fire 240 items each", items, "", 0, 0, versions)
    items = with_items(1, ' onoccur="n++;"')
    yield Page(
        "1,000 sections of 300 messages that repeat, an item", items, "", 44, 0, (section_of_messages(300, 1),) * 1_000
    )
    timers = "".join('browser.setInterval("f()", 100, 0);' for _ in range(32))
    yield Page(
        "an hour with 32 timers of 100 ms",
        with_script("var n = 0; function f() { n++; } " + timers, ""),
        "tick 3600000\n",
        0,
        0,
    )


def pages() -> Iterator[Page]:
    yield from item_pages()
    two = (
        '<p id="x" style="nav-index:0" onfocus="go(\'y\');">-</p>'
        '<p id="y" style="nav-index:1" onfocus="go(\'x\');">y</p>'
    )
    endless = with_script("function go(i) { document.getElementById(i).focus(); }", two)
    yield Page("10,000 turns of 256 dispatches each", endless, "release 1\n" * 10_000, 0, 0)
    crowd = with_script(
        'function k() { var x = document.getElementById("x"); var y = document.getElementById("y");'
        " for (var i = 0; i < 100; i++) { y.focus(); x.focus(); } }",
        '<p id="x" style="nav-index:0" onkeydown="k();">x</p><p id="y" style="nav-index:1">y</p>',
    )
    yield Page("a key that posts 400 events", crowd, "key 1\n", 145, 0)
    busy = with_script("", '<p style="nav-index:0" onkeydown="while (true) ;">x</p>')
    yield Page("100 keys whose handlers take all their steps", busy, "key 1\n" * 100, 0, 100)
    dates = with_script(
        "function k() { while (true) { var d = new Date(2001, 1, 29, 25); d.getFullYear(); d.getMonth(); d.getDate();"
        " d.getDay(); d.getHours(); d.getMinutes(); d.getSeconds();"
        " browser.subDate(browser.addDate(browser.currentDate(), 1, 5), d, 4); } }",
        '<p style="nav-index:0" onkeydown="k();">x</p>',
    )
    yield Page("100 keys whose handlers call all of Dates", dates, "date 11016 0\n" + "key 1\n" * 100, 0, 100)
    plain = with_script("var n = 0;", many_nodes(2))
    yield Page("100,000 keys over two elements", plain, "key 5\nkey 1\n" * 50_000, 0, 0)
    for count in (1_000, 4_000, 8_000):
        large = with_script("var n = 0;", many_nodes(count))
        yield Page(f"10,000 arrows over {count:,} elements", large, "key 2\n" * 10_000, 0, 0)
    yield Page(
        "100,000 digits over 8,000 elements", with_script("var n = 0;", many_nodes(8_000)), "key 5\n" * 100_000, 0, 0
    )


def sections_of(document: bytes, messages: Sequence[Messages]) -> list[bytes]:
    """Returns the sections of a document as module 0000, and those of the messages."""
    told = [stream_descriptors_section([event_message(it) for it in section]) for section in messages]
    return [*carousel_sections([(0, BML, document)]), *told]


def is_due(page: Page, document: bytes, packets: int, written: bytes) -> bool:
    lines = written.decode("ascii").splitlines()
    first = [f"module 40 0000 01 {len(document)}", "load /40/0000"]
    lost = sum(line.startswith("lost ") for line in lines)
    stopped = sum(line.startswith("stop ") for line in lines)
    told = len(first) + page.lost + page.stopped + 1
    return (
        lines[:2] == first
        and lines[-1] == f"end {packets}"
        and (lost, stopped, len(lines)) == (page.lost, page.stopped, told)
    )


def measured(page: Page) -> Measured:
    """Returns the run of a page."""
    document = page.document.encode("ascii")
    stream, packets = sent(sections_of(document, page.messages))
    return Measured(
        f"{page.name:52}", stream, ("all\n" + page.record).encode("ascii"), partial(is_due, page, document, packets)
    )


def main() -> int:
    return measure_all(*words("measure_pages.py"), f"{'page':52}", map(measured, pages()))


if __name__ == "__main__":
    sys.exit(main())
