#!/usr/bin/env python3
"""Measures how long a release build takes over start documents, and entities with one, that are as hard as the limits
let them be.

usage: measure_documents.py PROGRAM [--rounds N]

Each document or entity fills module 0000 of a carousel on PID 256; the record is `all`, `show`. What the program
writes is compared with what is due. Each is run N times (3), of which the best counts. `processor` is in seconds too,
and says more than `seconds` where other work shares the machine. Status: 0 where all was as due, 1 where a run went
wrong.
"""

import sys
from collections.abc import Iterator
from typing import NamedTuple

from measuring import MOST_BYTES, MOST_NODES, Measured, measure_all, words

from sent_modules import BML, announcement, carousel_sections, sent

PLAIN_BOX = "box 0 0 0 0 8 0 7\n"


class Document(NamedTuple):
    """A document, or an entity, and the lines that are due after its module's line.

    So many DIIs come after it, each with another transactionId; where there are any, module 0001 is announced and
    stays away.
    """

    name: str
    text: str
    lines: str
    info: bytes = BML
    diis: int = 0


def body(inside: str) -> str:
    return f"<bml><body>{inside}</body></bml>"


def filled(front: str, item: str, back: str) -> tuple[str, int]:
    """Returns front, as many items as a document has room for, and back, with the number of items."""
    count = (MOST_BYTES - len(front) - len(back)) // len(item)
    return front + item * count + back, count


def loaded(boxes: str) -> str:
    return f"load /40/0000\nshow 0\n{boxes}"


def refused(fault: str) -> str:
    return f"refuse /40/0000 {fault}\nshow 0\n"


def documents() -> Iterator[Document]:
    text, count = filled("<bml><body><p>", "a", "</p></body></bml>")
    yield Document("text of 1 MB", text, loaded(PLAIN_BOX * 2 + f"text 0 0 0 0 7 24 {'a' * count}\n"))
    text, count = filled("<bml><body><p>", "&amp;", "</p></body></bml>")
    yield Document("references of 1 MB", text, loaded(PLAIN_BOX * 2 + f"text 0 0 0 0 7 24 {'&' * count}\n"))
    text, count = filled("<bml><body><p>&#", "0", "65;</p></body></bml>")
    yield Document("a reference of 1 MB", text, loaded(PLAIN_BOX * 2 + "text 0 0 0 0 7 24 A\n"))
    text, count = filled("<bml><body><p>", "&#1", "</p></body></bml>")
    yield Document("unended references of 1 MB", text, loaded(PLAIN_BOX * 2 + f"text 0 0 0 0 7 24 {'&#1' * count}\n"))
    text, count = filled('<bml><body><p title="', "a", '"/></body></bml>')
    yield Document("attribute of 1 MB", text, loaded(PLAIN_BOX * 2))
    text, count = filled('<bml><body style="', "left:1px;", f'">{"<p/>" * 10_000}</body></bml>')
    yield Document("style of 1 MB above 10,000 p", text, loaded("box 1 0 0 0 8 0 7\n" * 10_001))
    text, count = filled('<bml><body><p style="', "/*", '"/></body></bml>')
    yield Document("comments of 1 MB", text, loaded(PLAIN_BOX * 2))
    attributes = "".join(f' a{number}=""' for number in range(80_000))
    yield Document("80,000 attributes", body(f"<p{attributes}/>"), loaded(PLAIN_BOX * 2))
    yield Document("an attribute twice among 80,000", body(f'<p{attributes} a0=""/>'), refused("Malformed"))
    yield Document("16,384 nodes", body("<p/>" * (MOST_NODES - 2)), loaded(PLAIN_BOX * (MOST_NODES - 1)))
    ids = "".join(f'<p id="n{number % 100}"/>' for number in range(MOST_NODES - 2))
    yield Document("16,384 nodes, 100 ids", body(ids), loaded(PLAIN_BOX * (MOST_NODES - 1)))
    yield Document("16,385 nodes", body("<p/>" * (MOST_NODES - 1)), refused("TooManyNodes"))
    yield Document("200,000 nodes", body("<p/>" * 200_000), refused("TooManyNodes"))
    yield Document("20,000 div, none closed", "<bml><body>" + "<div>" * 20_000, refused("Malformed"))
    yield Document("20,000 div, all closed", body("<div>" * 20_000 + "</div>" * 20_000), refused("TooDeep"))
    text, count = filled("<bml><body>", "<div>", "")
    yield Document("div of 1 MB, none closed", text, refused("Malformed"))
    text, count = filled("<bml><body><!--", "-", "</body></bml>")
    yield Document("comment of 1 MB, not closed", text, refused("Malformed"))
    text, count = filled("<bml><body>", "<!-- -->", "</body></bml>")
    yield Document("comments of 1 MB, closed", text, loaded(PLAIN_BOX))
    text, count = filled("", "<", "")
    yield Document("1 MB of <", text, refused("Malformed"))


def entity(name: str, text: str, lines: str) -> Document:
    return Document(name, text, lines, b"")


NOTHING_LOADED = "show 0\n"
EMPTY_PAGE = "load /40/0000/startup.bml\nshow 0\n"


def several(parts: list[str], boundary: str = "b") -> str:
    """Returns an entity of parts, each its header lines with the empty one and its bytes."""
    lines = [f'Content-Type: multipart/mixed; boundary="{boundary}"', ""]
    for part in parts:
        lines += [f"--{boundary}", part]
    return "\r\n".join([*lines, f"--{boundary}--", ""])


def entities() -> Iterator[Document]:
    page = "Content-Location: startup.bml\r\n\r\n<bml/>"
    parts = [f"Content-Location: {number}\r\n\r\n{'x' * 2000}" for number in range(511)]
    yield entity("512 parts of 2,000 bytes", several([*parts, page]), EMPTY_PAGE)
    yield entity("513 parts", several(["\r\n"] * 512 + [page]), NOTHING_LOADED)
    yield entity("parts of one name", several([page] * 512), EMPTY_PAGE)
    front = several(["\r\n"])[:-9]
    back = several([page])
    back = back[back.index("--b") :]
    for name, item in [
        ("1 MB of delimiters in lines", "x--b\r\n"),
        ("1 MB of delimiters, not ended", "--b-\r\n"),
        ("1 MB of line ends", "\r\n"),
        ("1 MB of CR", "\r"),
    ]:
        text, _ = filled(front + "--b\r\n\r\n", item, "\r\n" + back)
        yield entity(name, text, EMPTY_PAGE)
    text, _ = filled(front, "--b\r\n", back)
    yield entity("1 MB of delimiter lines", text, NOTHING_LOADED)
    text, _ = filled("", "a:b\r\n", "\r\n")
    yield entity("1 MB of header lines", text, NOTHING_LOADED)
    text, _ = filled("Content-Location: startup.bml\r\n\r\n<bml><body><p>", "a", "</p></body></bml>")
    shown = text[text.index("<p>") + 3 : text.index("</p>")]
    yield entity("one part of 1 MB", text, EMPTY_PAGE + PLAIN_BOX * 2 + f"text 0 0 0 0 7 24 {shown}\n")
    long = "b" * 10_000
    near = f"--{long[:-1]}c\r\n" * 90
    yield entity("lines nearly a boundary of 10,000", several(["\r\n" + near, page], long), EMPTY_PAGE)
    links = "Content-Location: startup.bml\r\n\r\n<bml>" + '<link href="/41/0000/x"/>' * 16_000 + "</bml>"
    yield entity("16,000 needs", several([links]), EMPTY_PAGE)


def waiting() -> Iterator[Document]:
    text, _ = filled('<bml><head><link href="/40/0001"/></head><body><p>', "a", "</p></body></bml>")
    yield Document("waiting, 1 MB, 20,000 DIIs", text, NOTHING_LOADED, diis=20_000)
    links = '<link href="/41/0000/x"/>' * 16_000
    for name, text in [
        ("waiting for the first of 16,000", f'<bml><link href="/40/0001"/>{links}</bml>'),
        ("waiting for the last of 16,000", f'<bml>{links}<link href="/40/0001"/></bml>'),
    ]:
        yield Document(name, text, NOTHING_LOADED, diis=20_000)


def sections_of(document: Document) -> list[bytes]:
    """Returns the sections of a document, and the DIIs after it."""
    data = document.text.encode("ascii")
    away = [(1, b"", bytes(10))] if document.diis else []
    modules = [(0, document.info, data)]
    again = (announcement([*modules, *away], 2 + at) for at in range(document.diis))
    return [*carousel_sections(modules, away), *again]


def measured(document: Document) -> Measured:
    """Returns the run of a document."""
    stream, packets = sent(sections_of(document))
    due = f"module 40 0000 01 {len(document.text)}\n{document.lines}end {packets}\n".encode("ascii")
    return Measured(f"{document.name:32} {len(document.text):9,}", stream, b"all\nshow\n", due.__eq__)


def main() -> int:
    runs = map(measured, [*documents(), *entities(), *waiting()])
    return measure_all(*words("measure_documents.py"), f"{'document':32} {'bytes':>9}", runs)


if __name__ == "__main__":
    sys.exit(main())
