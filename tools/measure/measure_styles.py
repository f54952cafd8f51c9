#!/usr/bin/env python3
"""Measures how long a release build takes over style sheets that are as hard as the limits let them be.

usage: measure_styles.py PROGRAM [--rounds N]

Module 0000 of a carousel on PID 256 is a document, and module 0001, which comes first, a style sheet that it links;
the record is `all`, `show`. What the program writes is compared with what is due. Each is run N times (3), of which
the best counts. `processor` is in seconds too, and says more than `seconds` where other work shares the machine.
Status: 0 where all was as due, 1 where a run went wrong.
"""

import sys
from collections.abc import Iterator
from typing import NamedTuple

from measuring import MOST_BYTES, MOST_NODES, Measured, measure_all, repeated, words

from sent_modules import BML, CSS, carousel_sections, sent

PLAIN_BOX = "box 0 0 0 0 8 0 7\n"
MOVED_BOX = "box 1 0 0 0 8 0 7\n"
TWICE_MOVED_BOX = "box 2 0 0 0 8 0 7\n"
DOCUMENT, SHEET = 0, 1
# one of each property, the first of which moves a box
DECLARATIONS = (
    "left:1px top:0 width:0 height:0 visibility:visible z-index:0 "
    "nav-index:none nav-up:none nav-down:none nav-left:none nav-right:none "
    "used-key-list:none color-index:7 background-color-index:8 border-width:0 border-color-index:7 font-size:24px"
).split()


class Styled(NamedTuple):
    """A sheet, the inside of a body, and the lines that are due after that of the load."""

    name: str
    sheet: str
    inside: str
    lines: str


def numbered(count: int, form: str) -> str:
    return "".join(form.format(number) for number in range(count))


def one_paragraph(name: str, sheet: str, lines: str = PLAIN_BOX * 2) -> Styled:
    return Styled(name, sheet, "<p/>", lines)


def texts() -> Iterator[Styled]:
    for item in ["{", "}", "@", "@{", "@;", "/*", "/*/", "p{", "p{;", "a,", "left:", ":", " ", "\\", '"']:
        yield one_paragraph(f"1 MB of {item}", repeated(item))
    selectors = MOST_BYTES // 2 - 8
    yield one_paragraph("one list of 524,280 selectors", "a," * selectors + "p{left:1px}", PLAIN_BOX + MOVED_BOX)
    yield one_paragraph(
        "260,000 selectors, 80,000 declarations",
        "a," * 260_000 + "p{" + "top:0;" * 80_000 + "left:1px}",
        PLAIN_BOX + MOVED_BOX,
    )
    different = ",".join(f"t{number:x}" for number in range(140_000))
    yield one_paragraph("140,000 selectors that differ", different + ",p{left:1px}", PLAIN_BOX + MOVED_BOX)
    yield one_paragraph("a selector of 1 MB", "p" * (MOST_BYTES - 20) + "{left:1px}")
    yield one_paragraph("a declaration of 1 MB", "p{left:" + "0" * (MOST_BYTES - 20) + "1px}", PLAIN_BOX + MOVED_BOX)


def long_chains() -> str:
    """Rules of which each gives something that the later ones don't, for all selectors that match a `p` of the
    classes a and b."""
    marked = [name + state for name in ["*", "p", ".a", ".b", "p.a", "p.b"] for state in ["", ":focus", ":active"]]
    counts = range(len(DECLARATIONS), 0, -1)
    return "".join(f"{','.join(marked)}{{{';'.join(DECLARATIONS[:count])}}}" for count in counts)


def nodes() -> Iterator[Styled]:
    rest = MOST_NODES - 4  # beside bml, head, link and body
    plain = "<p/>" * rest
    boxes = PLAIN_BOX + MOVED_BOX * rest
    for name, form in [
        ("tags", "t{0:x}{{left:2px}}"),
        ("classes", ".c{0:x}{{left:2px}}"),
        ("ids", "#i{0:x}{{left:2px}}"),
    ]:
        yield Styled(
            f"50,000 rules of other {name}, 16,384 nodes", numbered(50_000, form) + "p{left:1px}", plain, boxes
        )
    classes = numbered(rest, '<p class="c{0:x}"/>')
    yield Styled("50,000 classes, each node with one", numbered(50_000, ".c{0:x}{{left:1px}}"), classes, boxes)
    ids = numbered(rest, '<p id="i{0:x}"/>')
    yield Styled("50,000 ids, each node with one", numbered(50_000, "#i{0:x}{{left:1px}}"), ids, boxes)
    yield Styled("each rule matches each node", repeated("p{left:1px}"), plain, boxes)
    sets = "".join(f"p{{{name}}}" for name in ["top:0", "color-index:7", "left:1px", "z-index:0", "*:focus"])
    yield Styled("each rule matches each node, in turns", repeated(sets), plain, boxes)
    yield Styled(
        "one list of 524,280 selectors that all match", "p," * (MOST_BYTES // 2 - 8) + "p{left:1px}", plain, boxes
    )
    yield Styled("174,700 declarations in one rule", "p{" + "top:0;" * 174_700 + "left:1px}", plain, boxes)
    selectors = ",".join(f"t{number:x}" for number in range(140_000))
    yield Styled(
        "140,000 selectors, of which the last matches", selectors + ",p{" + ";".join(DECLARATIONS) + "}", plain, boxes
    )
    yield Styled(
        "17 rules in each of 18 chains", long_chains(), '<p class="a b"/>' * rest, MOVED_BOX + TWICE_MOVED_BOX * rest
    )
    again = f'<p class="{"a b " * 250_000}"/>'
    yield Styled(
        "17 rules in each of 18 chains, a class 250,000 times", long_chains(), again, MOVED_BOX + TWICE_MOVED_BOX
    )
    tag = "t" * 300_000
    tagged = "".join(f"{tag if number == 0 else 'p'}.c{number:x}{{top:0}}" for number in range(50_000))
    named = " ".join(f"c{number:x}" for number in range(100_000))
    yield Styled("a tag of 300,000 letters and 100,000 classes", tagged, f'<{tag} class="{named}"/>', PLAIN_BOX)
    many = " ".join(f"c{number:x}" for number in range(100_000))
    around = f'<p class="{many}">{"<p/>" * (rest - 1)}</p>'
    yield Styled(
        "a node of 100,000 classes round all others",
        numbered(100_000, ".c{0:x}{{top:0}}")[: MOST_BYTES // 12 * 12],
        around,
        PLAIN_BOX * (rest + 1),
    )
    count = (rest - 61) // 2
    deep = "<p>" * 61 + "<a>x</a>" * count + "</p>" * 61
    yield Styled("texts in elements at level 64", "", deep, PLAIN_BOX * 62 + "text 0 0 0 0 7 24 x\n" * count)
    levels = numbered(rest, '<p style="z-index:{0}"/>')
    yield Styled("16,380 levels", "", levels, PLAIN_BOX * (rest + 1))
    falling = "".join(f'<p style="z-index:-{number}"/>' for number in range(1, rest + 1))
    yield Styled("16,380 levels that fall", "", falling, PLAIN_BOX * (rest + 1))


def document_of(styled: Styled) -> str:
    return f'<bml><head><link href="/40/0001"/></head><body>{styled.inside}</body></bml>'


def measured(styled: Styled) -> Measured:
    """Returns the run of a sheet and the document that links it: the sheet's blocks come first."""
    document, sheet = document_of(styled).encode("ascii"), styled.sheet.encode("ascii")
    stream, packets = sent(carousel_sections([(SHEET, CSS, sheet), (DOCUMENT, BML, document)]))
    modules = f"module 40 0001 01 {len(sheet)}\nmodule 40 0000 01 {len(document)}\n"
    due = f"{modules}load /40/0000\nshow 0\n{styled.lines}end {packets}\n".encode("ascii")
    return Measured(f"{styled.name:44} {len(sheet):9,} {len(document):9,}", stream, b"all\nshow\n", due.__eq__)


def main() -> int:
    heading = f"{'sheet and document':44} {'sheet':>9} {'document':>9}"
    return measure_all(*words("measure_styles.py"), heading, map(measured, [*texts(), *nodes()]))


if __name__ == "__main__":
    sys.exit(main())
