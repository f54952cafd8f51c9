#!/usr/bin/env python3
"""Measures how long a release build takes to read scripts that are as hard as the limits let them be.

usage: measure_programs.py PROGRAM [--rounds N]

Module 0000 of a carousel on PID 256 is a document, and module 0001, which comes first, a script that it links; or
else the scripts stand in the document itself. The record is `all`. What the program writes is compared with what is
due: which scripts are bad, and what stops the one that is linked, is said beside each. Each is run N times (3), of
which the best counts. `processor` is in seconds too, and says more than `seconds` where other work shares the
machine. Status: 0 where all was as due, 1 where a run went wrong.
"""

import sys
from collections.abc import Iterator
from typing import NamedTuple

from measuring import MOST_BYTES, Measured, measure_all, repeated, words

from sent_modules import BML, ECMASCRIPT, carousel_sections, sent

DOCUMENT, SCRIPT = 0, 1
HANDLERS = ["onload", "onunload", "onkeydown", "onkeyup", "onclick", "onfocus", "onblur", "onoccur"]
LINKED = '<bml><head><script src="/40/0001"/></head><body/></bml>'


class Scripts(NamedTuple):
    """A script that is linked, the document, the numbers of those of its scripts that are bad, and what stops the one
    that is linked."""

    name: str
    script: str
    document: str
    bad: list[int]
    stop: str = ""


def linked(name: str, script: str, good: bool, stop: str = "") -> Scripts:
    return Scripts(name, script, LINKED, [] if good else [1], stop)


def in_document(name: str, document: str, bad: list[int]) -> Scripts:
    return Scripts(name, "", document, bad)


def numbered(form: str, most: int = MOST_BYTES) -> str:
    """As many items as there is room for, each with its own number."""
    items: list[str] = []
    size, number = 0, 0
    while True:
        item = form.format(number)
        size += len(item)
        if size > most:
            return "".join(items)
        items.append(item)
        number += 1


def open_forms() -> Iterator[Scripts]:
    for item in [
        "(",
        "[",
        "{",
        "a(",
        "a[",
        "new ",
        "- ",
        "++",
        "if(a)",
        "while(a)",
        "for(;;)",
        "a=",
        "a?",
        "a?a:",
        "function f(){",
    ]:
        yield linked(f"1 MB of {item.strip()} open at the end", repeated(item), False)
    half = MOST_BYTES // 2 - 8
    yield linked("parentheses 524,280 deep", "(" * half + "a" + ")" * half, True, "Unresolved")
    yield linked("blocks 524,280 deep", "{" * half + "}" * half, False)
    yield linked("indices 262,140 deep", "a[" * (half // 2) + "a" + "]" * (half // 2), False)
    yield linked("524,280 minus signs", "- " * half + "a", False)
    yield linked("524,280 assignments", "a=" * half + "a", False)
    yield linked("174,760 ifs", "if(a)" * (MOST_BYTES // 6) + ";", False)
    yield linked("262,140 choices", "a?a:" * (MOST_BYTES // 4 - 4) + "a", False)


def long_texts() -> Iterator[Scripts]:
    yield linked("one comment", "/*" + "*" * (MOST_BYTES - 4) + "*/", True)
    yield linked("comments", repeated("/**/"), True)
    yield linked("a comment that is open", "/*" + "/" * (MOST_BYTES - 2), False)
    yield linked("comments to the ends of lines", repeated("//\n"), True)
    yield linked("one text", '"' + "a" * (MOST_BYTES - 2) + '"', True)
    yield linked("a text of escapes", '"' + "\\x41" * (MOST_BYTES // 4 - 1) + '"', True)
    yield linked("a text that is open", '"' * 1 + "a" * (MOST_BYTES - 1), False)
    yield linked("texts", repeated('"";'), True, "Budget")
    yield linked("one name", "a" * MOST_BYTES, True, "Unresolved")
    yield linked("one number", "0" * (MOST_BYTES - 1) + "1", True)
    yield linked("a number past the range", "1" * MOST_BYTES, False)
    yield linked("numbers", repeated("1;"), True, "Budget")
    yield linked("white", " " * MOST_BYTES, True)
    yield linked("lines", "\n" * MOST_BYTES, True)
    yield linked("shifts", "a" + repeated(">>>=", MOST_BYTES - 8), False)


def long_lists() -> Iterator[Scripts]:
    yield linked("a,a,a", repeated("a,", MOST_BYTES - 2) + "a", True, "Unresolved")
    yield linked("a+a+a", repeated("a+", MOST_BYTES - 2) + "a", True, "Budget")
    yield linked("a.a.a", repeated("a.", MOST_BYTES - 2) + "a", True, "Budget")
    yield linked("a()()()", "a" + repeated("()", MOST_BYTES - 2), True, "Budget")
    yield linked("empty statements", ";" * MOST_BYTES, True, "Budget")
    yield linked("names in lines", repeated("a\n"), True, "Unresolved")
    yield linked("blocks", repeated("{}"), True, "Budget")
    yield linked("arguments", "a(" + repeated("a,", MOST_BYTES - 8) + "a)", True, "Unresolved")
    yield linked("names that differ", numbered("a{0:x};"), True, "Unresolved")
    yield linked("var names that differ", "var a" + numbered(",b{0:x}", MOST_BYTES - 8), True)
    yield linked("var statements in a function", "function f(){" + numbered("var a{0:x};", MOST_BYTES - 20) + "}", True)
    yield linked("one var name in a function", "function f(){" + repeated("var a;", MOST_BYTES - 20) + "}", True)
    yield linked("parameters", "function f(a" + numbered(",b{0:x}", MOST_BYTES - 20) + "){}", True)
    yield linked("functions", repeated("function f(){}"), True)
    yield linked("functions that differ", numbered("function f{0:x}(a){{var b;}}"), True)
    yield linked("fault after 1 MB", "a;" * (MOST_BYTES // 2 - 1) + ")", False)


def of_elements(inside: str) -> str:
    return f"<bml><body>{inside}</body></bml>"


def many_sources() -> Iterator[Scripts]:
    room = MOST_BYTES - 64
    scripts = room // len("<script/>")
    yield in_document("16,380 script elements", of_elements("<script/>" * 16_380), [])
    yield in_document("8,190 bad script elements", of_elements("<script>)</script>" * 8_190), list(range(1, 8_191)))
    good = " ".join(f'{name}="a"' for name in HANDLERS)
    bad = " ".join(f'{name}=")"' for name in HANDLERS)
    elements = room // (len(good) + 5)
    yield in_document(f"{elements * 8:,} handlers", of_elements(f"<p {good}/>" * elements), [])
    yield in_document(
        f"{elements * 8:,} bad handlers", of_elements(f"<p {bad}/>" * elements), list(range(1, elements * 8 + 1))
    )
    others = numbered(' a{0:x}=""', room - 200)
    yield in_document("an element of 100,000 attributes", of_elements(f"<p {good}{others}/>"), [])
    # 16,384 nodes with their texts are all that a document may have.
    assert scripts >= 16_380


def measured(scripts: Scripts) -> Measured:
    """Returns the run of scripts: the blocks of the one that is linked come first."""
    document, script = scripts.document.encode("ascii"), scripts.script.encode("ascii") or b" "
    stream, packets = sent(carousel_sections([(SCRIPT, ECMASCRIPT, script), (DOCUMENT, BML, document)]))
    modules = f"module 40 0001 01 {len(script)}\nmodule 40 0000 01 {len(document)}\n"
    bad = "".join(f"badscript /40/0000 {number}\n" for number in scripts.bad)
    stop = f"stop {scripts.stop} script\n" if scripts.stop else ""
    due = f"{modules}load /40/0000\n{bad}{stop}end {packets}\n".encode("ascii")
    columns = f"{scripts.name:44} {len(script):9,} {len(document):9,} {len(scripts.bad):7,}"
    return Measured(columns, stream, b"all\n", due.__eq__)


def main() -> int:
    heading = f"{'scripts':44} {'script':>9} {'document':>9} {'bad':>7}"
    runs = map(measured, [*open_forms(), *long_texts(), *long_lists(), *many_sources()])
    return measure_all(*words("measure_programs.py"), heading, runs)


if __name__ == "__main__":
    sys.exit(main())
