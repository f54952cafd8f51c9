#!/usr/bin/env python3
"""Tests what change_costs.py finds, in small files that are written here. It prints a line, and ends with 1 if a test
fails."""

import sys
from collections.abc import Iterator

from change_costs import code_of, kind_of, named
from told_tests import status_of

KINDS = {
    "crates/page/src/pages.rt": "sources",
    "crates/page/specs/devices/Acts.antt": "definitions",
    "crates/page/proofs/pages/Page/begin/Answers.antt": "proofs",
    "crates/page/must-fail/a.edit": "wrong bodies",
    "crates/page/wrong-bodies/a.edit": "wrong bodies",
    "crates/replay_tests/src/lib.rt": "tests",
    "crates/replay_tests/specs/Lib.antt": "tests",
    "examples/first/README.md": "tests",
    "docs/FORMATS.md": "documents",
    "tools/users/report.py": "tools",
    "HANDLES": None,
}
FILES = [("crates/a/src/lib.rt", "match key { Release => add-one }"), ("docs/A.md", "Released, pre-Release and Re")]


def tests() -> Iterator[tuple[str, bool]]:
    """Yields what is said of the search, and whether it is so."""
    for path, kind in KINDS.items():
        yield f"{path} is of its kind", kind_of(path) == kind
    found, missing = named(["Release", "add"], FILES)
    yield "a word is found", found["sources"] == ["crates/a/src/lib.rt"]
    yield "a part of a longer name isn't", found["documents"] == [] and missing == ["add"]
    yield "a name with a hyphen is one word", named(["add-one"], FILES)[0]["sources"] == ["crates/a/src/lib.rt"]
    yield "comments of code are left out", "Show" not in code_of("a.rt", "x(); // Show") + code_of(
        "b.antt", "-- Show\nf a--b = a  -- Show\n"
    )
    yield "what only looks like a comment stays", "a--b" in code_of("b.antt", "f a--b = a")


if __name__ == "__main__":
    sys.exit(status_of("change costs", "tests of small files", tests()))
