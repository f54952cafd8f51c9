#!/usr/bin/env python3
"""Tests check_documents.py over a small repository. Status: 0 where all is as wanted, else 1."""

import sys
import tempfile
from collections.abc import Callable, Iterator
from pathlib import Path

import check_documents as check
from told_tests import status_of

ROWS = """pub fn law_of_rows()
    ensures found {}
// docs/FORMATS.md, "Rows"
pub enum Kind {
    One,
    Two(u8),
}
"""
PROMISES = """# Promises

## By crate

| crate | where |
|---|---|
| `low` | [Rows](#rows) |
| `gone` | |

`low_tests`

## Rows

`law_of_rows`: `found`. `law_of_columns`, `Kind::Three`, `cc_mm`.
"""
README = """# A

`tools/a.py IN OUT`, `tools/b.py`, `docs/NAME.md`, [x](docs/FORMATS.md), [y](docs/x.md), [z](https://a/b), `o[k](a)`

    tools/c.py build/a docs/FORMATS.md

See `docs/FORMATS.md`, "The kept area" and "Nothing", [r](docs/FORMATS.md#the-kept-area), [s](#none).
There are
two kinds, and 1,024 more.
"""
CHANGES = """# Working

| a | names | | | |
|---|---|---|---|---|
| kind | `Kind` | 1 | 0 | 0 |
| law | `law_of_rows law_of_none` | 1 | 0 | 0 |
"""
FILES = {
    "crates.txt": "# NAME: what it stands on\nlow: byteorder\nlow_tests: low\nhigh: low\n",
    "crates/low/src/lib.rt": ROWS,
    "crates/low/must-fail/a.edit": "",
    "crates/low/must-fail/b.edit": "",
    "crates/low_tests/src/lib.rt": '// docs/FORMATS.md, "Columns"\n',
    "crates/high/specs/Top.antt": '-- Where a thing stands (README.md, "Rows").\n',
    "docs/FORMATS.md": "# Formats\n\n## Rows (own)\n\n## The kept area\n",
    "docs/PROMISES.md": PROMISES,
    "docs/ARCHITECTURE.md": "# Architecture\n\n    low\n      low_tests\n",
    "README.md": README,
    "CONTRIBUTING.md": CHANGES,
    "tools/a.py": "",
}


def tests() -> Iterator[tuple[str, bool]]:
    files = list(check.missing_files("README.md"))
    yield "files that are there, and names of the reader's own, are passed over", len(files) == 3
    yield "files in backquotes, behind a link and in a command", [it.split()[-1] for it in files] == [
        "tools/b.py",
        "docs/x.md",
        "tools/c.py",
    ]
    sections = list(check.missing_sections("README.md"))
    yield "sections", [it.split(" no section ")[1] for it in sections] == ["Nothing", "#none"]
    yield "a section with more in its heading", list(check.missing_sections("crates/low/src/lib.rt")) == []
    yield "a section that a comment names", len(list(check.missing_sections("crates/low_tests/src/lib.rt"))) == 1
    yield "one of another document", len(list(check.missing_sections("crates/high/specs/Top.antt"))) == 1
    names = [it.rsplit(" ", 1)[1] for it in check.missing_names("docs/PROMISES.md")]
    yield "names that are nowhere", names == ["law_of_columns", "Three", "cc_mm"]
    text = (check.ROOT / "README.md").read_text()
    yield "a count in words, over the end of a line", check.told_count(text, "There are # kinds") == 2
    yield "a count in digits", check.told_count(text, "and # more") == 1024
    yield "a count whose sentence is gone", check.told_count(text, "and # less") is None
    yield "edits", check.edits() == [2]
    yield "variants", check.variants("crates/low/src/lib.rt", "Kind") == 2
    crates = list(check.crates_told())
    yield "a crate that the table lacks", "docs/PROMISES.md: high stands 0 times in the table of crates" in crates
    yield "one that nothing says", "docs/ARCHITECTURE.md: nothing is said of high" in crates
    yield "one that isn't there", "docs/PROMISES.md: there is no crate gone" in crates
    yield "and no others", len(crates) == 3
    check.COUNTS[:] = [
        ("README.md", "There are # kinds", lambda: 3),
        ("README.md", "so # files", lambda: 1),
        ("README.md", "and # more", lambda: 1024),
    ]
    counts = list(check.wrong_counts())
    yield "counts that are others, and that are gone", [it.split(" ")[-1] for it in counts] == ["3", "too"]
    changes: Callable[[], list[str]] = lambda: [it.split(":")[1] for it in check.wrong_changes()]
    check.change_costs.files = lambda: iter([(it, text) for it, text in FILES.items() if it.startswith("crates/")])
    yield "a row of changes whose names are gone", changes() == ["6"]


def main() -> int:
    with tempfile.TemporaryDirectory(prefix="documents-") as room:
        for path, text in FILES.items():
            target = Path(room) / path
            target.parent.mkdir(parents=True, exist_ok=True)
            target.write_text(text, encoding="utf-8")
        check.ROOT = Path(room)
        return status_of("documents", "tests of a small repository", tests())


if __name__ == "__main__":
    sys.exit(main())
