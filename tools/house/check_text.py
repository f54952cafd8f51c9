#!/usr/bin/env python3
"""Refuses what the prover can't see and this repository doesn't want in its text; prints each place, and ends with 1
if there is one.

- A crate that imports the proofs of another crate of this repository: layers join by public clauses and laws alone.
- A line of source above 100 columns: a clause is to be read aloud. Left aside are comments, `ghost use` lines,
  attributes, the lines of a text that is printed, and tests with their tables.
- A file of specs/ whose head names no source: a standard and its section, or that it is this project's own, or a
  device of the proofs.
- A document that names a row of tables/, as `modules: damaged`, or an example, that isn't there.
- A file of tools/ that tools/README.md doesn't name.
- A line above 120 columns in one of the tools that tools/mypy.ini lists.
"""

import configparser
import re
import sys
from collections.abc import Iterator
from pathlib import Path

ROOT = Path(__file__).resolve().parents[2]
CRATES = ROOT / "crates"
WIDTH, TOOL_WIDTH = 100, 120
SOURCE = re.compile(r"ISO/IEC|ARIB|ECMA|XML|CSS|RFC|\b[Oo]wn\b|project's own|[Dd]evices? of the proofs?")


def foreign_proofs(crate: str, path: Path, lines: list[str], names: set[str]) -> Iterator[str]:
    for number, line in enumerate(lines, 1):
        for other in re.findall(r"\buse Rattle\.(\w+)\.proofs\b", line):
            if other != crate and other in names:
                yield f"{path}:{number}: the proofs of {other}: a public clause or law is wanting there"


def wide_lines(path: Path, lines: list[str]) -> Iterator[str]:
    if "test" in str(path):
        return
    in_text = False
    for number, line in enumerate(lines, 1):
        in_text ^= line.count('"') % 2 == 1
        if len(line) > WIDTH and not in_text and not re.match(r"\s*(//|ghost use\b|#\[)", line):
            yield f"{path}:{number}: {len(line)} columns"


def head_without_source(path: Path, lines: list[str]) -> Iterator[str]:
    head = []
    for line in lines:
        if not line.startswith("--"):
            break
        head.append(line)
    if not SOURCE.search(" ".join(head)):
        yield f"{path}:1: the head names no source of these definitions"


def rows_of(path: Path) -> set[str]:
    """The rows of a table by their names, each also with its group in front."""
    found, group = set(), ""
    for line in path.read_text(encoding="utf-8").splitlines():
        field, _, name = line.rstrip().partition(": ")
        if field == "group":
            group = name
        elif field == "row":
            found |= {name, f"{group}: {name}"}
    return found


def missing_rows() -> Iterator[str]:
    """Rows and examples that documents name, and that aren't there."""
    rows = {path.stem: rows_of(path) for path in (ROOT / "tables").glob("*.txt")}
    for path in [ROOT / "README.md", ROOT / "CONTRIBUTING.md", *sorted((ROOT / "docs").glob("*.md"))]:
        for number, line in enumerate(path.read_text(encoding="utf-8").splitlines(), 1):
            for table, row in re.findall(r"`([a-z]+): ([^`]+)`", line):
                if table in rows and row not in rows[table]:
                    yield f"{path.relative_to(ROOT)}:{number}: {table} has no row {row}"
            for name in re.findall(r"\bexample `([\w-]+)`", line):
                if not (ROOT / "examples" / name).is_dir():
                    yield f"{path.relative_to(ROOT)}:{number}: there is no example {name}"


def untold_tools() -> Iterator[str]:
    """Files of tools/ that their list of tools doesn't name."""
    told = (ROOT / "tools/README.md").read_text(encoding="utf-8")
    for path in sorted((ROOT / "tools").glob("*/*")):
        if path.is_file() and f"`{path.name}`" not in told:
            yield f"{path.relative_to(ROOT)}: tools/README.md doesn't name it"


def wide_tools() -> Iterator[str]:
    """Lines that are too wide, of the tools that have types."""
    listed = configparser.ConfigParser()
    listed.read(ROOT / "tools/mypy.ini")
    for name in re.findall(r"[\w/.]+", listed["mypy"]["files"]):
        for number, line in enumerate((ROOT / "tools" / name).read_text(encoding="utf-8").splitlines(), 1):
            if len(line) > TOOL_WIDTH:
                yield f"tools/{name}:{number}: {len(line)} columns"


def main() -> int:
    names = {it.name for it in CRATES.iterdir() if it.is_dir()}
    found: list[str] = []
    for crate in sorted(names):
        for path in sorted((CRATES / crate).glob("**/*")):
            inside = path.relative_to(CRATES.parent)
            if path.suffix not in (".rt", ".antt") or "out" in inside.parts:
                continue
            lines = path.read_text(encoding="utf-8").splitlines()
            found += foreign_proofs(crate, inside, lines, names)
            if path.suffix == ".rt":
                found += wide_lines(inside, lines)
            elif inside.parts[2] == "specs" and path.name != "Lib.antt":
                found += head_without_source(inside, lines)
    found += [*missing_rows(), *untold_tools(), *wide_tools()]
    print("\n".join(found) if found else "the text is as it is to be")
    return 1 if found else 0


if __name__ == "__main__":
    sys.exit(main())
