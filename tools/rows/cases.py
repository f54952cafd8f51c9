"""Runs of the program by name, for the tools that look at what happens in them: `example NAME`, or `TABLE: ROW` of tables/."""

import sys
from pathlib import Path
from typing import NamedTuple

ROOT = Path(__file__).resolve().parents[2]
EXAMPLES, TABLES = ROOT / "examples", ROOT / "tables"
sys.path.append(str(ROOT / "tools" / "users"))

from journals import JOURNAL, files_of
from tables import runs_of


class Case(NamedTuple):
    """A run: how it is named, its words, its files by their names, and what it has to write and to end with."""

    name: str
    words: list[str]
    files: dict[str, bytes]
    stdout: bytes
    status: int


def example(folder):
    """Returns the run of an example's folder."""
    files = {path.name: path.read_bytes() for path in folder.iterdir() if path.is_file()}
    words, status = (folder / "args").read_text().splitlines(), int((folder / "status").read_text())
    return Case(f"example {folder.name}", words, files, files["stdout"], status)


def row(table, run):
    """Returns the first run of a row."""
    files = {"stream.ts": run.stream, "record.txt": run.record} | files_of(run.kept) | ({} if run.journal is None else {JOURNAL: run.journal})
    return Case(f"{table}: {run.name}", run.arguments, files, run.stdout, run.status)


def examples():
    """Yields the examples."""
    for path in sorted(EXAMPLES.glob("*/args")):
        yield example(path.parent)


def rows():
    """Yields the first runs of the rows of tables/, but for those that need a folder."""
    for path in sorted(TABLES.glob("*.txt")):
        yield from (row(path.stem, run) for run in runs_of(path) if not (run.folder or run.link))


def case(name):
    """Returns the run of a name; ends the program where there is none."""
    if name.startswith("example ") and (EXAMPLES / name.removeprefix("example ") / "args").is_file():
        return example(EXAMPLES / name.removeprefix("example "))
    table, _, title = name.partition(": ")
    path = TABLES / f"{table}.txt"
    found = [row(table, run) for run in (runs_of(path) if path.is_file() else []) if run.name == title]
    if not found:
        sys.exit(f"there is no run {name}: name an example as `example NAME`, or a row as `TABLE: ROW`, with its group before its name")
    return found[0]
