#!/usr/bin/env python3
"""Tests how instructions.py compares counts, without valgrind and without the program. It prints a line, and ends
with 1 if a test fails."""

import sys
from collections.abc import Iterator

from instructions import LAST, figures_of, file_of, table
from small_runs import RUNS, is_due

from told_tests import status_of

FIGURES = {"a short run": 999, "a run, with a comma": 1_234_567}


def grown(last: int, now: int) -> list[str]:
    return table({"run": last}, {"run": now})[1]


def changes(last: dict[str, int], now: dict[str, int]) -> list[str]:
    """What the lines of a table say of the changes."""
    return [line.split()[-1] for line in table(last, now)[0][1:]]


def tests() -> Iterator[tuple[str, bool]]:
    """Yields what is said of the comparison, and whether it is so."""
    yield "a file of figures is read as it was written", figures_of(file_of("one", "two", FIGURES)) == FIGURES
    yield "its head is no figure", "# Build: one" in file_of("one", "two", {}) and figures_of(
        file_of("one", "two", {})
    ) == {}
    yield "2 % more is no growth that is named", grown(10_000, 10_200) == []
    yield "a little more than that is", grown(10_000, 10_201) == ["run"]
    yield "less isn't", grown(10_000, 5_000) == []
    yield "the last figure is what is compared with", grown(10_200, 10_404) == [] and grown(10_100, 10_404) == ["run"]
    yield "changes are told in percent", changes({"a": 200, "b": 200}, {"a": 250, "b": 199}) == ["+25.00%", "-0.50%"]
    yield "a run without a last figure is new", changes({}, {"a": 1}) == ["new"] and table({}, {"a": 1})[1] == []
    yield "a run that isn't counted isn't told", changes({"a": 1, "b": 1}, {"b": 1}) == ["+0.00%"]
    keys = RUNS["keys"]()
    page = b"module 40 0000 01 9\nload /40/0000\n"
    yield "a run is as due", is_due(keys, 0, page + b"box 0 0 0 0 8 0 7\nend 3\n")
    yield "a run that is stopped isn't", not is_due(keys, 0, page + b"stop Budget keydown\nend 3\n")
    yield "one with another status isn't", not is_due(keys, 9, page + b"end 3\n")
    yield "one that lacks a line isn't", not is_due(keys, 0, b"module 40 0000 01 9\nend 3\n")
    yield "the file has a figure of each run", list(figures_of(LAST.read_text(encoding="utf-8"))) == list(RUNS)


if __name__ == "__main__":
    sys.exit(status_of("instructions", "tests of their comparison", tests()))
