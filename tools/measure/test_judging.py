#!/usr/bin/env python3
"""Tests what the tools of this folder judge runs by, without the program: that what is right passes, and what isn't
is told."""

import contextlib
import io
import os
import random
import subprocess
import sys
import tempfile
from collections.abc import Iterator
from pathlib import Path

import fail_each
import try_hostile
from hostile_texts import Case
from measuring import Measured, measure_all
from mutations import Language, mutated
from processes import below, words_of
from proof_costs import code_of
from refuse_allocations import are_first_lines

from told_tests import status_of

Tests = Iterator[tuple[str, bool]]
OLD, NEW = b"old", b"new"
# What is written and kept after each piece of a run: the second stores.
PIECES = [(b"", OLD), (b"load a\n", OLD), (b"load a\nkept b 3\n", NEW), (b"load a\nkept b 3\nend 3\n", NEW)]
BAD_LINE = b"bad record line 2\nrecord.txt:2: packets 0\n"
CODE = """
// a comment
#[tactic(auto)]
pub fn first(bytes: &[u8]) -> Option<u8>
    requires { length bytes.now < 9 }
    ensures first { MatchOption result (bytes.now ≡ [])
        (λ byte. IsFirst byte bytes.now) }
{
    bytes.first().copied()
}
"""


def is_right(what: str, status: int, stdout: bytes, kept: bytes, stderr: bytes | None = None) -> bool:
    """Whether a run in which this failed ended rightly, with what belongs to its status on standard error, or with
    another text."""
    told = fail_each.TOLD.get(status, b"") if stderr is None else stderr
    return fail_each.is_right(what, fail_each.Ended(status, stdout, told, kept), PIECES)


def failing() -> Tests:
    """Of fail_each.py."""
    yield "a read that fails after a piece", is_right("read", 4, PIECES[1][0], OLD)
    yield "a read that fails within a piece isn't", not is_right("read", 4, b"load", OLD)
    yield "nor one after which the area is a later one", not is_right("read", 4, PIECES[1][0], NEW)
    yield "nor one with another status or another text", not is_right("read", 5, b"", OLD) and not is_right(
        "read", 4, b"", OLD, b"no memory\n"
    )
    yield "a write that fails within a piece whose area is stored", is_right("write", 5, b"load a\nke", NEW)
    yield "one after which the area is the old one isn't", not is_right("write", 5, b"load a\nke", OLD)
    yield "nor one after which all is written", not is_right("write", 5, PIECES[-1][0], NEW)
    yield "a store that fails leaves the old area or the new one", all(
        is_right("store", 6, PIECES[1][0], kept) for kept in (OLD, NEW)
    )
    yield "and no other", not is_right("store", 6, PIECES[1][0], b"ne")
    yield "nor the lines of its turn", not is_right("store", 6, b"load a\nkept", NEW)
    yield "a program that is killed leaves whole pieces", is_right("kill", -9, PIECES[1][0], NEW, b"")
    yield "an opening that fails leaves nothing", is_right("opening", 3, b"", OLD) and not is_right(
        "opening", 3, PIECES[1][0], OLD
    )
    yield "an allocation may be done without", is_right("allocation", 0, *PIECES[-1]) and is_right(
        "allocation", 9, *PIECES[1]
    )
    yield "but not with a beginning alone", not is_right("allocation", 0, *PIECES[1])
    yield "which call fails what", [
        fail_each.what_fails(*it)
        for it in [
            ("openat", "record.txt", False),
            ("read", "stream.ts", False),
            ("write", "stdout", False),
            ("pwrite64", "nvram.jnl", False),
            ("read", "nvram.bin", True),
            ("write", "stderr", False),
        ]
    ] == ["opening", "read", "write", "store", "load", None]


def faults(
    status: int, stdout: bytes, stderr: bytes = b"", record: bytes = b"all\n", kept: bytes | None = None
) -> list[str]:
    case = Case([], b"", record)
    return list(try_hostile.faults_of(case, None, status, stdout, stderr, kept))


def hostile() -> Tests:
    """Of try_hostile.py."""
    yield "a run that ends well has no fault", faults(0, b"show 7\nbox 0 0 0 0 8 0 7\nend 0\n") == []
    yield "a box after no display list is one", len(faults(0, b"box 0 0 0 0 8 0 7\nend 0\n")) == 1
    yield "so is a line after the end", faults(0, b"end 0\nshow 0\n") != []
    yield "a line of no known form", faults(0, b"shows 0\nend 0\n") != []
    yield "a line without its end", faults(0, b"end 0") != []
    yield "another number of packets", faults(0, b"end 1\n") != []
    yield "a signal", faults(-11, b"") == ["it was stopped by signal 11"]
    yield "a text on standard error", faults(0, b"end 0\n", b"panic") != []
    yield "a bad line is told by its number", faults(2, b"", BAD_LINE, b"all\npackets 0\n") == []
    yield "and by no other", faults(2, b"", BAD_LINE, b"all\nall\npackets 0\n") != []
    yield "and with what stands in it", faults(2, b"", BAD_LINE, b"all\npackets 1 1\n") != []
    yield "an area that is cut short", faults(0, b"end 0\n", kept=b"x") == ["1 bytes are kept"]
    yield "how many packets a record takes", try_hostile.read_record(b"# a\npackets 3\r\nshow\n packets\t4", 9) == (
        7,
        None,
    )


def measured(said: str) -> tuple[int, str]:
    """The status and the last line where a program that says this is measured, and `end 0` is due."""
    told = io.StringIO()
    with tempfile.TemporaryDirectory(prefix="judging-") as room:
        program = Path(room, "program")
        program.write_text(f"#!/bin/sh\necho {said}\n")
        program.chmod(0o755)
        with contextlib.redirect_stdout(told):
            status = measure_all(str(program), 1, "run", [Measured("a run", b"", b"", b"end 0\n".__eq__)])
    return status, told.getvalue().splitlines()[-1]


def shared() -> Tests:
    """Of what several tools share."""
    right, wrong = measured("end 0"), measured("end 1")
    yield "a run as due is measured", right[0] == 0 and not right[1].endswith("due")
    yield "another one is told", wrong[0] == 1 and wrong[1].endswith("not what is due")
    yield "whole lines are the first ones", are_first_lines(b"a\n", b"a\nb\n") and are_first_lines(b"", b"a\n")
    yield "a cut line and another one aren't", not are_first_lines(b"a\nb", b"a\nb\n") and not are_first_lines(
        b"b\n", b"a\nb\n"
    )
    yield "code is counted without clauses and comments", len(code_of(CODE)) == 4
    language = Language([b"word"], [b"a text"])
    drawn = [mutated(random.Random(seed), b"some bytes", language) for seed in range(200)]
    yield "the same number gives the same change", drawn[7] == mutated(random.Random(7), b"some bytes", language)
    yield "changes differ, and have an end", len(set(drawn)) > 100 and max(map(len, drawn)) <= 1 << 20
    with subprocess.Popen(["sleep", "9"]) as sleeping:
        yield "a process below this one is seen", any(words_of(it) == ["sleep", "9"] for it in below(os.getpid()))
        sleeping.kill()


if __name__ == "__main__":
    sys.exit(status_of("judging", "tests of what runs are judged by", [*failing(), *hostile(), *shared()]))
