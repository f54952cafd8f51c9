#!/usr/bin/env python3
"""Runs a program once for each allocation that it makes, and has just this one refused.

usage: refuse_allocations.py [--lines] PROGRAM [WORD..] < INPUT

The program gets the words and the input each time. A library that refuses the allocation of a number, as the system
may, is compiled by `cc` and loaded before the C library. What is printed is how often the program ended in which
way: its status and its last words, on standard output or on standard error. The journal of the kept area,
`nvram.jnl`, is as it was before each run. Status: 0 where each run ended by itself within a minute, 1 where one was
stopped by a signal or hung, or, with --lines, where what it wrote isn't the first lines, each to its end, of what the
program writes with nothing refused.
"""

import collections
import os
import subprocess
import sys
import tempfile
from pathlib import Path
from typing import Any

import places  # noqa: F401 (first, so that the others are found)

from journals import JOURNAL

LIBRARY = r"""
#define _GNU_SOURCE
#include <dlfcn.h>
#include <errno.h>
#include <stdio.h>
#include <stdlib.h>

static long made, refused;
static void *(*real_malloc)(size_t);
static void *(*real_realloc)(void *, size_t);

static int is_refused(void) {
    if (!real_malloc) {
        real_malloc = dlsym(RTLD_NEXT, "malloc");
        real_realloc = dlsym(RTLD_NEXT, "realloc");
        refused = atol(getenv("REFUSED_ALLOCATION"));
    }
    if (++made != refused) return 0;
    errno = ENOMEM;
    return 1;
}

void *malloc(size_t size) { return is_refused() ? 0 : real_malloc(size); }

void *realloc(void *old, size_t size) { return is_refused() ? 0 : real_realloc(old, size); }

__attribute__((destructor)) static void told(void) {
    FILE *file = fopen(getenv("ALLOCATIONS_MADE"), "w");
    if (file) fprintf(file, "%ld", made), fclose(file);
}
"""


def last_line(text: bytes) -> str:
    lines = text.decode(errors="replace").splitlines()
    return lines[-1][:60] if lines else ""


def are_first_lines(written: bytes, whole: bytes) -> bool:
    return whole.startswith(written) and (not written or written.endswith(b"\n"))


def put_back(path: Path, content: bytes | None) -> None:
    if content is None:
        path.unlink(missing_ok=True)
    else:
        path.write_bytes(content)


def main() -> int:
    by_lines = sys.argv[1:2] == ["--lines"]
    command = sys.argv[2:] if by_lines else sys.argv[1:]
    if not command:
        sys.exit(__doc__.split("\n\n")[1])
    given = sys.stdin.buffer.read()
    ends: collections.Counter[tuple[int | str, str, str]] = collections.Counter()
    well = True
    journal = Path(JOURNAL)
    kept = journal.read_bytes() if journal.exists() else None
    with tempfile.TemporaryDirectory(prefix="refuse-") as room:
        with open(f"{room}/refuse.c", "w") as file:
            file.write(LIBRARY)
        subprocess.run(
            ["cc", "-shared", "-fPIC", "-O1", "-o", f"{room}/refuse.so", f"{room}/refuse.c", "-ldl"], check=True
        )

        def ran(number: int) -> subprocess.CompletedProcess[bytes]:
            told = {
                "LD_PRELOAD": f"{room}/refuse.so",
                "REFUSED_ALLOCATION": str(number),
                "ALLOCATIONS_MADE": f"{room}/made",
            }
            how: dict[str, Any] = {
                "input": given,
                "stdout": subprocess.PIPE,
                "stderr": subprocess.PIPE,
                "check": False,
                "timeout": 60,
            }
            try:
                return subprocess.run(command, env={**os.environ, **told}, **how)
            finally:
                put_back(journal, kept)

        whole = ran(0).stdout
        with open(f"{room}/made") as file:
            made = int(file.read())
        for number in range(1, made + 1):
            try:
                run = ran(number)
                ends[run.returncode, last_line(run.stdout), last_line(run.stderr)] += 1
                well = well and run.returncode >= 0 and (not by_lines or are_first_lines(run.stdout, whole))
            except subprocess.TimeoutExpired:
                ends["hung", "", ""] += 1
                well = False
    print(f"{made} allocations")
    for (status, output, error), count in ends.most_common():
        print(f"{count:6}  status {status}  {output!r}  {error!r}")
    return 0 if well else 1


if __name__ == "__main__":
    sys.exit(main())
