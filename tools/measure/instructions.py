#!/usr/bin/env python3
"""Counts the instructions of small runs of the built program, and names each run that takes more of them than it did.

usage: instructions.py PROGRAM [--write BUILD] [--file FILE] [NAME ..]

The runs are those of small_runs.py, or those whose names begin with NAME; all of them take about a minute. What a run
writes has to be what is due. `valgrind --tool=callgrind` counts, so neither other work nor the speed of the machine
changes a figure: two runs of one program differ by a few instructions. The C library is told to copy and to clear by
plain instructions, whatever the processor has beside them. Each count is compared with the last one, in
instructions.txt beside this tool or in FILE, and each run that grew by more than 2 % is named.

The head of the file says which build its figures are of, and with which valgrind and C library. Figures of different
ones can't be compared. With --write the file is written anew, and BUILD says in words which build it was. This tool
is tested, and not proved. Status: 0 where no run grew, 1 where one did or went wrong, 2 where nothing could be
counted.
"""

import argparse
import platform
import re
import shutil
import subprocess
import sys
import tempfile
from pathlib import Path
from typing import Any

from small_runs import RUNS, Run, is_due

from sent_modules import FILES

LAST = Path(__file__).resolve().parent / "instructions.txt"
MOST_GROWTH = 0.02
COUNTED = re.compile(rb"Collected : (\d+)")
PLAIN_COPIES = "glibc.cpu.hwcaps=-ERMS,-FSRM,-AVX,-AVX2,-AVX512F,-AVX512VL"
VALGRIND = ["--tool=callgrind", "--callgrind-out-file=/dev/null"]
LIMIT = 300  # seconds for each run


def figures_of(text: str) -> dict[str, int]:
    """Returns the figures of a file, by the names of the runs."""
    found = {}
    for line in text.splitlines():
        if line and not line.startswith("#"):
            count, _, name = line.strip().partition("  ")
            found[name] = int(count.replace(",", ""))
    return found


def file_of(build: str, counter: str, figures: dict[str, int]) -> str:
    """Returns the text of a file of figures, with the build that they are of and what counted them."""
    heads = [
        "# Instructions of the runs of small_runs.py, as instructions.py counted them.",
        f"# Build: {build}",
        f"# Counted with: {counter}",
    ]
    return "\n".join([*heads, *(f"{count:>15,}  {name}" for name, count in figures.items()), ""])


def growth(last: int | None, now: int) -> float | None:
    """Returns by which part a count grew, None where there is none to compare it with."""
    return (now - last) / last if last else None


def table(last: dict[str, int], now: dict[str, int]) -> tuple[list[str], list[str]]:
    """Returns a line for each run that was counted, and the names of those that grew by more than they may."""
    lines, grown = [f"{'run':42} {'last':>15} {'now':>15} {'change':>8}"], list[str]()
    for name, count in now.items():
        part = growth(last.get(name), count)
        change = "new" if part is None else f"{part:+.2%}"
        lines.append(f"{name:42} {last.get(name, 0):>15,} {count:>15,} {change:>8}")
        if part is not None and part > MOST_GROWTH:
            grown.append(name)
    return lines, grown


def counted(program: str, run: Run) -> int | None:
    """Runs the program in a folder of its own, and returns its instructions, None where the run went wrong."""
    with tempfile.TemporaryDirectory(prefix="instructions-") as room:
        # (the same names each time, since the names that a program is given are among what it reads)
        shutil.copy(program, f"{room}/program")
        for name, content in zip(FILES, [run.stream, run.record.encode("ascii")]):
            Path(room, name).write_bytes(content)
        command = [shutil.which("valgrind") or "valgrind", *VALGRIND, "./program", *run.words]
        how: dict[str, Any] = {
            "cwd": room,
            "env": {"GLIBC_TUNABLES": PLAIN_COPIES},
            "stdin": subprocess.DEVNULL,
            "timeout": LIMIT,
        }
        try:
            ran = subprocess.run(command, capture_output=True, check=False, **how)
        except subprocess.TimeoutExpired:
            return None
    found = COUNTED.search(ran.stderr)
    return int(found[1]) if found and is_due(run, ran.returncode, ran.stdout) else None


def counter() -> str:
    """The versions of valgrind and of the C library."""
    version = subprocess.run(["valgrind", "--version"], capture_output=True, text=True, check=True).stdout.strip()
    return f"{version}, {' '.join(platform.libc_ver())}"


def asked() -> argparse.Namespace:
    parser = argparse.ArgumentParser(usage="instructions.py PROGRAM [--write BUILD] [--file FILE] [NAME ..]")
    parser.add_argument("program")
    parser.add_argument("names", nargs="*")
    parser.add_argument("--write", metavar="BUILD")
    parser.add_argument("--file", type=Path, default=LAST)
    return parser.parse_intermixed_args()


def hindrance(words: argparse.Namespace, names: list[str]) -> str | None:
    """Returns why nothing can be counted, None where it can be."""
    if not shutil.which("valgrind"):
        return "there is no valgrind"
    if not Path(words.program).is_file():
        return f"there is no program {words.program}"
    if not names:
        return f"there is no run {words.names[0]}"
    return "--write takes all runs" if words.write and words.names else None


def main() -> int:
    words = asked()
    names = [name for name in RUNS if not words.names or name.startswith(tuple(words.names))]
    if hindered := hindrance(words, names):
        print(f"instructions.py: {hindered}", file=sys.stderr)
        return 2
    counts = {name: counted(words.program, RUNS[name]()) for name in names}
    wrong = [name for name, count in counts.items() if count is None]
    figures = {name: count for name, count in counts.items() if count is not None}
    last = figures_of(words.file.read_text(encoding="utf-8")) if words.file.is_file() else {}
    lines, grown = table(last, figures)
    told = [f"{name}: it went wrong" for name in wrong] + [
        f"{name}: it grew by more than {MOST_GROWTH:.0%}" for name in grown
    ]
    print("\n".join(lines + told))
    if words.write and not wrong:
        words.file.write_text(file_of(words.write, counter(), figures), encoding="utf-8")
    return 1 if told else 0


if __name__ == "__main__":
    sys.exit(main())
