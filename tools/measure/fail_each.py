#!/usr/bin/env python3
"""Runs a program over some cases, and has each of its calls of the system and each of its allocations fail, one in each run.

usage: fail_each.py PROGRAM [CASE..]

A case is `example NAME` or `TABLE: ROW` of tables/, with the row's group; without one the six of DEFAULT are run. Each begins in a folder of its own. Its
pieces are found by runs over the first packets and items of its record, one more each time: their lines, and what is kept after them. Then

- each opening, lock, read, write, look at the length and sync of the case's files fails in a run of its own, as with an error of the disk (by `strace`)
- the program is killed at each of its calls that stores what is kept
- each allocation is refused in a run of its own (by a library of `refuse_allocations.py`, which `cc` compiles)
- in one run each read and each write takes one byte alone (by another library)

What a run has to come to:

| what fails | status | written | kept |
|---|---|---|---|
| the opening of stream or record | 3 | nothing | as before |
| a read of stream or record | 4 | whole pieces | as after them |
| a write to standard output | 5 | whole pieces and a part of the next one, but not all of it | as after this one |
| the loading of what is kept | 6 | nothing | as before |
| a store of what is kept | 6 | whole pieces | as after them, or after the next one |
| nothing, but the program is killed in a store | by the signal | whole pieces | the same |
| an allocation | 9 | whole pieces | as after them |
| an allocation of a call that opens or stores a file | 3 or 6 | as where this call fails | the same |
| an allocation that the program can do without | 0 | all | as after all |
| nothing, but each read and write takes a byte | 0 | all | as after all |

Two packets whose sections end in one turn each are pieces of their own; a packet with several turns counts as one piece here. So a case has its sections
in packets of their own. Printed are for each case its pieces, and how many runs of which kind went well; each that went wrong is named. Status: 0 where all
went well, 1 where one went wrong, 2 where nothing could be run.
"""

import collections
import os
import re
import shutil
import signal
import subprocess
import sys
import tempfile
from pathlib import Path
from typing import NamedTuple

import places  # noqa: F401 (first, so that the others are found)
from refuse_allocations import LIBRARY

from cases import case
from journals import JOURNAL, OLDER, kept_in
from transport import PACKET_SIZE

DEFAULT = [
    "example document",
    "items: repetitions: a repetition",
    "arrays: documents and runs: two documents and two runs",
    "example kept-news",
    "example second-visit",
    "example generated",
]
MOST_SECONDS = 60  # for each run
TOLD = {3: b"open fault\n", 4: b"read fault\n", 5: b"write fault\n", 6: b"keep fault\n", 9: b"no memory\n"}
STATUSES = {"nothing": 0, "bytes": 0, "opening": 3, "read": 4, "write": 5, "load": 6, "store": 6, "refused": 9, "kill": -signal.SIGKILL}
CALLS = "openat,open,creat,flock,read,readv,pread64,write,writev,pwrite64,fsync,fdatasync,fstat,stat,statx,newfstatat,lseek,ftruncate"


# Reads and writes a byte at a time.
BY_BYTES = r"""
#define _GNU_SOURCE
#include <dlfcn.h>
#include <unistd.h>

ssize_t read(int file, void *into, size_t count) {
    static ssize_t (*real)(int, void *, size_t);
    if (!real) real = dlsym(RTLD_NEXT, "read");
    return real(file, into, count > 1 ? 1 : count);
}

ssize_t write(int file, const void *from, size_t count) {
    static ssize_t (*real)(int, const void *, size_t);
    if (!real) real = dlsym(RTLD_NEXT, "write");
    return real(file, from, count > 1 ? 1 : count);
}
"""


class Ended(NamedTuple):
    """How a run ended: its status, what it wrote, and what is kept after it, None where there is no file."""

    status: int
    stdout: bytes
    stderr: bytes
    kept: bytes | None


class Call(NamedTuple):
    """A call of the system: its name, its number among those of this name, and what fails with it."""

    name: str
    number: int
    what: str
    text: str


class Room:
    """A folder in which a case is run again and again."""

    def __init__(self, program, made, folder):
        self.program, self.case, self.folder = program, made, Path(folder, "room")

    def run(self, record=None, before=(), environment=None):
        """Runs the case, with another record where one is given, after other words."""
        shutil.rmtree(self.folder, ignore_errors=True)
        self.folder.mkdir()
        for name, content in self.case.files.items():
            (self.folder / name).write_bytes(record if record is not None and name == "record.txt" else content)
        command = [*before, self.program, *self.case.words]
        how = {"cwd": self.folder, "stdin": subprocess.DEVNULL, "capture_output": True, "timeout": MOST_SECONDS, "check": False}
        ran = subprocess.run(command, env={**os.environ, **(environment or {})}, **how)
        return Ended(ran.returncode, ran.stdout, ran.stderr, kept_in(self.folder))

    def steps(self):
        """The lines of the record, with each packet and each millisecond in a line of its own."""
        packets = len(self.case.files["stream.ts"]) // PACKET_SIZE
        for line in self.case.files["record.txt"].decode("ascii").splitlines():
            word, _, number = line.strip().partition(" ")
            if word == "all":
                yield from packets * ["packets 1"]
                yield "all"
            elif word in ("packets", "tick"):
                yield from int(number) * [f"{word} 1"]
            elif word and not word.startswith("#"):
                yield line

    def pieces(self):
        """What is written and kept after each number of pieces, the last one with the line of the end."""
        found, steps = [], list(self.steps()) if "record.txt" in self.case.files else []
        for count in range(len(steps) + 1):
            ended = self.run("".join(f"{step}\n" for step in steps[:count]).encode("ascii")) if steps else Ended(0, b"", b"", None)
            text = re.sub(rb"end [0-9]+\n\Z", b"", ended.stdout)
            if not found or (text, ended.kept) != found[-1]:
                found.append((text, ended.kept))
        whole = self.run()
        if whole.status or whole.stdout != self.case.stdout or not whole.stdout.startswith(found[-1][0]):
            raise ValueError(f"it ends with status {whole.status}, or doesn't write what it has to")
        return [*found, (whole.stdout, whole.kept)]


def calls_of(room):
    """The calls of the system on the case's files, by a trace of a run in which nothing fails."""
    trace = room.folder.parent / "trace"
    room.run(before=["strace", "-o", str(trace), "-e", f"trace={CALLS}"])
    counts, paths, found, loading = collections.Counter(), {1: "stdout"}, [], True
    for line in trace.read_text(errors="replace").splitlines():
        it = re.match(r"(\w+)\((.*)\) += (-?[0-9]+)", line)
        if not it:
            continue
        name, words, answer = it[1], it[2], int(it[3])
        counts[name] += 1
        named = re.findall(r'"([^"]*)"', words)
        if name in ("openat", "open", "creat"):
            path = named[0]
            paths[answer] = path
        else:
            handle = re.match(r"[0-9]+", words)
            path = paths.get(int(handle[0]), "") if handle else (named or [""])[0]
        loading = loading and not (path in ("stream.ts", "record.txt") and name.startswith("read"))
        what = what_fails(name, path, loading)
        if what:
            found.append(Call(name, counts[name], what, line[:90]))
    return found


def what_fails(name, path, loading):
    """What fails where a call on a file fails, while what is kept is loaded, which ends before the first read of stream or record, or later; None where it is no file of the case."""
    if path in ("stream.ts", "record.txt"):
        return "opening" if name in ("openat", "open") else "read"
    if path in (JOURNAL, OLDER, "."):
        return "load" if loading else "store"
    return "write" if path == "stdout" and name.startswith("write") else None


def is_right(what, ended, pieces):
    """Whether a run in which this failed came to what it has to."""
    if what == "allocation":
        return any(is_right(other, ended, pieces) for other in ("refused", "opening", "load", "store", "nothing"))
    if ended.status != STATUSES[what] or ended.stderr != TOLD.get(ended.status, b""):
        return False
    if what in ("opening", "load"):
        return ended.stdout == b"" and ended.kept == pieces[0][1]
    if what in ("read", "refused"):
        return (ended.stdout, ended.kept) in pieces
    return any(is_between(what, ended, *pair) for pair in zip(pieces, pieces[1:])) or (what in ("nothing", "bytes") and (ended.stdout, ended.kept) == pieces[-1])


def is_between(what, ended, piece, following):
    """Whether a run ended with what was written and kept at a piece, and with what a failure on the way to the following one leaves."""
    (text, kept), (next_text, next_kept) = piece, following
    if what == "write":
        return ended.stdout.startswith(text) and next_text.startswith(ended.stdout) and ended.stdout != next_text and ended.kept == next_kept
    return what in ("store", "kill") and ended.stdout == text and ended.kept in (kept, next_kept)


def runs_of(room, libraries):
    """Yields each run in which something fails: what, how it is told, and how it ended."""
    refuse, by_bytes = libraries
    yield "bytes", "reads and writes of a byte", room.run(environment={"LD_PRELOAD": by_bytes})
    for call in calls_of(room):
        said = f"{call.name} {call.number}: {call.text}"
        words = ["strace", "-o", "/dev/null", "-e", f"trace={call.name}"]
        yield call.what, said, room.run(before=[*words, "-e", f"inject={call.name}:error=EIO:when={call.number}"])
        if call.what == "store":
            yield "kill", said, room.run(before=[*words, "-e", f"inject={call.name}:signal=SIGKILL:when={call.number}"])
    made = room.folder.parent / "made"
    told = {"LD_PRELOAD": refuse, "ALLOCATIONS_MADE": str(made)}
    room.run(environment={**told, "REFUSED_ALLOCATION": "0"})
    count = int(made.read_text())
    if not count:
        sys.exit("fail_each.py: no allocation is seen, so none can be refused: a program of checked_program.py takes its memory by calls of its own")
    for number in range(1, count + 1):
        yield "allocation", f"allocation {number}", room.run(environment={**told, "REFUSED_ALLOCATION": str(number)})


def compiled(folder, name, text):
    """Returns the library that a text of C is compiled to."""
    source, library = Path(folder, f"{name}.c"), f"{folder}/{name}.so"
    source.write_text(text)
    subprocess.run(["cc", "-shared", "-fPIC", "-O1", "-o", library, str(source), "-ldl"], check=True)
    return library


def try_case(room, libraries):
    """Runs a case, prints what came of it, and returns how many of its runs went wrong."""
    pieces = room.pieces()
    well, wrong = collections.Counter(), 0
    for what, said, ended in runs_of(room, libraries):
        if is_right(what, ended, pieces):
            well[f"{what} with status {ended.status}" if what == "allocation" else what] += 1
        else:
            wrong += 1
            print(f"WRONG   {room.case.name}: {what}, {said}: status {ended.status}, {ended.stderr!r}, {len(ended.stdout)} bytes")
    told = ", ".join(f"{count:,} of {what}" for what, count in sorted(well.items()))
    print(f"{'FAILED' if wrong else 'ok':7} {room.case.name}: {len(pieces) - 1} pieces; {told}", flush=True)
    return wrong


def main():
    if len(sys.argv) < 2 or sys.argv[1].startswith("-"):
        print(__doc__.split("\n\n")[1], file=sys.stderr)
        return 2
    program = os.path.abspath(sys.argv[1])
    if not (os.access(program, os.X_OK) and shutil.which("strace") and shutil.which("cc")):
        print("fail_each.py: it needs a program, strace and cc", file=sys.stderr)
        return 2
    with tempfile.TemporaryDirectory(prefix="fail-") as folder:
        libraries = compiled(folder, "refuse", LIBRARY), compiled(folder, "by_bytes", BY_BYTES)
        return 1 if sum([try_case(Room(program, case(name), folder), libraries) for name in sys.argv[2:] or DEFAULT]) else 0


if __name__ == "__main__":
    sys.exit(main())
