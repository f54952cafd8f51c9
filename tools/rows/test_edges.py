#!/usr/bin/env python3
"""Tests what the system hands to a built program, and no clause reaches: test_edges.py --program PROGRAM

Words that are no text, names with a blank at their end, standard output and standard error that are closed or full, a
pipe in place of a file, reads and writes of a byte each (by `cc`, where that is there), calls of the system that are
interrupted or fail one by one (by `strace`, where that is there), and kept areas of other lengths, that can't be opened
or read, that another run has locked, or for which the disk is full. Each case runs in a folder of its own over the
example `first-visit`, whose page keeps values in two turns. What has to come of it is from README.md, "How it ends" and
"What is kept".
Status: 0 where all passed, 1 where one failed, 2 where nothing could be run.
"""

import argparse
import contextlib
import fcntl
import functools
import os
import re
import shutil
import subprocess
import sys
import tempfile
import threading
from collections.abc import Callable, Iterator
from pathlib import Path
from typing import Any, NamedTuple

from journals import AREA_SIZE, JOURNAL, OLDER, SLOT_SIZE, kept_in

EXAMPLE = Path(__file__).resolve().parents[2] / "examples" / "first-visit"
WORDS: list[str | bytes] = ["replay", "--data-pid", "256", "stream.ts", "record.txt"]
LIMIT = 60  # seconds for each run
USAGE, BAD_LINE, OPEN_FAULT, READ_FAULT, WRITE_FAULT, KEEP_FAULT, BAD_LENGTH = 1, 2, 3, 4, 5, 6, 7
TOLD = {
    BAD_LINE: b"bad record line 2\n",
    OPEN_FAULT: b"open fault\n",
    READ_FAULT: b"read fault\n",
    WRITE_FAULT: b"write fault\n",
    KEEP_FAULT: b"keep fault\n",
}
MISSING = b"%s: No such file or directory (os error 2)\n"
# Calls that may be interrupted, and the files on which they are: what starts a program opens and reads others.
INTERRUPTED: dict[str, tuple[str, ...]] = {
    "openat": ("stream.ts", "record.txt", JOURNAL),
    "read": ("stream.ts", "record.txt"),
    "write": (),
    "pwrite64": (),
    "fdatasync": (),
}
WHOLE = (EXAMPLE / "stdout").read_bytes()
# The lines of the run by its pieces: the load with what it keeps, a display list, the click, a display list, the end.
PIECES = re.findall(rb"module(?:.*\n)+?kept.*\n|show.*\n(?:box.*\n|text.*\n|focus.*\n)+|kept.*\n|end.*\n", WHOLE)
# In a run without an older area: how often a store calls the system for each of these.
STORES, STORING = 2, {"pwrite64": 3, "fdatasync": 3}
# Each read and each write gives or takes a byte.
BYTE_BY_BYTE = r"""
#define _GNU_SOURCE
#include <dlfcn.h>
#include <unistd.h>
#define REAL(name) ((__typeof__(&name))dlsym(RTLD_NEXT, #name))
ssize_t read(int file, void *into, size_t count) { return REAL(read)(file, into, count != 0); }
ssize_t write(int file, const void *from, size_t count) { return REAL(write)(file, from, count != 0); }
ssize_t pread64(int file, void *into, size_t count, off64_t at) { return REAL(pread64)(file, into, count != 0, at); }
ssize_t pwrite64(int file, const void *from, size_t count, off64_t at)
{ return REAL(pwrite64)(file, from, count != 0, at); }
// (a build with checks calls them by their other names)
ssize_t pread(int file, void *into, size_t count, off_t at) { return pread64(file, into, count, at); }
ssize_t pwrite(int file, const void *from, size_t count, off_t at) { return pwrite64(file, from, count, at); }
"""


class Ended(NamedTuple):
    """How a run ended: its status, what it wrote, and what is kept after it."""

    status: int
    stdout: bytes
    stderr: bytes
    kept: bytes | None


class Room:
    """A folder with the files of the example, in which the program is run once."""

    def __init__(self, program: str, folder: str, library: str = "") -> None:
        """A library may be loaded before the C library."""
        self.program, self.folder, self.library = program, Path(folder), library
        for name in ("stream.ts", "record.txt"):
            shutil.copy(EXAMPLE / name, self.folder / name)

    def run(self, words: list[str | bytes] = WORDS, before: tuple[str, ...] = (), **how: Any) -> Ended:
        """Runs the program after other words, and returns how it ended."""
        given: dict[str, Any] = {
            "stdin": subprocess.DEVNULL,
            "stdout": subprocess.PIPE,
            "stderr": subprocess.PIPE,
            **how,
        }
        command = [*(before or self.preloaded("env")), self.program, *words]
        ran = subprocess.run(command, cwd=self.folder, timeout=LIMIT, check=False, **given)
        return Ended(ran.returncode, ran.stdout or b"", ran.stderr or b"", kept_in(self.folder))

    def preloaded(self, word: str) -> list[str]:
        """The words that have the program load the library."""
        return [word, f"LD_PRELOAD={self.library}"] if self.library else []

    def files(self) -> set[str]:
        """The names of what is in the folder."""
        return {it.name for it in self.folder.iterdir()} - {"trace"}

    def injected(self, error: str, call: str, every: str, paths: tuple[str, ...]) -> Ended:
        """Runs it with an error at some of its calls of a kind, of those on these files where any are given."""
        injected = ("-e", f"trace={call}", "-e", f"inject={call}:error={error}:when={every}")
        # (an opening names them as they are given, and other calls have them by their whole paths)
        whole = [path for name in paths for path in (name, str(self.folder / name))]
        of_files = [word for path in whole for word in ("-P", path)]
        ended = self.run(before=("strace", *self.preloaded("-E"), "-f", "-o", "trace", *of_files, *injected))
        # (where these files are is what strace says of them)
        return ended._replace(stderr=re.sub(rb"strace: Requested path .*\n", b"", ended.stderr))

    def was_injected(self) -> bool:
        """Whether the last run had a call with an error that was put there."""
        return "(INJECTED)" in (self.folder / "trace").read_text(errors="replace")


Case = Callable[[Room], bool]


def ends(ended: Ended, status: int, stdout: bytes = b"", cause: bytes = b"") -> bool:
    """Whether a run ended with a status, its line and this cause on standard error, and this on standard output."""
    return (ended.status, ended.stdout, ended.stderr) == (status, stdout, TOLD.get(status, b"") + cause)


def done(ended: Ended) -> bool:
    """Whether a run came to its end with all its lines."""
    return ends(ended, 0, WHOLE) and ended.kept is not None


def is_usage(ended: Ended) -> bool:
    return ended.status == USAGE and ended.stdout == b"" and ended.stderr.startswith(b"usage\n") and ended.kept is None


def renamed(room: Room, name: str | bytes) -> Ended:
    """Runs it over the stream under another name."""
    os.rename(room.folder / "stream.ts", os.path.join(os.fsencode(room.folder), os.fsencode(name)))
    return room.run([*WORDS[:3], name, "record.txt"])


def words() -> Iterator[tuple[str, Case]]:
    yield "the example as it is", lambda room: done(room.run())
    yield "no word at all", lambda room: is_usage(room.run([]))
    yield "an empty word", lambda room: is_usage(room.run([*WORDS, ""]))
    yield "an empty name of the stream", lambda room: is_usage(room.run([*WORDS[:3], "", "record.txt"]))
    yield "an empty name of the record", lambda room: is_usage(room.run([*WORDS[:4], ""]))
    yield "a sixth word", lambda room: is_usage(room.run([*WORDS, "record.txt"]))
    yield "an option after the names", lambda room: is_usage(room.run(["replay", *WORDS[3:], *WORDS[1:3]]))
    yield "a name that isn't UTF-8, of a file that is there", lambda room: is_usage(renamed(room, b"\xff.ts"))
    yield "a name that is cut within a character", lambda room: is_usage(renamed(room, b"a\xe3\x81"))
    yield "a name with a blank at its end", lambda room: done(renamed(room, "stream.ts "))
    yield "the same without that blank", lambda room: ends(
        room.run([*WORDS[:3], "stream.ts ", "record.txt"]), OPEN_FAULT, cause=MISSING % b"stream.ts "
    )
    yield "a name of other letters", lambda room: done(renamed(room, "放送 1.ts"))
    yield "a name that begins with a minus sign, in its folder", lambda room: done(renamed(room, "./-x"))
    yield "help and another word", lambda room: is_usage(room.run(["--help", "x"]))
    yield "help goes to standard output alone", lambda room: is_told(room.run(["--help"]), b"--data-pid")
    yield "so does the version", lambda room: is_told(room.run(["--version"]), b"bml_replay ")
    yield "help makes no file", lambda room: makes_none(room, ["--help"])
    yield "nor do words that are no command", lambda room: makes_none(room, ["x"])
    yield "nor does a stream that isn't there", lambda room: makes_none(room, [*WORDS[:3], "x", "record.txt"])


def is_told(ended: Ended, word: bytes) -> bool:
    """Whether a run ended well, and wrote a text with a word."""
    return (ended.status, ended.stderr) == (0, b"") and word in ended.stdout


def makes_none(room: Room, words: list[str | bytes]) -> bool:
    """Whether a run makes no file, and takes none away."""
    before = room.files()
    room.run(words)
    return room.files() == before


def closed(*handles: int) -> dict[str, Any]:
    """What has a program begin without these handles."""

    def close() -> None:
        for handle in handles:
            os.close(handle)

    return {"preexec_fn": close}


def to_nobody(room: Room) -> Ended:
    """Runs it with a pipe as standard output that nobody reads."""
    reader, writer = os.pipe()
    os.close(reader)
    try:
        return room.run(stdout=writer)
    finally:
        os.close(writer)


def to_full(room: Room, **how: Any) -> Ended:
    with open("/dev/full", "wb") as full:
        return room.run(stdout=full, **how)


def outputs() -> Iterator[tuple[str, Case]]:
    yield "standard output is closed", lambda room: ends(room.run(**closed(1)), WRITE_FAULT)
    yield "help with standard output closed", lambda room: ends(room.run(["--help"], **closed(1)), WRITE_FAULT)
    yield "standard output is full", lambda room: ends(to_full(room), WRITE_FAULT)
    yield "nobody reads standard output", lambda room: ends(to_nobody(room), WRITE_FAULT)
    yield "standard error is closed", lambda room: room.run(["x"], **closed(2)).status == USAGE
    yield "both are closed", lambda room: room.run(**closed(1, 2)).status == WRITE_FAULT
    yield "standard input is closed", lambda room: done(room.run(**closed(0)))
    yield "the files stay as they are", files_stay


def files_stay(room: Room) -> bool:
    """Whether stream and record are as before where they get the numbers of closed handles."""
    room.run(**closed(0, 1, 2))
    return all((room.folder / it).read_bytes() == (EXAMPLE / it).read_bytes() for it in ("stream.ts", "record.txt"))


def from_pipe(
    room: Room, words: list[str | bytes] = WORDS, name: str = "stream.ts", content: bytes | None = None
) -> Ended:
    """Runs it with a pipe in place of the stream or the record, into which a few bytes are written at once."""
    path, given = room.folder / name, content or (EXAMPLE / name).read_bytes()
    path.unlink()
    os.mkfifo(path)

    def write() -> None:
        with contextlib.suppress(BrokenPipeError), open(path, "wb", buffering=0) as pipe:
            for at in range(0, len(given), 100):
                pipe.write(given[at : at + 100])

    writer = threading.Thread(target=write, daemon=True)
    writer.start()
    return room.run(words)


@functools.cache
def can_interrupt() -> bool:
    """Whether strace is there and may trace."""
    if not shutil.which("strace"):
        return False
    return subprocess.run(["strace", "-o", os.devnull, "true"], capture_output=True, check=False).returncode == 0


def goes_on(call: str, every: str, paths: tuple[str, ...]) -> Case:
    """A run whose calls are interrupted is as if they weren't."""
    return lambda room: done(room.injected("EINTR", call, every, paths)) and room.was_injected()


def byte_by_byte(room: Room) -> Ended:
    """Runs it with reads and writes of a byte each."""
    library = f"{room.folder}/bytes.so"
    (room.folder / "bytes.c").write_text(BYTE_BY_BYTE)
    subprocess.run(["cc", "-shared", "-fPIC", "-w", "-o", library, f"{room.folder}/bytes.c", "-ldl"], check=True)
    room.library = f"{room.library} {library}".strip()
    return room.run()


def with_record(room: Room, record: bytes) -> Ended:
    (room.folder / "record.txt").write_bytes(record)
    return room.run()


def in_place(room: Room, name: str) -> Ended:
    """Runs it with a folder in place of a file."""
    (room.folder / name).unlink(missing_ok=True)
    (room.folder / name).mkdir()
    return room.run()


def reads() -> Iterator[tuple[str, Case]]:
    yield "a pipe in place of the stream", lambda room: done(from_pipe(room))
    yield "a folder in place of the stream", lambda room: ends(
        in_place(room, "stream.ts"), READ_FAULT, cause=b"stream.ts: is a directory\n"
    )
    yield "a folder in place of the record", lambda room: ends(
        in_place(room, "record.txt"), READ_FAULT, cause=b"record.txt: is a directory\n"
    )
    # (neither is looked at anew, which might wait for ever)
    yield "a pipe in place of the stream, and no record", lambda room: ends(
        from_pipe(room, [*WORDS[:4], "missing.txt"]), OPEN_FAULT, cause=MISSING % b"missing.txt"
    )
    yield "a pipe in place of a record with a bad line", lambda room: ends(
        from_pipe(room, name="record.txt", content=b"all\nx\n"), BAD_LINE, PIECES[0]
    )
    yield "a bad line of the record", lambda room: ends(
        with_record(room, b"all\nx\n"), BAD_LINE, PIECES[0], b"record.txt:2: x\n"
    )
    if shutil.which("cc"):
        yield "reads and writes of a byte each", lambda room: done(byte_by_byte(room))
    if can_interrupt():
        for call, paths in INTERRUPTED.items():
            yield f"{call} is interrupted each other time", goes_on(call, "1+2", paths)
            yield f"{call} is interrupted three times in turn", goes_on(call, "1..3", paths)


def fails(call: str, path: str, number: int, status: int, pieces: int, error: str = "EIO") -> tuple[str, Case]:
    """A run in which a call on a file fails: it ends with the status, after so many whole pieces."""

    def case(room: Room) -> bool:
        paths = (path,) if path else ()
        ended = room.injected(error, call, str(number), paths)
        return (
            room.was_injected() and ends(ended, status, b"".join(PIECES[:pieces])) and is_between(room, ended, pieces)
        )

    return f"{call}{' on ' + path if path else ''} fails with {error} at call {number}", case


def is_between(room: Room, ended: Ended, pieces: int) -> bool:
    """Whether what is kept is the area of the last turn that was told, or that of the next one."""
    first, second = areas_kept(room.program)
    turns = sum(1 for piece in PIECES[:pieces] if b"kept" in piece)
    return ended.kept in [None, first, second][turns : turns + 2]


@functools.cache
def areas_kept(program: str) -> tuple[bytes, bytes]:
    """The areas after the two turns that change them: a run stores each in a slot of its own."""
    with tempfile.TemporaryDirectory(prefix="edge-") as folder:
        Room(program, folder).run()
        journal = Path(folder, JOURNAL).read_bytes()
    return journal[SLOT_SIZE - AREA_SIZE : SLOT_SIZE], journal[-AREA_SIZE:]


def failures() -> Iterator[tuple[str, Case]]:
    """Runs in which one call of the system fails: of each kind each in turn."""
    if not can_interrupt():
        return
    yield fails("openat", "stream.ts", 1, OPEN_FAULT, 0, "EACCES")
    yield fails("openat", "record.txt", 1, OPEN_FAULT, 0, "EMFILE")
    yield fails("openat", JOURNAL, 1, KEEP_FAULT, 0, "EACCES")
    yield fails("openat", JOURNAL, 2, KEEP_FAULT, 0, "ENOSPC")
    yield fails("flock", JOURNAL, 1, KEEP_FAULT, 0, "EAGAIN")
    yield fails("read", "record.txt", 1, READ_FAULT, 0)
    yield fails("read", "record.txt", 2, READ_FAULT, len(PIECES) - 1)
    yield fails("read", "stream.ts", 1, READ_FAULT, 0)
    for store in range(STORES):
        for call, count in STORING.items():
            for number in range(1, count + 1):
                yield fails(call, JOURNAL, store * count + number, KEEP_FAULT, 2 * store)
    yield fails("pread64", JOURNAL, 1, KEEP_FAULT, 2)
    # (the folder in which the journal was made)
    yield fails("fsync", "", 1, KEEP_FAULT, 0)
    yield fails("pwrite64", JOURNAL, 2, KEEP_FAULT, 0, "ENOSPC")
    for number in range(1, len(PIECES) + 1):
        yield fails("write", "", number, WRITE_FAULT, number - 1, "ENOSPC")


@functools.cache
def second_run(program: str) -> Ended:
    """How the run ends that finds what the first one kept."""
    with tempfile.TemporaryDirectory(prefix="edge-") as folder:
        room = Room(program, folder)
        room.run()
        return room.run()


def loads_on(every: str) -> Case:
    """A second run, whose reads of the journal are interrupted, is as if they weren't."""

    def case(room: Room) -> bool:
        room.run()
        ended = room.injected("EINTR", "pread64", every, (JOURNAL,))
        return room.was_injected() and ended == second_run(room.program) and b"visit 2" in ended.stdout

    return case


def loads_not(number: int) -> Case:
    """A second run, of which a read of the journal fails, ends before it does anything."""

    def case(room: Room) -> bool:
        kept = room.run().kept
        ended = room.injected("EIO", "pread64", str(number), (JOURNAL,))
        return room.was_injected() and ends(ended, KEEP_FAULT) and ended.kept == kept

    return case


def with_area(room: Room, area: bytes) -> Ended:
    (room.folder / OLDER).write_bytes(area)
    return room.run()


def bad_length(size: int) -> Case:
    """An area of that many bytes is told, and stays."""
    area, told = bytes(range(1, 4)) * size, b"bad area length %d\n" % size
    return lambda room: with_area(room, area[:size]) == Ended(BAD_LENGTH, b"", told, area[:size])


def linked(room: Room, name: str, target: str) -> Ended:
    """Runs it with a link in place of a file of the area."""
    os.symlink(target, room.folder / name)
    return room.run()


def is_stored_not(room: Room) -> bool:
    """Whether the old area stays, and no line of the turn is written, where the disk is full when it is stored."""
    old = bytes(1024)
    (room.folder / OLDER).write_bytes(old)
    return ends(linked(room, JOURNAL, "/dev/full"), KEEP_FAULT) and (room.folder / OLDER).read_bytes() == old


def locked(room: Room) -> bool:
    """Whether a journal that another run has locked stays as it is, and nothing is read."""
    with open(room.folder / JOURNAL, "wb") as journal:
        fcntl.flock(journal, fcntl.LOCK_EX)
        ended = room.run()
    return ends(ended, KEEP_FAULT) and (room.folder / JOURNAL).read_bytes() == b""


def stays_older(room: Room) -> bool:
    """Whether an older area counts, and its file is never written."""
    old = bytes([1, 0, 1]) + bytes(1021)
    ended = with_area(room, old)
    return (ended.status, ended.stderr) == (0, b"") and (room.folder / OLDER).read_bytes() == old


def keeps_none(room: Room) -> bool:
    """Whether a run that changes nothing of the area makes no journal."""
    ended = with_record(room, b"show\n")
    return ended.status == 0 and room.files() == {"stream.ts", "record.txt"}


def reads_not(room: Room) -> bool:
    """Whether an older area that opens and can't be read ends the run before it does anything."""
    (room.folder / OLDER).write_bytes(bytes(1024))
    ended = room.injected("EIO", "read,pread64", "1", (OLDER,))
    return room.was_injected() and ends(ended, KEEP_FAULT) and JOURNAL not in room.files()


def areas() -> Iterator[tuple[str, Case]]:
    for size in (1, 3, 1023, 1025, 3071, 3073, 5_000):
        yield f"an area of {size:,} bytes", bad_length(size)
    yield "an empty area", lambda room: done(with_area(room, b""))
    yield "an area that can't be opened", lambda room: ends(linked(room, OLDER, OLDER), KEEP_FAULT)
    yield "an area that is a folder", lambda room: ends(in_place(room, OLDER), KEEP_FAULT)
    yield "a full disk where it is stored", is_stored_not
    yield "a journal that another run has locked", locked
    yield "a journal that is a folder", lambda room: ends(in_place(room, JOURNAL), KEEP_FAULT)
    yield "an older area that counts stays as it was", stays_older
    yield "a run that keeps nothing makes no journal", keeps_none
    if can_interrupt():
        yield "an older area that can't be read", reads_not
        yield "the journal's reads are interrupted each other time", loads_on("1+2")
        yield "they are interrupted three times in turn", loads_on("1..3")
        for number in (1, 2, 3):
            yield f"the journal's read {number} of a load fails", loads_not(number)


def cases() -> list[tuple[str, Case]]:
    return [*words(), *outputs(), *reads(), *failures(), *areas()]


def check(program: str, case: Case, library: str = "") -> str:
    """Returns what is wrong with a case, and nothing where it passed."""
    with tempfile.TemporaryDirectory(prefix="edge-") as folder:
        try:
            return "" if case(Room(program, folder, library)) else "it ends otherwise"
        except subprocess.TimeoutExpired:
            return f"it takes more than {LIMIT} seconds"


def main() -> int:
    parser = argparse.ArgumentParser(usage="test_edges.py --program PROGRAM")
    parser.add_argument("--program", required=True)
    program = os.path.abspath(parser.parse_args().program)
    if not os.access(program, os.X_OK):
        print(f"test_edges.py: {program} is no program: build it first", file=sys.stderr)
        return 2
    told = [(name, check(program, case)) for name, case in cases()]
    failed = [f"        {name}: {fault}" for name, fault in told if fault]
    beside = "" if can_interrupt() else "; without strace, so no call was interrupted or failed"
    print(f"{'FAILED' if failed else 'ok':7} edges: {len(told) - len(failed)} of {len(told)} cases{beside}")
    print("\n".join(failed), end="\n" if failed else "")
    return 1 if failed else 0


if __name__ == "__main__":
    sys.exit(main())
