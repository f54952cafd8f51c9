#!/usr/bin/env python3
"""Runs a program over journals as a stop, a fault of the disk or another run may leave them, and tells what came of it.

usage: try_journals.py PROGRAM [--every N] [--jobs N]

- a journal with two areas is cut at each N-th length (1), and each byte of its gates and numbers gets each N-th value, and 0 to 3 and 255; beside it lies an older area
- a file may grow to no more than a length (as on a disk that is full) while a page stores
- two runs are in one folder at the same time, where there is a journal and where there is none
- a page stores 100 times: how long that takes, and which calls of the system a store makes (by `strace`, if it is there)

Of the runs over journals as many go on at once as --jobs says (1). Which area a run has to begin with is worked out by tools/rows/journals.py, a second way than the program's. Status: 0 where all went well, 1 where a run went
wrong, 2 where nothing could be run.
"""

import argparse
import collections
import itertools
import os
import queue
import re
import resource
import shutil
import signal
import subprocess
import sys
import tempfile
import time
from concurrent.futures import ThreadPoolExecutor
from pathlib import Path

from hostile_texts import BML, case_of  # (also finds the folders of the other tools)

from cases import Case, case
from journals import AREA_SIZE, JOURNAL, OLDER, SLOT_SIZE, kept_in, newest

READING = "arrays: the slots of a journal: the second is newer"  # writes down the first byte
STORING = "arrays: the slots of a journal: stores in turn"  # writes down the first byte, and stores 9 in its place
STORES = 100
SLOTS = b"\1\0" + b"\7" * AREA_SIZE + b"\1\1" + b"\x08" * AREA_SIZE
LIMITS = [0, 1, 2, AREA_SIZE, SLOT_SIZE - 1, SLOT_SIZE, SLOT_SIZE + 1, SLOT_SIZE + 2, 2 * SLOT_SIZE - 1, 2 * SLOT_SIZE]
MOST_SECONDS = 60
SECONDS_TO_LOAD = 5  # in which a run has loaded what is kept, on a machine that has much else to do too
OLDER_AREA = b"\5" * 1024


class Folder:
    """A folder in which a program runs again and again."""

    def __init__(self, program, path):
        self.program, self.path = program, Path(path)

    def prepare(self, made, journal, older=None):
        """Puts the files of a case there, with this journal and this older area, or none."""
        shutil.rmtree(self.path, ignore_errors=True)
        self.path.mkdir()
        for name in ("stream.ts", "record.txt"):
            (self.path / name).write_bytes(made.files[name])
        for name, content in ((JOURNAL, journal), (OLDER, older)):
            if content is not None:
                (self.path / name).write_bytes(content)

    def run(self, made, before=(), most=None):
        """Runs a case there, with files that may grow to this many bytes, and returns its status and its output."""

        def bounded():
            signal.signal(signal.SIGXFSZ, signal.SIG_IGN)
            resource.setrlimit(resource.RLIMIT_FSIZE, (most, most))

        how = {"cwd": self.path, "stdin": subprocess.DEVNULL, "capture_output": True, "timeout": MOST_SECONDS, "check": False}
        ran = subprocess.run([*before, self.program, *made.words], preexec_fn=None if most is None else bounded, **how)
        return ran.returncode, ran.stdout, ran.stderr


def told_by(output):
    """The first number that the page of a run wrote down, or None."""
    found = re.search(rb"^text .* ([0-9]+)$", output, re.M)
    return int(found[1]) if found else None


def journals(every):
    """Yields each journal that is tried, with what was done to it."""
    for length in range(0, len(SLOTS) + 1, every):
        yield f"cut at {length}", SLOTS[:length]
    for place in (0, 1, SLOT_SIZE, SLOT_SIZE + 1):
        for value in sorted({0, 1, 2, 3, 255, *range(0, 256, every)}):
            yield f"byte {place} is {value}", SLOTS[:place] + bytes([value]) + SLOTS[place + 1 :]


def try_journal(folder, reading, said, journal):
    """Yields what goes wrong in a run that begins with a journal."""
    folder.prepare(reading, journal, OLDER_AREA)
    status, output, _ = folder.run(reading)
    wanted = (newest(journal) or OLDER_AREA)[0]
    if status or told_by(output) != wanted:
        yield f"{said}: status {status}, begins with {told_by(output)} in place of {wanted}"
    if (folder.path / JOURNAL).read_bytes() != journal or (folder.path / OLDER).read_bytes() != OLDER_AREA:
        yield f"{said}: a file was written"


def try_journals(folders, every):
    """Yields what went wrong, and at last how many journals there were. A run goes on in each of the folders."""
    reading, count, free = case(READING), 0, queue.SimpleQueue()
    for folder in folders:
        free.put(folder)

    def tried(journal):
        folder = free.get()
        try:
            return list(try_journal(folder, reading, *journal))
        finally:
            free.put(folder)

    with ThreadPoolExecutor(len(folders)) as pool:
        for found in pool.map(tried, journals(every)):
            count += 1
            yield from ((True, said) for said in found)
    yield False, f"{count:,} journals"


def try_full_disks(folder):
    """Yields what went wrong, and at last how many lengths were tried."""
    storing = case(STORING)
    for journal in (None, b"", SLOTS[:SLOT_SIZE], SLOTS):
        for most in LIMITS:
            folder.prepare(storing, journal)
            before = kept_in(folder.path)
            status, output, error = folder.run(storing, most=most)
            kept = kept_in(folder.path)
            stored = b"\x09" + (before or bytes(AREA_SIZE))[1:]
            right = kept == stored if status == 0 else (status, output, error) == (6, b"", b"keep fault\n") and kept in (before, stored)
            if not right:
                yield True, f"{len(journal or b'')} bytes that may grow to {most}: status {status}, {error!r}"
    yield False, f"{4 * len(LIMITS)} stores on disks that are full"


def try_two_runs(folder):
    """Yields what went wrong, and at last that two runs were tried."""
    storing = case(STORING)
    for journal in (SLOTS, None):
        folder.prepare(storing, journal)
        stream = folder.path / "stream.ts"
        (folder.path / "other.ts").write_bytes(stream.read_bytes())
        stream.unlink()
        os.mkfifo(stream)
        first = subprocess.Popen([folder.program, *storing.words], cwd=folder.path, stdin=subprocess.DEVNULL, stdout=subprocess.PIPE, stderr=subprocess.PIPE)
        with open(stream, "wb") as pipe:
            time.sleep(SECONDS_TO_LOAD)  # the first run loads what is kept, and waits for the stream
            words = ["other.ts" if word == "stream.ts" else word for word in storing.words]
            second = folder.run(storing._replace(words=words))
            pipe.write((folder.path / "other.ts").read_bytes())
        output, error = first.communicate(timeout=MOST_SECONDS)
        fault = (6, b"", b"keep fault\n")
        ends = [second, (first.returncode, output, error)]
        refused, other = ends if journal else ends[::-1]
        if refused != fault or other[0]:
            yield True, f"two runs {'with' if journal else 'without'} a journal end with {second[0]} and {first.returncode}"
    yield False, "two runs at once, with a journal and without one"


def storing_page():
    """Returns a case with a page that stores STORES times: a timer fires, and each firing keeps a number."""
    script = "var n = 0, l = new Array(); function f() { l[0] = ++n; browser.writePersistentArray('nvram://~/0', 'U:4B', l); }"
    page = f"<bml><head><script><![CDATA[{script} browser.setInterval('f()', 10, {STORES});]]></script></head><body/></bml>"
    made = case_of([(BML, page.encode("ascii"))], f"all\ntick {200 * STORES}\n".encode("ascii"))
    files = {"stream.ts": made.stream, "record.txt": made.record}
    return Case("stores", ["replay", *made.options, "stream.ts", "record.txt"], files, b"", 0)


def try_speed(folder):
    """Yields how long stores take, and which calls of the system one makes."""
    storing = storing_page()
    folder.prepare(storing, SLOTS)
    begin = time.monotonic()
    status, output, _ = folder.run(storing)
    seconds = time.monotonic() - begin
    stores = output.count(b"kept nvram://~/0 4\n")
    yield status != 0 or stores != STORES, f"{stores} stores in {seconds:.3f} seconds, {stores / seconds:,.0f} a second"
    if shutil.which("strace"):
        folder.prepare(storing, SLOTS)
        trace = folder.path / "trace"
        folder.run(storing, before=["strace", "-o", str(trace), "-e", "trace=pread64,pwrite64,fdatasync,fsync"])
        calls = collections.Counter(line.partition("(")[0] for line in trace.read_text().splitlines() if "(" in line)
        yield False, "calls of the system in it: " + ", ".join(f"{name} {count}" for name, count in sorted(calls.items()))


def main():
    parser = argparse.ArgumentParser(usage="try_journals.py PROGRAM [--every N] [--jobs N]")
    parser.add_argument("program")
    parser.add_argument("--every", type=int, default=1)
    parser.add_argument("--jobs", type=int, default=1)
    asked = parser.parse_args()
    program = os.path.abspath(asked.program)
    if not os.access(program, os.X_OK):
        print(f"try_journals.py: {asked.program} is no program", file=sys.stderr)
        return 2
    wrong = 0
    with tempfile.TemporaryDirectory(prefix="journals-") as room:
        folders = [Folder(program, Path(room, f"run-{number}")) for number in range(asked.jobs)]
        alone = folders[0]
        for is_wrong, said in itertools.chain(try_full_disks(alone), try_two_runs(alone), try_journals(folders, asked.every), try_speed(alone)):
            print(f"{'WRONG' if is_wrong else 'tried'}   {said}", flush=True)
            wrong += is_wrong
    return 1 if wrong else 0


if __name__ == "__main__":
    sys.exit(main())
