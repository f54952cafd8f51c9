#!/usr/bin/env python3
"""Goes through a folder of recordings, and makes of each what there is to look at.

    tools/users/archive.py FOLDER OUT [--jobs N] [--program PROGRAM]

takes all files below FOLDER that end in .ts, .m2ts, .mts, .m2t, .trp or .tp. Of each it makes a folder below OUT/recordings:

    list.txt                      what is in it (prepare_recording.py list)
    data.ts                       its tables and its data alone (prepare_recording.py unpack --data-only)
    service-101/modules/          the modules of each service with data (extract.py)
    service-101/report.html       the report of a replay of data.ts, whose record takes all packets and shows the page: record.txt, lines.txt, display.svg

Where no table leads to a carousel there is pid-N in place of services, with data.ts in it. OUT/index.html lists all recordings with their pictures, and the failed ones
with their reasons. N recordings are worked on at once, one for each processor if N isn't named; a line is printed for each that is done.

A run that was broken off begins again where it was: a recording whose folder is there, and whose size and time are as they were, isn't done again.
One that failed is tried again. What is below OUT isn't taken. PROGRAM is build/bml_replay; a replay has ten minutes and may print 200 MB.
Status: 0 where all are done, 1 where some failed, or FOLDER can't be read or OUT be written, 2 where the command line is none of the above.
This tool is tested, and not proved.
"""

import argparse
import contextlib
import fcntl
import hashlib
import io
import json
import multiprocessing
import os
import resource
import shutil
import signal
import subprocess
import sys
import time
import traceback
from multiprocessing import connection
from pathlib import Path
from typing import NamedTuple

import archive_page
import extract
import prepare_recording
from diagnosis import explained, findings_of, said_by_system, survey, targets_of
from draw_display import drawings
from drawings import BadOutput
from report import items_of, page, report_of_lines
from shown_pages import Recording

NAME = "archive.py"
PROGRAM = Path(__file__).resolve().parents[2] / "build" / "bml_replay"
ENDINGS = (".ts", ".m2ts", ".mts", ".m2t", ".trp", ".tp")
RECORD = b"all\nshow\n"
LIMIT = 600  # seconds for a replay
MOST_PRINTED = 200_000_000  # bytes of a replay
DONE, FAILED = "done.json", "failed.json"


class Failed(Exception):
    """Why a recording can't be done."""


class Source(NamedTuple):
    """A recording: its path below FOLDER, its size in bytes, and the time at which it was written last, in nanoseconds."""

    path: str
    size: int
    time: int

    def folder(self):
        """Returns the name of what is made of it, which no other recording has."""
        digest = hashlib.sha256(self.path.encode("utf-8", "surrogateescape")).hexdigest()[:12]
        return f"{extract.safe_name(archive_page.printable(self.path), '')}-{digest}"


# ---- one recording


def work(source, room, program):
    """Makes all of a recording in a folder, and returns what the page tells of it."""
    with open(source, "rb") as file:
        found = survey(file)
    findings, targets = findings_of(found, source), targets_of(found, source)
    fatal = [it for it in findings if it.is_fatal]
    if fatal and not targets:
        raise Failed(fatal[0].text())
    told, size = [it.text() for it in findings], found.recording.size
    lines = [f"packets of {size} bytes: {found.recording.count}", *prepare_recording.lines_of(found), *told]
    (room / "list.txt").write_text("\n".join(lines) + "\n", encoding="utf-8")
    has_services = any(it.service for it in targets)
    with open(room / "told.txt", "w", encoding="utf-8") as log, contextlib.redirect_stderr(log):
        if has_services:
            prepare_recording.unpack(source, str(room / "data.ts"), data_only=True)
        made = [made_target(it, source, room, program, told) for it in targets]
    return {"packets": found.recording.count, "packet_size": size, "findings": told, "has_data": has_services, "targets": made}


def made_target(target, source, room, program, findings):
    """Makes all of a service or of a PID, and returns what the page tells of it."""
    folder, made = room / target.folder(), {"name": target.name(), "folder": target.folder(), "modules": 0, "bytes": 0, "faults": []}
    folder.mkdir()
    try:
        with contextlib.redirect_stdout(io.StringIO()):
            modules = extract.extract(source, folder / "modules", target.service, target.data_pid)
        made |= {"modules": len(modules.rows), "bytes": sum(row.size for row in modules.rows)}
    except extract.Fault as fault:
        made["faults"].append(str(fault))
    stream = str(room / "data.ts")
    try:
        if target.data_pid:
            stream = str(folder / "data.ts")
            prepare_recording.unpack(source, stream, data_only=True, data_pid=target.data_pid)
        replay(target, stream, folder, program)
        made |= reported(target, source, stream, folder, findings)
    except (Failed, BadOutput) as fault:
        made["faults"].append(str(fault))
    return made


def limit_output():
    resource.setrlimit(resource.RLIMIT_FSIZE, (MOST_PRINTED, MOST_PRINTED))
    resource.setrlimit(resource.RLIMIT_CORE, (0, 0))


def replay(target, stream, folder, program):
    """Replays a stream in a folder where nothing is kept before."""
    (folder / "record.txt").write_bytes(RECORD)
    words = [program, "replay", *target.options(), stream, "record.txt"]
    with open(folder / "lines.txt", "wb") as printed:
        files = {"stdin": subprocess.DEVNULL, "stdout": printed, "stderr": subprocess.PIPE, "cwd": folder}
        try:
            ran = subprocess.run(words, timeout=LIMIT, preexec_fn=limit_output, check=False, **files)
        except subprocess.TimeoutExpired as fault:
            raise Failed(f"The replay took more than {LIMIT} seconds, and was ended.") from fault
    if ran.returncode:
        why = explained(ran.stderr.decode("utf-8", errors="replace").strip()[-500:], stream, RECORD)
        raise Failed(f"The program ended with status {ran.returncode}: {why}")


def reported(target, source, stream, folder, findings):
    """Writes the report and the picture of a replay, and returns what the page tells of it."""
    lines = (folder / "lines.txt").read_bytes().split(b"\n")[:-1]
    recording = Recording(stream, target.service, target.data_pid).read()
    name = f"{archive_page.printable(os.path.basename(source))}, {target.name()}"
    text = page(report_of_lines(name, lines, items_of(RECORD), stream, recording, findings))
    (folder / "report.html").write_text(text, encoding="utf-8", errors="backslashreplace")
    drawn, is_shown = drawings(lines, recording)[0], any(line.startswith(b"box ") for line in lines)
    if drawn and is_shown:
        (folder / "display.svg").write_text(drawn[-1], encoding="utf-8")
    words = [line.split(b" ")[0] for line in lines]
    loads = [line.decode("ascii", errors="backslashreplace") for line in lines if line.startswith((b"load ", b"launch "))]
    warnings = sum(words.count(word) for word in (b"stop", b"lost", b"badscript", b"refuse", b"skip"))
    return {"lines": len(lines), "loads": loads[:20], "warnings": warnings, "is_shown": bool(drawn and is_shown)}


def work_apart(source, place, means):
    """Makes all of a recording beside its place, and puts it there with what is told of it, or else says why not; the process ends with it."""
    signal.signal(signal.SIGINT, signal.SIG_IGN)  # (the run that began it ends it)
    room = Path(f"{place}.part")
    try:
        with contextlib.redirect_stdout(io.StringIO()), contextlib.redirect_stderr(io.StringIO()):
            told = work(os.path.join(means.folder, source.path), room, means.program)
        (room / DONE).write_text(json.dumps(told | {"source": source._asdict()}), encoding="ascii")
        os.replace(room, place)
        return
    except (Failed, prepare_recording.Fault, OSError) as fault:
        why = str(fault)
    except Exception as fault:  # (whatever comes: the others go on)
        (room / "trace.txt").write_text(traceback.format_exc(), encoding="utf-8", errors="backslashreplace")
        why = f"a fault of this tool: {type(fault).__name__}: {fault}"
    (room / FAILED).write_text(json.dumps(why), encoding="ascii")


# ---- all recordings


class Means(NamedTuple):
    """Where the recordings are, and the program that replays them."""

    folder: str
    program: str


def sources_of(folder, out):
    """Returns the recordings below a folder, in the order of their paths, but for what is below OUT."""
    found, left_out = [], os.path.realpath(out)
    for place, folders, files in os.walk(folder):
        folders[:] = [it for it in folders if os.path.realpath(os.path.join(place, it)) != left_out]
        for name in files:
            path = os.path.join(place, name)
            if name.lower().endswith(ENDINGS) and os.path.isfile(path):
                state = os.stat(path)
                found.append(Source(os.path.relpath(path, folder), state.st_size, state.st_mtime_ns))
    return sorted(found)


def told_in(path, fault=None):
    """Returns what is told in a file, or this where it can't be read."""
    try:
        return json.loads(path.read_text(encoding="ascii"))
    except (OSError, ValueError):
        return fault


class Archive:
    """The recordings of a run: what is told of those that are done, and why others failed, by their paths."""

    def __init__(self, means, out, jobs):
        self.means, self.out, self.jobs = means, Path(out), jobs
        self.sources = sources_of(means.folder, out)
        self.done, self.failed = {}, {}
        self.running = {}  # the process of each recording that is worked on, by what it is waited for by

    def place(self, source):
        return self.out / "recordings" / source.folder()

    def done_before(self, source):
        """Returns what is told of a recording that is done, as it is now, or None."""
        told = told_in(self.place(source) / DONE)
        return told if isinstance(told, dict) and told.get("source") == source._asdict() else None

    def run(self):
        """Does all that isn't done, and writes the page; what is broken off is left for the next run."""
        (self.out / "recordings").mkdir(parents=True, exist_ok=True)
        self.done = {source.path: told for source in self.sources if (told := self.done_before(source)) is not None}
        if self.done:
            print(f"{len(self.done)} of {len(self.sources)} are done already", flush=True)
        try:
            for source in [it for it in self.sources if it.path not in self.done]:
                self.wait(self.jobs - 1)
                self.begin(source)
            self.wait(0)
        finally:
            self.end_all()
            self.write_page()

    def begin(self, source):
        """Begins to work on a recording, in an empty folder."""
        place = self.place(source)
        for old in (place, Path(f"{place}.part")):
            shutil.rmtree(old, ignore_errors=True)
        Path(f"{place}.part").mkdir()
        started = multiprocessing.Process(target=work_apart, args=(source, place, self.means))
        started.start()
        self.running[started.sentinel] = started, source

    def wait(self, most):
        """Waits until so many recordings at most are worked on."""
        while len(self.running) > most:
            for sentinel in connection.wait(list(self.running)):
                started, source = self.running.pop(sentinel)
                started.join()
                self.take(source, started.exitcode)

    def take(self, source, status):
        """Takes note of a recording that isn't worked on any more, and prints its line."""
        told = self.done_before(source)
        if told is not None:
            self.done[source.path], state = told, "done"
        else:
            why = told_in(Path(f"{self.place(source)}.part") / FAILED, f"the work on it ended with status {status}")
            self.failed[source.path], state = why, f"FAILED: {why}"
        print(f"[{len(self.done) + len(self.failed)}/{len(self.sources)}] {archive_page.printable(source.path)}: {state}", flush=True)

    def end_all(self):
        """Ends what still runs."""
        for started, _ in self.running.values():
            started.terminate()
        for started, _ in self.running.values():
            started.join()

    def write_page(self):
        """Writes the page that lists all."""
        part = self.out / "index.html.part"
        with open(part, "w", encoding="utf-8", errors="backslashreplace") as made:
            made.writelines(f"{it}\n" for it in archive_page.parts(self.sources, self.done, self.failed))
        os.replace(part, self.out / "index.html")


def run(asked, program):
    """Does all recordings, where no other run does; returns the status."""
    os.makedirs(asked.out, exist_ok=True)
    with open(os.path.join(asked.out, ".lock"), "wb") as lock:
        try:
            fcntl.flock(lock, fcntl.LOCK_EX | fcntl.LOCK_NB)
        except BlockingIOError:
            print(f"{NAME}: another run writes to {asked.out}", file=sys.stderr)
            return 1
        begun = time.monotonic()
        archive = Archive(Means(os.path.abspath(asked.folder), program), os.path.abspath(asked.out), asked.jobs)
        if not archive.sources:
            print(f"{NAME}: there is no recording below {asked.folder}: their names end in {', '.join(ENDINGS)}", file=sys.stderr)
            return 1
        archive.run()
        print(f"{len(archive.done)} done, {len(archive.failed)} failed, {time.monotonic() - begun:.0f} seconds: {archive.out / 'index.html'}")
        return 1 if archive.failed else 0


def main(words):
    parser = argparse.ArgumentParser(usage="archive.py FOLDER OUT [--jobs N] [--program PROGRAM]", epilog="What it writes is told at its head.")
    parser.add_argument("folder", metavar="FOLDER")
    parser.add_argument("out", metavar="OUT")
    parser.add_argument("--jobs", type=extract.number_between(1, 1000), default=os.cpu_count() or 1, metavar="N")
    parser.add_argument("--program", default=str(PROGRAM), metavar="PROGRAM")
    asked = parser.parse_args(words)
    program = os.path.abspath(asked.program)
    if not (os.path.isfile(program) and os.access(program, os.X_OK)):
        print(f"{NAME}: {asked.program} is no program: build it first, by tools/users/build.sh", file=sys.stderr)
        return 1
    if not os.path.isdir(asked.folder):
        print(f"{NAME}: {asked.folder} is no folder", file=sys.stderr)
        return 1
    try:
        return run(asked, program)
    except OSError as fault:
        print(f"{NAME}: {said_by_system(fault)}", file=sys.stderr)
        return 1
    except KeyboardInterrupt:
        print(f"{NAME}: interrupted; the next run goes on from here", file=sys.stderr)
        return 1


if __name__ == "__main__":
    sys.exit(main(sys.argv[1:]))
