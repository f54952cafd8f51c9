#!/usr/bin/env python3
"""From a recording to a look at it in one command.

    tools/users/open.py IN [--service N | --data-pid N] [--report FOLDER] [--no-browser] [--program PROGRAM]

reads the recording IN (packets of 188, 192 or 204 bytes), says what is to be known of it (diagnosis.py), and asks for the service where several have data, or for
the PID where no table leads to a carousel. It writes the data of that one, with its modules unpacked, to a folder of its own (prepare_recording.py unpack
--data-only). Then it opens the remote control over it (remote.py) in a browser, up to Ctrl-C. With --report it replays it with a record that takes all and shows the page, and
writes FOLDER/report.html (report.py) instead; FOLDER has to be new or empty, and has data.ts, record.txt and lines.txt then too.

PROGRAM is build/bml_replay. Status: 0 where it was done, 1 where IN has no data, or a file can't be used, or the replay fails, 2 where the command line is none
of the above or the question isn't answered. This tool is tested, and not proved.
"""

import argparse
import os
import subprocess
import sys
import tempfile
from pathlib import Path

import prepare_recording
import remote
import report
from diagnosis import TABLE, Target, explained, findings_of, said_by_system, survey, targets_of

NAME = "open.py"
RECORD = b"all\nshow\n"
LIMIT = 600  # seconds for a replay


class Fault(Exception):
    """Why there is nothing to look at, and the status for it."""


def say(line):
    print(f"{NAME}: {line}", file=sys.stderr, flush=True)


def described(target, found):
    """Returns a target as it is asked for, with what came of it."""
    pids = [target.data_pid] if target.data_pid else [it.pid for it in found.reception.named.get(target.service, [])]
    modules = [is_whole for pid in pids if pid in found.listings for is_whole in found.listings[pid].whole.values()]
    told = f": {sum(modules):,} of {len(modules):,} modules came whole" if not target.data_pid else ""
    return f"{target.name()}{told}"


def chosen(targets, found):
    """Returns the one of several targets that is asked for."""
    print("What is to be opened?", file=sys.stderr)
    for number, target in enumerate(targets, 1):
        print(f"  {number}  {described(target, found)}", file=sys.stderr)
    print(f"1 to {len(targets)}: ", end="", file=sys.stderr, flush=True)
    answer = sys.stdin.readline().strip()
    if not (answer.isascii() and answer.isdigit() and 1 <= int(answer[:9]) <= len(targets)):
        raise Fault(f"that is none of them; or name one by {targets[0].options()[0]} N", 2)
    return targets[int(answer[:9]) - 1]


def target_of(asked):
    """Returns what is to be opened, and says what is to be known of the recording."""
    named = Target(asked.service, asked.data_pid)
    with open(asked.source, "rb") as file:
        terminal = prepare_recording.Terminal(os.fstat(file.fileno()).st_size)
        found = survey(file, asked.service, asked.data_pid, terminal.progress)
        terminal.clear()
    findings, targets = findings_of(found, asked.source), targets_of(found, asked.source)
    if named != Target():
        targets = [named]
    fatal = [it for it in findings if it.is_fatal]
    if fatal and (not targets or named != Target()):
        raise Fault(fatal[0].text(), 1)
    target = targets[0] if len(targets) == 1 else chosen(targets, found) if targets else None
    told = [it for it in findings if it.row not in prepare_recording.MENDED and not (it.is_fatal and target)]
    if told:
        say(f"before a replay ({TABLE}):")
        for finding in told:
            say(f"  {finding.text()}")
    if target is None:
        raise Fault("there is no data in it", 1)
    return target


def write_report(asked, target, stream, folder):
    """Replays a stream, and writes the report."""
    record, lines = folder / "record.txt", folder / "lines.txt"
    record.write_bytes(RECORD)
    words = [asked.program, "replay", *target.options(), stream.name, record.name]
    with open(lines, "wb") as printed:
        ran = subprocess.run(words, stdin=subprocess.DEVNULL, stdout=printed, stderr=subprocess.PIPE, cwd=folder, timeout=LIMIT, check=False)
    if ran.returncode:
        why = explained(ran.stderr.decode("utf-8", errors="replace").strip()[-500:], str(stream), RECORD)
        raise Fault(f"the program ended with status {ran.returncode}: {why}", 1)
    return report.main([str(lines), str(folder), "--stream", str(stream), "--record", str(record), *target.options()])


def look(asked, room):
    """Does what the command line asks for, in a folder; returns the status."""
    target = target_of(asked)
    stream = room / "data.ts"
    room.mkdir(parents=True, exist_ok=True)
    prepare_recording.unpack(asked.source, str(stream), data_only=True, service=target.service, data_pid=target.data_pid, tells=False)
    say(f"{target.name()}: {os.path.getsize(stream):,} bytes of data")
    if asked.report:
        return write_report(asked, target, stream, room)
    return remote.main([str(stream), *target.options(), "--program", asked.program, *([] if asked.no_browser else ["--open"])])


def asked_of(words):
    parser = argparse.ArgumentParser(usage="open.py IN [--service N | --data-pid N] [--report FOLDER] [--no-browser] [--program PROGRAM]")
    parser.add_argument("source", metavar="IN")
    which = parser.add_mutually_exclusive_group()
    which.add_argument("--service", type=prepare_recording.number_between(1, 65_535), metavar="N")
    which.add_argument("--data-pid", type=prepare_recording.number_between(16, 8_190), metavar="N")
    parser.add_argument("--report", metavar="FOLDER", help="writes a report, and opens nothing")
    parser.add_argument("--no-browser", action="store_true", help="prints the address alone")
    parser.add_argument("--program", default=str(remote.PROGRAM), metavar="PROGRAM")
    asked = parser.parse_args(words)
    asked.program = os.path.abspath(asked.program)
    return asked


def main(words):
    asked = asked_of(words)
    if not (os.path.isfile(asked.program) and os.access(asked.program, os.X_OK)):
        say(f"{asked.program} is no program: build it first, by tools/users/build.sh")
        return 1
    if asked.report and os.path.lexists(asked.report) and (not os.path.isdir(asked.report) or os.listdir(asked.report)):
        say(f"{asked.report} is there and isn't an empty folder: name another")
        return 1
    try:
        if asked.report:
            return look(asked, Path(asked.report))
        with tempfile.TemporaryDirectory(prefix="open-") as room:
            return look(asked, Path(room))
    except Fault as fault:
        say(f"{asked.source}: {fault.args[0]}")
        return fault.args[1]
    except prepare_recording.Fault as fault:
        say(f"{asked.source}: {fault}")
    except subprocess.TimeoutExpired:
        say(f"the replay took more than {LIMIT} seconds, and was ended")
    except OSError as fault:
        say(said_by_system(fault))
    except KeyboardInterrupt:
        say("interrupted")
    return 1


if __name__ == "__main__":
    sys.exit(main(sys.argv[1:]))
