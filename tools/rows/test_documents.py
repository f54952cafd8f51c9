#!/usr/bin/env python3
"""Runs the rows of tables against a built program: test_documents.py --program PROGRAM [TABLE ..]

With no table named it runs all those of the folder tables/, whose README.md explains their format,
the shuffled blocks of shuffled_blocks.py, and the rows of carousel_rows.py, line_rows.py,
document_rows.py, style_rows.py, node_rows.py and gen_rows.py. First it makes the streams of all rows. Then it runs
the program for each row, in a folder of its own and for at most 60 seconds, and compares standard
output, standard error, status and what is kept with what the row wants. It prints a line for each
table, with what differs after it, and a sum.
Status: 0 where all rows passed, 1 where one failed, 2 where nothing could be run.
"""

import argparse
import difflib
import itertools
import os
import subprocess
import sys
import tempfile
from pathlib import Path

# (what makes streams is among the tools for users)
sys.path.append(str(Path(__file__).resolve().parents[1] / "users"))

import carousel_rows
import document_rows
import gen_rows
import line_rows
import node_rows
import shuffled_blocks
import style_rows
from journals import AREA_SIZE, JOURNAL, OLDER, keep, kept_in, older_in
from make_stream import Fault
from tables import runs_of

TABLES = Path(__file__).resolve().parents[2] / "tables"
LIMIT = 60  # seconds for each run


def all_tables():
    """Returns what makes the runs of each table, by their names."""
    tables = {path.stem: lambda path=path: runs_of(path) for path in sorted(TABLES.glob("*.txt"))}
    made = {
        "carousel-messages": carousel_rows.messages,
        "carousel-blocks": carousel_rows.all_blocks,
        "shuffled-blocks": shuffled_blocks.runs,
        "record-lines": line_rows.record_lines,
        "command-words": line_rows.command_words,
        "document-texts": document_rows.runs,
        "style-texts": style_rows.runs,
        "nodes-and-focus": node_rows.runs,
        "generated-streams": gen_rows.runs,
    }
    return {**tables, **made}


def shown(data):
    """Returns the lines of an output, as tables may write them."""
    escaped = data.replace(b"\\", b"\\\\").replace(b"\r", b"\\r")
    *lines, last = escaped.decode("ascii", "backslashreplace").split("\n")
    return [*lines, last + "\\"] if last else lines


def differences(name, wanted, written):
    """Returns how an output differs from what is wanted."""
    return list(difflib.unified_diff(shown(wanted), shown(written), f"wanted {name}", name, lineterm=""))


def written_kept(kept):
    """Returns what is kept, as tables may write it."""
    if kept is None:
        return "no file"
    front = kept.rstrip(b"\0") if len(kept) == AREA_SIZE else kept
    runs = [(byte, len(list(run))) for byte, run in itertools.groupby(front)]
    words = [f"{byte:02x}" if times == 1 else f"{byte:02x}*{times}" for byte, times in runs]
    return " ".join([*words, ".."] if len(front) < len(kept) else words or ['""'])


def differing_files(room, run):
    """Returns how what the program left in its folder differs from what the run wants."""
    wanted, left = written_kept(run.kept_after), written_kept(kept_in(room))
    others = set(os.listdir(room)) - {"stream.ts", "record.txt", JOURNAL, OLDER, run.folder}
    told = [f"the file {name} was left" for name in sorted(others)]
    return told if left == wanted else [f"kept is {left}", f"and wanted {wanted}", *told]


def check_run(program, run, room):
    """Runs the program in a folder, and returns the lines that tell what is wrong."""
    Path(room, "stream.ts").write_bytes(run.stream)
    Path(room, "record.txt").write_bytes(run.record)
    command = [program, *run.arguments]
    try:
        ran = subprocess.run(command, cwd=room, stdin=subprocess.DEVNULL, capture_output=True, timeout=LIMIT, check=False)
    except subprocess.TimeoutExpired:
        return [f"it takes more than {LIMIT} seconds"]
    except OSError as fault:
        return [f"it can't be run: {fault}"]
    told = differences("stdout", run.stdout, ran.stdout) + differences("stderr", run.stderr, ran.stderr)
    if ran.returncode != run.status:
        told.append(f"the status is {ran.returncode}, and {run.status} is wanted")
    return told + differing_files(room, run)


def check(program, run):
    """Runs a row, with the runs that follow in the same place up to the first bad one, and returns the lines that tell what is wrong."""
    told, number = [], 1
    with tempfile.TemporaryDirectory(prefix="row-") as room:
        keep(room, run.kept)
        if run.journal is not None:
            Path(room, JOURNAL).write_bytes(run.journal)
        if run.folder:
            Path(room, run.folder).mkdir()
        if run.link:
            Path(room, run.link).symlink_to("nowhere/file")
        older = older_in(room)
        while run and not told:
            told = check_run(program, run, room)
            if older_in(room) != older:
                told.append(f"{OLDER} was written")
            if told and number > 1:
                told.insert(0, f"in run {number}:")
            run, number = run.again, number + 1
    return told


def check_table(program, name, runs):
    """Runs the rows of a table, prints what came of it, and returns how many failed."""
    told = [(run.name, check(program, run)) for run in runs]
    failed = [(row, lines) for row, lines in told if lines]
    if failed:
        print(f"FAILED  {name}: {len(failed)} of {len(runs)} rows")
    else:
        print(f"ok      {name}: {len(runs)} rows")
    for row, lines in failed:
        print(f"        {row}")
        for line in lines:
            print(f"          {line}")
    return len(failed)


def asked():
    """Returns the program and the names of the tables that the command line asks for."""
    parser = argparse.ArgumentParser(usage="test_documents.py --program PROGRAM [TABLE ..]")
    parser.add_argument("--program", required=True)
    parser.add_argument("tables", nargs="*")
    words = parser.parse_args()
    program = os.path.abspath(words.program)
    if not (os.path.isfile(program) and os.access(program, os.X_OK)):
        raise Fault(f"{words.program} is no program: build it first")
    tables = all_tables()
    for name in words.tables:
        if name not in tables:
            raise Fault(f"there is no table {name}")
    return program, {name: make for name, make in tables.items() if name in words.tables or not words.tables}


def main():
    try:
        program, tables = asked()
        tables = {name: make() for name, make in tables.items()}
    except (Fault, OSError, UnicodeDecodeError) as fault:
        print(f"test_documents.py: {fault}", file=sys.stderr)
        return 2
    failed = sum(check_table(program, name, runs) for name, runs in tables.items())
    print(f"rows: {sum(map(len, tables.values())) - failed} passed, {failed} failed")
    return 1 if failed else 0


if __name__ == "__main__":
    sys.exit(main())
