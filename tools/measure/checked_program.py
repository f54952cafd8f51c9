#!/usr/bin/env python3
"""Compiles the program with checks and without proof, and keeps it: checked_program.py OUT

`rt try` compiles the program so that it stops at an index out of bounds, an overflow or a bad access, and throws it
away when its run has ended. This tool runs it by `rt try` over a record that takes long, and copies the program
beside its run; it takes two minutes or so. The program runs by itself from then on: its functions have their names,
it stops by a signal where a check fails, and it needs more addresses than there is memory. Nothing is proved by that.
Status: 0 where the program was copied, else 1.
"""

import os
import shutil
import subprocess
import sys
import tempfile
import time
from pathlib import Path

from places import ROOT  # (first, so that the others are found)
from processes import below, words_of

from sent_modules import BML, FILES, REPLAY, carousel_sections, sent

SECONDS, LONGEST = 60, 900
# A timer that fires every 100 ms, and the hours that it is given.
ENDLESS = b'<bml><head><script>function f() { } browser.setInterval("f()", 100, 0);</script></head></bml>'
HOURS = 2_000


def running_program(top: int) -> str | None:
    """Returns the path of the program that runs with our words below a process, or None."""
    for process in below(top):
        words = words_of(process)
        program, ours = words[: -len(REPLAY)][-1:], words[-len(REPLAY) :]
        if program and ours == REPLAY and os.access(program[0], os.X_OK):
            return program[0]
    return None


def main() -> None:
    if len(sys.argv) != 2 or sys.argv[1].startswith("-"):
        sys.exit(__doc__.split("\n\n")[0])
    out = os.path.abspath(sys.argv[1])
    with tempfile.TemporaryDirectory(prefix="checked-") as room:
        stream, record, said = (Path(room, name) for name in (*FILES, "said"))
        # (a document that has something to do for as long as time passes)
        stream.write_bytes(sent(carousel_sections([(0, BML, ENDLESS)]))[0])
        record.write_text("all\n" + HOURS * "tick 3600000\n")
        files = [word for name, path in zip(FILES, (stream, record)) for word in ("--data", f"{name}={path}")]
        with open(said, "wb") as told:
            command = ["rt", "try", "--seconds", str(SECONDS), *files, "--", *REPLAY]
            run = subprocess.Popen(
                command, cwd=ROOT / "crates" / "bml_replay", stdin=subprocess.DEVNULL, stdout=told, stderr=told
            )
        end, program = time.monotonic() + LONGEST, None
        try:
            while program is None and run.poll() is None and time.monotonic() < end:
                time.sleep(0.2)
                program = running_program(run.pid)
            if program:
                os.makedirs(os.path.dirname(out), exist_ok=True)
                shutil.copy(program, out)
        finally:
            run.terminate()
            run.wait()
        if program is None:
            print(said.read_text(errors="replace"), end="", file=sys.stderr)
            sys.exit("checked_program.py: the program was not seen to run")
    print(f"{out}: {os.path.getsize(out):,} bytes")


if __name__ == "__main__":
    main()
