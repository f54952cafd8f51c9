#!/usr/bin/env python3
"""Finds for each call that can refuse an example or a row of a table that makes it: find_calls.py PROGRAM [--more [CASE..]] > FOUND

The calls are those that `refusals.py` lists. PROGRAM is one whose functions have their names, as `tools/measure/checked_program.py` compiles it.
It is run by `gdb` over the examples, and then over the rows of tables/, but for long streams, until each call was seen. A run counts where the program ends with the
status that is wanted, 0, and writes what is wanted: want of memory would have ended it with status 9. Of each call the first such run is
printed, in a line `CRATE CALL: example NAME` or `CRATE CALL: TABLE: ROW`, as `calls_made.txt` beside this file has them. The calls that no run
makes are named on standard error. It takes ten minutes. With `--more` the lines of calls_made.txt are taken over, and it looks for the other
calls alone, in the examples and rows that are named after it, or in all.
"""

import re
import subprocess
import sys
import tempfile
from pathlib import Path

import refusals

sys.path.append(str(refusals.ROOT / "tools" / "rows"))
import cases

MOST_BYTES = 20_000  # of a stream, so that no run takes long
# Runs the program with a stop at each place, and notes each stop once.
STOPS = """
import gdb

class Stop(gdb.Breakpoint):
    def stop(self):
        self.enabled = False
        seen.write(f"{self.call}\\n")
        return False

def ended(event):
    seen.write(f"status {getattr(event, 'exit_code', -1)}\\n")

with open(SEEN, "w") as seen:
    gdb.execute("set startup-with-shell off")
    gdb.execute("starti")
    mappings = gdb.execute("info proc mappings", to_string=True).splitlines()
    base = int(next(line for line in mappings if line.endswith(PROGRAM)).split()[0], 16)
    for call, place in PLACES:
        Stop(f"*{base + place}").call = call
    gdb.events.exited.connect(ended)
    gdb.execute("continue")
"""


def short_cases():
    """Yields the examples and the rows that end well and don't take long."""
    for case in [*cases.examples(), *cases.rows()]:
        if case.status == 0 and len(case.files.get("stream.ts", b"")) <= MOST_BYTES:
            yield case


def places_of(program, calls):
    """Returns the places of each call's functions in a program, which may have one for each type that it is made for."""
    listed = subprocess.run(["nm", program], capture_output=True, text=True, check=True).stdout
    functions = {}
    for line in listed.splitlines():
        place, kind, name = line.split(maxsplit=2) if line[:1].isalnum() else ("0", "U", "")
        if kind in "tT":
            functions.setdefault(re.sub(r"::<.*", "", name), []).append(int(place, 16))
    found, traits = {}, refusals.traits()
    for crate, call in calls:
        # (a trait's call is named by the type that has it, then the trait, without a mark between them)
        is_of_trait = traits.get(call.split("::")[0]) == crate
        named = re.compile(rf"\w+::(?:\w+::)*?\w+{call}" if is_of_trait else rf"{crate}::(?:\w+::)*?{call}")
        found[crate, call] = [place for name, places in functions.items() if named.fullmatch(name) for place in places]
    return found


def calls_of(program, case, places):
    """Returns those of the calls that a run makes; none where it doesn't end as is wanted."""
    with tempfile.TemporaryDirectory(prefix="calls-") as outer:
        room, seen = Path(outer, "room"), Path(outer, "seen")
        room.mkdir()
        for name, content in case.files.items():
            Path(room, name).write_bytes(content)
        flat = [(f"{crate} {call}", place) for (crate, call), all_places in places.items() for place in all_places]
        script = Path(outer, "stops.py")
        script.write_text(f"SEEN, PROGRAM, PLACES = {str(seen)!r}, {program!r}, {flat!r}\n{STOPS}")
        command = ["gdb", "-q", "-nx", "-batch", "-x", str(script), "--args", program, *case.words]
        ran = subprocess.run(command, cwd=room, stdin=subprocess.DEVNULL, capture_output=True, check=False)
        told = seen.read_text().splitlines() if seen.exists() else []
    if "status 0" not in told or case.stdout not in ran.stdout:
        print(f"find_calls.py: {case.name} doesn't end as it has to", file=sys.stderr)
        return set()
    return {tuple(line.split(" ", 1)) for line in told if line != "status 0"}


def main():
    if len(sys.argv) < 2 or sys.argv[2:3] not in ([], ["--more"]):
        sys.exit(__doc__.split("\n\n")[0])
    program = str(Path(sys.argv[1]).resolve())
    calls = [(crate, f"{owner}::{name}" if owner else name) for crate, owner, name, _ in refusals.public_calls()]
    made = refusals.made_by_runs() if sys.argv[2:] else {}
    places = {call: its for call, its in places_of(program, calls).items() if its and call not in made}
    for case in map(cases.case, sys.argv[3:]) if sys.argv[3:] else short_cases():
        if not places:
            break
        for crate, call in calls_of(program, case, places):
            made[crate, call] = case.name
            del places[crate, call]
            print(f"{crate} {call}: {case.name}", file=sys.stderr, flush=True)
    for crate, call in sorted(made):
        print(f"{crate} {call}: {made[crate, call]}")
    for crate, call in calls:
        if (crate, call) not in made:
            print(f"no run makes {crate} {call}", file=sys.stderr)


if __name__ == "__main__":
    main()
