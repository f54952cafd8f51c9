#!/usr/bin/env python3
"""Says what the gate costs, crate by crate and part by part: proofs, tests and must-fail edits, in processor minutes.

    tools/measure/gate_costs.py [--log FILE] [COMMAND ..]

runs COMMAND (`rt ci`, if none is given) at the top of the repository, with what it prints in FILE (gate.log), and
prints a table in Markdown after it. Once a second it looks at the prover's processes below it (Linux' /proc), so
what a process does in its last second is lost. It ends with the status of COMMAND.
"""

import argparse
import os
import subprocess
import sys
import time

from places import ROOT  # (first, so that the others are found)
from processes import below, words_of

from crate_list import crates_below

Task = tuple[str, str]  # a crate and a part
PARTS = ("proofs", "tests", "edits")
TICKS = os.sysconf("SC_CLK_TCK")


def task_of(pid: int) -> Task | None:
    """The crate and the part that a process of the prover works for, or None."""
    words = words_of(pid)
    try:
        folder = os.readlink(f"/proc/{pid}/cwd")
    except OSError:
        return None
    if "--crate-name" not in words:
        return None
    crate = words[words.index("--crate-name") + 1]
    if "rt-edit-" in folder:
        return crate, "edits"
    return crate, "tests" if "--test" in words else "proofs"


def watch(run: subprocess.Popen[bytes]) -> dict[Task, float]:
    """Sums the ticks of each task while the command runs."""
    last: dict[tuple[int, Task], int] = {}
    tasks: dict[int, Task] = {}
    while run.poll() is None:
        time.sleep(1)
        for pid, ticks in below(run.pid).items():
            task = task_of(pid) or tasks.get(pid)
            if task:
                tasks[pid] = task
                last[pid, task] = max(ticks, last.get((pid, task), 0))
    sums: dict[Task, float] = {}
    for (_, task), ticks in last.items():
        sums[task] = sums.get(task, 0) + ticks / TICKS / 60
    return sums


def edit_count(crate: str) -> int:
    return len(list((ROOT / "crates" / crate / "must-fail").glob("*.edit")))


def table(sums: dict[Task, float], minutes: float) -> list[str]:
    names = [*crates_below()]
    out = ["| crate | proofs | tests | edits | number of edits | sum |", "|---|---|---|---|---|---|"]
    for crate in names:
        each = [sums.get((crate, part), 0.0) for part in PARTS]
        out.append(
            f"| `{crate}` | " + " | ".join(f"{it:.1f}" for it in each) + f" | {edit_count(crate)} | {sum(each):.1f} |"
        )
    each = [sum(sums.get((crate, part), 0.0) for crate in names) for part in PARTS]
    edits = sum(edit_count(it) for it in names)
    out.append("| all | " + " | ".join(f"{it:.1f}" for it in each) + f" | {edits} | {sum(each):.1f} |")
    return out + ["", f"{minutes:.0f} minutes on the wall, with {len(os.sched_getaffinity(0))} processors."]


def main() -> int:
    words = argparse.ArgumentParser(description=__doc__.split("\n")[0])
    words.add_argument("--log", default="gate.log", metavar="FILE")
    words.add_argument("command", nargs=argparse.REMAINDER, metavar="COMMAND")
    given = words.parse_args()
    began = time.time()
    with open(given.log, "w") as log:
        run = subprocess.Popen(given.command or ["rt", "ci"], cwd=ROOT, stdout=log, stderr=subprocess.STDOUT)
        sums = watch(run)
    print("\n".join(table(sums, (time.time() - began) / 60)))
    return run.returncode


if __name__ == "__main__":
    sys.exit(main())
