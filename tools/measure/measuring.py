"""What the measuring tools share: their words, pages with scripts, and runs with their times."""

import argparse
import os
import resource
import subprocess
import tempfile
import time
from collections.abc import Callable, Iterable
from typing import Any, NamedTuple

import places  # noqa: F401 (first, so that the others are found)

from sent_modules import FILES, OPTIONS

# A run, its seconds and its processor seconds.
Timed = tuple[subprocess.CompletedProcess[bytes], float, float]
MOST_BYTES = 1 << 20  # of a module, and so of a document
MOST_NODES = 16_384  # of a document


def words(name: str) -> tuple[str, int]:
    """Returns the program and the number of rounds that the command line asks for."""
    parser = argparse.ArgumentParser(usage=f"{name} PROGRAM [--rounds N]")
    parser.add_argument("program")
    parser.add_argument("--rounds", type=int, default=3)
    asked = parser.parse_args()
    return os.path.abspath(asked.program), max(1, asked.rounds)


def with_script(script: str, body: str) -> str:
    """Returns a document with a script and the inside of its body."""
    return f"<bml><head><script><![CDATA[{script}]]></script></head><body>{body}</body></bml>"


def repeated(item: str, most: int = MOST_BYTES) -> str:
    """As many items as there is room for."""
    return item * (most // len(item))


def processor_seconds() -> float:
    """Returns what the commands that ended so far took, with what the system took for them."""
    used = resource.getrusage(resource.RUSAGE_CHILDREN)
    return used.ru_utime + used.ru_stime


def timed(command: list[str], **how: Any) -> Timed:
    """Runs a command, and returns the run, its seconds, and its processor seconds."""
    begin, used = time.perf_counter(), processor_seconds()
    if "input" not in how:
        how["stdin"] = subprocess.DEVNULL
    how.setdefault("check", False)
    ran = subprocess.run(command, **how)
    return ran, time.perf_counter() - begin, processor_seconds() - used


def least(command: list[str], rounds: int, **how: Any) -> Timed:
    """Runs a command some times, and returns the last run, the least seconds and the least processor seconds."""
    runs = [timed(command, **how) for _ in range(rounds)]
    return runs[-1][0], min(seconds for _, seconds, _ in runs), min(processor for _, _, processor in runs)


def replayed(program: str, options: list[str], stream: bytes, record: bytes, rounds: int) -> Timed:
    """Replays a stream some times, and returns what `least` does."""
    with tempfile.TemporaryDirectory(prefix="measure-") as room:
        names = [f"{room}/{name}" for name in FILES]
        for name, content in zip(names, [stream, record]):
            with open(name, "wb") as file:
                file.write(content)
        return least([program, "replay", *options, *names], rounds, stdout=subprocess.PIPE)


class Measured(NamedTuple):
    """A run on the data PID: what is printed before its times, its stream and record, and whether what it wrote
    is what is due."""

    columns: str
    stream: bytes
    record: bytes
    is_due: Callable[[bytes], bool]


def measure_all(program: str, rounds: int, heading: str, runs: Iterable[Measured]) -> int:
    """Prints what each run takes, and returns the status: 1 where one wrote something else than what is due."""
    wrong = 0
    print(f"{heading} {'seconds':>8} {'processor':>10}")
    for run in runs:
        ran, seconds, processor = replayed(program, OPTIONS, run.stream, run.record, rounds)
        as_due = ran.returncode == 0 and run.is_due(ran.stdout)
        wrong += not as_due
        print(f"{run.columns} {seconds:8.3f} {processor:10.3f}{'' if as_due else '  not what is due'}", flush=True)
    return 1 if wrong else 0
