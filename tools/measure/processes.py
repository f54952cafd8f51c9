"""The processes below one that runs, as Linux tells of them in /proc."""

import os
from pathlib import Path


def stat_of(process: int) -> tuple[int, int]:
    """The parent of a process and the ticks that it has used, without its children."""
    text = Path(f"/proc/{process}/stat").read_text(errors="replace")
    fields = text.rpartition(")")[2].split()
    return int(fields[1]), int(fields[11]) + int(fields[12])


def below(top: int) -> dict[int, int]:
    """The processes that stem from `top`, with their ticks."""
    children: dict[int, list[int]] = {}
    ticks: dict[int, int] = {}
    for process in map(int, filter(str.isdigit, os.listdir("/proc"))):
        try:
            parent, ticks[process] = stat_of(process)
        except (OSError, ValueError):
            continue
        children.setdefault(parent, []).append(process)
    found: dict[int, int] = {}
    waiting = [top]
    while waiting:
        new = children.get(waiting.pop(), [])
        found |= {child: ticks[child] for child in new}
        waiting += new
    return found


def words_of(process: int) -> list[str]:
    """The words of the command of a process; none where it has ended."""
    try:
        return Path(f"/proc/{process}/cmdline").read_bytes().decode(errors="replace").split("\0")[:-1]
    except OSError:
        return []
