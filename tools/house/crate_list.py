"""The crates of crates.txt, and which of them stand on which."""

import re
from pathlib import Path

LIST = Path(__file__).resolve().parents[2] / "crates.txt"


def crates_below() -> dict[str, list[str]]:
    """Returns for each crate, in the order of the list, those of this repository that it names."""
    lines = re.findall(r"(?m)^(\w+)[^:#\n]*(?::([^#\n]*))?", LIST.read_text(encoding="utf-8"))
    named = {name: below.split() for name, below in lines}
    return {name: [it for it in below if it in named] for name, below in named.items()}


def all_below(crates: dict[str, list[str]]) -> dict[str, set[str]]:
    """Returns for each crate all that it stands on, through others too."""
    below: dict[str, set[str]] = {}

    def found(name: str) -> set[str]:
        if name not in below:
            below[name] = set(crates[name]).union(*map(found, crates[name]))
        return below[name]

    return {name: found(name) for name in crates}
