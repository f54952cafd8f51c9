#!/usr/bin/env python3
"""Tries the wrong bodies of crates that the gate doesn't try: try_edits.py [CRATE ..]

The gate tries the edits in each crate's must-fail/, a handful of telling ones. The others stand in wrong-bodies/, in
the same form. This copies the repository, with the libraries that are built in it, into a folder of its own, makes
those in wrong-bodies/ the edits of the copy, and runs `rt must-fail` there over the crates that are named, or over
all that have any. Each costs its crate's proof once, and then 15 to 100 seconds an edit. Status: that of `rt
must-fail`, which is 0 where each edit was refused; 2 where nothing could be tried.
"""

import shutil
import subprocess
import sys
import tempfile
from pathlib import Path

ROOT = Path(__file__).resolve().parents[2]
CRATES = ROOT / "crates"


def crates_with_edits() -> list[str]:
    """The names of the crates that have wrong bodies beside those of the gate."""
    return sorted(path.parent.name for path in CRATES.glob("*/wrong-bodies"))


def copied(room: Path) -> None:
    """Copies the files of the repository and the built libraries, and gives each crate its other edits."""
    listed = subprocess.run(
        ["git", "ls-files", "-co", "--exclude-standard"], cwd=ROOT, capture_output=True, text=True, check=True
    )
    for name in listed.stdout.splitlines():
        part = Path(name)
        if "must-fail" in part.parts or not (ROOT / part).is_file():
            continue
        names = ["must-fail" if it == "wrong-bodies" else it for it in part.parts]
        target = room.joinpath(*names)
        target.parent.mkdir(parents=True, exist_ok=True)
        shutil.copy2(ROOT / part, target)
    for built in CRATES.glob("*/out/rlib"):
        shutil.copytree(built, room / built.relative_to(ROOT))


def main() -> int:
    names = sys.argv[1:] or crates_with_edits()
    unknown = [name for name in names if not (CRATES / name / "wrong-bodies").is_dir()]
    if unknown:
        print(f"try_edits.py: {unknown[0]} has no wrong-bodies/", file=sys.stderr)
        return 2
    with tempfile.TemporaryDirectory(prefix="wrong-bodies-") as room:
        copied(Path(room))
        return subprocess.run(["rt", "must-fail", *names], cwd=room, check=False).returncode


if __name__ == "__main__":
    sys.exit(main())
