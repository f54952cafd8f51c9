#!/usr/bin/env python3
"""Says what makes a crate dear to prove: proof_costs.py [--all] [--out FOLDER] CRATE ..

For each crate that is named it prints the number of its functions, of its lines and of its must-fail edits, the
memory that `rt ci` plans for a check of it, and its dearest functions. What the prover makes of a function is a file
`.Lts.oantt` below the crate's out/; nearly all of a proof's time goes into these, and a large one says that the form
of the code is dear. A crate that hasn't been checked has none. After `note:` stands what is past the bounds of
CONTRIBUTING.md ("What a proof costs").

    --all           prints all functions, not just the ten dearest and those that are too large
    --out FOLDER    looks in FOLDER/CRATE/out for what was checked, where that isn't crates/
"""

import argparse
import re
import signal
import sys
from pathlib import Path

from places import ROOT  # (first, so that the others are found)

from crate_list import all_below, crates_below

CRATES = ROOT / "crates"
MIB = 2**20
MOST_FUNCTIONS, MOST_CODE, LARGE = 100, 900, 2 * MIB
SHOWN = 10


def line_count(crate: str, ending: str) -> int:
    return sum(
        path.read_text(encoding="utf-8").count("\n")
        for path in (CRATES / crate).glob(f"**/*{ending}")
        if "out" not in path.relative_to(CRATES / crate).parts
    )


def code_of(text: str) -> list[str]:
    """The lines of code: without comments, attributes, blank lines, `ghost` items and clauses."""
    text = re.sub(r"//[^\n]*", "", text)
    text = re.sub(r"(?s)\bghost\s+use\b[^;]*;", "", text)
    for word in (r"\bghost\s+\w+\s*[:=]", r"\b(?:requires|ensures)\b[^{;]*"):
        text = without_blocks(text, re.compile(word + r"\s*\{"))
    return [it for it in text.splitlines() if it.strip() and it.strip() != ";" and not it.lstrip().startswith("#")]


def without_blocks(text: str, head: re.Pattern[str]) -> str:
    """A text without what begins so and goes on to the closing brace."""
    kept, place = [], 0
    for found in head.finditer(text):
        if found.start() < place:
            continue
        kept.append(text[place : found.start()])
        depth, place = 1, found.end()
        while depth and place < len(text):
            depth += {"{": 1, "}": -1}.get(text[place], 0)
            place += 1
    return "".join([*kept, text[place:]])


def function_sizes(crate: str, out: Path) -> dict[str, int]:
    """What the prover made of each function: its size by the function's path, the latest where there are several."""
    found: dict[str, tuple[float, int]] = {}
    for path in (out / crate / "out").glob(f"incremental/*/Rattle-{crate}-proofs.*.Lts.oantt"):
        name = path.name.removeprefix(f"Rattle-{crate}-proofs.").removesuffix(".Lts.oantt")
        status = path.stat()
        found[name] = max(found.get(name, (0, 0)), (status.st_mtime, status.st_size))
    return {name: size for name, (_, size) in found.items()}


def report(crate: str, below: dict[str, set[str]], out: Path, show_all: bool) -> None:
    text = [path.read_text(encoding="utf-8") for path in sorted((CRATES / crate / "src").glob("**/*.rt"))]
    code = [line for it in text for line in code_of(it)]
    functions = sum(len(re.findall(r"\bfn\s+\w", line)) for line in code)
    edits = len(list((CRATES / crate / "must-fail").glob("*.edit")))
    source, antt = line_count(crate, ".rt"), line_count(crate, ".antt")
    planned = 1000 + source + 0.2 * antt + 0.08 * sum(line_count(it, ".rt") for it in below[crate])
    print(
        f"{crate}: {functions} functions, {len(code)} lines of code, {source} of source,"
        f" {antt} of definitions and proofs, {edits} edits"
    )
    print(f"  planned memory {planned / 1000:.1f} GB, and up to 2.5 GB for the toolchain's libraries")
    sizes = sorted(function_sizes(crate, out).items(), key=lambda it: (-it[1], it[0]))
    if sizes:
        print(f"  {len(sizes)} functions are checked, derived ones too: {sum(it for _, it in sizes) / MIB:.1f} MiB")
    else:
        print("  nothing of it is checked here yet")
    large = sum(size > LARGE for _, size in sizes)
    for name, size in sizes if show_all else sizes[: max(SHOWN, large)]:
        print(f"  {size / MIB:7.2f} MiB  {name}")
    if large:
        print(f"  note: {large} of them above 2 MiB")
    if edits == 1:
        print("  note: exactly one edit, which costs a whole proof of its own: have none, or at least two")
    if functions > MOST_FUNCTIONS:
        print(f"  note: more than {MOST_FUNCTIONS} functions")
    if len(code) > MOST_CODE:
        print(f"  note: more than {MOST_CODE} lines of code")


def main() -> int:
    words = argparse.ArgumentParser(description=__doc__.split("\n")[0])
    words.add_argument("--all", action="store_true")
    words.add_argument("--out", type=Path, default=CRATES, metavar="FOLDER")
    words.add_argument("crates", nargs="+", metavar="CRATE")
    given = words.parse_args()
    signal.signal(signal.SIGPIPE, signal.SIG_DFL)
    below = all_below(crates_below())
    unknown = [it for it in given.crates if it not in below]
    if unknown:
        print(f"proof_costs.py: crates.txt has no crate {unknown[0]}", file=sys.stderr)
        return 2
    for crate in given.crates:
        report(crate, below, given.out, given.all)
    return 0


if __name__ == "__main__":
    sys.exit(main())
