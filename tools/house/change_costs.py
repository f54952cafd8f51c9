#!/usr/bin/env python3
"""Lists the files that name something, and so what another thing of its kind costs: change_costs.py [--counts] NAME ..

A NAME is that of a constructor or a function, or a word of a format. A file is listed where one of them stands in it
as a word, outside of comments. A part of a longer name is no word, also where a `-` parts it. A name that means
several things has the files of all of them, and a file that treats all things of a kind alike names none of them, and
isn't listed. "What a change costs" in CONTRIBUTING.md has the names to give for each kind of change. With --counts
only the numbers of files are printed. Status: 0, or 1 where a name stands nowhere.
"""

import re
import subprocess
import sys
from collections.abc import Iterable, Iterator
from pathlib import Path

ROOT = Path(__file__).resolve().parents[2]
# The kinds of files: the first whose form a path has is its kind.
KINDS = {
    "wrong bodies": r"crates/\w+/(must-fail|wrong-bodies)/",
    "tests": r"crates/(\w+_tests|test_streams)/|crates/\w+/(data|stdout|stdin|args)|examples/|tables/|hostile-cases/"
    r"|tools/rows/|tools/\w+/test_",
    "sources": r"crates/\w+/src/.*\.rt$",
    "definitions": r"crates/\w+/specs/.*\.antt$",
    "proofs": r"crates/\w+/proofs/.*\.antt$",
    "documents": r".*\.md$",
    "tools": r"tools/",
}
COMMENTS = {".rt": re.compile(r"//[^\n]*"), ".antt": re.compile(r"(?:^|(?<=\s))--[^\n]*", re.M)}
# What tools make, and the places that name things as examples of this tool.
LEFT_OUT = re.compile(r"docs/(DEFINITIONS|REFUSALS)\.md|CONTRIBUTING\.md|.*/stream\.ts")


def kind_of(path: str) -> str | None:
    """The kind of a file, None where it is none of these."""
    return next((kind for kind, form in KINDS.items() if re.match(form, path)), None)


def word_of(name: str) -> re.Pattern[str]:
    """What matches the name as a word of its own."""
    return re.compile(r"(?<![\w-])" + re.escape(name) + r"(?![\w-])")


def code_of(path: str, text: str) -> str:
    """The text without its comments."""
    comment = COMMENTS.get(Path(path).suffix)
    return comment.sub("", text) if comment else text


def files() -> Iterator[tuple[str, str]]:
    """The files of the repository, as their paths in it and their texts without comments."""
    listed = subprocess.run(
        ["git", "ls-files", "-co", "--exclude-standard"], cwd=ROOT, capture_output=True, text=True, check=True
    )
    for path in sorted(listed.stdout.splitlines()):
        if kind_of(path) and not LEFT_OUT.fullmatch(path) and (ROOT / path).is_file():
            yield path, code_of(path, (ROOT / path).read_text(encoding="utf-8", errors="replace"))


def named(names: list[str], given: Iterable[tuple[str, str]]) -> tuple[dict[str, list[str]], list[str]]:
    """The files that have one of the names, by their kinds, and the names that stand nowhere."""
    words = {name: word_of(name) for name in names}
    found: dict[str, list[str]] = {kind: [] for kind in KINDS}
    missing = set(names)
    for path, text in given:
        # (most texts haven't even its letters, which is told faster)
        here = {name for name, word in words.items() if name in text and word.search(text)}
        missing -= here
        if here:
            found[kind_of(path) or "tools"].append(path)
    return found, sorted(missing)


def main() -> int:
    names = [it for it in sys.argv[1:] if it != "--counts"]
    if not names or names[0].startswith("-"):
        sys.exit(__doc__.split("\n\n")[0])
    found, missing = named(names, files())
    if "--counts" not in sys.argv:
        for kind, paths in found.items():
            print("\n".join([f"{kind}:", *(f"    {path}" for path in paths)]))
    print(", ".join(f"{len(paths)} {kind}" for kind, paths in found.items()))
    for name in missing:
        print(f"change_costs.py: {name} stands nowhere", file=sys.stderr)
    return 1 if missing else 0


if __name__ == "__main__":
    sys.exit(main())
