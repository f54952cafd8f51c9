#!/usr/bin/env python3
"""Lists the tools that can be run, each with what it is for: list.py [--all] [WORD ..]

With words it lists those whose name or whose first sentence has one of them. With --all it lists the modules that
tools share, too.
"""

import ast
import os
import re
import signal
import sys
from pathlib import Path

TOOLS = Path(__file__).resolve().parent
FOLDERS = ("users", "rows", "measure", "house")


def head_of(path: Path) -> str:
    """The text at the head of a tool: a module's docstring, or a script's first comment."""
    text = path.read_text(encoding="utf-8")
    if path.suffix == ".py":
        return ast.get_docstring(ast.parse(text)) or ""
    comments = re.match(r"#!.*\n((?:#.*\n)*)", text)
    return re.sub(r"(?m)^# ?", "", comments[1]) if comments else ""


def sentence_of(path: Path) -> str:
    """The first sentence of a tool's head, without the usage that may stand after it."""
    first = " ".join(head_of(path).split("\n\n")[0].split())
    first = re.split(r": \w+\.(?:py|sh)\b", first)[0].rstrip(".") + "."
    return re.split(r"(?<=\.) (?=[A-Z])", first)[0]


def tools(folder: str, with_modules: bool = False) -> list[Path]:
    """The tools of a folder in the order of their names, those that tests are after the others."""
    found = [path for path in (TOOLS / folder).iterdir() if path.suffix in (".py", ".sh")]
    found = [path for path in found if with_modules or os.access(path, os.X_OK)]
    return sorted(found, key=lambda path: (path.name.startswith("test_"), path.name))


def main() -> None:
    signal.signal(signal.SIGPIPE, signal.SIG_DFL)
    words = [word.lower() for word in sys.argv[1:] if word != "--all"]
    for folder in FOLDERS:
        rows = [(path.name, sentence_of(path)) for path in tools(folder, "--all" in sys.argv)]
        rows = [row for row in rows if not words or any(word in " ".join(row).lower() for word in words)]
        if rows:
            print("\n".join([f"tools/{folder}:", *(f"    {name:26} {told}" for name, told in rows)]))


if __name__ == "__main__":
    main()
