#!/usr/bin/env python3
"""Lists each public call that can refuse: with want of memory, a fault or another error. For each it says which clause tells what stays as it
was after a refusal, and which example, row or test makes the call with enough memory.

    tools/house/refusals.py                prints the list
    tools/house/refusals.py --check FILE   says whether FILE holds just that list, and ends with 1 if it doesn't

A call is public where its crate's root file exports it, or the type that it belongs to. Which example or row makes a call was seen by
`find_calls.py` and stands in `calls_made.txt`. This script sees that there is such an example or row, that it ends with status 0, and that
functions call one another from the program's `main` to the call. A call that stands nowhere there has to be made by a test, or by
what the test calls in the crates of tests; these are found in the sources. It ends with an error where a call has no clause and is no
exception, where nothing makes it, and where a line of `calls_made.txt` is of no call, of no example and row, or of no chain of functions.
"""

import argparse
import re
import sys
from collections import defaultdict
from functools import cached_property
from pathlib import Path
from typing import NamedTuple

from call_chains import Calls
from crate_list import all_below, crates_below

ROOT = Path(__file__).resolve().parents[2]
CRATES = ROOT / "crates"
TABLES, EXAMPLES = ROOT / "tables", ROOT / "examples"
MADE = Path(__file__).with_name("calls_made.txt")
TESTS = re.compile(r".*_tests|test_streams")
# Crates of tests and laws, and the program, which answers by its status.
ASIDE = re.compile(r".*_tests|.*_laws|test_streams|bml_replay")

# What a refused call changes, where no clause says that nothing is: crate, call, words.
EXCEPTIONS = [
    ("es_eval", r"run|run_global", "the exception of runs: heap, globals, budget and host may be changed in part; `live` says what holds of them, and they aren't used again"),
    ("es_builtins", r"call_\w+|construct", "the exception of runs: heap and budget may be changed in part (`grows`, `spends`), and aren't used again"),
    ("document_stages", r"Stage::\w+", "the exception of documents that act: the stage is not used again"),
    ("acting_documents", r"ActingDocument::\w+", "the exception of documents that act: it is not used again"),
    ("es_expressions", r"read_expression", "no clause speaks of the nodes then, and they aren't used again; whoever reads a program drops them all"),
    ("dom_objects", r"get_node", "the tree isn't lent for writing; the styles may keep more values, and count them (`sources`, `right_still`)"),
    ("es_values", r"Host::\w+", "the exception of runs: the host's state and the heap may be changed in part, and aren't used again"),
    ("bml_ports", r"Sink::\w+", "a failed write appends nothing (`bytes`), and is counted (`counted`)"),
    ("bml_ports", r"Keeper::load", "what is kept stays (`kept`); the failure is counted (`counted`)"),
    ("bml_ports", r"Keeper::store", "what is kept is what was, or the area (`stored`); the failure is counted (`counted`)"),
    ("bml_ports", r"World::\w+", "no byte is taken (`bytes`), the other port and the files stay (`other`, `files`), and the failure is counted (`counted`)"),
    ("nv_journal", r"Disk::read_at|Disk::sync", "what reads give and the images stay (`content`); the failure is counted (`counted`)"),
    ("nv_journal", r"Disk::write_at", "the images have the range besides, or stay, and what reads give is one of them (`content`); the failure is counted (`counted`)"),
    ("nv_journal", r"close_gate|write_area|open_gate", "each image stands for what was stood for, or in the last step for the area (`content`); a count of faults rose (`rose`)"),
    ("replay_run", r"replay_files", "what `out` held stays at its beginning (`grows`); where the files are refused nothing is appended (`unchanged`)"),
    ("display_list", r"Shower::show|show\w*", "the styles may keep more values, and count them (`sources`, `right_still`); what `out` held stays at its beginning (`grows`)"),
]

KEEPS = re.compile(r"^(err|same|kept|keeps|before|stays|spends|spent|full|refused|none|lost|fixed|old|nodes)$")


def exported(crate):
    """The names that the root file of a crate exports."""
    text = (CRATES / crate / "src/lib.rt").read_text()
    names = set()
    for found in re.finditer(r"pub use (?:crate::)?[\w:]+::(?:\{([^}]*)\}|(\w+));", text):
        names |= {name.strip().split(" as ")[0] for name in (found[1] or found[2]).split(",") if name.strip()}
    for found in re.finditer(r"^pub (?:fn|struct|enum|trait) (\w+)", text, re.M):
        names.add(found[1])
    return names


def trait_functions(text):
    """The functions that the traits of a file ask for: the trait, the name and the head of each."""
    for found in re.finditer(r"^pub trait (\w+)[^{\n]*\{\n", text, re.M):
        inside = text[found.end() : text.index("\n}", found.end())]
        for function in re.finditer(r"^    fn (\w+)[^;]*;", inside, re.M):
            yield found[1], function[1], function[0]


def functions(path):
    """The functions of a file: the type or trait that each belongs to or None, the trait that it is of or None, its name, and its head with the clauses."""
    text = path.read_text()
    for trait, name, head in trait_functions(text):
        yield trait, None, name, head
    owner_at = []
    for found in re.finditer(r"^impl(?:<[^>]*>)? (?:(\w+)(?:<[^{]*>)? for )?(\w+)[^{\n]*\{", text, re.M):
        end = text.index("\n}", found.end())
        owner_at.append((found.start(), end, found[2], found[1]))
    for found in re.finditer(r"^( *)pub fn (\w+)", text, re.M):
        plain = re.compile(r" \{(?:\n|\})").search(text, found.end())
        below = re.compile(rf"\n{found[1]}\{{(?:\n|\}})").search(text, found.end())
        has_clauses = re.search(r"\b(?:requires|ensures)\b", text[found.end():plain.start() if plain else len(text)])
        body = below if has_clauses or not plain or (below and below.start() < plain.start()) else plain
        head = text[found.start():body.start()]
        owner = next((it for it in owner_at if it[0] < found.start() < it[1]), None)
        yield (owner[2] if owner else None, owner[3] if owner else None, found[2], head)


def clauses(head):
    """The clauses of a head: name or None, and text."""
    found, place = [], 0
    while match := re.compile(r"\bensures\*? (?:(\w+) )?\{").search(head, place):
        depth, place = 1, match.end()
        while depth:
            depth += {"{": 1, "}": -1}.get(head[place], 0)
            place += 1
        found.append((match[1], head[match.end():place - 1]))
    return found


def answer_of(head):
    """The type of what a call answers, empty where it answers nothing."""
    answer = re.search(r"\)\s*->\s*((?:.|\n)*?)(?=\n\s*(?:requires|ensures|where)\b|$)", head)
    return re.sub(r"\s+", " ", answer[1].strip()) if answer else ""


def refusal(head):
    """The error of what a call answers, None where it can't refuse with one."""
    found = re.match(r"Result<(.*),\s*(\w+)>$", answer_of(head))
    return found and found[2]


def lent_for_writing(head):
    """The parameters of a call that it may write to, each with its type."""
    return re.findall(r"(\w+)?:? ?&(?:'\w+ )?mut \[?(\w+)", head[head.index("(") :].split("->")[0])


def other_answer(head):
    """The answer of a call that writes to something and may refuse without an error, as with None or false; None for any other call."""
    answer = answer_of(head)
    return answer if lent_for_writing(head) and re.match(r"Option<|bool$|Cut$|Ahead$|NextLine$|Status$", answer) else None


def kept_by(crate, call, head):
    """The words that say what stays as it was after a refusal, None where there are none."""
    names = clauses(head)
    for of, calls, words in EXCEPTIONS:
        if of == crate and re.fullmatch(calls, call):
            return words
    lent = lent_for_writing(head)
    spent = [name for name, text in names if name in ("spends", "spent") or "Spends" in text]
    if spent:
        return "it is spent (" + ", ".join(f"`{name}`" for name in spent) + ")" + (", and what `out` held stays at its beginning" if "out" in dict(lent) else "")
    if not lent:
        return "nothing is lent for writing"
    said = [name for name, text in names if "OnErr" in text or "IfErr" in text or "MatchResult" in text or (name and KEEPS.match(name))]
    words = [f"`{name}`" if name else "its clause" for name in said]
    others = [name for name, kind in lent if not (name in ("out", "text", "into") and kind == "Vec")]
    grows = any(name in ("grows", "begins") for name, _ in names)
    if words:
        return "as before: " + ", ".join(words)
    if not others and grows:
        return "what `out` held stays at its beginning (`grows`)"
    if grows and others == [""]:
        return None
    return None


def made_by_runs():
    """The examples and rows that were seen to make calls, by the crate and the call."""
    lines = (line.split(": ", 1) for line in MADE.read_text().splitlines())
    return {tuple(call.split(" ", 1)): name for call, name in lines}


def traits():
    """The traits of all crates, each with its crate."""
    return {name: path.parents[1].name for path in CRATES.glob("*/src/*.rt") for name in re.findall(r"^pub trait (\w+)", path.read_text(), re.M)}


def unknown_clauses(head, words):
    """The clauses that words name and that a head doesn't have. (`out` is a parameter.)"""
    names = {name for name, _ in clauses(head)} | {"out"}
    return [name for name in re.findall(r"`(\w+)`", words) if name not in names]


def rows_of_tables():
    """The rows of tables/ that end with status 0, each by the names of its table, its group and itself."""
    found = set()
    for path in TABLES.glob("*.txt"):
        group, name = [], None
        for line in path.read_text().splitlines():
            field, _, rest = line.partition(": ")
            if field == "group":
                group, name = [rest], None
            elif field == "row":
                name = ": ".join([path.stem, *group, rest])
                found.add(name)
            elif field == "status" and rest != "0":
                found.discard(name)
    return found


def examples():
    """The examples that end with status 0."""
    return {f"example {path.parent.name}" for path in EXAMPLES.glob("*/status") if path.read_text().strip() == "0"}


class Makers:
    """What makes the calls: runs of the program, and tests."""

    def __init__(self):
        self.runs = made_by_runs()
        self.below = crates_below()
        self.cases = examples() | rows_of_tables()
        self.traits = traits()

    @cached_property
    def of_main(self):
        """The functions that may run where the program's `main` does, each by its crate, its type and its name."""
        names = [name for name in self.below if not TESTS.fullmatch(name) and not name.endswith("_laws")]
        calls = Calls(CRATES, names, all_below(self.below))
        starts = [it for it in calls.all if it.crate == "bml_replay" and it.name == "main"]
        reached = calls.reached_from(starts)
        # (a trait's call is that of the types that have it, of whatever crate)
        return {(it.crate, it.owner, it.name) for it in reached} | {(self.traits.get(it.trait), it.trait, it.name) for it in reached}

    @cached_property
    def of_tests(self):
        """The tests that make each call, themselves or by functions of the crates of tests."""
        tests = Calls(CRATES, [name for name in self.below if TESTS.fullmatch(name)], self.below)
        whole = Calls(CRATES, self.below, self.below)
        found = defaultdict(list)
        for test in filter(lambda it: it.is_test, tests.all):
            for caller in tests.reached_from([test]):
                for called in whole.called_by(caller):
                    found[called.crate, called.owner, called.name].append(f"`{test.crate}`: {test.name}")
        return found

    def maker_of(self, crate, owner, name):
        """What makes a call, or None, and what is wrong with what is said of it."""
        call = f"{owner}::{name}" if owner else name
        run = self.runs.pop((crate, call), None)
        if run is None:
            tests = self.of_tests.get((crate, owner, name))
            return (min(tests), None) if tests else (None, f"{crate}: {call}: nothing is known that makes it")
        if run not in self.cases:
            return run, f"{crate}: {call}: there is no example or row that ends well and is called {run}"
        if (crate, owner, name) not in self.of_main:
            return run, f"{crate}: {call}: no chain of functions leads there from `main`"
        return f"example `{run.removeprefix('example ')}`" if run.startswith("example ") else f"`{run}`", None


class Call(NamedTuple):
    """A public call: its name, its error or its other answer, what stays after a refusal, and what makes it."""

    name: str
    error: str | None
    answer: str | None
    kept: str | None
    made: str | None


def public_calls():
    """Yields the public calls that can refuse: the crate, the type or None, the name and the head."""
    for folder in sorted(CRATES.iterdir()):
        if ASIDE.fullmatch(folder.name) or not (folder / "src/lib.rt").is_file():
            continue
        public = exported(folder.name)
        for path in sorted(folder.glob("src/**/*.rt")):
            for owner, trait, name, head in functions(path):
                if not trait and (owner or name) in public and (refusal(head) or other_answer(head)):
                    yield folder.name, owner, name, head


def rows():
    """The rows of the list by crate, and what is missing."""
    missing, found, makers = [], {}, Makers()
    for crate, owner, name, head in public_calls():
        call, error = f"{owner}::{name}" if owner else name, refusal(head)
        if error:
            kept = kept_by(crate, call, head)
        else:
            kept = ", ".join(dict.fromkeys(f"`{clause}`" if clause else "its clause" for clause, _ in clauses(head)))
        if not kept:
            missing.append(f"{crate}: {call}: no clause says what stays")
        missing += [f"{crate}: {call} has no clause {name}" for name in unknown_clauses(head, kept or "")]
        made, wrong = makers.maker_of(crate, owner, name)
        missing += [wrong] if wrong else []
        found.setdefault(crate, []).append(Call(call, error, None if error else other_answer(head), kept, made))
    missing += [f"calls_made.txt: {crate} has no public call {call} that can refuse" for crate, call in makers.runs]
    return found, missing


HEAD = """# Refusals

Each public call that can refuse, with what it refuses with, what stays as it was after a refusal, and an example, a row or a test that makes the call with enough memory. `NoMemory` is
want of memory. The list is made by `tools/house/refusals.py`, which ends with an error where a place would be empty. The calls, their answers and the names of the clauses are read
from the sources. The words of the exceptions are written by hand there; that the clauses that they name are there is checked.

An example or a row is one in which `tools/house/find_calls.py` saw the function run; it ended with status 0 and what is wanted, so no call in it wanted memory.
What was seen stands in `tools/house/calls_made.txt`. The gate runs all examples and rows. It also checks that those named here are there, and that functions still call one
another, by their names, from the program's `main` to the call. A test is one whose code makes the call, itself or by functions of the crates of tests, as their sources show.

{errors} calls in {crates} crates refuse with an error. {others} more take something to write to, and refuse by their answer, as with None or false; want of memory is none of these answers, but for
`run`, whose answer is the program's status. Of these the clauses named say what each answer leaves.
"""


def tables_of(calls):
    """The tables of a crate's calls, as lines of Markdown."""
    errors = [f"| `{it.name}` | `{it.error}` | {it.kept} | {it.made} |" for it in sorted(calls) if it.error]
    others = [f"| `{it.name}` | `{it.answer}` | {it.kept} | {it.made} |" for it in sorted(calls) if not it.error]
    if errors:
        yield from ["", "| call | refuses with | after a refusal | made with enough memory in |", "|---|---|---|---|", *errors]
    if others:
        yield from ["", "| call | answers | clauses | made in |", "|---|---|---|---|", *others]


def page(found):
    """The list as Markdown."""
    errors = {crate: sum(it.error is not None for it in calls) for crate, calls in found.items()}
    others = sum(map(len, found.values())) - sum(errors.values())
    text = [HEAD.format(errors=sum(errors.values()), crates=sum(map(bool, errors.values())), others=others).rstrip("\n")]
    for crate, calls in found.items():
        text += ["", f"## `{crate}`", *tables_of(calls)]
    return "\n".join(text) + "\n"


def main():
    words = argparse.ArgumentParser(description=__doc__.split("\n")[0])
    words.add_argument("--check", metavar="FILE")
    asked = words.parse_args()
    found, missing = rows()
    for line in missing:
        print(line, file=sys.stderr)
    text = page(found)
    if asked.check:
        if Path(asked.check).read_text() != text:
            sys.exit(f"{asked.check} isn't the list of refusals: make it anew by tools/house/refusals.py")
    else:
        print(text, end="")
    sys.exit(1 if missing else 0)


if __name__ == "__main__":
    main()
