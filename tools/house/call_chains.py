"""Which functions of the sources call which, by their names: enough to see that a call is still made on the way of a run or of a test.

It reads names and not types, so where two types have methods of one name it may see a call that isn't there. It misses none that is written
as rt fmt lays code out.
"""

import re
from functools import cached_property
from typing import NamedTuple

from source_files import without_comments

IMPL = re.compile(r"^impl(?:<[^>]*>)? (?:(\w+)(?:<[^{]*>)? for )?&?(\w+)[^{\n]*\{", re.M)
FUNCTION = re.compile(r"^( *)(?:pub(?:\(\w+\))? )?fn (\w+)", re.M)


class Function(NamedTuple):
    """A function: where it is, the type that it belongs to and the trait, where it has them, and its code."""

    crate: str
    owner: str | None
    trait: str | None
    name: str
    is_test: bool
    code: str


def body_of(text, start, indent):
    """The code of a function between its head and its end."""
    end = text.find(f"\n{indent}}}\n", start)
    own_line = text.find(f"\n{indent}{{\n", start)
    plain = re.compile(r" \{(?:\n|\}\n)").search(text, start)
    begin = own_line if 0 <= own_line < (end if end >= 0 else len(text)) else plain.start() if plain else start
    return text[begin : end if end > begin else text.find("\n", begin)]


def functions_of(crates, crate):
    """The functions of a crate."""
    for path in sorted((crates / crate / "src").glob("**/*.rt")):
        text = without_comments(path.read_text(encoding="utf-8"))
        owners = [(it.start(), text.find("\n}", it.end()), it[2], it[1]) for it in IMPL.finditer(text)]
        for it in FUNCTION.finditer(text):
            owner = next(((kind, trait) for begin, end, kind, trait in owners if begin < it.start() < end), (None, None))
            is_test = text[: it.start()].rstrip().endswith("#[test]")
            yield Function(crate, *owner, it[2], is_test, body_of(text, it.end(), it[1]))


class Calls:
    """The functions of some crates, and which of them are reached from which."""

    def __init__(self, crates, names, below):
        """Reads the crates of these names; `below` has those that each stands on."""
        self.below = below
        self.all = [it for name in names for it in functions_of(crates, name)]

    @cached_property
    def by_word(self):
        found = {}
        for it in self.all:
            found.setdefault(it.name, []).append(it)
        return found

    def may_call(self, caller, called, how):
        """Whether a call that is written in this way may be one of a function."""
        before, name = how
        if called.crate != caller.crate and called.crate not in self.below.get(caller.crate, ()) and called.trait is None:
            return False
        if before == ".":
            return called.owner is not None
        if before:
            kind = caller.owner if before == "Self" else before
            return called.owner == kind or called.owner is None
        return called.owner is None and name == called.name

    def called_by(self, caller):
        """The functions that a function may call."""
        for it in re.finditer(r"(?:(\w+)(?:::<[^>]*>)?::|(\.))?\b([a-z_]\w*)\b", caller.code):
            how = (it[1] or it[2] or "", it[3])
            for called in self.by_word.get(it[3], []):
                if self.may_call(caller, called, how):
                    yield called

    def reached_from(self, starts):
        """The functions that may run where one of these does."""
        found, waiting = set(starts), list(starts)
        while waiting:
            for called in self.called_by(waiting.pop()):
                if called not in found:
                    found.add(called)
                    waiting.append(called)
        return found
