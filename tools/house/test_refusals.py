#!/usr/bin/env python3
"""Tests what refusals.py and call_chains.py find in sources, on small ones that are written here. It prints a line, and ends with 1 if a test fails."""

import sys
import tempfile
from pathlib import Path

import refusals
from call_chains import Calls
from told_tests import status_of

SOURCES = {
    "low": """
pub struct Box {
    bytes: Vec<u8>,
}

impl Box {
    /// Puts a byte.
    pub fn put(&mut self, byte: u8) -> Result<(), NoMemory>
        ensures err { OnErr result (self.new ≡ self.old) }
    {
        self.bytes.push(byte)?;
        Ok(())
    }

    pub fn take(&mut self) -> Option<u8>
        ensures taken { result ≡ first self.old }
    {
        self.bytes.pop()
    }

    fn lost(&self) -> bool {
        true
    }
}

pub fn is_one(byte: u8) -> bool {
    byte == 1
}
""",
    "other": """
pub fn put(byte: u8) -> u8 {
    byte
}
""",
    "high": """
use low::Box;

fn main() {
    // lost(1)
    let mut made = Box::new();
    fill(&mut made);
}

fn fill(made: &mut Box)
    requires some { 0 < 1 }
{
    match made.put(1) {
        Ok(()) => {}
        Err(_) => {}
    }
}

#[test]
fn a_byte_is_taken(rt: HostRuntime) {
    assert!(rt; Box::new().take().is_none());
}
""",
}
BELOW = {"low": set(), "other": set(), "high": {"low"}}
HEAD_OF_PUT = SOURCES["low"].split("pub fn put", 1)[1].split("    {\n")[0]
HEAD_OF_TAKE = SOURCES["low"].split("pub fn take", 1)[1].split("    {\n")[0]


def written(folder):
    """Writes the sources as crates, and returns their functions."""
    for name, text in SOURCES.items():
        path = Path(folder, name, "src", "lib.rt")
        path.parent.mkdir(parents=True)
        path.write_text(text)
    return Calls(Path(folder), SOURCES, BELOW)


def names(functions):
    return {(it.crate, it.owner, it.name) for it in functions}


def tests():
    """Yields what is said of the sources, and whether it is so."""
    with tempfile.TemporaryDirectory(prefix="refusals-") as folder:
        calls = written(folder)
    by_name = {it.name: it for it in calls.all if (it.crate, it.name) != ("other", "put")}
    of_main, of_test = names(calls.reached_from([by_name["main"]])), names(calls.reached_from([by_name["a_byte_is_taken"]]))
    yield "a function after another is reached", ("low", "Box", "put") in of_main
    yield "one that only a comment names is not", ("low", "Box", "lost") not in of_main
    yield "one of a crate that isn't below is not", ("other", None, "put") not in of_main
    yield "one that nothing calls is not", ("low", None, "is_one") not in of_main and ("low", "Box", "take") not in of_main
    yield "a test is seen as one", [it.name for it in calls.all if it.is_test] == ["a_byte_is_taken"]
    yield "a test reaches what it calls", ("low", "Box", "take") in of_test and ("low", "Box", "put") not in of_test
    yield "an error is a refusal", refusals.refusal(HEAD_OF_PUT) == "NoMemory" and refusals.other_answer(HEAD_OF_PUT) is None
    yield "None is another answer", refusals.refusal(HEAD_OF_TAKE) is None and refusals.other_answer(HEAD_OF_TAKE) == "Option<u8>"
    yield "a clause that keeps is named", refusals.kept_by("low", "Box::put", HEAD_OF_PUT) == "as before: `err`"
    yield "a call without one is told", refusals.kept_by("low", "Box::put", HEAD_OF_PUT.replace("err {", "new {").replace("OnErr", "OnOk")) is None


if __name__ == "__main__":
    sys.exit(status_of("refusals", "tests of small sources", tests()))
