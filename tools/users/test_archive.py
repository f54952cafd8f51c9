#!/usr/bin/env python3
"""Tests archive.py.

usage: test_archive.py [--program PROGRAM] [what unittest takes]

Replays are those of a small program of this test, and with --program of that one too.
"""

import contextlib
import io
import json
import os
import re
import signal
import subprocess
import sys
import tempfile
import time
import unittest
from pathlib import Path
from unittest import mock

import archive
import transport
from generated_recordings import PID, blocks, compressed, on, packets_of, tables
from test_diagnosis import GOOD, OTHERS, START, scrambled
from test_extract import JPEG, carousel
from transport import DATA_STREAM, ElementaryStream

PROGRAM = None  # with which recordings are replayed once more
TOOL = str(Path(archive.__file__).resolve())
# A program that shows a box, and notes that it ran; it waits while a file says so.
SCRIPT = f"#!{sys.executable} -S\n" + """
import os, sys, time
room = os.path.dirname(os.path.realpath(__file__))
with open(room + "/runs", "a") as runs:
    runs.write(sys.argv[-2] + "\\n")
while os.path.exists(room + "/wait"):
    time.sleep(0.05)
if os.path.exists(room + "/fail"):
    sys.exit("keep fault")
print("load /40/0000/startup.bml\\nstop Budget load\\nshow 0\\nbox 0 0 960 540 7 0 0\\ntext 0 0 100 40 0 24 <b>&\\nend 5")
"""
NO_DATA = packets_of(tables([ElementaryStream(2, 300, 1)])) + OTHERS
TWO = [(0, transport.pat_section([(0, 16), (9, 400), (3, 401)]))]
TWO += [(400, transport.pmt_section(9, [ElementaryStream(DATA_STREAM, PID, 0x40)])), (401, transport.pmt_section(3, [ElementaryStream(DATA_STREAM, PID + 1, 0x40)]))]
PACKED, SENT = compressed(1)


def two_services():
    packed = on(PID + 1, [transport.dii_section(1, 1, 100, [PACKED]), *blocks(PACKED, SENT)])
    return packets_of(TWO + on(PID, carousel([START])) + packed)


class InFolder(unittest.TestCase):
    def setUp(self):
        folder = tempfile.TemporaryDirectory(prefix="archive-")
        self.addCleanup(folder.cleanup)
        self.room = Path(folder.name)
        self.folder, self.out, self.program = self.room / "in", self.room / "out", self.room / "program"
        self.folder.mkdir()
        self.program.write_text(SCRIPT, encoding="utf-8")
        self.program.chmod(0o755)

    def write(self, name, packets):
        path = os.path.join(os.fsencode(self.folder), name if isinstance(name, bytes) else name.encode())
        os.makedirs(os.path.dirname(path), exist_ok=True)
        with open(path, "wb") as file:
            file.write(packets if isinstance(packets, bytes) else b"".join(packets))

    def run_tool(self, *words, program=None):
        """Runs the tool; returns its status, the lines that it printed, and what it told."""
        printed, told = io.StringIO(), io.StringIO()
        with contextlib.redirect_stdout(printed), contextlib.redirect_stderr(told):
            try:
                status = archive.main([str(self.folder), str(self.out), "--program", str(program or self.program), "--jobs", "3", *words])
            except SystemExit as ended:
                status = ended.code
        return status, printed.getvalue().splitlines(), told.getvalue()

    def runs(self):
        """Returns how often the program ran since it was asked last."""
        path = self.room / "runs"
        count = len(path.read_text(encoding="utf-8").splitlines()) if path.exists() else 0
        path.unlink(missing_ok=True)
        return count

    def made(self, name):
        """Returns the folder that was made of a recording."""
        found = [path.parent for path in self.out.glob("recordings/*/done.json") if json.loads(path.read_text(encoding="ascii"))["source"]["path"] == name]
        self.assertEqual(len(found), 1, name)
        return found[0]

    def page(self):
        return (self.out / "index.html").read_text(encoding="utf-8")


class Archives(InFolder):
    def write_all(self):
        self.write("good.ts", GOOD)
        self.write("a/b/good.M2TS", b"".join(b"time" + one for one in GOOD))
        self.write("two.ts", two_services())
        self.write("no tables.ts", GOOD[2:])
        self.write("no data.ts", NO_DATA)
        self.write("scrambled.ts", scrambled(GOOD, {PID, 300}))
        self.write("picture.ts", JPEG * 100)
        self.write("empty.ts", b"")
        self.write("notes.txt", b"no recording")

    def test_all_is_made_of_each_recording(self):
        self.write_all()
        status, lines, told = self.run_tool()
        self.assertEqual((status, told), (1, ""))
        self.assertIn("6 done, 2 failed", lines[-1])
        failed = sorted(re.sub(r"^\[\d/8\] ", "", line) for line in lines if "FAILED" in line)
        self.assertEqual([line.split(". ")[0] for line in failed], ["empty.ts: FAILED: It has no bytes", "picture.ts: FAILED: There are no packets in it: it is a JPEG picture"])
        self.assertEqual(self.runs(), 6)
        for name in ("good.ts", "a/b/good.M2TS"):
            made = self.made(name)
            files = {str(path.relative_to(made)) for path in made.rglob("*") if path.is_file()}
            service = {f"service-1/{it}" for it in ("lines.txt", "record.txt", "report.html", "display.svg")}
            modules = {f"service-1/modules/{it}" for it in ("index.html", "40/0000.v01/startup.bml", "40/0001.v01/resource.txt")}
            self.assertEqual(files, {"list.txt", "data.ts", "told.txt", "done.json"} | service | modules)
            self.assertEqual((made / "data.ts").read_bytes(), b"".join(GOOD[: -len(OTHERS)]))
        self.assertEqual(sorted(path.name for path in self.made("two.ts").glob("service-*")), ["service-3", "service-9"])
        self.assertTrue((self.made("two.ts") / "service-3/modules/40/0001.v01/resource.bin").exists())
        self.assertTrue((self.made("no tables.ts") / "pid-512/report.html").exists())
        self.assertEqual(list(self.made("no data.ts").glob("*-*")), [])
        page = self.page()
        self.assertIn("8 recordings: 6 done, 2 failed.", page)
        self.assertEqual(page.count("<img "), 6)
        self.assertIn("modules: 2, with ", page)
        self.assertIn("lines that warn: 1", page)
        for link in re.findall(r'(?:href|src)="([^"]*)"', page):
            self.assertTrue((self.out / link).is_file(), link)

    def test_what_is_done_is_not_done_again(self):
        self.write_all()
        self.run_tool()
        self.runs()
        status, lines, _ = self.run_tool()
        self.assertEqual((status, lines[0], len(lines), self.runs()), (1, "6 of 8 are done already", 4, 0))
        self.write("good.ts", GOOD + OTHERS)
        self.write("empty.ts", GOOD)
        status, lines, _ = self.run_tool()
        self.assertEqual((status, lines[0], self.runs()), (1, "5 of 8 are done already", 2))
        self.assertIn("7 done, 1 failed", lines[-1])
        (self.folder / "picture.ts").unlink()
        self.assertEqual(self.run_tool()[0], 0)

    def test_a_run_that_is_broken_off_goes_on(self):
        for at in range(8):
            self.write(f"{at}.ts", GOOD)
        (self.room / "wait").touch()
        words = [sys.executable, "-B", TOOL, self.folder, self.out, "--program", self.program, "--jobs", "2"]
        heard = {"preexec_fn": lambda: signal.signal(signal.SIGINT, signal.default_int_handler), "start_new_session": True}
        with subprocess.Popen(words, stdout=subprocess.PIPE, stderr=subprocess.PIPE, **heard) as started:
            for _ in range(600):
                if (self.room / "runs").exists() and len((self.room / "runs").read_text(encoding="utf-8").splitlines()) == 2:
                    break
                time.sleep(0.1)
            status, lines, told = self.run_tool()
            self.assertEqual((status, lines, told), (1, [], f"archive.py: another run writes to {self.out}\n"))
            started.send_signal(signal.SIGINT)
            self.assertEqual(started.wait(60), 1)
            self.assertIn(b"the next run goes on from here", started.stderr.read())
        self.assertIn("8 left for the next run", self.page())
        (self.room / "wait").unlink()
        status, lines, _ = self.run_tool()
        self.assertEqual((status, len(lines)), (0, 9))
        self.assertEqual(list(self.out.glob("recordings/*.part")), [])

    def test_a_program_that_fails_is_told_with_the_service(self):
        self.write("good.ts", GOOD)
        (self.room / "fail").touch()
        status, _, _ = self.run_tool()
        self.assertEqual(status, 0)
        self.assertIn("The program ended with status 1: keep fault", self.page())
        self.assertNotIn("<img ", self.page())

    def test_a_fault_of_the_tool_is_told_and_the_others_go_on(self):
        self.write("bad.ts", GOOD)
        self.write("good.ts", GOOD)
        made = archive.work

        def work(source, room, program):
            if source.endswith("bad.ts"):
                raise KeyError("x")
            return made(source, room, program)

        with mock.patch.object(archive, "work", work):
            status, lines, told = self.run_tool()
        self.assertEqual((status, told), (1, ""))
        self.assertIn("1 done, 1 failed", lines[-1])
        self.assertIn("a fault of this tool: KeyError: &#x27;x&#x27;", self.page())
        with mock.patch.object(archive, "work", lambda *_: os._exit(3)):
            self.write("bad.ts", GOOD + OTHERS)
            _, lines, _ = self.run_tool()
        self.assertIn("bad.ts: FAILED: the work on it ended with status 3", lines[1])

    def test_names_of_all_kinds_are_told_and_kept_apart(self):
        names = ["<script>alert(1)</script>.ts", "a b&\"'.ts", "x/y.ts", "x_y.ts", "天気.ts", "new\nline.ts", "..ts.ts", "n" * 200 + ".ts", b"\xff\xfe.ts"]
        for name in names:
            self.write(name, GOOD)
        status, lines, _ = self.run_tool()
        self.assertEqual((status, len(lines)), (0, len(names) + 1))
        folders = [path.name for path in self.out.glob("recordings/*")]
        self.assertEqual(len(set(folders)), len(names))
        self.assertTrue(all(re.fullmatch(r"[\w.~+=@-]{1,125}", it) for it in folders), folders)
        self.assertNotIn("<script", self.page())
        for link in re.findall(r'(?:href|src)="([^"]*)"', self.page()):
            self.assertRegex(link, r"\A[\w./~%-]+\Z")

    def test_out_may_be_in_the_folder(self):
        self.write("good.ts", GOOD)
        self.out = self.folder / "out"
        self.assertEqual(self.run_tool()[0], 0)
        status, lines, _ = self.run_tool()
        self.assertEqual((status, len(lines)), (0, 2))

    def test_with_the_program_the_page_is_displayed(self):
        if not PROGRAM:
            self.skipTest("no program is named")
        self.write("good.ts", GOOD)
        self.write("two.ts", two_services())
        self.assertEqual(self.run_tool(program=PROGRAM)[0], 0)
        lines = (self.made("good.ts") / "service-1/lines.txt").read_text(encoding="ascii").splitlines()
        self.assertEqual([line.split()[0] for line in lines], ["module", "load", "module", "show", "box", "box", "text", "end"])
        self.assertIn("load /40/0000/startup.bml", self.page())
        self.assertTrue((self.made("two.ts") / "service-3/lines.txt").read_text(encoding="ascii").startswith("module 40 0001 01 780\n"))


class CommandLine(InFolder):
    def test_what_cannot_be_used_is_told(self):
        rows = [
            (["--program", f"{self.room}/none"], 1, "is no program: build it first"),
            ([], 1, "there is no recording below"),
            (["--jobs", "0"], 2, "usage"),
            (["more"], 2, "usage"),
        ]
        for words, status, wanted in rows:
            found = self.run_tool(*words)
            self.assertEqual((found[0], found[1]), (status, []))
            self.assertIn(wanted, found[2])
        self.folder = self.program
        self.assertIn("is no folder", self.run_tool()[2])


if __name__ == "__main__":
    if "--program" in sys.argv:
        place = sys.argv.index("--program")
        PROGRAM = os.path.abspath(sys.argv[place + 1])
        del sys.argv[place : place + 2]
    unittest.main()
