#!/usr/bin/env python3
"""Tests open.py.

usage: test_open.py [--program PROGRAM] [what unittest takes]

Replays are those of the small program of test_archive.py, and with --program of that one too.
"""

import contextlib
import importlib
import io
import os
import re
import signal
import subprocess
import sys
import urllib.request
import unittest
from pathlib import Path
from unittest import mock

import remote
import test_archive
from generated_recordings import PID, on, packets_of
from test_archive import NO_DATA, two_services
from test_diagnosis import FOUND, GOOD, OTHERS, START
from test_extract import JPEG, carousel

opener = importlib.import_module("open")
PROGRAM = None  # with which recordings are replayed
TOOL = str(Path(opener.__file__).resolve())


class Opening(test_archive.InFolder):
    def run_tool(self, packets, *words, answer="", program=None):
        """Runs the tool over a recording; returns its status, what it printed and told, and the words that the remote control was begun with."""
        self.write("in.ts", packets)
        printed, told, begun = io.StringIO(), io.StringIO(), []

        def begin(given):
            begun.extend(given)
            self.data = Path(given[0]).read_bytes()
            return 0

        with contextlib.redirect_stdout(printed), contextlib.redirect_stderr(told), mock.patch.object(sys, "stdin", io.StringIO(answer)):
            with mock.patch.object(remote, "main", begin):
                try:
                    status = opener.main([str(self.folder / "in.ts"), "--program", str(program or self.program), *words])
                except SystemExit as ended:
                    status = ended.code
        return status, printed.getvalue(), told.getvalue(), begun

    def test_the_one_service_is_cut_and_opened(self):
        for size, packets in ((188, GOOD), (192, [b"time" + one for one in GOOD])):
            status, printed, told, begun = self.run_tool(packets)
            self.assertEqual((status, printed), (0, ""), told)
            self.assertEqual(begun[1:], ["--service", "1", "--program", str(self.program), "--open"])
            self.assertEqual(self.data, b"".join(GOOD[: -len(OTHERS)]), size)
            self.assertEqual(told, f"open.py: service 1: {len(self.data)} bytes of data\n")
            self.assertFalse(os.path.exists(begun[0]))

    def test_of_several_services_one_is_asked_for(self):
        status, _, told, begun = self.run_tool(two_services(), answer="2\n")
        self.assertEqual((status, begun[1:3]), (0, ["--service", "3"]))
        self.assertIn("What is to be opened?\n  1  service 9: 1 of 1 modules came whole\n  2  service 3: 1 of 1 modules came whole\n1 to 2: ", told)
        for answer in ("", "0\n", "3\n", "x\n", "²\n"):
            status, _, told, begun = self.run_tool(two_services(), answer=answer)
            self.assertEqual((status, begun), (2, []))
            self.assertIn("that is none of them; or name one by --service N", told)
        status, _, told, begun = self.run_tool(two_services(), "--service", "9")
        self.assertEqual((status, begun[1:3]), (0, ["--service", "9"]))
        self.assertNotIn("What is to be opened?", told)

    def test_where_no_table_leads_to_a_carousel_its_pid_is_opened(self):
        status, _, told, begun = self.run_tool([b"time" + one for one in GOOD[2:]])
        self.assertEqual((status, begun[1:3], self.data), (0, ["--data-pid", str(PID)], b"".join(GOOD[2 : -len(OTHERS)])))
        several = packets_of(on(PID, carousel([START])) + on(PID + 1, carousel([START])))
        status, _, told, begun = self.run_tool(several, answer="2\n")
        self.assertEqual((status, begun[1:3]), (0, ["--data-pid", str(PID + 1)]))

    def test_what_has_no_data_is_told(self):
        rows = [(JPEG, [], "it is a JPEG picture"), (NO_DATA, [], "there is no data in it"), (GOOD, ["--service", "7"], "Service 7 isn't in it"), (b"", [], "It has no bytes")]
        for data, words, wanted in rows:
            status, printed, told, begun = self.run_tool(data, *words)
            self.assertEqual((status, printed, begun), (1, "", []))
            self.assertIn(wanted, told)

    def test_findings_are_told(self):
        mended = opener.prepare_recording.MENDED
        for row, data, words, wanted in FOUND:
            status, _, told, begun = self.run_tool(data, *words, answer="1\n")
            self.assertIn(status, (0, 1), row)
            if not begun or (row not in mended and not row.startswith("no P")):
                self.assertEqual(told.count(wanted), 1, row)

    def test_a_report_is_written(self):
        made = self.room / "made"
        status, printed, told, begun = self.run_tool(GOOD, "--report", str(made))
        self.assertEqual((status, printed, begun), (0, f"{made}/report.html\n", []), told)
        self.assertEqual(sorted(path.name for path in made.iterdir()), ["data.ts", "lines.txt", "record.txt", "report.html"])
        status, _, told, _ = self.run_tool(GOOD, "--report", str(made))
        self.assertEqual((status, told), (1, f"open.py: {made} is there and isn't an empty folder: name another\n"))
        (self.room / "fail").touch()
        status, _, told, _ = self.run_tool(GOOD, "--report", str(self.room / "other"))
        self.assertEqual(status, 1)
        self.assertIn("the program ended with status 1: keep fault", told)

    def test_with_the_program_the_report_has_its_lines(self):
        if not PROGRAM:
            self.skipTest("no program is named")
        made = self.room / "made"
        self.assertEqual(self.run_tool([b"time" + one for one in GOOD], "--report", str(made), program=PROGRAM)[0], 0)
        lines = (made / "lines.txt").read_text(encoding="ascii").splitlines()
        self.assertEqual([line.split()[0] for line in lines], ["module", "load", "module", "show", "box", "box", "text", "end"])

    def test_the_remote_control_is_served(self):
        self.write("in.ts", GOOD)
        words = [sys.executable, "-B", TOOL, self.folder / "in.ts", "--program", self.program, "--no-browser"]
        heard = {"preexec_fn": lambda: signal.signal(signal.SIGINT, signal.default_int_handler)}
        with subprocess.Popen(words, stdout=subprocess.PIPE, stderr=subprocess.PIPE, **heard) as started:
            address = re.search(r"http://\S+", started.stdout.readline().decode())[0]
            with urllib.request.urlopen(f"{address}state", timeout=60) as answer:
                self.assertIn(b"load /40/0000/startup.bml", answer.read())
            started.send_signal(signal.SIGINT)
            self.assertEqual(started.wait(60), 0)
            started.stderr.read()

    def test_what_cannot_be_used_is_told(self):
        rows = [(["--program", f"{self.room}/none"], 1, "is no program"), (["--service", "0"], 2, "usage"), (["--service", "1", "--data-pid", "16"], 2, "usage")]
        for words, status, wanted in rows:
            found = self.run_tool(GOOD, *words)
            self.assertEqual(found[0], status)
            self.assertIn(wanted, found[2])
        ran = subprocess.run([sys.executable, "-B", TOOL, self.room / "none.ts", "--program", self.program], capture_output=True, check=False)
        self.assertEqual((ran.returncode, ran.stdout), (1, b""))
        self.assertIn(b"No such file", ran.stderr)


if __name__ == "__main__":
    if "--program" in sys.argv:
        place = sys.argv.index("--program")
        PROGRAM = os.path.abspath(sys.argv[place + 1])
        del sys.argv[place : place + 2]
    unittest.main()
