#!/usr/bin/env python3
"""Tests diagnosis.py, and that the tools tell what it finds.

usage: test_diagnosis.py [--program PROGRAM] [what unittest takes]

Each recording here has one thing that is to be known of it. With --program it is also replayed, so that the finding is seen beside its lines.
"""

import contextlib
import html
import io
import os
import random
import re
import subprocess
import sys
import tempfile
import unittest
from pathlib import Path
from unittest import mock

import diagnosis
import draw_display
import extract
import prepare_recording
import remote
import report
import shown_pages
import transport
from generated_recordings import MAP_PID, PID, blocks, compressed, on, packets_of, tables
from test_extract import BML, JPEG, carousel, entity, part
from transport import DATA_STREAM, ElementaryStream, Module

PROGRAM = None  # with which recordings are replayed
NO_STREAM = ("an empty file", "no transport stream", "arguments in another order")
ROOT = Path(__file__).resolve().parents[2]
PAGE = b"<bml><body><p>sea</p></body></bml>"
START = (0, part(b"startup.bml", PAGE), None)
DATA = ElementaryStream(DATA_STREAM, PID, 0x40)
OTHERS = [transport.packet(300, at % 16, False, bytes(184)) for at in range(8)]


def scrambled(packets, pids):
    return [one[:3] + bytes([one[3] | 0x80]) + one[4:] if (one[1] & 0x1F) << 8 | one[2] in pids else one for one in packets]


def damaged(packet):
    return packet[:100] + bytes([packet[100] ^ 1]) + packet[101:]


GOOD = packets_of(tables() + on(PID, carousel([START, (1, b"sun", b"text/plain")]))) + OTHERS
TWO = [(0, transport.pat_section([(0, 16), (9, 400), (3, 401)]))]
PACKED, SENT = compressed(1)
MARKED = GOOD[3][:1] + bytes([GOOD[3][1] | 0x80]) + GOOD[3][2:]


def streams(*tags, kind=DATA_STREAM):
    return [ElementaryStream(kind, PID + at, tag) for at, tag in enumerate(tags)]


def with_carousel(sections, modules=(START,)):
    return packets_of(sections + on(PID, carousel(modules)))


# Of each row: a recording, the words that ask for something in it, and what is told besides.
FOUND = [
    ("an empty file", b"", [], "It has no bytes"),
    ("no transport stream", JPEG * 100, [], "it is a JPEG picture"),
    ("no transport stream", b"\x00\x00\x00\x18ftypmp42" + bytes(3000), [], "MP4 or QuickTime file. Data broadcasts are lost"),
    ("no transport stream", b"hello\n" * 100, [], "it is a text"),
    ("no transport stream", b"<!DOCTYPE html><p>", [], "it is an HTML page"),
    ("no transport stream", bytes(5000), [], "0x47 every 188, 192 or 204 bytes"),
    ("arguments in another order", b"# a record\nall\nshow\n", [], "It is a record of bml_replay"),
    ("arguments in another order", b"module 40 0000 01 5\nend 4\n", [], "It is what a run of bml_replay printed"),
    ("packets of 192 or 204 bytes", b"".join(b"time" + one for one in GOOD), [], "Its packets have 192 bytes"),
    ("packets of 192 or 204 bytes", b"".join(one + bytes(16) for one in GOOD), [], "Its packets have 204 bytes"),
    ("scrambled packets", scrambled(GOOD, {300}), [], "8 of 13 packets are scrambled, on the PIDs 300 (8 of 8): pictures and sound, and no data. Nothing"),
    ("scrambled packets", scrambled(GOOD, {300, PID}), [], "on the PIDs 512 (3 of 3), 300 (8 of 8); of these the PIDs 512 have tables or data. Descramble"),
    ("no PAT", GOOD[1:], [], "There are carousels on the PIDs 512: ask for one by --data-pid N"),
    ("no PAT", OTHERS, [], "Record longer"),
    ("no PMT", [GOOD[0], *GOOD[2:]], [], "The table of service 1 (PMT, on PID 496) didn't come whole. There are carousels on the PIDs 512"),
    ("no PMT", packets_of([*TWO, (401, transport.pmt_section(3, [DATA]))]), [], "Ask for another by --service N: that of 3 came"),
    ("a service that isn't there", GOOD, ["--service", "999"], "Service 999 isn't in it. Its services are 1: ask"),
    ("a service without data", packets_of([*TWO, (400, transport.pmt_section(9, [])), (401, transport.pmt_section(3, [DATA]))]), [], "Services with data are 3"),
    ("no service with data", packets_of(tables([ElementaryStream(2, 300, 1)])), [], "Many recorders leave data out"),
    ("no service with data", with_carousel(tables([ElementaryStream(6, PID, 0x40)])), [], "There are carousels on the PIDs 512"),
    ("no component tag", with_carousel(tables(streams(None))), [], "have no component_tag, on the PIDs 512. Ask for one by --data-pid N"),
    ("more than 16 components", with_carousel(tables(streams(*range(0x40, 0x51)))), [], "has 17 components"),
    ("no component 40", with_carousel(tables(streams(0x50))), [], "but 50 on PID 512. Ask for one by --data-pid N"),
    ("no packets of a component", packets_of(tables()), [], "No packet of component 40 on PID 512 is in it"),
    ("no packets of a component", GOOD, ["--data-pid", "600"], "No packet of component 40 on PID 600 is in it"),
    ("a carousel without a DII", GOOD[:2] + packets_of(on(PID, carousel([START])[1:])), [], "has 1 block, and no announcement (DII)"),
    ("no section of a component", GOOD[:2] + [transport.packet(PID, 0, False, bytes(184))], [], "1 packet of component 40 on PID 512 came"),
    ("compressed modules", packets_of(tables() + on(PID, [transport.dii_section(1, 1, 100, [Module(0, 1, 1), PACKED]), *blocks(PACKED, SENT)])), [],
     "1 of 2 modules are compressed: 40 0001 version 01. `tools"),
    ("large modules", packets_of(tables() + on(PID, [transport.dii_section(1, 1, 4000, [Module(0, 1, 2_000_000)])])), [], "1 module of more than 1,048,576 bytes"),
    ("modules that never came whole", packets_of(tables() + on(PID, carousel([START, (1, b"x" * 2000, None)])[:-1])), [], "1 of 2 modules never came whole: 40 0001 version 01"),
    ("no start document", with_carousel(tables(), [(1, b"x", b"text/plain")]), [], "is never announced"),
    ("damaged packets or sections", [*GOOD[:3], damaged(GOOD[3])], [], "1 section of data are damaged"),
    ("damaged packets or sections", [*GOOD, MARKED], [], "1 packet of tables and data are marked as damaged"),
]


def run(tool, *words):
    """Runs a tool, and returns its status and what it printed and told."""
    printed, told = io.StringIO(), io.StringIO()
    with contextlib.redirect_stdout(printed), contextlib.redirect_stderr(told):
        try:
            status = tool.main([str(word) for word in words])
        except SystemExit as ended:
            status = ended.code
    return status, printed.getvalue(), told.getvalue()


class InFolder(unittest.TestCase):
    def setUp(self):
        folder = tempfile.TemporaryDirectory(prefix="diagnosis-")
        self.addCleanup(folder.cleanup)
        self.folder = Path(folder.name)
        self.source = self.folder / "in.ts"

    def write(self, data):
        self.source.write_bytes(data if isinstance(data, bytes) else b"".join(data))

    def findings(self, words):
        options = dict(zip(words, words[1:]))
        service, data_pid = options.get("--service"), options.get("--data-pid")
        return diagnosis.diagnose(str(self.source), service and int(service), data_pid and int(data_pid))


class Findings(InFolder):
    def test_each_row_is_found_and_told(self):
        for row, data, words, wanted in FOUND:
            with self.subTest(row, wanted=wanted):
                self.write(data)
                found = {it.row: it for it in self.findings(words)}
                self.assertIn(row, found)
                self.assertIn(wanted, found[row].text())
                self.assertRegex(found[row].text(), r"\A[A-Z0-9].*\. [A-Z`].*\. \[.*\]\Z")
                if "--data-pid" not in words:
                    status, printed, told = run(prepare_recording, "list", self.source, *words)
                    self.assertEqual(status, 1 if found[row].is_fatal else 0)
                    self.assertIn(found[row].text(), told if status else printed)
                    cut = ["--data-only", *words] if words else []
                    status, _, told = run(prepare_recording, "unpack", self.source, self.folder / "out.ts", *cut)
                    self.assertEqual(status, 1 if found[row].is_fatal else 0)
                    self.assertEqual(found[row].text() in told, row not in prepare_recording.MENDED)

    def test_a_good_recording_has_none(self):
        self.write(GOOD)
        self.assertEqual(self.findings([]), [])
        self.assertEqual(self.findings(["--service", "1"]), [])
        self.assertEqual(self.findings(["--data-pid", str(PID)]), [])

    def test_each_row_has_a_row_in_the_document_and_a_recording_here(self):
        text = (ROOT / "docs" / "TROUBLE.md").read_text(encoding="utf-8")
        section = text.split("## What the tools say of a recording\n")[1].split("\n## ")[0]
        rows = re.findall(r"^\| \[([^\]]+)\] \|", section, re.MULTILINE)
        named = re.findall(r'Finding\(\s*"([^"]+)"', Path(diagnosis.__file__).read_text(encoding="utf-8"))
        self.assertEqual(set(rows), set(named))
        self.assertEqual(set(rows), {row for row, *_ in FOUND})
        self.assertEqual(len(rows), len(set(rows)))

    def test_files_by_chance_packets_are_of_their_kind(self):
        """A picture of a megabyte may have a byte 0x47 every 188 bytes for a while."""
        picture = bytearray(JPEG + random.Random(1).randbytes(400_000))
        for at in range(20):
            picture[5000 + 188 * at] = 0x47
        self.write(bytes(picture))
        self.assertEqual([it.row for it in self.findings([])], ["no transport stream"])

    def test_damaged_recordings_have_findings_and_no_trace(self):
        dice = random.Random(3)
        packets = b"".join(GOOD)
        for at in range(300):
            data = bytearray(packets)
            for _ in range(dice.randrange(1, 30)):
                data[dice.randrange(len(data))] = dice.randrange(256)
            self.write(bytes(data[dice.randrange(200) * (at % 2) : dice.randrange(200, len(data))]))
            for words in ([], ["--service", "1"], ["--data-pid", str(PID)]):
                for finding in self.findings(words):
                    self.assertRegex(finding.text(), r"\. \[.*\]\Z")

    def test_the_program_says_no_more_of_them(self):
        """What a finding explains: a replay that ends well and shows no page."""
        if not PROGRAM:
            self.skipTest("no program is named")
        (self.folder / "record.txt").write_bytes(b"all\nshow\n")
        for row, data, words, _ in FOUND:
            if row in ("scrambled packets", "damaged packets or sections", "large modules", "modules that never came whole", "more than 16 components"):
                continue
            with self.subTest(row):
                self.write(data)
                ran = subprocess.run([PROGRAM, "replay", *words, self.source, self.folder / "record.txt"], capture_output=True, check=True, cwd=self.folder)
                self.assertNotIn(b"\nload ", b"\n" + ran.stdout)


class Outputs(InFolder):
    def test_what_is_no_output_is_told(self):
        rows = [
            (JPEG, "it is no output of a run, but a JPEG picture"),
            (b"".join(GOOD), "but a transport stream: name the lines first, and the stream by --stream"),
            (b"all\nshow\n", "but a record of bml_replay: name the lines first, and the record by --record"),
            (b"a letter\nto you\n", 'but a text, whose line 1 is "a letter"'),
            (b"<html>", "but an HTML page"),
        ]
        for data, wanted in rows:
            self.write(data)
            self.assertIn(wanted, diagnosis.fault_of_output(self.source))

    def test_outputs_of_the_examples_are_outputs_and_records_are_records(self):
        count = 0
        for path in sorted((ROOT / "examples").glob("*/stdout")):
            if path.parent.name in ("generated", "help", "version"):
                continue
            self.assertIsNone(diagnosis.fault_of_output(path), path)
            count += 1
        for path in sorted((ROOT / "examples").glob("*/record.txt")):
            if path.parent.name != "faulty-record":
                self.assertTrue(diagnosis.is_record(path.read_bytes()), path)
        self.assertGreater(count, 20)


    def test_what_is_no_record_is_told(self):
        rows = [
            (JPEG, "it is no record, but a JPEG picture"),
            (b"".join(GOOD), "but a transport stream: name the record in place of the stream"),
            (b"module 40 0000 01 5\nend 4\n", "but what a run of bml_replay printed: name the record in place of the lines"),
            (b"a letter\nto you\n", 'but a text, whose line 1 is "a letter"'),
        ]
        for data, wanted in rows:
            self.write(data)
            self.assertIn(wanted, diagnosis.fault_of_record(self.source))
        # (an empty one asks for nothing, and one with a bad line is to be reported as any other)
        for data in (b"", b"# nothing yet\n", b"all\nshow\nhalt\n", b"halt\nall\nshow\n"):
            self.write(data)
            self.assertIsNone(diagnosis.fault_of_record(self.source), data)
        for path in (ROOT / "examples").glob("*/record.txt"):
            self.assertIsNone(diagnosis.fault_of_record(path), path)


class Tools(InFolder):
    """That the report, the remote control and other tools tell what is found."""

    def test_a_run_without_proof_refuses_a_record_in_place_of_the_stream(self):
        record = self.folder / "record.txt"
        record.write_bytes(b"all\nshow\n")
        self.write(b"".join(GOOD))
        ran = subprocess.run([ROOT / "tools/users/try.sh", record, self.source], capture_output=True, check=False, timeout=60)
        self.assertEqual((ran.returncode, ran.stdout), (1, b""))
        self.assertIn(b"name the stream first", ran.stderr)

    def test_what_is_named_in_place_of_another_is_refused(self):
        lines, record = self.folder / "lines.txt", self.folder / "record.txt"
        lines.write_bytes(b"show 0\nend 1\n")
        record.write_bytes(b"all\nshow\n")
        self.write(b"".join(GOOD))
        # (the program is one that never runs)
        rows = [
            (report, [lines, self.folder / "made", "--stream", record], f"{record}: It is a record of bml_replay"),
            (report, [lines, self.folder / "made", "--stream", lines], f"{lines}: It is what a run of bml_replay printed"),
            (report, [lines, self.folder / "made", "--record", self.source], f"{self.source}: it is no record, but a transport stream"),
            (report, [lines, self.folder / "made", "--record", lines], f"{lines}: it is no record, but what a run"),
            (draw_display, [lines, self.folder / "made", "--stream", record], f"{record}: It is a record of bml_replay"),
            (remote, [record, "--program", sys.executable, "--record", self.source], f"{record}: It is a record of bml_replay"),
            (remote, [self.source, "--program", sys.executable, "--record", lines], f"{lines}: it is no record, but what a run"),
        ]
        for tool, words, wanted in rows:
            status, printed, told = run(tool, *words)
            self.assertEqual((status, printed, (self.folder / "made").exists()), (1, "", False), words)
            self.assertIn(wanted, told)

    def test_a_report_refuses_what_no_run_printed(self):
        for data, wanted in ((JPEG, "no output of a run, but a JPEG picture"), (b"".join(GOOD), "but a transport stream: name the lines first")):
            self.write(data)
            for tool in (report, draw_display):
                status, printed, told = run(tool, self.source, self.folder / "made")
                self.assertEqual((status, printed, (self.folder / "made").exists()), (1, "", False))
                self.assertIn(wanted, told)

    def test_a_report_has_the_findings_of_its_stream(self):
        (self.folder / "lines.txt").write_bytes(b"show 0\nend 1\n")
        for row, data, words, wanted in FOUND:
            self.write(data)
            status, _, told = run(report, self.folder / "lines.txt", self.folder / "made", "--stream", self.source, *words)
            if row in NO_STREAM:
                self.assertEqual(status, 1, row)
                self.assertIn(wanted, told)
                continue
            self.assertEqual((status, told), (0, ""), row)
            text = html.unescape((self.folder / "made" / "report.html").read_text(encoding="utf-8"))
            self.assertIn(wanted, text.split("<h2>Warnings</h2>")[1].split("<h2>Modules</h2>")[0])

    def session(self, lines, record=b"all\nshow\n"):
        """Returns the state of a session over what is written, with a program that prints these lines, once the recording was read."""
        program = self.folder / "program"
        program.write_text(f"#!{sys.executable}\nprint({lines!r})\n", encoding="utf-8")
        program.chmod(0o755)
        session = remote.Session([str(program), "replay", str(self.source)], record, shown_pages.Recording(str(self.source)))
        session.reading.join(60)
        return session.state()

    def test_the_remote_tells_why_nothing_is_displayed(self):
        for row, data, words, wanted in FOUND:
            if words or data == b"":
                continue
            self.write(data)
            state = self.session("show 0\nend 1")
            self.assertIn(wanted, state["fault"], row)
            self.assertTrue(state["fault"].startswith("Nothing is displayed."))
            self.assertIn(["end", "end 1"], state["lines"])
            self.assertEqual(self.session("show 0\nbox 0 0 9 9 1 1 1\nend 1")["fault"], "")
        self.write(GOOD)
        self.assertEqual(self.session("show 0\nend 1")["fault"], "")

    def test_the_remote_proposes_to_cut_a_stream_whose_presses_take_long(self):
        self.write(GOOD)
        with mock.patch.object(remote, "LARGE", 1000), mock.patch.object(remote, "LONG", 0):
            self.assertRegex(self.session("show 0\nend 1")["told"], r"The last press took [0-9.]+ seconds: .* unpack --data-only leaves")
            with mock.patch.object(remote, "LONG", 3600):
                self.assertNotIn("--data-only", self.session("show 0\nend 1")["told"])
        with mock.patch.object(remote, "LONG", 0):
            self.assertNotIn("--data-only", self.session("show 0\nend 1")["told"])

    def test_the_remote_refuses_what_is_no_stream(self):
        for data, wanted in ((b"", "It has no bytes"), (JPEG, "it is a JPEG picture"), (b"all\nshow\n", "It is a record of bml_replay")):
            self.write(data)
            status, printed, told = run(remote, self.source, "--program", sys.executable)
            self.assertEqual((status, printed), (1, ""))
            self.assertIn(wanted, told)

    def test_what_the_program_says_is_explained(self):
        record = b"all\nkei 5\nshow"
        self.assertEqual(diagnosis.explained("bad record line 2", str(self.source), record), 'bad record line 2, which is "kei 5"')
        self.assertEqual(diagnosis.explained("bad record line 2\nrecord.txt:2: kei 5", str(self.source), record), "bad record line 2: record.txt:2: kei 5")
        self.assertEqual(diagnosis.said_by_system(FileNotFoundError(2, "No such file", "a.ts")), "a.ts: No such file")
        self.assertEqual(diagnosis.said_by_system(OSError("nothing more")), "nothing more")
        self.assertEqual(diagnosis.explained("bad record line 9", str(self.source), record), 'bad record line 9, which is ""')
        self.assertEqual(diagnosis.explained("open fault", str(self.source), record), f"open fault: {self.source}: No such file or directory")
        self.assertEqual(diagnosis.explained("read fault", str(self.folder), record), f"read fault: {self.folder}: Is a directory")
        self.assertEqual(diagnosis.explained("keep fault", str(self.source), record), "keep fault")


class Extraction(InFolder):
    def test_a_recording_without_modules_says_why(self):
        for row, data, words, wanted in FOUND:
            with self.subTest(row, wanted=wanted):
                self.write(data)
                status, _, told = run(extract, self.source, self.folder / str(len(list(self.folder.iterdir()))), *words)
                if status:
                    self.assertIn(f"[{row}]", told)
                self.assertEqual(told.count("in.ts: "), 1 if status else 0)


if __name__ == "__main__":
    if "--program" in sys.argv:
        place = sys.argv.index("--program")
        PROGRAM = os.path.abspath(sys.argv[place + 1])
        del sys.argv[place : place + 2]
    unittest.main()
