#!/usr/bin/env python3
"""Tests extract.py, service_modules.py and entities.py.

usage: test_extract.py [--program PROGRAM] [what unittest takes]

The modules are compared with the lines `module` that examples and rows of tables/ have, which are those of the proved program; with --program also
with what it prints over generated recordings.
"""

import contextlib
import io
import os
import random
import re
import subprocess
import sys
import tempfile
import unittest
from pathlib import Path
from unittest import mock

import entities
import extract
import prepare_recording
import transport
from generated_pages import chunk, jpeg_of, mng_of, png_of
from generated_recordings import MAP_PID, PID, TEXT, Model, Plan, blocks, compressed, framed, on, packets_of, packets_of_plan, tables
from transport import COMPRESSION_TYPE, DATA_STREAM, PACKET_SIZE, TYPE_DESCRIPTOR, ElementaryStream, Module, descriptor

sys.path.append(str(Path(__file__).resolve().parents[1] / "rows"))
import cases

PROGRAM = None  # whose lines are compared
PLANS = 80
BML = b"text/X-arib-bml"
JPEG = jpeg_of(4, 2)


def run(*words):
    """Runs the tool, and returns its status and what it printed and told."""
    printed, told = io.StringIO(), io.StringIO()
    with contextlib.redirect_stdout(printed), contextlib.redirect_stderr(told):
        try:
            status = extract.main([str(word) for word in words])
        except SystemExit as ended:
            status = ended.code
    return status, printed.getvalue(), told.getvalue()


def part(name, data, media_type=BML, more=b""):
    location = b"" if name is None else b"Content-Location: " + name + b"\r\n"
    return b"Content-Type: " + media_type + b"\r\n" + location + more + b"\r\n" + data


def entity(*parts, boundary=b"b"):
    """Returns an entity of these parts."""
    body = b"".join(b"\r\n--" + boundary + b"\r\n" + it for it in parts)
    return b"Content-Type: multipart/mixed; boundary=" + boundary + b"\r\n" + body + b"\r\n--" + boundary + b"--\r\n"


def carousel(modules, block_size=1000, transaction=1):
    """Returns the sections of modules, each with its number, its bytes and its media type, or none."""
    entries = [Module(number, 1, len(data), descriptor(TYPE_DESCRIPTOR, kind) if kind else b"") for number, data, kind in modules]
    sections = [transport.dii_section(transaction, 1, block_size, entries)]
    for entry, (_, data, _) in zip(entries, modules):
        sections += blocks(entry, data, block_size)
    return sections


class InFolder(unittest.TestCase):
    """Tests with a folder for the recording and what becomes of it."""

    def setUp(self):
        folder = tempfile.TemporaryDirectory(prefix="extract-")
        self.addCleanup(folder.cleanup)
        self.folder = Path(folder.name)
        self.source, self.target = self.folder / "in.ts", self.folder / "out"

    def extracted(self, stream, *options):
        """Writes the modules of a stream to a folder of their own; returns the words of the lines that are printed."""
        self.source.write_bytes(stream)
        self.target = self.folder / f"out{len(list(self.folder.iterdir()))}"
        status, printed, told = run(self.source, self.target, *options)
        self.assertEqual((status, told), (0, ""))
        return [line.split(" ") for line in printed.splitlines()]

    def files(self):
        """Returns what was written, by the paths of the files."""
        return {str(path.relative_to(self.target)): path.read_bytes() for path in self.target.rglob("*") if path.is_file()}

    def written(self, sections):
        """Returns the files but the page that come of the sections of a component."""
        self.extracted(b"".join(packets_of(tables() + on(PID, sections))))
        found = self.files()
        self.page = found.pop("index.html").decode()
        return found


def arrivals(stream, service=None, data_pid=None):
    """Returns the modules that a receiver acquires of a stream, and the number of its packets."""
    found = []
    modules = extract.ServiceModules(found.append, lambda skip: None, service, data_pid)
    try:
        _, count = extract.read_modules(io.BytesIO(stream), modules)
    except extract.Fault:
        return [], 0
    return found, count


def line_of(arrival):
    return f"module {arrival.component:02x} {arrival.module.number:04x} {arrival.module.version:02x} {len(arrival.data)}"


def asked_of(words):
    """Returns the service or the PID that a run asks for."""
    options = dict(zip(words, words[1:]))
    return {name: int(options[word]) for name, word in (("service", "--service"), ("data_pid", "--data-pid")) if word in options}


class Lines(InFolder):
    def test_modules_are_those_of_the_lines_of_examples_and_rows(self):
        compared = modules = 0
        for case in [*cases.examples(), *cases.rows()]:
            if case.words[0] != "replay" or "stream.ts" not in case.files or case.words[-2] not in case.files:
                continue
            with self.subTest(case.name):
                found, count = arrivals(case.files[case.words[-2]], **asked_of(case.words[1:-2]))
                lines = [line_of(it) for it in found if transport.compression_of(it.module.info) is None]
                wanted = [line for line in case.stdout.decode("latin-1").splitlines() if line.startswith("module ")]
                # (a record may end before the stream does)
                is_whole = case.stdout.endswith(f"end {count}\n".encode())
                self.assertEqual(lines if is_whole else lines[: len(wanted)], wanted)
                compared += is_whole
                modules += len(wanted)
        self.assertGreater(compared, 400)
        self.assertGreater(modules, 500)

    def test_modules_of_generated_recordings_are_those_of_the_unpacked_ones(self):
        unpacked = 0
        for number in range(PLANS):
            with self.subTest(number):
                dice = random.Random(number)
                packets = packets_of_plan(Plan(number), False)
                source, target = self.folder / "in.ts", self.folder / "unpacked.ts"
                source.write_bytes(framed(packets, dice.choice([188, 192, 204]), dice))
                with contextlib.redirect_stderr(io.StringIO()):
                    prepare_recording.unpack(str(source), str(target))
                stream = target.read_bytes()
                wanted = [line for line in Model().read(stream) if line[0] == "module"]
                found = [it for it in arrivals(source.read_bytes())[0] if it.fault is None]
                self.assertTrue([("module", it.component, it.module.number, it.module.version, it.data) for it in found] == wanted, "the modules differ")
                unpacked += sum(it.is_unpacked() for it in found)
                if PROGRAM and number % 4 == 0:
                    lines = [line for line in self.replayed(stream) if line.startswith("module ")]
                    self.assertEqual([line_of(it) for it in found], lines)
                    again = [line_of(it) for it in arrivals(stream)[0] if it.fault is None]
                    self.assertEqual(again, lines)
        self.assertGreater(unpacked, PLANS)

    def replayed(self, stream, *options):
        (self.folder / "replay.ts").write_bytes(stream)
        (self.folder / "record.txt").write_bytes(b"all\n")
        words = [PROGRAM, "replay", *options, self.folder / "replay.ts", self.folder / "record.txt"]
        return subprocess.run(words, capture_output=True, check=True, cwd=self.folder).stdout.decode("latin-1").splitlines()


class Parts(unittest.TestCase):
    def test_parts_are_those_of_the_rows_of_entities(self):
        """A row loads a document only where its entity has the part startup.bml."""
        loaded = 0
        for case in cases.rows():
            if not case.name.startswith("entities: ") or b"\nload /40/0000/startup.bml\n" not in case.stdout:
                continue
            starts = [it for it in arrivals(case.files["stream.ts"], **asked_of(case.words[1:-2]))[0] if it.module.number == 0]
            names = [it.name for start in starts for it in entities.resources_of(start.module.info, start.data) if it.is_found]
            self.assertIn(b"startup.bml", names, case.name)
            loaded += 1
        self.assertGreater(loaded, 5)

    def test_the_forms_of_an_entity(self):
        two = entity(part(b"a/b.bml", b"one\r\n"), part(None, b"", b"text/css"))
        rows = [
            (two, [(b"b.bml", BML, b"one\r\n"), (b"", b"text/css", b"")]),
            (two.replace(b"boundary=b", b'boundary="b"'), [(b"b.bml", BML, b"one\r\n"), (b"", b"text/css", b"")]),
            (two.replace(b"Content-Type: multipart", b"CONTENT-TYPE:\t MULTIPART"), [(b"b.bml", BML, b"one\r\n"), (b"", b"text/css", b"")]),
            (two.replace(b"--b\r\n", b"--b \t\r\n"), [(b"b.bml", BML, b"one\r\n"), (b"", b"text/css", b"")]),
            (part(b"x", b"yz"), [(b"x", BML, b"yz")]),
            (part(b"x", b"yz", more=b"Content-Transfer-Encoding: Binary\r\n"), [(b"x", BML, b"yz")]),
            (part(b"x", b"yz", more=b"Content-Transfer-Encoding: base64\r\n"), []),
            (b"\r\nbytes", [(b"", b"", b"bytes")]),
            (entity(b"no header", part(b"x", b"y")), [(b"x", BML, b"y")]),
            (entity(part(b"x", b"y"), b""), [(b"x", BML, b"y")]),
        ]
        for data, wanted in rows:
            self.assertEqual([it[:3] for it in entities.entity_parts(data)], wanted, data)
        found = entities.entity_parts(entity(part(b"x", b"1"), part(b"x", b"2")))
        self.assertEqual([(it.data, it.is_found) for it in found], [(b"1", True), (b"2", False)])

    def test_what_is_no_entity(self):
        two = entity(part(b"x", b"1"))
        many = entity(*[part(b"%d" % at, b"") for at in range(513)])
        rows = [
            (b"", "no empty line"),
            (b"Content-Type: x\r\n", "no empty line"),
            (b"no colon\r\n\r\n", "a line of its header"),
            (b": x\r\n\r\n", "a line of its header"),
            (two.replace(b"; boundary=b", b""), "no boundary"),
            (two.replace(b"boundary=b", b"boundary="), "no boundary"),
            (two.replace(b"boundary=b", b'boundary="b'), "no boundary"),
            (two.replace(b"boundary=b", b'boundary=""; boundary=b'), "no boundary"),
            (two.replace(b"--b--", b"--b"), "no last delimiter line"),
            (two.replace(b"\r\n", b"\n"), "no empty line"),
            (many, "more than 512 parts"),
        ]
        for data, wanted in rows:
            with self.assertRaisesRegex(entities.BadEntity, wanted):
                entities.entity_parts(data)
        self.assertEqual(len(entities.entity_parts(entity(*[part(b"%d" % at, b"") for at in range(512)]))), 512)


class Files(InFolder):
    def test_each_version_has_a_folder_with_its_parts(self):
        first = carousel([(0, entity(part(b"startup.bml", b"<bml/>"), part(b"a.css", b"p{}", b"text/css")), None), (1, JPEG, b"image/jpeg")])
        second = [transport.dii_section(2, 1, 1000, [Module(1, 2, 3)]), *blocks(Module(1, 2, 3), b"sea")]
        found = self.written(first + second + carousel([(1, JPEG, b"image/jpeg")], transaction=3) + carousel([(1, JPEG + b"!", b"image/jpeg")], transaction=4))
        self.assertEqual(found, {
            "40/0000.v01/startup.bml": b"<bml/>",
            "40/0000.v01/a.css": b"p{}",
            "40/0001.v01/resource.jpg": JPEG,
            "40/0001.v02/resource.bin": b"sea",
            "40/0001.v01.2/resource.jpg": JPEG + b"!",
        })
        self.assertEqual(self.page.count("<img "), 2)
        self.assertIn("the same as before, in 40/0001.v01", self.page)
        self.assertIn("no entity, so it has no resource", self.page)
        self.assertIn("&lt;bml/&gt;", self.page)

    def test_compressed_modules_are_unpacked_or_left_with_their_reason(self):
        good, sent = compressed(1, info=descriptor(TYPE_DESCRIPTOR, b"text/plain"))
        bad, large = compressed(2, packed=b"no zlib data"), compressed(3, size=0xFFFFFF)[0]
        sections = [transport.dii_section(1, 1, 100, [good, bad[0], large]), *blocks(good, sent), *blocks(*bad)]
        self.assertEqual(self.written(sections), {"40/0001.v01/resource.txt": TEXT, "40/0002.v01/resource.bin": b"no zlib data"})
        self.assertIn(f"unpacked from {len(sent)} bytes", self.page)
        self.assertIn("left as it came: it doesn&#x27;t unpack", self.page)
        self.assertIn("compressed: it has more than 1048576 bytes", self.page)

    def test_services_and_pids_are_asked_for(self):
        streams = [[ElementaryStream(DATA_STREAM, pid, tag)] for pid, tag in ((600, 0x40), (601, 0x50))]
        sections = [(0, transport.pat_section([(0, 16), (9, 400), (3, 401)])), (400, transport.pmt_section(9, streams[0])), (401, transport.pmt_section(3, streams[1]))]
        for pid, data in ((600, b"sun"), (601, b"rain")):
            sections += on(pid, carousel([(7, data, b"text/plain")]))
        stream = b"".join(packets_of(sections))
        rows = [((), "40 0007 01 3"), (("--service", 3), "50 0007 01 4"), (("--service", 9), "40 0007 01 3"), (("--data-pid", 601), "40 0007 01 4")]
        for options, wanted in rows:
            self.assertEqual([" ".join(line[1:5]) for line in self.extracted(stream, *options)], [wanted])
        status, printed, told = run(self.source, self.folder / "none", "--service", 5)
        self.assertEqual((status, printed, (self.folder / "none").exists()), (1, "", False))
        self.assertIn("no module came whole. Service 5 isn't in it", told)

    def test_names_stay_in_their_folder(self):
        names = [b"..", b".", b"", b"../../x", b"/etc/passwd", b"a\\b", b"a\x00b\x1b", b"CON", b"com1.txt", b"A.txt", b"a.txt", b"a.txt", b".hidden", b"x."]
        names += [b"x" * 10_000 + b".jpg", "天気.bml".encode("euc_jp"), b"\xff\xfe", b"q.html", b"q.SVG", b"<b>&\".bml", b"a b"]
        found = self.written(carousel([(0, entity(*[part(name, b"%d" % at) for at, name in enumerate(names)]), None)]))
        self.assertEqual(sorted(map(int, found.values())), list(range(len(names))))
        for path in found:
            name = path.removeprefix("40/0000.v01/")
            self.assertRegex(name, r"\A[\w.~+=@-]{1,110}\Z")
            self.assertNotRegex(name, r"\A\.|\.\Z|(?i:(html|svg)\Z)")
        self.assertEqual(len({path.casefold() for path in found}), len(names))
        files = {int(data): path.removeprefix("40/0000.v01/") for path, data in found.items()}
        wanted = {0: "resource.bml", 3: "x", 4: "passwd", 5: "a_b", 7: "_CON", 9: "A.txt", 10: "a~2.txt", 11: "a~3.txt", 12: "hidden", 13: "x~2", 15: "天気.bml", 17: "q.html.txt"}
        self.assertEqual({at: files[at] for at in wanted}, wanted)
        self.assertTrue(files[14].endswith(".jpg"))
        self.assertEqual(sorted(path.name for path in self.folder.iterdir()), sorted(["in.ts", self.target.name]))
        self.assertEqual(self.page.count("another part before it has its name"), 1)

    def test_nothing_of_a_broadcast_is_markup_of_the_page(self):
        evil = b"<script>alert(1)</script>"
        data = entity(part(b"\"'" + evil + b".bml", evil, b"text/x\"" + evil), part(b"x.txt", b"</pre>" + evil + b"\x00\x1b"))
        self.written(carousel([(0, data, None), (1, b"x", b"text/\"" + evil), (2, b"y", evil + b'"')]))
        self.assertNotIn("<script", self.page)
        self.assertNotIn("\x1b", self.page)
        for tag in re.findall(r"<[^>]*>", self.page):
            self.assertRegex(tag, r"\A<(!DOCTYPE|/?(html|head|body|meta|title|style|h1|h2|p|small|table|tr|th|td|div|a|img|details|summary|pre)\b)", tag)

    def test_pictures_are_shown_in_their_colours_or_in_the_fixed_ones(self):
        own, fixed = png_of([b"\1\2", b"\3\0"], more=chunk(b"PLTE", bytes(12))), png_of([b"\1\2", b"\3\0"])
        modules = [(1, own, b"image/png"), (2, fixed, b"image/X-arib-png"), (3, mng_of(fixed), b"image/X-arib-mng"), (4, own[:-16], b"image/png"), (5, JPEG, b"image/jpeg")]
        modules.append((6, png_of([b"\1\2", b"\3\0"], more=chunk(b"PLTE", bytes(3))), b"image/png"))
        modules.append((7, png_of([b"\1"], more=chunk(b"PLTE", bytes(4))), b"image/png"))
        found = self.written(carousel(modules))
        self.assertEqual(found["40/0002.v01/resource.png"], fixed)
        sources = re.findall(r'<img [^>]*src="([^"]*)"', self.page)
        self.assertEqual([it[:23] for it in sources], ["40/0001.v01/resource.pn", *["data:image/png;base64,i"] * 2, "40/0005.v01/resource.jp", "40/0006.v01/resource.pn"])
        self.assertEqual(self.page.count("a picture that can't be shown: it is cut"), 1)
        self.assertEqual(self.page.count("a picture that can't be shown: it has a palette of 4 bytes"), 1)
        with mock.patch.object(extract, "MOST_PICTURES", 1), mock.patch.object(extract, "MOST_EMBEDDED", 9):
            self.written(carousel(modules))
        self.assertEqual(self.page.count("<img "), 1)

    def test_what_says_that_it_is_a_picture(self):
        """A picture is told by its first bytes: one of 1 MiB that isn't one is a link, and a cut one is told as such."""
        found = self.written(carousel([(1, b"no jpeg " * 131_072, b"image/jpeg"), (2, JPEG[:4], b"image/jpeg"), (3, b"", b"image/png")], 4000))
        self.assertEqual({path: len(data) for path, data in found.items()}, {"40/0001.v01/resource.jpg": 1 << 20, "40/0002.v01/resource.jpg": 4, "40/0003.v01/resource.png": 0})
        self.assertEqual(self.page.count("<img "), 0)
        self.assertIn("a picture that can't be shown: it is a JPEG that is cut or damaged", self.page)

    def test_a_folder_is_filled_up_to_its_limits(self):
        sections = carousel([(at, b"%d" % at * 10, b"text/plain") for at in range(10)])
        with mock.patch.object(extract, "MOST_FILES", 4), mock.patch.object(extract, "MOST_ROWS", 3):
            self.assertEqual(len(self.written(sections)), 4)
        self.assertIn("7 more aren't on this page", self.page)
        with mock.patch.object(extract, "MOST_MODULES", 6):
            self.assertEqual(len(self.written(sections)), 6)
        self.assertIn("4 modules that came after the first 6 aren't written", self.page)
        with mock.patch.object(extract, "MOST_BYTES", 25):
            self.assertEqual(len(self.written(sections)), 2)
        self.assertIn("not written, since this folder is full", self.page)
        with mock.patch.object(extract, "MOST_FILES", 2):
            self.assertEqual(len(self.written(carousel([(0, entity(*[part(b"%d" % at, b"") for at in range(3)]), None)]))), 2)
        self.assertIn("not all of it is written", self.page)


class CommandLine(InFolder):
    def test_a_faulty_command_line_has_status_2(self):
        for words in ([], ["x"], ["x", "y", "z"], ["x", "y", "--service"], ["x", "y", "--service", "0"], ["x", "y", "--data-pid", "15"],
                      ["x", "y", "--service", "1", "--data-pid", "16"], ["x", "y", "--service", "+1"]):
            status, printed, told = run(*words)
            self.assertEqual((status, printed), (2, ""), words)
            self.assertIn("usage: extract.py", told)

    def test_files_that_cannot_be_used_are_told(self):
        self.source.write_bytes(b"".join(packets_of(tables() + on(PID, carousel([(1, b"x", b"text/plain")])))))
        (self.folder / "full").mkdir()
        (self.folder / "full" / "x").write_bytes(b"")
        (self.folder / "no.ts").write_bytes(b"no packets" * 1000)
        rows = [
            ([self.folder / "none.ts", self.target], "No such file"),
            ([self.folder, self.target], "Is a directory"),
            ([self.source, self.folder / "full"], "isn't an empty folder"),
            ([self.source, self.source], "isn't an empty folder"),
            ([self.folder / "no.ts", self.target], "no packets"),
        ]
        for words, wanted in rows:
            status, printed, told = run(*words)
            self.assertEqual((status, printed), (1, ""))
            self.assertIn(wanted, told)
        self.assertEqual(sorted(path.name for path in self.folder.iterdir()), ["full", "in.ts", "no.ts"])

    def test_damaged_streams_end_without_a_trace(self):
        dice = random.Random(5)
        modules = [(0, entity(part(b"startup.bml", b"<bml/>"), part(b"a.css", b"p{}", b"text/css")), None), (1, JPEG, b"image/jpeg")]
        module, sent = compressed(2)
        sections = [*carousel(modules, 20), transport.dii_section(2, 1, 20, [module]), *blocks(module, sent, 20)]
        packets = b"".join(packets_of(tables() + on(PID, sections)))
        for at in range(200):
            data = bytearray(packets)
            for _ in range(dice.randrange(1, 20)):
                data[dice.randrange(len(data))] = dice.randrange(256)
            self.source.write_bytes(bytes(data[dice.randrange(200) * (at % 2) :]))
            status, _, told = run(self.source, self.folder / f"{at}")
            self.assertIn(status, (0, 1), told)
            self.assertEqual(status == 1, "in.ts: " in told)


if __name__ == "__main__":
    if "--program" in sys.argv:
        place = sys.argv.index("--program")
        PROGRAM = os.path.abspath(sys.argv[place + 1])
        del sys.argv[place : place + 2]
    unittest.main()
