#!/usr/bin/env python3
"""Tests report.py and draw_display.py.

usage: test_report.py [--program PROGRAM] [what unittest takes]

With --program the reports of examples are made from what that program prints. Where there is a Chromium, they are opened in it too.
"""

import contextlib
import io
import os
import re
import shutil
import subprocess
import sys
import tempfile
import unittest
from html.parser import HTMLParser
from pathlib import Path
from unittest import mock
from xml.etree import ElementTree

import browser
import draw_display
import drawings
import report
from generated_pages import entity_of, png_of, stream_of, timed

PROGRAM = None  # whose lines are reported
EXAMPLES = Path(__file__).resolve().parents[2] / "examples"
HOSTILE = ["</script><img src=x onerror=document.title=1>", "\"'><svg onload=document.title=1>", "</svg></text>]]><!--", "&lt;b>", "--></style><b>"]
MARKS = {*"html head meta title style body h1 h2 h3 p a nav label input select option span section div small code".split()}
MARKS |= {*"table tr th td details summary script svg rect path text".split()}


class Marks(HTMLParser):
    """The elements of a page, the names of their attributes, and the text of its scripts."""

    def __init__(self, text):
        super().__init__()
        self.elements, self.attributes, self.scripts, self.is_script = [], set(), [], False
        self.feed(text)
        self.close()

    def handle_starttag(self, tag, attrs):
        self.elements.append(tag)
        self.attributes |= {name for name, _ in attrs}
        self.is_script = tag == "script"

    def handle_data(self, data):
        if self.is_script:
            self.scripts.append(data)

    def handle_endtag(self, tag):
        self.is_script = False


class InFolder(unittest.TestCase):
    def setUp(self):
        folder = tempfile.TemporaryDirectory(prefix="report-")
        self.addCleanup(folder.cleanup)
        self.folder = folder.name

    def write(self, name, data):
        path = f"{self.folder}/{name}"
        Path(path).write_bytes(data)
        return path

    def run_tool(self, tool, *words):
        """Runs a tool, and returns its status and what it told."""
        told = io.StringIO()
        with contextlib.redirect_stdout(io.StringIO()), contextlib.redirect_stderr(told):
            try:
                status = tool.main(list(words))
            except SystemExit as ended:
                status = ended.code
        return status, told.getvalue()

    def report(self, lines, *words, name="stdout"):
        """Returns the report of lines as HTML."""
        output = self.write(name, b"".join(line + b"\n" for line in lines))
        self.assertEqual(self.run_tool(report, output, f"{self.folder}/made", *words), (0, ""))
        return Path(f"{self.folder}/made/report.html").read_text(encoding="utf-8")

    def hostile(self):
        """Returns a report in which all that can be hostile is."""
        texts = [it.encode() for it in HOSTILE]
        lines = [line for it in texts for line in (b"text 0 0 10 10 7 24 " + it, b"picture 0 0 9 9 " + it.replace(b" ", b"%20") + b" x")]
        lines = [b"show 0", *lines, *(word + it for word in (b"stop ", b"load ", b"refuse /40/0000/", b"") for it in texts), b"module 40 <b> <i> 5"]
        record = self.write("<script><b>.txt", b"\n".join([b"all", *(b"key " + it for it in texts)]))
        stream = self.write("<script><b>.ts", stream_of([(b"text/X-arib-bml", b"<bml></bml>")]))
        return self.report(lines, "--record", record, "--stream", stream, name="<img src=x onerror=1>")


class Drawing(InFolder):
    def test_a_text_of_any_bytes_gives_a_drawing_that_is_xml(self):
        rows = [it.encode() for it in HOSTILE] + [b"%00%1B%7F%25%0A%0D", bytes(range(128, 256)), b"", b" ", b"%GG%"]
        lines = [b"show 0", *(b"text 0 0 10 10 7 24 " + it for it in rows), b"picture 0 0 1 1 %3Cb%3E%00 <i>&", b"picture 0 0 1 1", b"box 1 1 1 1 255 9 9"]
        output = self.write("stdout", b"\n".join(lines))
        self.assertEqual(self.run_tool(draw_display, output, self.folder), (0, ""))
        root = ElementTree.parse(f"{self.folder}/show-1.svg").getroot()
        found = {it.tag.split("}")[1] for it in root.iter()}
        self.assertEqual(found, {"svg", "title", "rect", "path", "text"})
        texts = [it.text for it in root.iter("{http://www.w3.org/2000/svg}text")]
        self.assertEqual(texts[: len(HOSTILE)], HOSTILE)
        self.assertIn("\u2400\u241b\u2421%", texts)

    def test_a_list_ends_with_the_first_line_that_is_none_of_it(self):
        lines = [b"box 0 0 1 1 1 1 1", b"show 5", b"box 0 0 1 1 1 1 1", b"", b"text 0 0 1 1 1 1 late", b"show 6", b"focus 1 2 3 4", b"show 7"]
        found = drawings.display_lists(lines)
        self.assertEqual([(it.clock, it.lines, it.place) for it in found], [(5, [lines[2]], 1), (6, [lines[6]], 5), (7, [], 7)])

    def test_what_is_no_output_of_a_run_is_told(self):
        for line in (b"show", b"show x", b"show 0\nbox 1 2", b"show 0\ntext 1 2 3 4 5 x", b"show 0\nbox 1 1 1 1 1 1 " + b"9" * 5000):
            output = self.write("stdout", line)
            for tool in (draw_display, report):
                status, told = self.run_tool(tool, output, f"{self.folder}/made")
                self.assertEqual(status, 1)
                self.assertIn("is no output of a run", told)
        self.assertFalse(os.path.exists(f"{self.folder}/made"))


class Reports(InFolder):
    def test_rows_are_drawn_with_the_space_of_the_record(self):
        record = self.write("record.txt", b"all\nrows 7 left\ntick 1\nshow\nrows 0 right\n")
        self.assertEqual(report.items_of(b"all\nrows 7 left\nshow\nrows 1"), [["all", "rows 7 left"], ["show"], ["rows 1"]])
        self.assertEqual([report.space_of(it) for it in (["all", "rows 7 left"], ["rows 7 left", "show"], [])], [7, 0, 0])
        text, rows = b"text 0 0 90 90 7 20 ab", [b"row 0 0 a", b"row 0 20 b"]
        lines = [b"show 0", text, b"row 0 0 ab", b"show 1", text, b"show 1", text, *rows]
        html = self.report(lines, "--record", record)
        self.assertIn('<p id="L3" class="row new">row 0 0 ab</p>', html)
        self.assertIn("<option>row</option>", html)
        drawn = re.findall("<title>show [0-9]+</title>.*?</svg>\n*</svg>", html, re.DOTALL)
        self.assertEqual(['x="17"' in it for it in drawn], [True, False, False])
        # (a row that is new or gone has no outline of its own)
        self.assertEqual([it.count('stroke-dasharray="9 6"') for it in drawn], [0, 0, 0])

    def test_parts_end_with_their_display_lists(self):
        lines = [b"load /40/0000", b"show 5", b"box 0 0 1 1 1 1 1", b"show 9", b"lost keydown", b"end 1"]
        parts = report.parts_of(lines)
        found = [(it.first, it.before, it.clock, it.lines) for it in parts]
        self.assertEqual(found, [(0, 0, 5, lines[:1]), (3, 5, 9, []), (4, 9, None, lines[4:])])
        self.assertEqual(report.part_places(parts, len(lines)), [1, 1, 1, 2, 3, 3])
        self.assertEqual(report.part_places(report.parts_of([]), 0), [])

    def test_modules_are_told_with_their_times(self):
        lines = [b"module 40 0001 01 1000", b"module 40 0002 01 7", b"show 5", b"module 40 0001 02 2000", b"gone 40 0002", b"show 9", b"end 1"]
        html = self.report(lines)
        self.assertIn("Modules that came: 3, with 3,007 bytes together.", html)
        cells = "<td>1</td><td>40</td><td>0001</td><td>01</td><td>1,000</td><td>{}</td><td>1</td><td>{}</td><td>0 to 5</td><td>another one in line {}</td>"
        self.assertIn(cells.format(report.link(1), "not known", report.link(4)), html)
        self.assertIn(f"<td>{report.link(4)}</td><td>2</td><td>not known</td><td>5 to 9</td><td>held</td>", html)
        self.assertIn(f"<td>gone in line {report.link(5)}</td>", html)
        record = self.write("record.txt", b"packets 4\ntick 5\nshow\nall\ntick 4\nshow\n")
        html = self.report([*lines[:-1], b"end 1234"], "--record", record)
        self.assertIn(cells.format(report.link(1), "1 to 4", report.link(4)), html)
        self.assertIn(f"<td>{report.link(4)}</td><td>2</td><td>5 to 1,234</td><td>5 to 9</td><td>held</td>", html)

    def test_packets_are_those_that_the_items_take(self):
        rows = [
            ([["packets 4", "show"], ["packets 5", "key 2 (down)", "packets 1", "show"], []], 10, ["1 to 4", "5 to 10", "none"]),
            ([["show"], ["packets 4", "show"], ["packets 5", "all", "show"], ["all"]], 6, ["none", "1 to 4", "5 to 6", "none"]),
            ([["packets 4", "show"], ["all", "show"], ["packets 1", "show"], []], None, ["1 to 4", "from 5 on", "not known", "not known"]),
            ([["packets 4", "show"], ["packets 3"]], None, ["1 to 4", "5 to 7"]),
        ]
        for items, count, wanted in rows:
            self.assertEqual([report.packets_told(*it) for it in report.taken_by(items, count)], wanted)

    def test_lines_are_told_with_their_packets_and_times(self):
        page = entity_of({"startup.bml": b"<bml/>", "a.png": png_of([b"\1"])})
        stream = timed(stream_of([(None, page), (b"x/y", b"z")], with_tables=True), 500)
        path = self.write("stream.ts", stream)
        lines = [b"module 40 0000 01 %d" % len(page), b"load /40/0000/startup.bml", b"show 0", b"lost click", b"module 40 0000 02 1", b"show 9", b"end 14"]
        record = self.write("record.txt", b"packets 10\nshow\nkey 1\nall\nshow\n")
        html = self.report(lines, "--stream", path, "--record", record, "--service", "101")
        # (the tables are packets 2 and 4, and the DII, the two packets of the block, the other DII and its block 6, 8, 10, 12 and 14)
        self.assertEqual(len(stream), 14 * 188)
        for row in ("<td>10</td><td>0:00:02.000</td>", "<td>14</td><td>0:00:03.000</td>", "<th>stream time</th>"):
            self.assertIn(row, html)
        told = re.findall(' data-at="([^"]*)">([a-z]+)', html)
        wanted = [("packet 10, 0:00:02.000", "module"), ("packet 10, 0:00:02.000", "load"), ("packets 10 to 14, 0:00:02.000 to 0:00:03.000", "lost")]
        self.assertEqual(told, [*wanted, ("packet 14, 0:00:03.000", "module"), ("packet 14, 0:00:03.000", "end")])
        html = self.report(lines, "--stream", path, "--service", "101")
        self.assertIn('data-at="packets 10 to 14, 0:00:02.000 to 0:00:03.000">load', html)
        html = self.report(lines, "--stream", path, "--data-pid", "300")
        self.assertNotIn("data-at=", html)
        self.assertIn("another service or PID was asked for", html)

    def test_pictures_stand_once_in_a_report(self):
        page = entity_of({"startup.bml": b"<bml/>", "a.png": png_of([b"\1"]), "b.png": png_of([b"\2"])})
        path = self.write("stream.ts", stream_of([(None, page)]))
        shown = [b"box 0 0 9 9 8 0 7", b"picture 0 0 9 9 image/png a.png", b"picture 9 0 9 9 image/png /40/0000/a.png"]
        lines = [b"module 40 0000 01 %d" % len(page), b"load /40/0000/startup.bml", b"show 0", *shown, b"show 1", *shown, b"focus 1 1 1 1"]
        html = self.report(lines, "--stream", path, "--data-pid", "256")
        self.assertEqual([html.count(it) for it in ("<symbol", "<image", "<use")], [1, 1, 4])
        self.assertIn("img-src data:", html)
        with mock.patch.object(report, "MOST_PICTURES", 10):
            html = self.report(lines, "--stream", path, "--data-pid", "256")
        self.assertEqual((html.count("<use"), html.count("(not shown here, since this report is large)</text>")), (0, 4))

    def test_lines_that_warn_are_told(self):
        lines = [b"skip 40 0002 large", b"stop Budget keydown", b"lost keydown", b"stop Depth load", b"refuse /40/0000 Malformed", b"badscript /40/0000 2"]
        html = self.report(lines)
        self.assertIn("a script was stopped: 2; an event was lost: 1; a script is no program: 1; a document was refused: 1", html)
        self.assertIn(f"<td>{report.link(2)}</td><td>1</td><td>a script was stopped</td><td><code>stop Budget keydown</code></td>", html)
        self.assertIn("the run stopped before the end of its record, or the file was cut", html)
        html = self.report([b"end 77"])
        self.assertIn("None of the lines warns", html)
        self.assertIn("The record was read to its end; 77 packets were taken.", html)

    def test_what_differs_is_marked(self):
        one, two, three = b"box 0 0 9 9 1 1 1", b"box 10 0 9 9 1 1 1", b"focus 7 7 3 3"
        html = self.report([b"show 0", one, one, b"show 1", one, two, b"show 2", one, two, b"show 3", two, one, three, b"show 4"])
        self.assertEqual(html.count("nothing was shown before"), 1)
        self.assertEqual(html.count("new lines: 1 (dashed in magenta), lines gone: 1 (dashed in grey)"), 1)
        self.assertEqual(html.count("the same as the one before"), 1)
        self.assertEqual(html.count('<p id="L6" class="box new">'), 1)
        self.assertEqual(html.count('class="was">box 0 0 9 9 1 1 1</p>'), 2)
        self.assertEqual(html.count('<rect x="6" y="-4" width="17" height="17" fill="none" stroke="#ff40ff"'), 1)
        self.assertEqual(html.count('class="focus new"'), 1)
        self.assertEqual(html.count("<title>show"), 4)
        self.assertIn("the same lines as before in another order", self.report([b"show 0", one, two, b"show 1", two, one]))

    def test_a_record_names_the_items_of_each_part(self):
        record = self.write("record.txt", b"# how\n\nall\r\nshow\nkey 2\n key\t18\nrelease 14 \ntick 5\nshow\nkey <b>\nshow x\n")
        stream = self.write("in.ts", stream_of([(b"text/X-arib-bml", b"<bml></bml>")]))
        html = self.report([b"show 0", b"show 5", b"end 1"], "--record", record, "--stream", stream)
        items = [("all; show", "1 to 1"), ("key 2 (down); key 18 (enter); release 14 (9); tick 5; show", "none"), ("key &lt;b&gt;; show x", "none")]
        for texts, packets in items:
            self.assertIn(f"The record: {texts}. Packets: {packets}.</small>", html)
        self.assertIn(f"The stream in.ts has {os.path.getsize(stream)} bytes.", html)
        self.assertNotIn("it is another one", html)
        self.assertIn("The record asks for 2 display lists: it is another one", self.report([b"show 0"], "--record", record))

    def test_no_text_is_a_mark(self):
        html = self.hostile()
        marks = Marks(html)
        self.assertEqual({*marks.elements} - MARKS, set())
        self.assertEqual([name for name in marks.attributes if name.startswith("on")], [])
        self.assertEqual((marks.elements.count("script"), "".join(marks.scripts)), (1, report.SCRIPT))
        self.assertEqual(html.count("&lt;/script&gt;&lt;img src=x onerror=document.title=1&gt;"), 10)

    def test_a_large_output_gives_a_report_in_proportion(self):
        lines = []
        for number in range(300):
            lines += [b"show %d" % number, *(b"box %d %d 10 10 1 1 1" % (at, number) for at in range(20)), *[b"text 9 9 9 9 7 24 <&>"] * 20]
        lines += [b"module 40 %04x 01 5" % number for number in range(3000)] + [b"lost keydown"] * 3000
        with mock.patch.object(report, "MOST_DRAWN", 100_000):
            html = self.report(lines)
        self.assertLess(len(html), 500_000 + 200 * len(lines))
        self.assertEqual(html.count("2,000 more aren't in this table"), 2)
        self.assertIn("not drawn here, since this report is large", html)
        self.assertEqual(html.count('<p id="L'), len(lines))

    def test_the_report_in_docs_is_that_of_its_example(self):
        words = [f"examples/weather/{it}" for it in ("stdout", "record.txt", "stream.ts")]
        output, record, stream = (str(EXAMPLES.parent / it) for it in words)
        self.assertEqual(self.run_tool(report, output, self.folder, "--record", record, "--stream", stream), (0, ""))
        made = Path(f"{self.folder}/report.html").read_text(encoding="utf-8")
        again = f"make it anew: tools/users/report.py {words[0]} docs/report --record {words[1]} --stream {words[2]}"
        self.assertEqual((EXAMPLES.parent / "docs/report/report.html").read_text(encoding="utf-8"), made, again)

    def test_files_that_cannot_be_used_are_told(self):
        output = self.write("stdout", b"end 1\n")
        rows = [[f"{self.folder}/none", self.folder], [output, output], [output, self.folder, "--record", f"{self.folder}/none"]]
        for words in [*rows, [output, self.folder, "--stream", f"{self.folder}/none"]]:
            status, told = self.run_tool(report, *words)
            self.assertEqual(status, 1)
            self.assertTrue(told.startswith("report.py: "), told)
        for words in ([], [output], [output, self.folder, "more"]):
            self.assertEqual(self.run_tool(report, *words)[0], 2)


@unittest.skipUnless(browser.program(), "there is no Chromium")
class InBrowser(InFolder):
    def test_reports_of_examples_open(self):
        with browser.Browser() as started:
            for name in ("menu-keys", "styles", "document", "weather"):
                with self.subTest(name):
                    self.opens(started, EXAMPLES / name)
            self.no_text_acts(started)
            self.assertEqual(started.errors, [])

    def opens(self, started, example):
        """Opens the report of an example, and looks for its display lists and its lines."""
        words = (example / "args").read_text().split()
        lines = (example / "stdout").read_bytes().splitlines()
        if PROGRAM:
            ran = subprocess.run([PROGRAM, *words], cwd=example, capture_output=True, check=True, timeout=60)
            lines = ran.stdout.splitlines()
        # (the run's own option, between `replay` and the two files)
        html = self.report(lines, "--record", str(example / "record.txt"), "--stream", str(example / "stream.ts"), *words[1:-2])
        self.assertNotIn("another service or PID was asked for", html)
        page = started.open(f"file://{self.folder}/made/report.html")
        found = drawings.display_lists(lines)
        drawn = [it for at, it in enumerate(found) if it.lines != (found[at - 1].lines if at else [])]
        self.assertEqual(page.value("document.querySelectorAll('section').length"), len(report.parts_of(lines)))
        self.assertEqual(page.value("document.querySelectorAll('section > svg').length"), len(drawn))
        has_font = bool(subprocess.run(["fc-list", ":lang=ja"], capture_output=True, check=False).stdout) if shutil.which("fc-list") else None
        self.assertIn(page.value("document.querySelector('#fonts').hidden"), [True, False] if has_font is None else [has_font])
        self.assertEqual(page.value("[...document.querySelectorAll('section > svg')].every(it => it.getBoundingClientRect().height > 300)"), True)
        texts = page.value("[...document.querySelectorAll('section > svg text')].map(it => it.textContent).join('')")
        for text in {"menu-keys": ["Weather", "picked 1"], "styles": ["gale", "storm"], "document": ["Osaka: 晴れ, 21%"], "weather": ["お天気☀"]}[example.name]:
            self.assertIn(text, texts)
        self.filters(page, len(lines))

    def filters(self, page, count):
        """Asks for the lines of a kind."""
        page.value("kind.value = 'text'; kind.dispatchEvent(new Event('change'))")
        shown = page.value("[...document.querySelectorAll('section p[id]')].filter(it => it.checkVisibility()).map(it => it.className)")
        self.assertTrue(shown)
        self.assertEqual({it.split(" ")[0] for it in shown}, {"text"})
        self.assertEqual(page.value("found.textContent"), f"{len(shown)} of {count} lines")
        page.value("kind.value = ''; kind.dispatchEvent(new Event('change'))")
        self.assertEqual(page.value("document.querySelectorAll('section p[hidden], section[hidden], details[open]').length"), 0)
        page.value("part.value = part.max; part.dispatchEvent(new Event('change'))")
        self.assertEqual(page.value("document.querySelector(location.hash) === [...document.querySelectorAll('section')].at(-1)"), True)

    def no_text_acts(self, started):
        """Opens a report in which all is hostile: it has no picture and its title is its own."""
        self.hostile()
        page = started.open(f"file://{self.folder}/made/report.html")
        self.assertEqual(page.value("[document.title, document.querySelectorAll('img, b, i').length]"), ["Report of <img src=x onerror=1>", 0])


if __name__ == "__main__":
    if "--program" in sys.argv:
        place = sys.argv.index("--program")
        PROGRAM = os.path.abspath(sys.argv[place + 1])
        del sys.argv[place : place + 2]
    unittest.main()
