#!/usr/bin/env python3
"""Tests what drawings are made by: colours.py, pictures.py, page_styles.py, shown_pages.py and drawings.py.

Where there is a Chromium, the pictures are opened in it too.
"""

import base64
import contextlib
import io
import itertools
import os
import random
import struct
import subprocess
import sys
import tempfile
import unicodedata
import unittest
import zlib
from pathlib import Path
from xml.etree import ElementTree

import arib_text
import browser
import colours
import draw_display
import page_styles
import pictures
import report
from colours import BadColours
from drawings import BadOutput, Look, display_lists, drawing, shapes_of
from generated_pages import CLOCK_END, CLOCK_PID, PID, chunk, clock_packet, clut_of, entity_of, jpeg_of, mng_of, png_of, stream_of
from pictures import BadPicture
from shown_pages import Clock, Follower, Path as Place, Recording, resolved

EXAMPLE = Path(__file__).resolve().parents[2] / "examples" / "weather"
SVG = "{http://www.w3.org/2000/svg}"


def mutated(chance, data):
    """Returns bytes of which some are others, or left out, or doubled."""
    data = bytearray(data)
    for _ in range(chance.choice([1, 3, 20])):
        at, other = chance.randrange(len(data)), chance.randrange(len(data))
        kind = chance.randrange(4)
        if kind == 0:
            data[at] = chance.randrange(256)
        elif kind == 1:
            del data[at : at + chance.randrange(1, 60)]
        else:
            data[at : at + (8 if kind == 2 else 0)] = data[other : other + 8]
    return bytes(data)


class Colours(unittest.TestCase):
    def test_the_fixed_colours_are_those_of_the_receivers(self):
        rows = {0: (0, 0, 0, 255), 1: (255, 0, 0, 255), 3: (255, 255, 0, 255), 7: (255, 255, 255, 255), 8: (0, 0, 0, 0), 9: (170, 0, 0, 255)}
        rows |= {15: (170, 170, 170, 255), 16: (0, 0, 85, 255), 17: (0, 85, 0, 255), 32: (85, 85, 255, 255), 64: (255, 255, 170, 255)}
        rows |= {65: (0, 0, 0, 128), 66: (255, 0, 0, 128), 73: (170, 0, 0, 128), 80: (0, 0, 85, 128), 127: (255, 255, 85, 128), 128: None, 255: None}
        self.assertEqual({index: colours.FIXED[index] for index in rows}, rows)
        opaque = [it for it in colours.FIXED if it and it[3] == 255]
        self.assertEqual((len(opaque), len(set(opaque)), len(colours.FIXED)), (64, 64, 256))

    def test_a_table_has_the_colours_of_its_indexes(self):
        entries = [(1, 2, 3, 255), (4, 5, 6, 0), (7, 8, 9, 77)]
        self.assertEqual(colours.read_colours(clut_of(128, entries)), dict(zip((128, 129, 130), entries)))
        rest = b"".join(map(bytes, entries))
        rows = [(b"\x88\x35" + rest, [3, 4, 5]), (b"\xc8\x00\x80\x00\x82" + rest, [128, 129, 130]), (b"\x80" + rest, [0, 1, 2])]
        for data, indexes in [*rows, (b"\xb8" + bytes(8) + b"\x09\x0b" + rest, [9, 10, 11]), (b"\xa8\xfe\xff" + rest, [254, 255])]:
            self.assertEqual(list(colours.read_colours(data)), indexes)
        self.assertEqual(len(colours.read_colours(b"\x80" + rest * 9)), 16)
        self.assertEqual(len(colours.read_colours(b"\xc0" + rest * 900)), 256)

    def test_luma_and_chroma_become_red_green_and_blue(self):
        rows = [(16, 128, 128), (235, 128, 128), (63, 102, 240), (173, 42, 26), (32, 240, 118), (0, 0, 0), (255, 255, 255)]
        found = colours.read_colours(clut_of(0, [(*it, 9) for it in rows], is_rgb=False))
        wanted = [(0, 0, 0), (255, 255, 255), (255, 0, 0), (0, 255, 0), (0, 0, 255)]
        for it, near in zip(found.values(), wanted):
            self.assertLessEqual(max(abs(one - other) for one, other in zip(it, near)), 1, (it, near))
            self.assertEqual(it[3], 9)

    def test_what_is_no_table_is_told(self):
        rows = [b"", b"\xa8", b"\xa8\x01", b"\xa8\x05\x04" + bytes(8), b"\xe8" + bytes(20), b"\xb8\0\0", b"\xa8\x01\x02", b"\xa8\x01\x02\1\2\3"]
        rows.append(b"\xc8\x01\x00\x01\x01" + bytes(99))
        for data in rows:
            with self.assertRaises(BadColours):
                colours.read_colours(data)
        self.assertEqual(list(colours.read_colours(b"\xa8\x01\x09\1\2\3\4\5\6")), [1])


class Pictures(unittest.TestCase):
    def test_a_png_without_a_palette_gets_the_colours_of_the_page(self):
        page = colours.with_colours({1: (10, 20, 30, 40), 255: (1, 1, 1, 1)})
        found = pictures.picture_of(png_of([b"\x00\x01\xff", b"\x08\x80\x02"]), page)
        self.assertEqual(found[0:1] + found[2:], ("image/png", 3, 2))
        palette = found.data.index(b"PLTE") + 4
        self.assertEqual(found.data[palette : palette + 6], bytes([0, 0, 0, 10, 20, 30]))
        self.assertEqual(found.data[palette + 3 * 128 : palette + 3 * 129], bytes([128] * 3))
        clear = found.data.index(b"tRNS") + 4
        self.assertEqual([found.data[clear + at] for at in (0, 1, 8, 128, 255)], [255, 40, 0, 255, 1])
        names = [name for name, _ in itertools.islice(pictures.chunks_of(found.data), 5)]
        self.assertEqual(names, [b"IHDR", b"PLTE", b"tRNS", b"IDAT", b"IEND"])
        for depth, count in ((1, 2), (2, 4), (4, 16)):
            self.assertIn(struct.pack(">I4s", 3 * count, b"PLTE"), pictures.picture_of(png_of([b"\x1b"], depth), page).data)

    def test_a_palette_of_its_own_stays(self):
        more = chunk(b"gAMA", bytes(4)) + chunk(b"PLTE", b"\1\2\3") + chunk(b"tRNS", b"\x50\x60") + chunk(b"tEXt", b"x")
        found = pictures.picture_of(png_of([b"\0"], more=more), colours.FIXED).data
        self.assertIn(chunk(b"PLTE", b"\1\2\3") + chunk(b"tRNS", b"\x50"), found)
        self.assertNotIn(b"tEXt", found)
        found = pictures.picture_of(png_of([b"\1\2\3"], kind=2), colours.FIXED)
        self.assertNotIn(b"PLTE", found.data)

    def test_of_an_mng_the_first_picture_is_shown(self):
        one, two = png_of([b"\1\2"]), png_of([b"\1\2\3\4"])
        self.assertEqual(pictures.picture_of(mng_of(one + two[8:]), colours.FIXED), pictures.picture_of(one, colours.FIXED))
        shared = chunk(b"PLTE", bytes(range(9)))
        found = pictures.picture_of(mng_of(png_of([b"\1\2"], more=chunk(b"PLTE", b"")), shared), colours.FIXED)
        self.assertIn(shared, found.data)

    def test_a_jpeg_stays_as_it_came(self):
        data = jpeg_of(20, 9)
        self.assertEqual(pictures.picture_of(data + b"behind", colours.FIXED), ("image/jpeg", data, 20, 9))

    def test_what_is_no_picture_is_told(self):
        png, jpeg = png_of([b"\1\2"] * 2), jpeg_of(20, 9)
        rows = [b"", b"GIF89a", b"\xff\xd8\xff", b"\xff\xd8" + b"\xff" * (1 << 20), b"\xff\xd8\xff\xe0\0\0" * 9, jpeg[:-2], png[:8], pictures.MNG]
        rows += [b"\xff\xd8\xff\xe0" + bytes(1 << 20), jpeg.replace(b"\x00\x09\x00\x14", b"\xff\xff\xff\xff"), jpeg.replace(b"\x00\x09\x00\x14", bytes(4))]
        rows += [png[:cut] for cut in range(9, len(png))] + [jpeg[:cut] for cut in range(len(jpeg) - 1)]
        rows += [png.replace(struct.pack(">II", 2, 2), struct.pack(">II", *size)) for size in ((2, 3), (0, 2), (1 << 31, 1 << 31), (1921, 1080))]
        rows += [png_of([b"\1"], more=chunk(b"PLTE", b"\1\2")), png_of([b"\1"], more=chunk(b"PLTE", bytes(900))), png_of([b"\1\2"], depth=16)]
        head = png.index(b"IDAT") + 4
        rows += [png[:head] + b"\xff" * (len(png) - head), png.replace(b"IDAT", b"IDOT"), png.replace(b"IHDR", b"IHDX")]
        for data in rows:
            with self.assertRaises(BadPicture, msg=data[:80]):
                pictures.picture_of(data, colours.FIXED)

    def test_a_small_picture_of_a_large_unpacked_size_costs_nothing(self):
        head = struct.pack(">IIBBBBB", 2, 2, 8, 3, 0, 0, 0)
        data = zlib.compress(bytes(1 << 26))
        png = pictures.PNG + chunk(b"IHDR", head) + chunk(b"IDAT", data) + chunk(b"IEND", b"")
        self.assertEqual(pictures.picture_of(png, colours.FIXED).width, 2)

    def test_sizes_of_interlaced_pictures(self):
        self.assertEqual([pictures.unpacked_size(*it, 8, True) for it in ((1, 1), (8, 8), (3, 2))], [2, 64 + 15, 6 + 4])
        self.assertEqual([pictures.unpacked_size(*it, 1, False) for it in ((1, 1), (8, 2), (9, 2))], [2, 4, 6])


class Styles(unittest.TestCase):
    def values(self, head, body="", bml="", sheets=None):
        document = f'<?xml version="1.0"?><!-- <style>body{{clut:url(no)}}</style> --><bml{bml}><head>{head}</head><body{body}></body></bml>'
        return page_styles.styles_of(document.encode(), lambda text: (sheets or {}).get(text, b""))

    def test_the_cascade_of_body_and_bml(self):
        rows = [
            ("<style>body { clut: url(a) } * { clut: url(b) }</style>", "", "", "url(a)"),
            ("<style>* { clut: url(a) } * { clut: url(b) }</style>", "", "", "url(b)"),
            ("<style>#x{clut:url(a)} .y{clut:url(b)} body.y{clut:url(c)}</style>", ' id="x" class="z y"', "", "url(a)"),
            ("<style>.y{clut:url(b)} body{clut:url(c)} p, .y , q{CLUT : url(d)}</style>", " class='z y'", "", "url(d)"),
            ("<style>body:focus{clut:url(a)} p body{clut:url(b)} body#z{clut:url(c)} BODY{clut:url(d)}</style>", ' id="x"', "", None),
            ("<style>body{clut:url(a)} body, {clut:url(b)} body, p q{clut:url(c)} body, p:active{clut:url(d)} body:hover, body{clut:url(e)} :focus, body{clut:url(f)} *.x, body{clut:url(g)}</style>", "", "", "url(d)"),
            ("<style>body{clut:url(a)}</style>", ' style="/* clut:url(b); */ clut: url(c)/* */"', "", "url(c)"),
            ("<style>body{clut:url(a)}</style>", ' style="left:0px; clut:url(/40/0000/x.clut); top:1px"', "", "url(/40/0000/x.clut)"),
            ("<style>bml{clut:url(a)}</style>", "", ' id="b"', "url(a)"),
            ("<style>bml{clut:url(a)} body{clut:url(b)}</style>", "", ' style="clut:url(c)"', "url(b)"),
            ("<style><![CDATA[/* body{clut:url(z)} */ @media x { body{clut:url(y)} } @import q; body{clut:url(&)}]]></style>", "", "", "url(&)"),
            ("<style>body{clut:url(&amp;)}", "", "", "url(&)"),
            ('<link href="s1"/><style>body{resolution:720x480}</style><link href="s2"/>', "", "", "url(2)"),
        ]
        sheets = {"s1": b"body{clut:url(1)}", "s2": b"body{clut:url(2);display-aspect-ratio:4v3}"}
        for head, body, bml, wanted in rows:
            self.assertEqual(self.values(head, body, bml, sheets).get("clut"), wanted, head)
        self.assertEqual(self.values(rows[-1][0], sheets=sheets), {"clut": "url(2)", "resolution": "720x480", "display-aspect-ratio": "4v3"})

    def test_addresses(self):
        rows = [("url(/40/0000/a)", "/40/0000/a"), ("URL( 'a' )", "a"), ('url("a b")', "a b"), ("url()", ""), ("x", None), ("url(a)b", None)]
        for value, wanted in [*rows, ("url(" + "a" * 10_000 + ")", None), ("url('a)", None)]:
            self.assertEqual(page_styles.address_of(value), wanted)

    def test_hostile_documents_are_read_in_proportion(self):
        for part in (b"<", b"<!--", b"<![CDATA[", b"<p a='1'", b"<style>", b"<style>{", b"@", b"/*", b"<body ", b"</style>", b"<link href='a'/>"):
            data = b"<bml><style>" + part * (200_000 // len(part))
            page_styles.styles_of(data, lambda text: b"")
            page_styles.styles_of(data.replace(b"<bml><style>", b""), lambda text: b"")


class Paths(unittest.TestCase):
    def test_texts_name_paths(self):
        base = Place(0x40, 0, b"startup.bml")
        rows = [
            (b"/40/0001", Place(0x40, 1)), (b"/4A/00fF/x.png", Place(0x4A, 0xFF, b"x.png")), (b"arib-dc://-1.-1.-1/40/0002/a", Place(0x40, 2, b"a")),
            (b"../0003/b", Place(0x40, 3, b"b")), (b"c", Place(0x40, 0, b"c")), (b"../0003", None), (b"a/b", None), (b"", None), (b"/40/0001/", None),
            (b"x" * 64, Place(0x40, 0, b"x" * 64)), (b"x" * 65, None), (b"\xa4\xa2" * 64, Place(0x40, 0, b"\xa4\xa2" * 64)), (b"x" * 10_000, None),
            (b"/40/0001/" + b"x" * 65, None), (b"../../etc/passwd", None), (b"/etc/passwd", None),
        ]
        for text, wanted in rows:
            self.assertEqual(resolved(text, base), wanted, text)
        self.assertEqual([resolved(it, None) for it in (b"c", b"../0003/b", b"/40/0001")], [None, None, Place(0x40, 1)])


class Texts(unittest.TestCase):
    def test_additional_characters_have_their_unicode_forms(self):
        names = {(93, 17): "TORTOISE SHELL BRACKETED CJK UNIFIED IDEOGRAPH-672C", (93, 27): "SQUARED CJK UNIFIED IDEOGRAPH-6295", (93, 64): "BLACK SUN WITH RAYS"}
        names |= {(93, 66): "UMBRELLA", (90, 48): "SQUARED HV", (91, 8): "POSTAL MARK", (94, 1): "ROMAN NUMERAL ONE", (94, 93): "CIRCLED NUMBER THIRTY ONE"}
        names |= {(85, 1): "CJK UNIFIED IDEOGRAPH-3402", (86, 43): "CJK UNIFIED IDEOGRAPH-9EB5", (92, 86): "CIRCLED ITALIC LATIN CAPITAL LETTER R"}
        self.assertEqual({place: unicodedata.name(arib_text.ADDITIONAL[place]) for place in names}, names)
        self.assertEqual(len(arib_text.ADDITIONAL), 94 + 43 + 84 - 11 + 49 + 91 - 30 + 91 - 3 + 93)
        for place, text in arib_text.ADDITIONAL.items():
            self.assertTrue(unicodedata.name(text), place)

    def test_texts_stand_in_cells(self):
        rows = [(b"A \x8e\xb1\xa4\xa2", "A \uff71\u3042", "---#"), (b"\xfd\xe0\xff\x80\xa4", "\u2600\ufffd\ufffd\ufffd", "#---"), (b"\0\x1f\x7f", "\u2400\u241f\u2421", "---")]
        for data, text, widths in [*rows, (b"\xfa\xd1\xa9\xa1\x8e\xfe", "\U0001f14c\u3013\ufffd", "##-"), (b"", "", "")]:
            cells = arib_text.cells_of(data)
            self.assertEqual(("".join(it.text for it in cells), "".join("-#"[it.is_wide] for it in cells)), (text, widths))

    def test_each_character_has_its_place(self):
        data = b"a \xa4\xa2\xa4\xa4\xfa\xd0c"
        lines = [b"text 5 6 400 90 7 24 " + data, b"text 5 6 400 90 2 20 \xa4\xa6%0Ad"]
        root = ElementTree.fromstring(drawing(0, shapes_of(lines, Look()), Look()))
        found = [[it.get("x"), it.get("y"), it.get("textLength"), it.text] for it in root.iter(f"{SVG}text")]
        wide = [["24 48", "21", None, "\u3042\u3044"], ["72", "21", None, "\U0001f14a"]]
        self.assertEqual(found, [["0", "21", "24", "a "], *wide, ["96", "21", "12", "c"], ["108", "18", None, "\u3046"], ["0", "38", "10", "d"]])

    def test_rows_stand_where_their_lines_say(self):
        rows = [b"row 9 6 a\xa4\xa2", b"row 5 26 ", b"row -3 46 b%25"]
        lines = [b"text 5 6 400 90 7 20 a\xa4\xa2%0Ab%25", *rows, b"text 5 6 400 90 7 24 c"]
        root = ElementTree.fromstring(drawing(0, shapes_of(lines, Look()), Look()))
        found = [[it.get("x"), it.get("y"), it.get("textLength"), it.text] for it in root.iter(f"{SVG}text")]
        wanted = [["4", "18", "10", "a"], ["14", "18", None, "\u3042"], ["-8", "58", "20", "b%"]]
        # (a text without rows is drawn as if there were none)
        self.assertEqual(found, [*wanted, ["0", "21", "12", "c"]])
        frames = [[it.get(name) for name in ("x", "y", "width", "height")] for it in root.iter(f"{SVG}svg")][1:]
        self.assertEqual(frames, [["5", "6", "400", "90"]] * 2)

    def test_space_in_rows_gives_each_character_its_place(self):
        lines = [b"text 0 0 400 90 7 20 ab\xa4\xa2c", b"row 0 0 ab\xa4\xa2", b"row 0 20 c"]
        root = ElementTree.fromstring(drawing(0, shapes_of(lines, Look(), 3), Look()))
        found = [[it.get("x"), it.get("textLength"), it.text] for it in root.iter(f"{SVG}text")]
        self.assertEqual(found, [["0", "10", "a"], ["13", "10", "b"], ["26", None, "\u3042"], ["0", "10", "c"]])

    def test_a_row_of_no_text_is_told(self):
        for lines in ([b"row 0 0 a"], [b"box 0 0 1 1 1 1 1", b"row 0 0 a"], [b"text 0 0 1 1 1 1 a", b"row 0 x a"], [b"text 0 0 1 1 1 1 a", b"row 0"]):
            with self.assertRaises(BadOutput):
                shapes_of(lines, Look())

    def test_long_texts_and_sizes_of_nothing(self):
        lines = [b"text 0 0 9 9 7 24 " + b"\xa4\xa2a" * 10_000, b"text 0 0 9 9 7 0 x", b"text 0 0 9 9 7 -5 x", b"text 0 0 -9 -9 7 32767 x"]
        shapes = shapes_of(lines, Look())
        self.assertLess(sum(map(len, shapes)), 4_000_000)
        self.assertNotIn('="-', "".join(shapes))


class InFolder(unittest.TestCase):
    def setUp(self):
        folder = tempfile.TemporaryDirectory(prefix="drawings-")
        self.addCleanup(folder.cleanup)
        self.folder = folder.name

    def recording(self, data, **words):
        path = f"{self.folder}/stream.ts"
        Path(path).write_bytes(data)
        return Recording(path, **words).read()


class Following(InFolder):
    CLUT = clut_of(200, [(1, 2, 3, 255), (4, 5, 6, 128)])
    PAGE = b'<bml><body style="clut:url(/40/0000/page.clut);resolution:720x480;display-aspect-ratio:4v3"></body></bml>'

    def parts(self, **more):
        return {"startup.bml": self.PAGE, "page.clut": self.CLUT, "a.png": png_of([b"\xc8\xc9"]), **more}

    def follow(self, versions, lines, **words):
        return Follower(lines, self.recording(stream_of(versions), data_pid=PID, **words))

    def look(self, parts, more=()):
        data = entity_of(parts)
        lines = [b"module 40 0000 01 %d" % len(data), b"load /40/0000/startup.bml", *more, b"show 0"]
        return self.follow([(None, data)], lines).look_at(len(lines) - 1)

    def test_a_page_has_its_own_colours_plane_and_pictures(self):
        look = self.look(self.parts())
        self.assertEqual((look.width, look.height, look.ratio, look.fault), (720, 480, 4 / 3, ""))
        self.assertEqual([look.colour(it) for it in (7, 200, 201, 202, 300, -1)], [(255, 255, 255, 255), (1, 2, 3, 255), (4, 5, 6, 128), None, None, None])
        lines = [b"box 0 0 720 480 201 0 8", b"picture 5 6 30 40 image/X-arib-png a.png", b"picture 5 6 0 0 - /40/0000/a.png", b"text 1 2 3 4 8 24 x"]
        root = ElementTree.fromstring(drawing(0, shapes_of(lines, look), look))
        self.assertEqual([root.get(it) for it in ("width", "height", "viewBox")], ["720", "540", "0 0 720 480"])
        images = list(root.iter(f"{SVG}image"))
        self.assertEqual([[it.get(name) for name in ("x", "y", "width", "height")] for it in images], [["5", "6", "30", "40"], ["5", "6", "2", "1"]])
        data = base64.b64decode(images[0].get("href").removeprefix("data:image/png;base64,"))
        palette = data.index(b"PLTE") + 4
        self.assertEqual(data[palette + 600 : palette + 606], bytes([1, 2, 3, 4, 5, 6]))
        self.assertIn('fill="#040506" fill-opacity="0.502"', "".join(shapes_of(lines, look)))
        self.assertEqual(list(root.iter(f"{SVG}text")), [])

    def test_what_is_held_counts(self):
        first, second = entity_of(self.parts()), entity_of(self.parts(**{"a.png": png_of([b"\1\2\3"])}))
        third = b"no entity"
        lines = [b"module 40 0000 01 %d" % len(first), b"load /40/0000/startup.bml", b"show 0", b"module 40 0000 02 %d" % len(second), b"show 1"]
        lines += [b"gone 40 0000", b"show 2", b"module 40 0000 03 %d" % len(third), b"show 3"]
        follower = self.follow([(None, first), (None, second), (None, third)], lines)
        found = []
        for shown in display_lists(lines):
            look = follower.look_at(shown.place)
            try:
                found.append(look.picture(b"a.png").width)
            except BadPicture as bad:
                found.append(str(bad))
        self.assertEqual(found, [2, 3, "", ""])
        self.assertEqual((follower.fault, look.fault), ("", "the colour table isn't held: /40/0000/page.clut"))
        self.assertEqual({place: it.module.version for place, it in follower.arrived.items()}, {0: 1, 3: 2, 7: 3})

    def test_the_lines_of_another_stream_are_told(self):
        data = entity_of(self.parts())
        lines = [b"module 40 0000 02 %d" % len(data), b"load /40/0000/startup.bml", b"show 0"]
        follower = self.follow([(None, data)], lines)
        self.assertEqual((type(follower.look_at(2)), follower.look_at(2).colours), (Look, colours.FIXED))
        self.assertIn("The module of line 1 isn't in the stream at that place", follower.fault)
        self.assertEqual(Follower(lines).end().fault, "")

    def test_faulty_colour_tables_and_pictures_leave_what_is_known(self):
        for clut in (b"", b"\xa8\1\2", b"\xff" * 100_000):
            look = self.look(self.parts(**{"page.clut": clut}))
            self.assertEqual(look.colours, colours.FIXED)
            self.assertIn("the colour table /40/0000/page.clut can't be read", look.fault)
        names = ["x" * 10_000, "..", "/etc/passwd", "%00", "a.png%00", "big.jpg", "cut.png", "none"]
        look = self.look(self.parts(**{"big.jpg": b"\xff\xd8\xff" + bytes(1_000_000), "cut.png": png_of([b"\1\2"])[:-9]}))
        lines = [f"picture 0 0 9 9 {name} {name}".encode() for name in names]
        root = ElementTree.fromstring(drawing(0, shapes_of(lines, look), look))
        texts = [it.text for it in root.iter(f"{SVG}text")]
        self.assertEqual(len(texts), len(names))
        self.assertEqual(texts[-3:], ["big.jpg big.jpg (it is a JPEG that is cut or damaged)", "cut.png cut.png (it has no end)", "none none"])
        self.assertLess(max(map(len, texts)), 250)
        self.assertEqual(os.listdir(self.folder), ["stream.ts"])

    def test_a_name_is_no_command_to_a_terminal(self):
        look = self.look({"startup.bml": b'<bml><body style="clut:url(\x1b[31m&amp;\x9b)"></body></bml>'})
        self.assertEqual(look.fault, "the colour table isn't held: \u241b[31m&\ufffd")

    def test_resources_of_their_own_and_tables_are_followed(self):
        page = b'<bml><body style="clut:url(/40/0000)"></body></bml>'
        data = stream_of([(b"text/X-arib-bml", page)], with_tables=True)
        lines = [b"module 40 0000 01 %d" % len(page), b"load /40/0000", b"show 0"]
        for words in ({}, {"service": 101}, {"data_pid": PID}):
            follower = Follower(lines, self.recording(data, **words))
            self.assertIn("the colour table /40/0000 can't be read", follower.look_at(2).fault)
        self.assertIn("another service", Follower(lines, self.recording(data, service=102)).end().fault)
        self.assertEqual(self.recording(b"").packets, 0)


class Example(InFolder):
    """Tests over the example weather: its own files, and the lines that it wants."""

    def test_its_pictures_are_those_that_its_script_draws(self):
        subprocess.run([sys.executable, "-B", EXAMPLE / "draw_pictures.py", self.folder], check=True, timeout=120)
        made = sorted(os.listdir(self.folder))
        self.assertEqual(made, sorted(it.name for it in EXAMPLE.iterdir() if it.suffix in (".png", ".clut")))
        for name in made:
            one, other = (Path(folder, name).read_bytes() for folder in (self.folder, EXAMPLE))
            if name.endswith(".png"):
                # (how zlib looks for repeats changes with its version)
                one, other = ([zlib.decompress(body) if kind == b"IDAT" else body for kind, body in itertools.islice(pictures.chunks_of(it), 3)] for it in (one, other))
            self.assertEqual(one, other, name)

    def test_it_is_drawn_in_its_colours_with_its_pictures(self):
        output = (EXAMPLE / "stdout").read_bytes().split(b"\n")
        drawn, faults = draw_display.drawings(output, Recording(EXAMPLE / "stream.ts").read())
        self.assertEqual((len(drawn), faults), (2, []))
        shown = [ElementTree.fromstring(it) for it in drawn]
        self.assertEqual([len(list(it.iter(f"{SVG}image"))) for it in shown], [4, 4])
        self.assertEqual(len({image.get("href") for it in shown for image in it.iter(f"{SVG}image")}), 5)
        fills = {it.get("fill"): it.get("fill-opacity") for it in shown[0].iter(f"{SVG}rect")}
        self.assertEqual([fills.get(it, "none") for it in ("#0c1430", "#ec7a22", "#14245c", "#808080")], ["0.69", None, None, "none"])
        texts = ["".join(it.text for it in root.iter(f"{SVG}text")) for root in shown]
        for wanted in ("\u304a\u5929\u6c17\u2600", "12\u67081\u65e5\u322b", "\u82b1\u7c89\uff76\uff8c\uff9d"):
            self.assertIn(wanted, texts[0])
        self.assertIn("\u5927\u962a \u96e8 \u964d\u6c34\u78ba\u7387 80% \u6700\u9ad8 9\u2103", texts[1])

    def test_the_tool_writes_its_drawings(self):
        words = [sys.executable, "-B", draw_display.__file__, EXAMPLE / "stdout", f"{self.folder}/made", "--stream", EXAMPLE / "stream.ts"]
        ran = subprocess.run(words, capture_output=True, check=True, timeout=120)
        self.assertEqual((ran.stdout, ran.stderr, sorted(os.listdir(f"{self.folder}/made"))), (b"2 display lists drawn\n", b"", ["show-1.svg", "show-2.svg"]))
        ran = subprocess.run([*words, "--service", "7"], capture_output=True, check=True, timeout=120)
        self.assertIn("another service or PID was asked for", ran.stderr.decode())


class Mutations(InFolder):
    def test_no_input_ends_a_tool_with_a_trace_or_writes_elsewhere(self):
        chance = random.Random(58)
        lines, stream = (EXAMPLE / "stdout").read_bytes(), (EXAMPLE / "stream.ts").read_bytes()
        rows = [(mutated(chance, lines), stream) for _ in range(15)] + [(lines, mutated(chance, stream)) for _ in range(15)]
        statuses = set()
        for output, data in rows:
            Path(f"{self.folder}/output").write_bytes(output)
            Path(f"{self.folder}/stream.ts").write_bytes(data)
            for tool in (draw_display, report):
                with contextlib.redirect_stdout(io.StringIO()), contextlib.redirect_stderr(io.StringIO()):
                    statuses.add(tool.main([f"{self.folder}/output", f"{self.folder}/made", "--stream", f"{self.folder}/stream.ts"]))
            for name in os.listdir(f"{self.folder}/made") if os.path.exists(f"{self.folder}/made") else []:
                if name.endswith(".svg"):
                    ElementTree.parse(f"{self.folder}/made/{name}")
                self.assertRegex(name, r"\A(show-[0-9]+\.svg|report\.html)\Z")
            self.assertLessEqual({*os.listdir(self.folder)}, {"output", "stream.ts", "made"})
        self.assertEqual(statuses, {0, 1})


class Clocks(unittest.TestCase):
    def test_times_go_on_past_the_end_of_the_clock_and_jumps(self):
        clock, start = Clock(), CLOCK_END - 27_000_000
        self.assertEqual(clock.at(5), None)
        for number, ticks in ((3, start), (5, start + 13_500_000), (9, start + 54_000_000), (10, 5), (12, 27_000_005)):
            clock.take(CLOCK_PID, clock_packet(ticks), number)
        for packet in (bytes([0x47, 1, 0, 0x10]) + bytes(184), bytes([0x47, 1, 0, 0x30, 183, 0]) + bytes(182)):
            clock.take(CLOCK_PID, packet, 13)
        clock.take(7, clock_packet(27_000_005 + 999), 20)
        self.assertEqual([clock.at(it) for it in (1, 3, 4, 5, 8, 9, 10, 11, 12, 99)], [0, 0, 0, 0.5, 0.5, 2, 2, 2, 3, 3])
        self.assertEqual([clock.told(it) for it in (5, 12)], ["0:00:00.500", "0:00:03.000"])
        clock.times[-1] = 7384 * 27_000_000
        self.assertEqual((clock.told(20), Clock().told(1)), ("2:03:04.000", ""))


@unittest.skipUnless(browser.program(), "there is no Chromium")
class InBrowser(unittest.TestCase):
    def test_pictures_are_shown(self):
        page = colours.with_colours({1: (255, 0, 0, 255), 2: (0, 0, 255, 128)})
        rows = [(png_of([b"\1\2"]), [255, 0, 0, 255, 0, 0, 255, 128]), (mng_of(png_of([b"\2\1"])), [0, 0, 255, 128, 255, 0, 0, 255])]
        script = "(async () => {{ const it = new Image(); it.src = '{}'; await it.decode(); const one = document.createElement('canvas').getContext('2d');" \
            "one.drawImage(it, 0, 0); return [...one.getImageData(0, 0, {}, 1).data]; }})()"
        with browser.Browser() as started:
            opened = started.open("data:text/html,<p>x</p>")
            for data, wanted in [*rows, (jpeg_of(9, 9), [128, 128, 128, 255] * 9)]:
                found = pictures.picture_of(data, page)
                address = f"data:{found.media_type};base64,{base64.b64encode(found.data).decode()}"
                self.assertEqual(opened.value(script.format(address, found.width)), wanted)


if __name__ == "__main__":
    unittest.main()
