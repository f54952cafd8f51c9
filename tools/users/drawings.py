"""Draws a display list by its lines, as SVG, in the colours and with the pictures of a look.

All text in the lines comes from a broadcast: it is escaped, and its control characters are drawn as pictures of them, so that what comes is
well-formed XML and nothing in it is a mark.
"""

import base64
import re
from typing import NamedTuple
from xml.sax.saxutils import escape

from arib_text import cells_of, readable
from colours import FIXED
from pictures import BadPicture

OTHER = (128, 128, 128, 255)
MOST_NAME = 100  # characters of a name that are shown
# A rounded gothic with half widths, as receivers have; then what other systems have, and whatever this one has.
FONTS = "'Rounded M+ 1m for ARIB','Rounded Mgen+ 1m','Kosugi Maru',MotoyaLMaru,HGMaruGothicMPRO,'Hiragino Maru Gothic ProN','Noto Sans Mono CJK JP','MS Gothic',monospace"
NO_FONT = "This system has no Japanese font, so that texts can't be read here. On Debian the package fonts-noto-cjk has one."
# For the script of a page: it shows the element `fonts` where one sign stands for whatever is Japanese.
FONT_SCRIPT = """function inked(letter) {
  const canvas = document.createElement("canvas"), pen = canvas.getContext("2d");
  pen.font = "24px monospace";
  pen.fillText(letter, 0, 24);
  return canvas.toDataURL();
}
document.querySelector("#fonts").hidden = inked("\\u6674") !== inked("\\u8a9e");
"""
NUMBERS = re.compile(rb"-?[0-9]{1,20}(?: -?[0-9]{1,20})*")
CHECK = 20  # the side of a square of the ground


class BadOutput(Exception):
    """A line that no run prints."""


class DisplayList(NamedTuple):
    """A display list: its clock, its lines, and the number of its line `show`, counted from 0."""

    clock: int
    lines: list[bytes]
    place: int


class Look:
    """How display lists look where nothing is known but their lines: the colours by their numbers, the plane's width and height in pixels,
    the ratio of the screen's sides, and what is wrong with it."""

    def __init__(self, colours=FIXED, width=960, height=540, ratio=16 / 9, fault=""):
        self.colours, self.width, self.height, self.ratio, self.fault = colours, width, height, ratio, fault
        self.image = image_shape  # what draws a picture at its place

    def colour(self, number):
        """Returns the colour of a number, or None where no table has it."""
        return self.colours[number] if 0 <= number < len(self.colours) else None

    def paint(self, name, number):
        """Returns the words of a shape that is painted in a colour, or None where it is clear."""
        red, green, blue, alpha = self.colour(number) or OTHER
        opacity = f' {name}-opacity="{alpha / 255:.3g}"' if alpha < 255 else ""
        return f'{name}="#{red:02x}{green:02x}{blue:02x}"{opacity}' if alpha else None

    def noted(self, x, y, number):
        """Returns the number of a colour that no table has."""
        return [label(x + 2, y + 10, 9, 'fill="#000000"', str(number))] if self.colour(number) is None else []

    def picture(self, _name):
        """Returns the picture that a name in the lines names, or raises BadPicture."""
        raise BadPicture("")


def data_address(found):
    """Returns a picture as the address of itself."""
    return f"data:{found.media_type};base64,{base64.b64encode(found.data).decode()}"


def image_shape(found, place):
    """Returns the shape of a picture at its place."""
    return f'<image {place} preserveAspectRatio="none" href="{data_address(found)}"/>'


def unescaped(field):
    """The bytes that a field stands for."""
    return re.sub(rb"%([0-9A-F]{2})", lambda it: bytes([int(it[1], 16)]), field)


def numbers(fields, count):
    """The numbers in the first fields of a line."""
    if not NUMBERS.fullmatch(b" ".join(fields[:count])) or len(fields) < count:
        raise BadOutput("with a line that no run prints")
    return [int(it) for it in fields[:count]]


def rectangle(x, y, width, height, words):
    return f'<rect x="{x}" y="{y}" width="{max(width, 0)}" height="{max(height, 0)}" {words}/>'


def label(x, y, size, words, text):
    return f'<text x="{x}" y="{y}" font-size="{size}" {words}>{escape(text)}</text>'


def box(fields, look):
    x, y, width, height, background, border, border_colour = numbers(fields, 7)
    drawn, paint, stroke = [], look.paint("fill", background), look.paint("stroke", border_colour)
    if paint:
        drawn.append(rectangle(x, y, width, height, paint))
    drawn += look.noted(x, y, background)
    if border > 0 and stroke:
        inset = f'fill="none" {stroke} stroke-width="{border}"'
        drawn.append(rectangle(x + border / 2, y + border / 2, width - border, height - border, inset))
    return drawn


def runs_of(cells):
    """Yields the cells of a row in runs of one width, each with how many half widths are before it. One whose code has more than 16 bits is a run of its
    own, since a place may count for half of it."""
    begin, run = 0, []
    for cell in cells:
        if run and (run[-1].is_wide != cell.is_wide or max(run[-1].text, cell.text) > "\uffff"):
            yield begin, run
            begin, run = begin + len(run) * (1 + run[0].is_wide), []
        run.append(cell)
    if run:
        yield begin, run


def row_shapes(cells, right, down, size, paint, space=0):
    """Returns the shapes of a row: each wide character at its own place, and those of half the width in as much as they have together. With space
    between them each character has its own place."""
    shapes = []
    if space and len(cells) > 1:
        for cell in cells:
            shapes += row_shapes([cell], right, down, size, paint)
            right += (1 + cell.is_wide) * size / 2 + space
        return shapes
    for begin, run in runs_of(cells):
        left, text = right + begin * size / 2, "".join(cell.text for cell in run)
        if run[0].is_wide:
            places = " ".join(f"{left + place * size:g}" for place in range(len(run)))
            shapes.append(label(places, down, size, paint, text))
        else:
            fitted = f'textLength="{len(run) * size / 2:g}" lengthAdjust="spacingAndGlyphs" {paint}'
            # (spaces at its ends stay)
            kept = ' xml:space="preserve"' if " " in (text[0], text[-1]) or "  " in text else ""
            shapes.append(label(f"{left:g}", down, size, fitted + kept, text))
    return shapes


class Pen:
    """Where the next text of a box begins: the texts of one box follow each other, and a line feed begins a row."""

    def __init__(self, look):
        self.look = look
        self.box, self.right, self.down = None, 0, 0

    def texts(self, fields):
        x, y, width, height, number, size = numbers(fields, 6)
        if self.box != (x, y, width, height):
            self.box, self.right, self.down = (x, y, width, height), 0, 0
        drawn, paint = [], self.look.paint("fill", number)
        for place, row in enumerate(unescaped(b" ".join(fields[6:])).split(b"\n")):
            if place > 0:
                self.right, self.down = 0, self.down + size
            cells = cells_of(row)
            if paint and size > 0:
                drawn += row_shapes(cells, self.right, self.down + size - size // 8, size, paint)
            self.right += sum(1 + cell.is_wide for cell in cells) * size / 2
        return framed((x, y, width, height), drawn, number, self.look)


def framed(box, drawn, number, look):
    """Returns the shapes of a text in the colour of that number, cut at the edges of its box."""
    if not drawn:
        return []
    x, y, width, height = box
    # a box without a size cuts nothing: its text is still to be seen
    frame = f'width="{width if width > 0 else look.width}" height="{height if height > 0 else look.height}"'
    return [f'<svg x="{x}" y="{y}" {frame}>', *drawn, "</svg>", *look.noted(x, y, number)]


def text_by_rows(fields, rows, look, space):
    """Returns the shapes of a text whose rows are told, with the fields of each of them: it stands where its line says."""
    x, y, width, height, number, size = numbers(fields, 6)
    drawn, paint = [], look.paint("fill", number)
    for row in rows:
        left, top = numbers(row, 2)
        if paint and size > 0:
            cells = cells_of(unescaped(b" ".join(row[2:])))
            drawn += row_shapes(cells, left - x, top - y + size - size // 8, size, paint, space)
    return framed((x, y, width, height), drawn, number, look)


def picture(fields, look):
    x, y, width, height = numbers(fields, 4)
    kind, name = (fields[4:6] + [b"", b""])[:2]
    try:
        found = look.picture(unescaped(name))
        # (an object without a size has that of its picture)
        sides = (width, height) if width > 0 and height > 0 else (found.width, found.height)
        return [look.image(found, f'x="{x}" y="{y}" width="{sides[0]}" height="{sides[1]}"')]
    except BadPicture as bad:
        told = " ".join([readable(unescaped(kind))[:MOST_NAME], readable(unescaped(name))[:MOST_NAME], *([f"({bad})"] if str(bad) else [])])
        frame = 'fill="#c0c0c0" stroke="#404040" stroke-dasharray="4 2"'
        return [rectangle(x, y, width, height, frame), label(x + 4, y + 14, 11, 'fill="#000000"', told)]


def focus(fields, _look):
    x, y, width, height = numbers(fields, 4)
    return [rectangle(x - 1, y - 1, width + 2, height + 2, 'fill="none" stroke="#ff8000" stroke-width="2"')]


KINDS = {b"box": box, b"picture": picture, b"focus": focus}
WORDS = {*KINDS, b"text", b"row"}


def display_lists(lines):
    """The display lists in the lines of a run. A list goes on up to the first line that none has."""
    found, is_open = [], False
    for place, line in enumerate(lines):
        word, *fields = line.split(b" ")
        if word == b"show":
            found.append(DisplayList(numbers(fields, 1)[0], [], place))
            is_open = True
        elif word in WORDS and is_open:
            found[-1].lines.append(line)
        else:
            is_open = False
    return found


def by_text(lines):
    """Returns the lines of a display list, each as its word and its fields, with the fields of the rows behind it; only a text has any."""
    found = []
    for line in lines:
        word, *fields = line.split(b" ")
        if word != b"row":
            found.append((word, fields, []))
        elif found and found[-1][0] == b"text":
            found[-1][2].append(fields)
        else:
            raise BadOutput("with a line that no run prints")
    return found


def shapes_of(lines, look, space=0):
    """The shapes that the lines of a display list are drawn by. Where a text has rows they are drawn, with so many pixels between two characters: the
    lines don't tell how many."""
    shapes, pen = [], Pen(look)
    for word, fields, rows in by_text(lines):
        if rows:
            shapes += text_by_rows(fields, rows, look, space)
        elif word == b"text":
            shapes += pen.texts(fields)
        else:
            pen = Pen(look)
            shapes += KINDS[word](fields, look)
    return shapes


def ground(width, height):
    """What is behind the display, where a receiver has the programme's picture: squares of two greys, of which the lighter ones are the dashes of a path."""
    rows = [f"M{number % 2 * CHECK} {number * CHECK + CHECK // 2}H{width}" for number in range(-(-height // CHECK))]
    squares = f'fill="none" stroke="#4a5464" stroke-width="{CHECK}" stroke-dasharray="{CHECK} {CHECK}"'
    return [rectangle(0, 0, width, height, 'fill="#3c4654"'), f'<path d="{"".join(rows)}" {squares}/>']


def drawing(clock, shapes, look):
    """The picture of a display list with these shapes."""
    # (the plane may have other proportions than the screen: then its pixels aren't square)
    height = round(look.width / look.ratio)
    head = f'<svg xmlns="http://www.w3.org/2000/svg" width="{look.width}" height="{height}" viewBox="0 0 {look.width} {look.height}"'
    head += f' preserveAspectRatio="none" font-family="{FONTS}" style="font-variant-emoji:text">'
    return "\n".join([head, f"<title>show {clock}</title>", *ground(look.width, look.height), *shapes, "</svg>"]) + "\n"
