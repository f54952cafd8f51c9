"""The pictures of a page as a browser shows them: JPEG as it came, PNG with the page's colours where it has none of its own, and of an MNG
the first picture (ARIB STD-B24, volume 1, part 2: PNG and MNG whose colours are those of the page's colour table).

What comes is a broadcast's. So the marks of a JPEG and the chunks of a PNG are gone through, a PNG is unpacked to see that all of it came, and of its chunks only
those go on that a picture consists of. What is too large to be shown, or cut, is told as such.
"""

import struct
import zlib
from typing import NamedTuple

PNG = b"\x89PNG\r\n\x1a\n"
MNG = b"\x8aMNG\r\n\x1a\n"
JPEG = b"\xff\xd8\xff"
MOST_PIXELS = 1920 * 1080
CHANNELS = {0: 1, 2: 3, 3: 1, 4: 2, 6: 4}
INDEXED = 3
DEPTHS = {0: (1, 2, 4, 8, 16), 2: (8, 16), 3: (1, 2, 4, 8), 4: (8, 16), 6: (8, 16)}
# Of an interlaced PNG for each pass: the first column and row, and the steps from one to the next.
PASSES = [(0, 0, 8, 8), (4, 0, 8, 8), (0, 4, 4, 8), (2, 0, 4, 4), (0, 2, 2, 4), (1, 0, 2, 2), (0, 1, 1, 2)]
# A colour that a page hasn't.
NO_COLOUR = (128, 128, 128, 255)


class BadPicture(Exception):
    """Why bytes are no picture that can be shown."""


class Picture(NamedTuple):
    """A picture that a browser shows: its media type, its bytes, and its size in pixels."""

    media_type: str
    data: bytes
    width: int
    height: int


def check_size(width, height):
    if not 0 < width * height <= MOST_PIXELS:
        raise BadPicture(f"it has {width} by {height} pixels")


def jpeg(data):
    """Returns a JPEG as it came, once its frame and the beginning and the end of its data are found (ITU-T T.81, annex B)."""
    at, size = 2, None
    while True:
        while data[at : at + 2] == b"\xff\xff":
            at += 1
        mark = data[at : at + 4]
        if len(mark) < 4 or mark[0] != 0xFF:
            raise BadPicture("it is a JPEG that is cut or damaged")
        if 0xC0 <= mark[1] <= 0xCF and mark[1] not in (0xC4, 0xC8, 0xCC):
            frame = data[at + 5 : at + 9]
            if len(frame) == 4:
                height, width = struct.unpack(">HH", frame)
                check_size(width, height)
                size = width, height
        if mark[1] == 0xDA:
            break
        at += 2 + int.from_bytes(mark[2:], "big")
    end = data.rfind(b"\xff\xd9")
    if size is None or end < at:
        raise BadPicture("it is a JPEG that is cut or damaged")
    return Picture("image/jpeg", data[: end + 2], *size)


def chunks_of(data):
    """Yields the chunks of a PNG or MNG after its first 8 bytes, each with its name and its bytes."""
    at = 8
    while at + 12 <= len(data):
        length, name = struct.unpack_from(">I4s", data, at)
        body = data[at + 8 : at + 8 + length]
        if len(body) < length or len(data) < at + 12 + length:
            raise BadPicture("it is cut")
        yield name, body
        at += 12 + length
    raise BadPicture("it has no end")


def chunk(name, body):
    return struct.pack(">I", len(body)) + name + body + struct.pack(">I", zlib.crc32(name + body))


class Chunks:
    """What a picture in a PNG or MNG consists of."""

    def __init__(self, data):
        self.head = self.palette = self.clear = None
        self.body = []
        for name, body in chunks_of(data):
            if name == b"IHDR":
                self.head, self.body = body, []
            elif name == b"PLTE" and (body or not self.palette):
                self.palette = body
            elif name == b"tRNS":
                self.clear = body
            elif name == b"IDAT":
                self.body.append(body)
            elif name in (b"IEND", b"MEND"):
                break


def bytes_of_rows(width, height, bits):
    """Returns how many bytes the rows of so many pixels have, each with its filter byte."""
    return height * (1 + (width * bits + 7) // 8) if width and height else 0


def unpacked_size(width, height, bits, is_interlaced):
    """Returns how many bytes a PNG unpacks to."""
    if not is_interlaced:
        return bytes_of_rows(width, height, bits)
    sizes = [(max(0, -(-(width - x) // across)), max(0, -(-(height - y) // down))) for x, y, across, down in PASSES]
    return sum(bytes_of_rows(*size, bits) for size in sizes)


def palette_of(colours, count):
    """Returns the chunks of a palette of so many colours."""
    entries = [colour or NO_COLOUR for colour in colours[:count]]
    return chunk(b"PLTE", bytes(part for it in entries for part in it[:3])) + chunk(b"tRNS", bytes(it[3] for it in entries))


def png(data, colours):
    """Returns a PNG, or the first picture of an MNG, with the page's colours where it has indexes and no palette."""
    found = Chunks(data)
    if found.head is None or len(found.head) != 13 or not found.body:
        raise BadPicture("it has no picture")
    width, height, depth, kind, method, filters, interlace = struct.unpack(">IIBBBBB", found.head)
    check_size(width, height)
    if depth not in DEPTHS.get(kind, ()) or (method, filters) != (0, 0) or interlace > 1:
        raise BadPicture("it has a form that PNG hasn't")
    wanted = unpacked_size(width, height, depth * CHANNELS[kind], interlace)
    unpacker = zlib.decompressobj()
    try:
        size = len(unpacker.decompress(b"".join(found.body), wanted))
    except zlib.error:
        raise BadPicture("it doesn't unpack") from None
    if size < wanted:
        raise BadPicture("it is cut")
    middle = b""
    if kind == INDEXED and not found.palette:
        middle = palette_of(colours, 1 << depth)
    elif kind == INDEXED and (len(found.palette) % 3 or len(found.palette) > 3 << depth):
        raise BadPicture(f"it has a palette of {len(found.palette)} bytes")
    elif kind == INDEXED:
        middle = chunk(b"PLTE", found.palette) + (chunk(b"tRNS", found.clear[: len(found.palette) // 3]) if found.clear else b"")
    elif kind in (0, 2) and found.clear and len(found.clear) == (2 if kind == 0 else 6):
        middle = chunk(b"tRNS", found.clear)
    made = PNG + chunk(b"IHDR", found.head) + middle + chunk(b"IDAT", b"".join(found.body)) + chunk(b"IEND", b"")
    return Picture("image/png", made, width, height)


def picture_of(data, colours):
    """Returns the picture that bytes are, in the colours of a page."""
    if data.startswith(JPEG):
        return jpeg(data)
    if data.startswith((PNG, MNG)):
        return png(data, colours)
    raise BadPicture("it is neither JPEG, PNG nor MNG")
