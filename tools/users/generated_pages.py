"""Pages for tests and examples: pictures, colour tables, entities of them, and streams with one module in several versions."""

import struct
import zlib

from transport import TYPE_DESCRIPTOR, ElementaryStream, Module, ddb_section, descriptor, dii_section, packets_of_sections, pat_section, pmt_section

PID, PMT_PID, CLOCK_PID, SERVICE = 256, 0x1F0, 257, 101
CLOCK_END = (1 << 33) * 300
SAMPLES = {0: 1, 2: 3, 3: 1}  # of a pixel, by the kind of a PNG's colours


def chunk(name, body):
    return struct.pack(">I", len(body)) + name + body + struct.pack(">I", zlib.crc32(name + body))


def png_of(rows, depth=8, kind=3, more=b"", interlace=0, mark=b"\x89PNG\r\n\x1a\n"):
    """Returns a PNG whose rows are bytes, with chunks before its data."""
    head = struct.pack(">IIBBBBB", len(rows[0]) * 8 // depth // SAMPLES[kind], len(rows), depth, kind, 0, 0, interlace)
    data = zlib.compress(b"".join(b"\0" + row for row in rows))
    return mark + chunk(b"IHDR", head) + more + chunk(b"IDAT", data) + chunk(b"IEND", b"")


def jpeg_of(width, height):
    """Returns a grey JPEG: each of its blocks is a code of one bit for no difference, and another one for its end."""
    blocks = -(-width // 8) * -(-height // 8)
    bits = "0" * (2 * blocks) + "1" * (-2 * blocks % 8)
    data = int(bits, 2).to_bytes(len(bits) // 8, "big")
    table = bytes([1] + [0] * 15 + [0])
    parts = [(0xDB, b"\0" + b"\x01" * 64), (0xC0, struct.pack(">BHHB", 8, height, width, 1) + b"\x01\x11\0")]
    parts += [(0xC4, b"\x00" + table), (0xC4, b"\x10" + table), (0xDA, b"\x01\x01\0\0\x3f\0")]
    return b"\xff\xd8" + b"".join(struct.pack(">BBH", 0xFF, mark, 2 + len(body)) + body for mark, body in parts) + data + b"\xff\xd9"


def mng_of(png, more=b""):
    """Returns an MNG of a picture, with chunks before it."""
    return b"\x8aMNG\r\n\x1a\n" + chunk(b"MHDR", bytes(28)) + more + png[8:] + chunk(b"MEND", b"")


def clut_of(first, entries, is_rgb=True):
    """Returns a colour table with 8 bits to an index."""
    head = (0x80 if is_rgb else 0) | 0x20 | 0x08
    return bytes([head, first, first + len(entries) - 1]) + b"".join(map(bytes, entries))


def entity_of(parts):
    lines = [b'Content-Type: multipart/mixed; boundary="b1"', b""]
    for name, data in parts.items():
        lines += [b"--b1", b"Content-Type: application/octet-stream", b"Content-Location: " + name.encode(), b"", data]
    return b"\r\n".join([*lines, b"--b1--", b""])


def stream_of(versions, with_tables=False):
    """Returns a stream of versions of module 0000 of component 40, one after the other: each has a Type or, with None, is an entity."""
    sections = []
    if with_tables:
        sections += [(0, pat_section([(SERVICE, PMT_PID)])), (PMT_PID, pmt_section(SERVICE, [ElementaryStream(0x0D, PID, 0x40)]))]
    for version, (media, data) in enumerate(versions, 1):
        info = b"" if media is None else descriptor(TYPE_DESCRIPTOR, media)
        sections.append((PID, dii_section(version, 1, 4000, [Module(0, version, len(data), info)])))
        sections += [(PID, ddb_section(1, 0, version, at // 4000, data[at : at + 4000])) for at in range(0, len(data), 4000)]
    return packets_of_sections(sections)[0]


def clock_packet(ticks, pid=CLOCK_PID):
    """Returns a packet with a clock reference, in steps of a clock of 27 MHz, and without payload."""
    base, extension = divmod(ticks % CLOCK_END, 300)
    field = (base << 15 | 0x3F << 9 | extension).to_bytes(6, "big")
    return struct.pack(">BHBBB", 0x47, pid, 0x20, 183, 0x10) + field + b"\xff" * 176


def timed(stream, milliseconds):
    """Returns a stream with a clock reference before each packet, so many milliseconds one from the other."""
    packets = [stream[at : at + 188] for at in range(0, len(stream), 188)]
    return b"".join(clock_packet(number * milliseconds * 27_000) + packet for number, packet in enumerate(packets))
