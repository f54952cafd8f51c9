"""Hostile transport streams: those of the examples and rows, changed byte by byte, packet by packet and section by section; carousels with
tables and messages out of a few numbers, so that they meet; and noise. `stream_case` draws a case from a source of random numbers.
"""

import functools

from places import EXAMPLES, TABLES  # (first, so that the others are found)
from hostile_texts import BML, Case, documents, events_section
from mutations import Language, about, mutated

import tables
from recordings import Assembler, cut, pid_of
from transport import (
    DATA_STREAM,
    PACKET_SIZE,
    Ddb,
    Dii,
    ElementaryStream,
    MESSAGE_DDB,
    MESSAGE_DII,
    Module,
    compression_type,
    crc_32,
    ddb_message,
    descriptor,
    dii_message,
    packets_of_sections,
    pat_section,
    pmt_section,
    section,
)

MOST_STREAM = 200_000  # bytes of a stream that is changed
# Numbers that lengths lie with.
NUMBERS = [0, 1, 2, 8, 12, 27, 0x7F, 0x80, 0xB7, 0xFF, 0xFFF, 0x1000, 0xFFFF, 0x10000, 0x100000, 0x100001, 0x2000001, 0x7FFFFFFF, 0xFFFFFFFF]
PIDS = [0, 0x10, 0x100, 0x100, 0x101, 0x102, 0x1FFE, 0x1FFF]
TAGS = [0x40, 0x40, 0x41, 0x50, 0xFF]
SIZES = [0, 1, 10, 10, 100, 100, 4_000, 1 << 20, (1 << 20) + 1, 0xFFFFFFFF]
BLOCK_SIZES = [0, 1, 10, 10, 100, 4_000, 4_066, 0xFFFF]
INFOS = [b"", BML, descriptor(0x01, b"multipart/mixed"), compression_type(100), b"\x01", b"\x01\xff", BML + b"\x52"]


@functools.cache
def known():
    """Returns the streams of the examples and rows, each with the words before it and its record."""
    found = []
    for folder in sorted(EXAMPLES.iterdir()):
        if (folder / "stream.ts").is_file():
            words = (folder / "args").read_text().split()
            found.append((words[1:-2], (folder / "stream.ts").read_bytes(), (folder / "record.txt").read_bytes()))
    for path in sorted(TABLES.glob("*.txt")):
        for run in tables.runs_of(path):
            found.append((run.arguments[1:-2], run.stream, run.record))
    return [case for case in found if 0 < len(case[1]) < MOST_STREAM and (not case[0] or case[0][0].startswith("--"))]


def sections_of(stream):
    """Returns the sections of a stream, damaged ones too, each with its PID."""
    assemblers, found = {}, []
    for packet in cut(stream, PACKET_SIZE, True)[0]:
        pid = pid_of(packet)
        found += [(pid, section) for section in assemblers.setdefault(pid, Assembler()).push(packet)]
    return found


# Packets


def changed_packet(dice, packet):
    """Returns a packet with another header, adaptation field or pointer field, or with another byte anywhere."""
    at = min(dice.choice((0, 1, 1, 2, 3, 3, 3, 4, 4, 5, dice.randrange(PACKET_SIZE))), len(packet) - 1)
    value = dice.choice((packet[at] ^ 1 << dice.randrange(8), dice.randrange(256), 0, 1, 182, 183, 184, 0xFF))
    return packet[:at] + bytes([value]) + packet[at + 1 :]


def with_changed_packets(dice, stream):
    packets = [stream[at : at + PACKET_SIZE] for at in range(0, len(stream), PACKET_SIZE)]
    for _ in range(dice.choice((1, 1, 2, 5, 20))):
        at, to = dice.randrange(len(packets)), dice.randrange(len(packets))
        way = dice.randrange(6)
        if way == 0:
            packets.insert(to, packets[at])
        elif way == 1 and len(packets) > 1:
            del packets[at]
        elif way == 2:
            packets[at], packets[to] = packets[to], packets[at]
        elif way == 3:
            packets[at] = packets[at][: dice.randrange(PACKET_SIZE)]
        else:
            packets[at] = changed_packet(dice, packets[at]) if packets[at] else dice.randbytes(about(dice, 400))
    return b"".join(packets)


# Sections


def lying_section(dice, found):
    """Returns a section in which some numbers say something else, mostly with its own length and CRC_32 made right again."""
    changed = bytearray(found)
    for _ in range(dice.choice((1, 1, 2, 4))):
        width = dice.choice((1, 2, 2, 4))
        at = dice.randrange(3, len(changed)) if len(changed) > 3 else 0
        changed[at : at + width] = (dice.choice([*NUMBERS, len(changed), at, dice.randrange(1 << 32)]) % (1 << 8 * width)).to_bytes(width, "big")
    if dice.random() < 0.2:
        at = dice.randrange(len(changed))
        changed[at:at] = dice.randbytes(about(dice, 300)) if dice.random() < 0.5 else b""
        del changed[at : at + about(dice, 60)]
    return mended(changed) if dice.random() < 0.9 else bytes(changed)


def mended(changed):
    """Returns a section with its length and its CRC_32."""
    before = bytes(changed[:-4])[:4092].ljust(8, b"\x00")
    length = len(before) + 1
    before = before[:1] + bytes([before[1] & 0xF0 | 0x80 | length >> 8, length & 0xFF]) + before[3:]
    return before + crc_32(before).to_bytes(4, "big")


def with_changed_sections(dice, stream):
    found = sections_of(stream)
    if not found:
        return with_changed_packets(dice, stream)
    for _ in range(dice.choice((1, 1, 2, 6))):
        at, to = dice.randrange(len(found)), dice.randrange(len(found))
        way = dice.randrange(6)
        if way == 0:
            found.insert(to, found[at])
        elif way == 1:
            found[at], found[to] = found[to], found[at]
        elif way == 2:
            found[at] = (found[to][0], found[at][1])
        else:
            found[at] = (found[at][0], lying_section(dice, found[at][1]))
    return packets_of_sections(found)[0]


# Carousels out of a few numbers


def table(dice):
    """Returns the section of a PAT or a PMT, with the PID that it comes on."""
    if dice.random() < 0.4:
        return 0, pat_section([(dice.randrange(4), dice.choice(PIDS)) for _ in range(dice.choice((0, 1, 2, 4, 300)))])
    streams = []
    for _ in range(dice.choice((0, 1, 1, 2, 4, 20))):
        kind = DATA_STREAM if dice.random() < 0.9 else dice.randrange(256)
        streams.append(ElementaryStream(kind, dice.choice(PIDS), dice.choice([*TAGS, None])))
    return dice.choice(PIDS), pmt_section(dice.randrange(1, 3), streams)


def announcement(dice):
    count = dice.choice((0, 1, 1, 2, 3, 30))
    modules = [Module(dice.randrange(4), dice.randrange(2), dice.choice(SIZES), dice.choice(INFOS)) for _ in range(count)]
    dii = Dii(dice.randrange(3), dice.randrange(1, 3), dice.choice(BLOCK_SIZES), modules, dice.choice((b"", b"", b"abc")))
    return section(MESSAGE_DII[0], dii_message(dii))


def block(dice, data):
    size = dice.choice([size for size in (*BLOCK_SIZES, *SIZES) if size <= 4_000])
    number = dice.choice((0, 0, 0, 1, 9, 0xFFFF))
    ddb = Ddb(dice.randrange(1, 3), dice.randrange(4), dice.randrange(2), number, data[:size].ljust(size, b" "))
    return section(MESSAGE_DDB[0], ddb_message(ddb))


def generated(dice):
    data = dice.choice(documents().texts)
    found = []
    for _ in range(about(dice, 300)):
        if dice.random() < 0.2:
            found.append(table(dice))
        else:
            way = dice.random()
            made = announcement(dice) if way < 0.25 else events_section(dice) if way < 0.4 else block(dice, data)
            found.append((dice.choice(PIDS), lying_section(dice, made) if dice.random() < 0.1 else made))
    return packets_of_sections(found)[0]


def noise(dice):
    data = bytearray(dice.randbytes(about(dice, MOST_STREAM)))
    step = dice.choice((PACKET_SIZE, PACKET_SIZE, 1, 192, 204))
    for at in range(dice.randrange(step), len(data), step):
        data[at] = 0x47
    return bytes(data)


def record_of(dice):
    lines = []
    for _ in range(dice.choice((0, 0, 1, 3, 10))):
        lines.append(dice.choice(("packets 1", f"packets {about(dice, 1_000)}", "show", "key 18", "release 18", "key 2")))
    return "\n".join([*lines, "all", "show", ""]).encode("ascii")


def stream_case(dice):
    options, stream, record = dice.choice(known())
    way = dice.random()
    if way < 0.3:
        stream = with_changed_packets(dice, stream)
    elif way < 0.7:
        stream = with_changed_sections(dice, stream)
    elif way < 0.8:
        stream = mutated(dice, stream, Language([b"\x47", b"\xff" * 188, b"\x00" * 188], [stream]))
    elif way < 0.95:
        options, stream = dice.choice([[], [], ["--service", "1"], ["--service", "2"], ["--data-pid", "256"]]), generated(dice)
    else:
        stream = noise(dice)
    return Case(options, stream, record if dice.random() < 0.3 else record_of(dice))
