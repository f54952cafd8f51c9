"""Packets and sections of a transport stream (ISO/IEC 13818-1), the DSM-CC messages DII and DDB (ISO/IEC 13818-6) and event
messages (after ARIB STD-B24, volume 3): how they are made, and how sections are read.

Every header field that a caller does not give is 0, reserved bits too. What reads a section answers None where it is of another
kind, or where its lengths don't fit together.
"""

import struct
import zlib
from typing import NamedTuple

PACKET_SIZE = 188
PAYLOAD_SIZE = PACKET_SIZE - 4
# The first packet of a section has one byte less of it: the pointer field stands there.
FIRST_PAYLOAD_SIZE = PAYLOAD_SIZE - 1

TABLE_PAT = 0x00
TABLE_PMT = 0x02
MESSAGE_DII = (0x3B, 0x1002)  # table_id and messageId
MESSAGE_DDB = (0x3C, 0x1003)
TABLE_STREAM_DESCRIPTORS = 0x3D

TYPE_DESCRIPTOR = 0x01
EVENT_MESSAGE = 0x40
STREAM_IDENTIFIER = 0x52
COMPRESSION_TYPE = 0xC2  # ARIB STD-B24, volume 3
DATA_COMPONENT = 0xFD

DATA_STREAM = 0x0D  # the stream_type of a component of data
ZLIB = 0  # the compression_type of zlib's format (RFC 1950)
# The most bytes of a block that a section can carry: section_length counts 27 bytes more.
MOST_BLOCK_BYTES = 0xFFF - 27


class Module(NamedTuple):
    """A module as a DII announces it."""

    number: int
    version: int
    size: int
    info: bytes = b""


class ElementaryStream(NamedTuple):
    """A stream of a service as a PMT announces it: its component_tag and its data_component_id are None where it has none."""

    kind: int
    pid: int
    component: int | None
    data_component: int | None = None


class Dii(NamedTuple):
    """What a DII says, with the bytes as they are between its fields."""

    transaction: int
    download: int
    block_size: int
    modules: list[Module]
    adaptation: bytes = b""
    fields: bytes = bytes(12)  # from windowSize up to the compatibility bytes
    private: bytes = bytes(2)  # privateDataLength and its bytes
    reserved: int = 0  # the reserved byte of the message header


class Ddb(NamedTuple):
    """What a DDB says."""

    download: int
    module: int
    version: int
    number: int
    block: bytes
    reserved: bytes = bytes(2)  # the reserved bytes of the message header and after the version


class EventMessage(NamedTuple):
    """An event message: its group, id and version, its private bytes, its event_msg_type and its time_mode."""

    group: int
    id: int
    version: int
    private: bytes = b""
    kind: int = 0
    time_mode: int = 0


class Compression(NamedTuple):
    """A CompressionType: the method is None where the descriptor is too short."""

    method: int | None
    size: int


REVERSED_BITS = bytes(int(f"{byte:08b}"[::-1], 2) for byte in range(256))


def crc_32(data):
    """Returns the CRC_32 of ISO/IEC 13818-1, annex A: not reflected, from all ones, with no final exclusive or.

    zlib has the same polynomial reflected, with a final exclusive or: so it is asked with each byte's bits reversed.
    """
    reflected = zlib.crc32(data.translate(REVERSED_BITS)) ^ 0xFFFFFFFF
    return int.from_bytes(reflected.to_bytes(4, "little").translate(REVERSED_BITS), "big")


def with_header(header, body):
    """Returns a section with this header of 8 bytes, but for its section_length, and its CRC_32."""
    length = 5 + len(body) + 4
    if length > 0xFFF:
        raise ValueError(f"a section of {length + 3} bytes is longer than section_length can say")
    before_crc = header[:1] + bytes([header[1] & 0xF0 | length >> 8, length & 0xFF]) + header[3:] + body
    return before_crc + struct.pack(">I", crc_32(before_crc))


def section(table_id, body, extension=0, current_next=0):
    """Returns a section with syntax indicator 1 and its CRC_32."""
    return with_header(struct.pack(">BHHBBB", table_id, 0x8000, extension, current_next, 0, 0), body)


def descriptor(tag, data):
    """Returns a descriptor: its tag, its length and its bytes."""
    if len(data) > 0xFF:
        raise ValueError(f"a descriptor of {len(data)} bytes is longer than its length can say")
    return struct.pack(">BB", tag, len(data)) + data


def pat_section(programs):
    """Returns the section of a PAT in force: for each program its number and the PID of its PMT."""
    return section(TABLE_PAT, b"".join(struct.pack(">HH", number, pid) for number, pid in programs), current_next=1)


def pmt_section(program, streams):
    """Returns the section of a PMT in force, without descriptors of the program."""
    body = struct.pack(">HH", 0, 0)
    for stream in streams:
        info = b"" if stream.component is None else descriptor(STREAM_IDENTIFIER, bytes([stream.component]))
        if stream.data_component is not None:
            info += descriptor(DATA_COMPONENT, struct.pack(">H", stream.data_component))
        body += struct.pack(">BHH", stream.kind, stream.pid, len(info)) + info
    return section(TABLE_PMT, body, extension=program, current_next=1)


def message(message_id, identity, rest, adaptation=b"", reserved=0):
    """Returns a message, whose header names its kind and its transactionId or downloadId."""
    length = len(adaptation) + len(rest)
    return struct.pack(">BBHIBBH", 0x11, 0x03, message_id, identity, reserved, len(adaptation), length) + adaptation + rest


def dii_message(dii):
    """Returns the message of a DII."""
    rest = struct.pack(">IH", dii.download, dii.block_size) + dii.fields + struct.pack(">H", len(dii.modules))
    for module in dii.modules:
        rest += struct.pack(">HIBB", module.number, module.size, module.version, len(module.info)) + module.info
    return message(MESSAGE_DII[1], dii.transaction, rest + dii.private, dii.adaptation, dii.reserved)


def dii_section(transaction, download, block_size, modules):
    """Returns the section of a DII."""
    return section(MESSAGE_DII[0], dii_message(Dii(transaction, download, block_size, modules)))


def ddb_message(ddb):
    """Returns the message of a DDB."""
    rest = struct.pack(">HBBH", ddb.module, ddb.version, ddb.reserved[1], ddb.number) + ddb.block
    return message(MESSAGE_DDB[1], ddb.download, rest, reserved=ddb.reserved[0])


def ddb_section(download, module, version, number, block):
    """Returns the section of a DDB: a block of a module."""
    return section(MESSAGE_DDB[0], ddb_message(Ddb(download, module, version, number, block)))


def event_message(message):
    """Returns the descriptor of an event message."""
    fields = struct.pack(">HB5xBBB", message.group << 4, message.time_mode, message.kind, message.id, message.version)
    return descriptor(EVENT_MESSAGE, fields + message.private)


def stream_descriptors_section(made):
    """Returns the section of stream descriptors, as those of event messages."""
    return section(TABLE_STREAM_DESCRIPTORS, b"".join(made))


def compression_type(size):
    """Returns the CompressionType of a module that zlib made smaller, with its size when it is unpacked."""
    return descriptor(COMPRESSION_TYPE, struct.pack(">BI", ZLIB, size))


def packets_taken(section_bytes):
    """Returns how many packets a section takes that begins in a packet of its own."""
    return -(-(1 + len(section_bytes)) // PAYLOAD_SIZE)


def place_in_packets(at):
    """Returns where a section's byte lies in its packets, counted from the first byte of the first."""
    if at < FIRST_PAYLOAD_SIZE:
        return 5 + at
    packet, byte = divmod(at - FIRST_PAYLOAD_SIZE, PAYLOAD_SIZE)
    return (1 + packet) * PACKET_SIZE + 4 + byte


def packet(pid, counter, starts_unit, payload):
    """Returns a packet without adaptation field; where its payload is short, 0xFF fills it."""
    header = struct.pack(">BHB", 0x47, (0x4000 if starts_unit else 0) | pid, 0x10 | counter)
    return header + payload.ljust(PAYLOAD_SIZE, b"\xff")


def stuffed_packet(pid, counter, starts_unit, payload):
    """Returns a packet whose payload ends it, after an adaptation field that fills what is left."""
    room = PAYLOAD_SIZE - len(payload)
    if room == 0:
        return packet(pid, counter, starts_unit, payload)
    field = bytes([room - 1]) + bytes(1)[: room - 1]
    header = struct.pack(">BHB", 0x47, (0x4000 if starts_unit else 0) | pid, 0x30 | counter)
    return header + field.ljust(room, b"\xff") + payload


def section_packets(pid, counters, section_bytes):
    """Returns the packets of a section that begins in a packet of its own, with pointer field 0 and these counters.

    More packets than the section takes end with one byte of it each, after stuffing.
    """
    left, count = b"\x00" + section_bytes, len(counters)
    if not packets_taken(section_bytes) <= count <= len(left):
        raise ValueError(f"a section of {len(section_bytes)} bytes doesn't fill {count} packets")
    packets = []
    for place, counter in enumerate(counters, 1):
        taken = min(PAYLOAD_SIZE, len(left) - (count - place))
        make = packet if place == count else stuffed_packet
        packets.append(make(pid, counter, place == 1, left[:taken]))
        left = left[taken:]
    return packets


def counters_from(first, count):
    """Returns so many continuity counters, each one more than the one before."""
    return [(first + at) % 16 for at in range(count)]


def packets_of_sections(sections):
    """Returns the packets of sections, each with its PID, and how many they are."""
    packets, counters = [], {}
    for pid, section in sections:
        taken = counters_from(counters.get(pid, 0), packets_taken(section))
        packets += section_packets(pid, taken, section)
        counters[pid] = (taken[-1] + 1) % 16
    return b"".join(packets), len(packets)


def payload_of(packet_bytes):
    """Returns the payload of a packet, or None where it isn't readable: damaged, scrambled, or without a payload."""
    control = packet_bytes[3] & 0xF0
    if packet_bytes[1] & 0x80:
        return None
    if control == 0x10:
        return packet_bytes[4:]
    if control == 0x30 and packet_bytes[4] < PAYLOAD_SIZE - 1:
        return packet_bytes[5 + packet_bytes[4] :]
    return None


def is_intact(section_bytes):
    """Whether a section has its header, as many bytes as it says, and its CRC_32."""
    if len(section_bytes) < 12 or not section_bytes[1] & 0x80:
        return False
    length = (section_bytes[1] & 0x0F) << 8 | section_bytes[2]
    return length + 3 == len(section_bytes) and crc_32(section_bytes) == 0


def descriptors(data):
    """Returns the descriptors that bytes are, each a tag and its bytes, or None where they aren't laid end to end."""
    found, at = [], 0
    while at + 2 <= len(data):
        end = at + 2 + data[at + 1]
        found.append((data[at], data[at + 2 : end]))
        at = end
    return found if at == len(data) else None


def table_body(table_id, section_bytes):
    """Returns what the section of a table carries, where it is in force and the first of its table."""
    is_read = section_bytes[0] == table_id and section_bytes[5] & 1 and section_bytes[6] == 0
    return section_bytes[8:-4] if is_read else None


def read_pat(section_bytes):
    """Returns the programs of a PAT, each with its number and the PID of its PMT."""
    body = table_body(TABLE_PAT, section_bytes)
    if body is None or len(body) % 4:
        return None
    return [(number, pid & 0x1FFF) for number, pid in struct.iter_unpack(">HH", body)]


def read_stream(kind, pid, found):
    """Returns a stream with these descriptors."""
    tags = [data[0] for tag, data in found if tag == STREAM_IDENTIFIER and len(data) == 1]
    kinds = [int.from_bytes(data[:2], "big") for tag, data in found if tag == DATA_COMPONENT and len(data) >= 2]
    return ElementaryStream(kind, pid & 0x1FFF, tags[0] if tags else None, kinds[0] if kinds else None)


def read_pmt(section_bytes):
    """Returns the number of a PMT's program, and its streams."""
    body = table_body(TABLE_PMT, section_bytes)
    if body is None or len(body) < 4:
        return None
    at = 4 + (int.from_bytes(body[2:4], "big") & 0xFFF)
    streams = []
    if descriptors(body[4:at]) is None:
        return None
    while at + 5 <= len(body):
        kind, pid, length = struct.unpack_from(">BHH", body, at)
        end = at + 5 + (length & 0xFFF)
        found = descriptors(body[at + 5 : end])
        if found is None:
            return None
        streams.append(read_stream(kind, pid, found))
        at = end
    return (int.from_bytes(section_bytes[3:5], "big"), streams) if at == len(body) else None


def read_clock_pid(section_bytes):
    """Returns the PID of the clock references that a PMT names."""
    return int.from_bytes(section_bytes[8:10], "big") & 0x1FFF


def read_message(kind, section_bytes):
    """Returns the transactionId or downloadId of a message of that kind, its reserved byte, its adaptation bytes and the rest."""
    table_id, message_id = kind
    body = section_bytes[8:-4]
    if section_bytes[0] != table_id or len(body) < 12:
        return None
    *found, identity, reserved, adaptation, length = struct.unpack_from(">BBHIBBH", body)
    if found != [0x11, 0x03, message_id] or not adaptation <= length <= len(body) - 12:
        return None
    return identity, reserved, body[12 : 12 + adaptation], body[12 + adaptation : 12 + length]


def read_modules(rest, at):
    """Returns the modules whose number stands there in a DII, and the place after them."""
    (count,) = struct.unpack_from(">H", rest, at)
    modules, at = [], at + 2
    for _ in range(count):
        number, size, version, length = struct.unpack_from(">HIBB", rest, at)
        modules.append(Module(number, version, size, rest[at + 8 : at + 8 + length]))
        at += 8 + length
    return modules, at


def read_dii(section_bytes):
    """Returns the DII that a section carries."""
    found = read_message(MESSAGE_DII, section_bytes)
    if found is None:
        return None
    transaction, reserved, adaptation, rest = found
    try:
        download, block_size = struct.unpack_from(">IH", rest)
        fields_end = 18 + int.from_bytes(rest[16:18], "big")
        modules, at = read_modules(rest, fields_end)
        (private_length,) = struct.unpack_from(">H", rest, at)
    except struct.error:
        return None
    if at + 2 + private_length != len(rest):
        return None
    return Dii(transaction, download, block_size, modules, adaptation, rest[6:fields_end], rest[at:], reserved)


def read_ddb(section_bytes):
    """Returns the DDB that a section carries."""
    found = read_message(MESSAGE_DDB, section_bytes)
    if found is None or len(found[3]) < 6:
        return None
    download, reserved, _, rest = found
    module, version, its_reserved, number = struct.unpack_from(">HBBH", rest)
    return Ddb(download, module, version, number, rest[6:], bytes([reserved, its_reserved]))


def compression_of(info):
    """Returns the CompressionType of a module's info, or None where it has none."""
    for tag, data in descriptors(info) or []:
        if tag == COMPRESSION_TYPE:
            return Compression(data[0], int.from_bytes(data[1:5], "big")) if len(data) >= 5 else Compression(None, 0)
    return None


def without_compression(info):
    """Returns a module's info without its CompressionType."""
    return b"".join(descriptor(tag, data) for tag, data in descriptors(info) if tag != COMPRESSION_TYPE)
