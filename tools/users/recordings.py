"""What recordings are read by: the packets of a file, the sections of a PID's packets (ISO/IEC 13818-1), and the PIDs of data that
the tables name.

docs/FORMATS.md has the rules. They are those of bml_replay, so that what is read here is what it reads, but for two points: packets may
have 4 bytes before them or 16 after them, and all services are followed at once.
"""

import re
import sys
from collections import Counter
from itertools import compress
from typing import NamedTuple

from transport import DATA_STREAM, PACKET_SIZE, is_intact, payload_of, read_clock_pid, read_pat, read_pmt

PIECE = 1 << 20  # bytes that are read at a time
SYNC = b"\x47"
SIZES = (188, 192, 204)  # alone, with 4 bytes in front, with 16 after
# So many packets one after the other settle their size; in a shorter file fewer have to do.
ENOUGH_PACKETS = 5
PAT_PID = 0


class Layout(NamedTuple):
    """How packets lie in bytes: the longest row of them, how many bytes it is from one to the next, and where the first may stand."""

    packets: int
    size: int
    start: int


def rows(data, size, is_all):
    """Yields the rows of packets of that size in bytes, each with its number of packets and its place; where is_all says so, the bytes are
    all that is left of a file."""
    for phase in range(min(size, len(data))):
        for row in re.finditer(SYNC + b"+", data[phase::size]):
            # (the last of a row is a packet only where the file ends with it)
            ends_file = is_all and len(data) - phase - (row.end() - 1) * size in (PACKET_SIZE, size)
            yield row.end() - row.start() - (0 if ends_file else 1), phase + row.start() * size


def best_layout(data, is_all):
    """Returns the layout of the longest row. Of rows at the front the longest counts, since in a recording with arrival times these may
    look like packets for a while."""
    found = {size: list(rows(data, size, is_all)) for size in SIZES}
    packets, size = max((max(found[size], default=(0, 0))[0], -size) for size in SIZES)
    _, start = max([row for row in found[-size] if row[1] < -size], default=(0, 0))
    return Layout(packets, -size, start)


def found_layout(file):
    """Returns the layout of a file's packets, or None where it has none, and the bytes that were read and not given yet."""
    data = b""
    while True:
        piece = file.read(PIECE)
        data = data[-ENOUGH_PACKETS * max(SIZES) :] + piece
        best = best_layout(data, len(piece) < PIECE)
        if best.packets >= ENOUGH_PACKETS or (len(piece) < PIECE and best.packets):
            return best, data
        if len(piece) < PIECE:
            return None, data


def is_packet(data, at, size, is_all):
    """Whether a packet stands there, or None where more bytes have to say so."""
    if data[at] != SYNC[0]:
        return False
    if at + size < len(data):
        return data[at + size] == SYNC[0]
    return len(data) - at in (PACKET_SIZE, size) if is_all else None


def packet_rows(data, size, is_all):
    """Returns the packets of bytes in rows, each with the place of its first one and their number, and the bytes that are left for the next call."""
    found, at = [], 0
    while 0 <= at < len(data):
        stands = is_packet(data, at, size, is_all)
        if stands is None:
            return found, data[at:]
        if not stands:
            at = data.find(SYNC, at + 1)
            continue
        marks = data[at::size]
        row = max(1, len(marks) - len(marks.lstrip(SYNC)) - 1)
        found.append((at, row))
        at += row * size
    return found, b""


def packets_in(data, size, found):
    """Returns the packets of rows, each 188 bytes."""
    return [data[place : place + PACKET_SIZE] for at, count in found for place in range(at, at + count * size, size)]


def cut(data, size, is_all):
    """Returns the packets of bytes, each 188 bytes, and the bytes that are left for the next call."""
    found, left = packet_rows(data, size, is_all)
    return packets_in(data, size, found), left


def pid_of(packet):
    """Returns the PID of a packet."""
    return (packet[1] & 0x1F) << 8 | packet[2]


def marks_of(bits, values):
    """Returns a table that makes 1 of a byte whose bits are one of the values, and 0 of each other."""
    return bytes(byte & bits in values for byte in range(256))


def as_number(marks):
    return int.from_bytes(marks, "little")


def has_clock(packet):
    """Whether a packet has a clock reference (ISO/IEC 13818-1, 2.4.3.4), and isn't marked as damaged."""
    return bool(packet[3] & 0x20 and packet[4] >= 7 and packet[5] & 0x10 and not packet[1] & 0x80)


class Row:
    """A row of packets, of which those are found that are wanted, without a look at each of them."""

    def __init__(self, data, size, row):
        self.data, self.size = data, size
        self.at, self.count = row
        self.upper, self.lower = self.bytes_at(1), self.bytes_at(2)

    def bytes_at(self, place):
        """Returns the bytes at that place of all packets."""
        return self.data[self.at + place : self.at + self.count * self.size : self.size]

    def marks(self, pids):
        """Returns marks at the packets that may be on these PIDs, as the bytes of a number."""
        return as_number(self.upper.translate(marks_of(0x1F, {pid >> 8 for pid in pids}))) & as_number(self.lower.translate(marks_of(0xFF, {pid & 0xFF for pid in pids})))

    def clock_marks(self):
        """Returns marks at the packets that may have a clock reference."""
        return as_number(self.bytes_at(3).translate(marks_of(0x20, {0x20}))) & as_number(self.bytes_at(5).translate(marks_of(0x10, {0x10})))

    def places(self, wanted, clocks):
        """Yields the places of the packets on PIDs that are wanted, and of those with a clock reference on the PIDs of clocks: wanted() and
        clocks() give these, and may give others after each place."""
        number = 0
        while number < self.count:
            pids, clock_pids = wanted(), clocks()
            found = self.marks(pids) | (self.marks(clock_pids) & self.clock_marks() if clock_pids else 0)
            marks = found.to_bytes(self.count, "little")
            number = marks.find(1, number)
            while number >= 0:
                pid, place = (self.upper[number] & 0x1F) << 8 | self.lower[number], self.at + number * self.size
                if pid in pids or (pid in clock_pids and has_clock(self.data[place : place + PACKET_SIZE])):
                    yield place
                    if wanted() != pids or clocks() != clock_pids:
                        break
                number = marks.find(1, number + 1)
            if number < 0:
                return
            number += 1


class PacketCounts:
    """How many packets of each PID came, how many of these are scrambled, and how many are marked as damaged."""

    SCRAMBLED = bytes(byte & 0xC0 != 0 for byte in range(256))
    DAMAGED = bytes(byte & 0x80 != 0 for byte in range(256))
    OF_A_PID = bytes(byte & 0x1F for byte in range(256))

    def __init__(self):
        self.all, self.scrambled, self.damaged = Counter(), Counter(), Counter()

    def add(self, data, size, row):
        """Counts the packets of a row."""
        at, count = row
        end = at + count * size
        upper, lower = data[at + 1 : end : size], data[at + 2 : end : size]
        words = bytearray(2 * count)
        words[sys.byteorder == "big" :: 2], words[sys.byteorder == "little" :: 2] = lower, upper.translate(self.OF_A_PID)
        pids = memoryview(words).cast("H")
        self.all.update(pids)
        for counter, marks in ((self.scrambled, data[at + 3 : end : size].translate(self.SCRAMBLED)), (self.damaged, upper.translate(self.DAMAGED))):
            if 1 in marks:
                counter.update(compress(pids, marks))


class PacketReader:
    """The packets of a file, which is read once from the front: their size, which is None where there are none, and how many were read."""

    def __init__(self, file, progress=lambda read: None):
        self.file = file
        self.progress = progress  # takes how many bytes were read
        layout, data = found_layout(file)
        self.size = layout.size if layout else None
        self.read = len(data)
        self.data = data[layout.start :] if layout else b""
        self.count = 0
        self.counts = PacketCounts()

    def pieces(self):
        """Yields the file in pieces, each with its rows of packets."""
        while self.size:
            piece = self.file.read(PIECE)
            data = self.data + piece
            found, self.data = packet_rows(data, self.size, not piece)
            yield data, found
            for row in found:
                self.counts.add(data, self.size, row)
            self.count += sum(row for _, row in found)
            self.read += len(piece)
            self.progress(self.read)
            if not piece:
                return

    def packets(self):
        """Yields the packets in lists."""
        for data, found in self.pieces():
            yield packets_in(data, self.size, found)

    def packets_on(self, wanted, clocks=frozenset):
        """Yields the packets on PIDs that are wanted, and those with a clock reference on the PIDs of clocks, each with its number, counted from 1, and
        its PID: wanted() and clocks() give these PIDs, and may give others after each packet."""
        for data, found in self.pieces():
            before = self.count
            for row in found:
                for place in Row(data, self.size, row).places(wanted, clocks):
                    packet = data[place : place + PACKET_SIZE]
                    yield before + (place - row[0]) // self.size + 1, pid_of(packet), packet
                before += row[1]


class Assembler:
    """Puts the sections of one PID together from its packets."""

    def __init__(self):
        self.last = None  # the packet that was taken in last
        self.piece = None  # what came of a section that isn't whole yet; None where nothing is read up to the next mark

    def push(self, packet):
        """Returns the sections that a packet completes, damaged ones too."""
        payload = payload_of(packet)
        if payload is None or packet == self.last:
            return []
        if self.last is not None and (packet[3] - self.last[3]) % 16 != 1:
            self.piece = None
        self.last = packet
        if not packet[1] & 0x40:
            return self.join(payload)
        mark = 1 + payload[0]
        if mark > len(payload):
            self.piece = None
            return []
        sections = self.join(payload[1:mark])
        self.piece = b""
        return sections + self.join(payload[mark:])

    def join(self, data):
        """Returns the sections that more bytes complete."""
        if self.piece is None:
            return []
        piece, at, sections = self.piece + data, 0, []
        while at < len(piece) and piece[at] != 0xFF:
            end = at + 3 + (int.from_bytes(piece[at + 1 : at + 3], "big") & 0xFFF)
            if at + 3 > len(piece) or end > len(piece):
                break
            sections.append(piece[at:end])
            at = end
        self.piece = None if piece[at : at + 1] == b"\xff" else piece[at:]
        return sections


class Reception:
    """Follows the tables of all services, or of the one that is asked for, and hands the packets of data to what takes them. Where a PID of data is
    asked for, no table is read.

    A component begins anew where none of the services has its PID under the tag under which one had it before.
    """

    def __init__(self, component_on, service=None, data_pid=None):
        self.component_on = component_on  # makes what takes the packets of a PID of data
        self.asked = service
        self.first = None  # the first service of the last PAT that has one
        self.tables = {PAT_PID: Assembler()} if data_pid is None else {}  # by PID
        self.read = {}  # the section of each table that was read last
        self.programs = {}  # the PID of each service's PMT
        self.streams = {}  # of each service whose PMT came, the streams of data
        self.named = {}  # of each service, all streams of data that it ever had, in the order in which they came
        self.components = {} if data_pid is None else {data_pid: component_on(data_pid)}  # by PID
        self.owners = {}  # by PID: the services that have it, with the tags
        self.wanted = {*self.tables, *self.components}
        self.clocks = {}  # of each service whose PMT came, the PID of its clock references

    def take(self, pid, packet):
        """Takes a packet of a wanted PID, and says whether a component took it."""
        component = self.components.get(pid)
        if pid in self.tables:
            for section in self.tables[pid].push(packet):
                self.take_table(pid, section)
        if component is None:
            return False
        component.take(packet)
        return True

    def take_table(self, pid, section):
        """Takes a section of a table, where it isn't the one that was read last."""
        key = pid, section[3:5]
        if section == self.read.get(key) or not is_intact(section):
            return
        take = self.take_programs if pid == PAT_PID else self.take_streams
        if take(pid, section):
            self.read[key] = section

    def take_programs(self, _, section):
        """Takes a PAT, and says whether it is one: of two programs with one number the first counts, and a service that isn't in it
        stays as it was."""
        programs = read_pat(section)
        if programs is None:
            return False
        self.read = {}  # (what a PMT says may count now)
        first = {}
        for number, pid in programs:
            first.setdefault(number, pid)
        self.first = next((number for number in first if number), self.first)
        self.programs.update({number: pid for number, pid in first.items() if number != 0})
        pids = {PAT_PID, *(pid for number, pid in self.programs.items() if self.asked in (None, number))}
        self.tables = {pid: self.tables.get(pid) or Assembler() for pid in pids}
        self.wanted = {*self.tables, *self.components}
        return True

    def take_streams(self, pid, section):
        """Takes a PMT, and says whether it counts: it does on the PID of its service."""
        found = read_pmt(section)
        if found is None or self.programs.get(found[0]) != pid or self.asked not in (None, found[0]):
            return False
        self.clocks[found[0]] = read_clock_pid(section)
        self.streams[found[0]] = [stream for stream in found[1] if stream.kind == DATA_STREAM]
        self.named.setdefault(found[0], {}).update(dict.fromkeys(self.streams[found[0]]))
        owners = {}
        for service, streams in self.streams.items():
            for stream in streams:
                owners.setdefault(stream.pid, set()).add((service, stream.component))
        owners.pop(PAT_PID, None)
        self.follow(owners)
        return True

    def follow(self, owners):
        """Keeps the components that have an owner that they had, and begins and ends the others."""
        for pid in [pid for pid in self.components if pid not in owners]:
            self.components.pop(pid).end()
        for pid, now in owners.items():
            if pid not in self.components:
                self.components[pid] = self.component_on(pid)
            elif not now & self.owners[pid]:
                self.components[pid].begin_anew()
        self.owners = owners
        self.wanted = {*self.tables, *self.components}

    def end(self):
        """Ends all components, after the last packet."""
        for component in self.components.values():
            component.end()
