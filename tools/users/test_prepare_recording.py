#!/usr/bin/env python3
"""Tests prepare_recording.py.

usage: test_prepare_recording.py [--program PROGRAM] [what unittest takes]

What is unpacked is read back by the rules of docs/FORMATS.md. With --program it is also replayed by that program, beside the same
recordings without compression.
"""

import contextlib
import io
import os
import random
import re
import subprocess
import sys
import tempfile
import threading
import unittest
import zlib
from unittest import mock

import carousels
import multiplexed_recordings
import prepare_recording
import recordings
import shown_pages
import transport
from generated_recordings import (
    MAP_PID,
    PID,
    TEXT,
    Model,
    Plan,
    blocks,
    compressed,
    counters_on,
    framed,
    on,
    packets_of,
    packets_of_plan,
    sections_on,
    tables,
)
from multiplexed_recordings import with_components
from recordings import Assembler, pid_of
from transport import DATA_STREAM, PACKET_SIZE, Compression, ElementaryStream, Module

PROGRAM = None  # with which recordings are replayed
PLANS = 300


def run(*words):
    """Runs the tool, and returns its status and what it printed and told."""
    printed, told = io.StringIO(), io.StringIO()
    with contextlib.redirect_stdout(printed), contextlib.redirect_stderr(told):
        try:
            status = prepare_recording.main(list(words))
        except SystemExit as ended:
            status = ended.code
    return status, printed.getvalue(), told.getvalue()


class InFolder(unittest.TestCase):
    """Tests with a folder for the recording and what becomes of it."""

    def setUp(self):
        folder = tempfile.TemporaryDirectory(prefix="recording-")
        self.addCleanup(folder.cleanup)
        self.folder = folder.name
        self.source, self.target = f"{self.folder}/in.ts", f"{self.folder}/out.ts"

    def write(self, data):
        with open(self.source, "wb") as file:
            file.write(data)

    def unpacked(self, packets, *options):
        """Unpacks a recording of these packets, and returns the stream and what was told of its modules, without the findings of diagnosis.py."""
        self.write(packets if isinstance(packets, bytes) else b"".join(packets))
        status, printed, told = run("unpack", self.source, self.target, *options)
        self.assertEqual((status, printed), (0, ""), told)
        with open(self.target, "rb") as file:
            return file.read(), re.sub(r".*\[[\w ]+\]\n", "", told)

    def lines(self, stream):
        """Returns what a receiver makes of a stream, and with the program that it prints the same."""
        lines = Model().read(stream)
        if PROGRAM:
            words = [" ".join(word(at, field) for at, field in enumerate(line)) for line in lines]
            end = f"end {len(stream) // PACKET_SIZE}"
            replayed = [line for line in self.replay(stream) if line.split(" ")[0] in ("module", "gone", "skip", "end")]
            self.assertEqual(replayed, [*words, end])
        return lines

    def replay(self, stream, *options):
        names = [f"{self.folder}/replay.ts", f"{self.folder}/record.txt"]
        for name, data in zip(names, [stream, b"all\nshow\n"]):
            with open(name, "wb") as file:
                file.write(data)
        return subprocess.run([PROGRAM, "replay", *options, *names], capture_output=True, check=True).stdout.decode("latin-1").splitlines()


def word(at, field):
    """Returns a field of a line as the program prints it."""
    if isinstance(field, str):
        return field
    return str(len(field)) if isinstance(field, bytes) else f"{field:0{4 if at == 2 else 2}x}"


class Transport(unittest.TestCase):
    def test_crc_is_the_long_division(self):
        for data in [b"", b"\x00", b"123456789", random.Random(1).randbytes(100)]:
            remainder = 0xFFFFFFFF
            for bit in [byte >> place & 1 for byte in data for place in range(7, -1, -1)]:
                remainder = (remainder << 1) & 0xFFFFFFFF ^ (0x04C11DB7 if remainder >> 31 != bit else 0)
            self.assertEqual(transport.crc_32(data), remainder)
        self.assertEqual(transport.crc_32(b"123456789"), 0x0376E6E7)

    def test_packets_are_filled_to_any_number(self):
        for length in (12, 100, 183, 184, 300, 1000):
            section = transport.section(0x3B, bytes(length - 12))
            least = transport.packets_taken(section)
            for count in range(least, least + 4):
                assembler, found = Assembler(), []
                for packet in transport.section_packets(PID, transport.counters_from(15, count), section):
                    self.assertEqual(len(packet), PACKET_SIZE)
                    self.assertTrue(transport.payload_of(packet))
                    found += assembler.push(packet)
                self.assertEqual(found, [section])

    def test_messages_are_read_as_they_are_made(self):
        modules = [Module(1, 2, 3, b"\x01\x01x"), Module(4, 5, 6)]
        dii = transport.Dii(0x80000002, 7, 100, modules, b"adapt", bytes(10) + b"\x00\x03abc", b"\x00\x02xy", 0xFF)
        section = transport.section(0x3B, transport.dii_message(dii))
        self.assertEqual(transport.read_dii(section), dii)
        ddb = transport.Ddb(1, 2, 3, 4, b"block")
        self.assertEqual(transport.read_ddb(transport.ddb_section(*ddb[:5])), ddb)
        ddb = ddb._replace(reserved=b"\xff\xfe")
        self.assertEqual(transport.read_ddb(transport.section(0x3C, transport.ddb_message(ddb))), ddb)
        for made, read in [(transport.dii_message(dii), transport.read_dii), (transport.ddb_message(ddb), transport.read_ddb)]:
            for length in range(len(made)):
                table_id = 0x3B if read is transport.read_dii else 0x3C
                self.assertIsNone(read(transport.section(table_id, made[:length])))

    def test_a_dii_whose_lengths_do_not_fit_is_none(self):
        rest = transport.dii_message(transport.Dii(1, 1, 1, [Module(1, 1, 1)]))[12:]
        for wrong in (rest + b"x", rest[:-1], rest[:18] + b"\x00\x02" + rest[20:], rest[:27] + b"\x01" + rest[28:]):
            self.assertIsNone(transport.read_dii(transport.section(0x3B, transport.message(0x1002, 1, wrong))))

    def test_sections_are_those_of_runs_and_marks(self):
        one, two = transport.section(0x3D, b"x" * 200), transport.section(0x3D, b"yy")
        data = one + two
        first, second = data[:183], data[183:]
        begun = transport.packet(PID, 3, True, b"\x00" + first)
        rows = [
            ([begun, transport.packet(PID, 4, False, second)], [one, two]),
            ([begun, begun, transport.packet(PID, 4, False, second)], [one, two]),
            ([begun, transport.packet(PID, 5, False, second)], []),
            ([transport.packet(PID, 4, False, second)], []),
            ([begun, transport.packet(PID, 4, True, bytes([len(one) - 183]) + second)], [one, two]),
            ([begun, transport.packet(PID, 4, True, b"\x00" + two)], [two]),
            ([begun, transport.packet(PID, 4, True, b"\xb7" + second)], [one, two]),
            ([begun, transport.packet(PID, 4, True, b"\xb8" + second), transport.packet(PID, 5, False, second)], []),
            ([begun, transport.packet(PID, 4, False, one[183:] + b"\xff"), transport.packet(PID, 5, False, two)], [one]),
        ]
        for packets, wanted in rows:
            assembler = Assembler()
            self.assertEqual([section for packet in packets for section in assembler.push(packet)], wanted)

    def test_tables_are_read_as_they_are_made(self):
        streams = [ElementaryStream(2, 300, None), ElementaryStream(13, 512, 0x40, 7)]
        section = transport.pmt_section(9, streams)
        self.assertEqual(transport.read_pmt(section), (9, streams))
        self.assertEqual(transport.read_pat(transport.pat_section([(0, 16), (9, 300)])), [(0, 16), (9, 300)])
        self.assertIsNone(transport.read_pat(section))
        self.assertIsNone(transport.read_pmt(transport.section(2, section[8:-5], current_next=1)))

    def test_the_first_compression_type_counts(self):
        info = b"\x01\x01x" + transport.compression_type(5) + transport.compression_type(6)
        self.assertEqual(transport.compression_of(info), Compression(0, 5))
        self.assertEqual(transport.without_compression(info), b"\x01\x01x")
        for other in (b"", b"\x01\x01x", info + b"\x00"):
            self.assertIsNone(transport.compression_of(other))
        self.assertEqual(transport.compression_of(b"\xc2\x01\x00"), Compression(None, 0))


class Packets(InFolder):
    def found(self, data):
        """Returns the size of the packets, and the packets; those of wanted PIDs are the same."""
        recording = recordings.PacketReader(io.BytesIO(data))
        found = [packet for packets in recording.packets() for packet in packets]
        self.assertEqual(recording.count, len(found))
        wanted = {300, 302}
        again = recordings.PacketReader(io.BytesIO(data)).packets_on(lambda: wanted)
        self.assertEqual(list(again), [(at, pid_of(one), one) for at, one in enumerate(found, 1) if pid_of(one) in wanted])
        return recording.size, found

    def test_packets_of_each_size_are_found(self):
        dice = random.Random(1)
        packets = [transport.packet(300 + at % 5, at % 16, False, dice.randbytes(184)) for at in range(300)]
        noise_bytes = bytes(set(range(256)) - {0x47}) * 20
        for size, front, behind in ((188, 0, 0), (192, 4, 0), (204, 0, 16)):
            for count in (1, 2, 4, 5, 300):
                for noise in (0, 1, 77, 187, 5000):
                    rows = [dice.randbytes(front) + packet + dice.randbytes(behind) for packet in packets[:count]]
                    found, cut = self.found(noise_bytes[:noise] + b"".join(rows))
                    self.assertEqual(cut, packets[:count], (size, count, noise))
                    if count > 1:
                        self.assertEqual(found, size)

    def test_a_recording_is_read_in_pieces(self):
        dice = random.Random(2)
        packets = [transport.packet(300, at % 16, False, dice.randbytes(184)) for at in range(400)]
        data = dice.randbytes(30_000) + b"".join(dice.randbytes(4) + packet for packet in packets)
        for piece in (1500, 1920, 20_000):
            with mock.patch.object(recordings, "PIECE", piece):
                self.assertEqual(self.found(data)[1][-390:], packets[10:])

    def test_an_arrival_time_that_looks_like_a_packet_is_none(self):
        packets = [transport.packet(300, at % 16, False, bytes(184)) for at in range(100)]
        rows = [(b"\x47" if at < 90 else b"\x48") + b"\x40\x00\x10" + packet for at, packet in enumerate(packets)]
        self.assertEqual(self.found(b"".join(rows)), (192, packets))

    def test_the_wanted_pids_may_change_with_each_packet(self):
        packets = [transport.packet(256 * (at % 3) + at % 2, at % 16, False, bytes(184)) for at in range(4000)]
        for size in (1, 7, 1000):
            wanted, taken = {0}, []
            for number, pid, packet in recordings.PacketReader(io.BytesIO(b"".join(packets))).packets_on(lambda: wanted):
                taken.append(number - 1)
                self.assertEqual((pid_of(packet), packet), (pid, packets[number - 1]))
                wanted = {0, 256 * (number // size % 3) + 1}
            wanted, expected = {0}, []
            for at, packet in enumerate(packets):
                if pid_of(packet) in wanted:
                    expected.append(at)
                    wanted = {0, 256 * ((at + 1) // size % 3) + 1}
            self.assertEqual(taken, expected)

    def test_behind_noise_the_packets_go_on(self):
        packets = [transport.packet(300, at % 16, False, bytes(184)) for at in range(40)]
        for noise in (b"x", b"x" * 187, b"x" * 1000):
            data = b"".join(packets[:20]) + noise + b"".join(packets[20:])
            self.assertEqual(self.found(data)[1], packets[:19] + packets[20:])
            self.assertEqual(self.found(data[50:])[1], packets[1:19] + packets[20:])

    def test_a_file_without_packets_or_tables_is_told(self):
        packets = packets_of(on(PID, [transport.dii_section(1, 1, 100, [])]))
        pat = packets_of([(0, transport.pat_section([(1, MAP_PID)]))])
        for data, wanted in [(b"", "no bytes"), (b"x" * 5000, "no packets"), (b"G", "no packets"), (b"".join(packets), "(PAT)"), (pat[0], "(PMT, on PID 496)")]:
            self.write(data)
            for words in (["list", self.source], ["unpack", self.source, self.target]):
                status, printed, told = run(*words)
                self.assertEqual((status, printed), (1, ""))
                self.assertIn(wanted, told)
                self.assertEqual(os.listdir(self.folder), ["in.ts"])


class Unpacking(InFolder):
    def test_what_is_not_compressed_stays_as_it_came(self):
        plain = [Module(1, 1, 250), Module(2, 1, 5, b"\xc2"), Module(3, 1, 400_000)]
        sections = [transport.dii_section(1, 1, 100, plain), *blocks(plain[0], b"x" * 250), transport.section(0x3D, b"event")]
        packets = packets_of(tables() + on(PID, sections * 3))
        packets[5:5] = [transport.packet(300, 0, True, b"picture"), packets[4], packets[4][:1] + b"\x80" + packets[4][2:]]
        stream, told = self.unpacked(packets)
        self.assertEqual((stream, told), (b"".join(packets), ""))
        stream, _ = self.unpacked(b"".join(b"time" + packet for packet in packets))
        self.assertEqual(stream, b"".join(packets))

    def test_a_module_is_unpacked(self):
        kept = b"\x01\x0atext/plain\xc0\x01y"
        module, sent = compressed(7, info=kept, version=9)
        plain = Module(8, 1, 3, b"\x01\x01x")
        dii = transport.Dii(0x80010002, 5, 50, [module, plain], b"adapt", bytes(10) + b"\x00\x02ab", b"\x00\x01z", 0xFF)
        event = transport.section(0x3D, b"event")
        sections = [transport.with_header(b"\x3b\xb0\x00\x00\x02\xc3\x00\x00", transport.dii_message(dii)), event]
        sections += blocks(plain, b"sea", 50, 5)
        for section in blocks(module, sent, 50, 5):
            ddb = transport.read_ddb(section)._replace(reserved=b"\xff\xff")
            sections.append(transport.with_header(b"\x3c\xb0\x00\x00\x07\xd3\x00\x00", transport.ddb_message(ddb)))
        stream, told = self.unpacked(packets_of(tables() + on(PID, sections)))
        found = sections_on(PID, stream)
        self.assertEqual(told, "")
        self.assertTrue(all(map(transport.is_intact, found)))
        self.assertEqual(counters_on(PID, stream), transport.counters_from(0, len(counters_on(PID, stream))))
        new = transport.read_dii(found[0])
        self.assertEqual(found[0][3:8], sections[0][3:8])
        self.assertNotEqual(new.transaction, dii.transaction)
        self.assertEqual(new.transaction & 0xFFFF, dii.transaction & 0xFFFF)
        wanted = dii._replace(transaction=new.transaction, modules=[Module(7, 9, len(TEXT), kept), plain])
        self.assertEqual(new, wanted)
        self.assertEqual(found[1:3], [event, sections[2]])
        made = [transport.read_ddb(section) for section in found[3:]]
        self.assertEqual([(ddb.download, ddb.module, ddb.version, ddb.number) for ddb in made], [(5, 7, 9, at) for at in range(16)])
        self.assertEqual({(section[:2], section[3:6], section[7]) for section in found[3:]}, {(b"\x3c\xb0", b"\x00\x07\xd3", 15)})
        self.assertEqual([section[6] for section in found[3:]], list(range(16)))
        self.assertEqual({ddb.reserved for ddb in made}, {b"\xff\xff"})
        self.assertEqual(b"".join(ddb.block for ddb in made), TEXT)
        self.assertEqual(self.lines(stream), [("module", 0x40, 8, 1, b"sea"), ("module", 0x40, 7, 9, TEXT)])

    def test_what_stays_compressed_and_why(self):
        bomb = zlib.compress(bytes(20_000_000))
        rows = [
            (compressed(1, size=len(TEXT) + 1), 100, "it unpacks to 780 bytes, and 781 are announced"),
            (compressed(1, size=len(TEXT) - 1), 100, "it unpacks to more than the 779 bytes that are announced"),
            (compressed(1, size=0), 100, "it unpacks to more than the 0 bytes that are announced"),
            (compressed(1, packed=zlib.compress(TEXT)[:-4]), 100, "what it unpacks to has no end"),
            (compressed(1, packed=b"no zlib data"), 100, "it doesn't unpack: "),
            (compressed(1, packed=b""), 100, "what it unpacks to has no end"),
            (compressed(1, packed=bomb, size=1000), 1000, "it unpacks to more than the 1000 bytes that are announced"),
            (compressed(1, packed=bomb, size=20_000_000), 1000, "it has more than 1048576 bytes"),
            (compressed(1, size=0xFFFFFFFF), 100, "it has more than 1048576 bytes"),
            (compressed(1, size=65_537), 1, "it has more than 65536 blocks"),
            (compressed(1), 0, "it has more than 65536 blocks"),
            ((Module(1, 1, 3, b"\xc2\x05\x02\x00\x00\x00\x03"), b"abc"), 100, "its CompressionType names the method 2, and not zlib"),
            ((Module(1, 1, 3, b"\xc2\x01\x00"), b"abc"), 100, "its CompressionType is too short"),
        ]
        for (module, sent), block_size, why in rows:
            with self.subTest(why):
                dii = transport.dii_section(1, 1, block_size, [module])
                sections = [dii, *blocks(module, sent, block_size or 100)]
                stream, told = self.unpacked(packets_of(tables() + on(PID, sections)))
                self.assertIn(f"module 0001 version 01 on PID 512 stays compressed: {why}", told)
                self.assertEqual(told.count("\n"), 1)
                new = transport.read_dii(sections_on(PID, stream)[0])
                self.assertEqual(new._replace(transaction=1), transport.read_dii(dii))
                came = [transport.read_ddb(section) for section in sections_on(PID, stream)[1:]]
                self.assertEqual(came, [transport.read_ddb(section) for section in sections[1:]])
                self.assertEqual(self.lines(stream), [("skip", 0x40, 1, "compressed")])

    def test_a_block_that_is_not_announced_does_not_count(self):
        module, sent = compressed(1)
        wrong = [
            transport.ddb_section(2, 1, 1, 0, sent),
            transport.ddb_section(1, 1, 2, 0, sent),
            transport.ddb_section(1, 1, 1, 1, sent),
            transport.ddb_section(1, 1, 1, 0, sent + b"x"),
            transport.ddb_section(1, 1, 1, 0, sent[:-1]),
            transport.with_header(blocks(module, sent)[0][:8], b"x"),
        ]
        rows = [transport.dii_section(1, 1, 100, [module]), *wrong]
        stream, told = self.unpacked(packets_of(tables() + on(PID, rows)))
        self.assertEqual(self.lines(stream), [("skip", 0x40, 1, "compressed")])
        self.assertEqual(told.count("it never came whole"), 1)
        self.assertIn("not complete", run("list", self.source)[1])
        stream, told = self.unpacked(packets_of(tables() + on(PID, rows + blocks(module, sent))))
        self.assertEqual((self.lines(stream), told), ([("module", 0x40, 1, 1, TEXT)], ""))
        self.assertIn(", complete", run("list", self.source)[1])

    def test_why_a_module_stays_is_told_once(self):
        modules = [compressed(1, size=0xFFFFFF)[0], compressed(2, packed=b"no")[0]]
        diis = [transport.dii_section(number, 1, 100, modules) for number in range(5)]
        _, told = self.unpacked(packets_of(tables() + on(PID, [diis[0], *blocks(modules[1], b"no"), *diis])))
        self.assertEqual(told.count("\n"), 2)

    def test_no_more_is_unpacked_than_a_receiver_takes(self):
        modules = [compressed(number, size=1 << 20)[0] for number in range(40)]
        plain = Module(50, 1, 1 << 20)
        _, told = self.unpacked(packets_of(tables() + on(PID, [transport.dii_section(1, 1, 4000, [*modules, plain])])))
        self.assertEqual(told.count("more than 33554432 bytes"), 9)
        self.assertEqual(told.count("it never came whole"), 31)

    def test_blocks_are_as_large_as_a_section_can_carry(self):
        module, sent = compressed(1, random.Random(1).randbytes(3000) * 3)
        plain = Module(2, 1, 4000)
        sections = [transport.dii_section(1, 1, 20_000, [module, plain]), *blocks(module, sent, 4000), *blocks(plain, b"x" * 4000, 4000)]
        stream, told = self.unpacked(packets_of(tables() + on(PID, sections)))
        self.assertEqual(len(sent) > 3000 and len(sent) < 4000, True)
        self.assertEqual(transport.read_dii(sections_on(PID, stream)[0]).block_size, 4068)
        self.assertEqual([line[2:4] + line[4:] for line in self.lines(stream)], [(1, 1, random.Random(1).randbytes(3000) * 3), (2, 1, b"x" * 4000)])
        self.assertEqual(told, "")

    def test_a_dii_that_begins_within_a_packet_leaves_nothing_behind(self):
        modules = [compressed(number, TEXT + b"%d" % number, info=b"\x01\x20" + b"t" * 32) for number in range(8)]
        dii = transport.dii_section(1, 1, 100, [module for module, _ in modules])
        event = transport.section(0x3D, b"event " * 40)
        joined = event + dii
        payloads = [b"\x00" + joined[:183], bytes([len(event) - 183]) + joined[183 : 183 + 183]]
        payloads += [joined[at : at + 184] for at in range(366, len(joined), 184)]
        packets = packets_of(tables())
        packets += [transport.packet(PID, at, at < 2, payload) for at, payload in enumerate(payloads)]
        sections = [section for module, sent in modules for section in blocks(module, sent)]
        rest = packets_of(on(PID, sections))
        packets += [one[:3] + bytes([0x10 | (at + len(payloads)) % 16]) + one[4:] for at, one in enumerate(rest)]
        stream, told = self.unpacked(packets)
        found = sections_on(PID, stream)
        self.assertEqual(found[0], event)
        self.assertTrue(all(map(transport.is_intact, found)))
        self.assertEqual([section[0] for section in found[:3]], [0x3D, 0x3B, 0x3C])
        self.assertNotIn(dii[:150], stream)
        self.assertEqual(counters_on(PID, stream), transport.counters_from(0, len(counters_on(PID, stream))))
        self.assertEqual([line[:4] for line in self.lines(stream)], [("module", 0x40, number, 1) for number in range(8)])
        self.assertEqual(told, "")

    def test_repeated_diis_cost_nothing_and_all_are_written_over(self):
        open_module, sent = compressed(1)
        whole, whole_sent = compressed(2, TEXT[:-1])
        dii = transport.dii_section(1, 1, 100, [open_module, whole])
        sections = [dii] * 3000 + blocks(whole, whole_sent) + [dii] + blocks(open_module, sent)[1:]
        with mock.patch.object(carousels, "read_dii", wraps=transport.read_dii) as reads:
            stream, told = self.unpacked(packets_of(tables() + on(PID, sections)))
        self.assertLess(reads.call_count, 50)
        found = [section for section in sections_on(PID, stream) if section[0] == 0x3B]
        self.assertEqual((len(found), len(set(found))), (3001, 1))
        self.assertEqual(self.lines(stream), [("skip", 0x40, 1, "compressed"), ("module", 0x40, 2, 1, TEXT[:-1])])
        self.assertIn("module 0001 version 01 on PID 512 stays compressed: it never came whole", told)

    def test_a_module_that_stays_open_is_given_up(self):
        module, sent = compressed(1)
        sections = [transport.dii_section(number, 1, 50, [module]) for number in range(300)]
        stream, told = self.unpacked(packets_of(tables() + on(PID, sections + blocks(module, sent, 50))))
        self.assertIn("it isn't whole after 256 DIIs", told)
        self.assertEqual(self.lines(stream), [("skip", 0x40, 1, "compressed")])
        self.assertEqual(len(sections_on(PID, stream)), len(sections) + len(blocks(module, sent, 50)))

    def test_a_module_may_come_over_several_diis(self):
        module, sent = compressed(1)
        other, other_sent = compressed(2, b"the other")
        parts = blocks(module, sent, 10)
        sections = [transport.dii_section(1, 1, 10, [module, other]), *parts[:1], *blocks(other, other_sent, 10)[:1]]
        sections += [transport.dii_section(2, 1, 10, [module]), *parts[1:]]
        stream, told = self.unpacked(packets_of(tables() + on(PID, sections)))
        self.assertEqual(self.lines(stream), [("skip", 0x40, 2, "compressed"), ("gone", 0x40, 2), ("module", 0x40, 1, 1, TEXT)])
        self.assertEqual(told.count("\n"), 1)

    def test_transactions_differ_from_the_one_in_force(self):
        module, sent = compressed(1)
        plain = Module(2, 1, 3)
        first = transport.dii_section(1, 1, 100, [module])
        stream, _ = self.unpacked(packets_of(tables() + on(PID, [first, *blocks(module, sent)])))
        own = transport.read_dii(sections_on(PID, stream)[0]).transaction
        rows = [
            [first, *blocks(module, sent), transport.dii_section(own, 1, 100, [plain]), *blocks(plain, b"sea")],
            [transport.dii_section(own, 1, 100, [plain]), *blocks(plain, b"sea"), first, *blocks(module, sent)],
        ]
        for sections in rows:
            stream, _ = self.unpacked(packets_of(tables() + on(PID, sections)))
            lines = [line[0] for line in self.lines(stream)]
            self.assertEqual(lines, ["module", "gone", "module"])

    def test_each_round_comes_again(self):
        module, sent = compressed(1)
        rows = [transport.dii_section(1, 1, 20, [module]), *blocks(module, sent, 20)]
        stream, _ = self.unpacked(packets_of(tables() + on(PID, rows * 3 + rows[:-1])))
        found = [section[0] for section in sections_on(PID, stream)]
        self.assertEqual(found, ([0x3B] + [0x3C] * 39) * 3 + [0x3B])

    def test_a_component_that_comes_back_begins_anew(self):
        module, sent = compressed(1)
        rows = on(PID, [transport.dii_section(1, 1, 20, [module]), *blocks(module, sent, 20)])
        other = [ElementaryStream(DATA_STREAM, PID, 0x41)]
        for between in (tables([]) + tables(), tables(other), tables([]) + rows + tables()):
            stream, told = self.unpacked(packets_of(tables() + rows + between + rows))
            tag = 0x41 if between == tables(other) else 0x40
            lines = self.lines(stream)
            self.assertEqual(lines, [("module", 0x40, 1, 1, TEXT), ("gone", 0x40, 1), ("module", tag, 1, 1, TEXT)])
            self.assertEqual(told, "")

    def test_a_component_with_another_tag_has_no_blocks_yet(self):
        module, sent = compressed(1)
        dii, parts = transport.dii_section(1, 1, 10, [module]), blocks(module, sent, 10)
        other = on(PID, parts[:1]) + tables([ElementaryStream(DATA_STREAM, PID, 0x41)]) + on(PID, [dii, *parts[1:]])
        stream, _ = self.unpacked(packets_of(tables() + on(PID, [dii, *parts]) + other))
        lines = [("module", 0x40, 1, 1, TEXT), ("gone", 0x40, 1), ("skip", 0x41, 1, "compressed")]
        self.assertEqual(self.lines(stream), lines)
        stream, _ = self.unpacked(packets_of(tables() + on(PID, [dii, *parts]) + other + on(PID, parts[:1])))
        self.assertEqual(self.lines(stream), [*lines[:2], ("module", 0x41, 1, 1, TEXT)])

    def test_a_pmt_counts_once_its_service_is_named(self):
        module, sent = compressed(1)
        one, two = [transport.pmt_section(service, [ElementaryStream(DATA_STREAM, PID, 0x40)] * (service - 1)) for service in (1, 2)]
        sections = [(0, transport.pat_section([(1, MAP_PID)])), (MAP_PID, one), (MAP_PID, two)]
        sections += [(0, transport.pat_section([(2, MAP_PID)])), (MAP_PID, two)]
        stream, told = self.unpacked(packets_of(sections + on(PID, [transport.dii_section(1, 1, 20, [module]), *blocks(module, sent, 20)])))
        self.assertEqual(b"".join(transport.read_ddb(section).block for section in sections_on(PID, stream)[1:]), TEXT)
        self.assertEqual(told, "")

    def test_two_services_may_share_a_component(self):
        module, sent = compressed(1)
        streams = [ElementaryStream(DATA_STREAM, PID, 0x40)]
        sections = [(0, transport.pat_section([(1, MAP_PID), (2, MAP_PID + 1)])), (MAP_PID, transport.pmt_section(1, streams))]
        sections += on(PID, [transport.dii_section(1, 1, 20, [module]), *blocks(module, sent, 20)[:2]])
        sections += [(MAP_PID + 1, transport.pmt_section(2, [*streams, ElementaryStream(DATA_STREAM, PID + 1, 0x41)]))]
        sections += on(PID, blocks(module, sent, 20)[2:]) + [(MAP_PID + 1, transport.pmt_section(2, []))]
        stream, told = self.unpacked(packets_of(sections))
        self.assertEqual((self.lines(stream), told), ([("module", 0x40, 1, 1, TEXT)], ""))
        _, printed, _ = run("list", self.source)
        self.assertEqual(printed.count("module 0001 version 01"), 2)

    def test_many_components_are_unpacked(self):
        streams = [ElementaryStream(DATA_STREAM, PID + at, 0x40 + at) for at in range(17)]
        module, sent = compressed(1)
        sections = tables(streams)
        for stream in streams:
            sections += on(stream.pid, [transport.dii_section(1, 1, 100, [module]), *blocks(module, sent)])
        stream, _ = self.unpacked(packets_of(sections))
        for component in streams:
            data = [transport.read_ddb(section).block for section in sections_on(component.pid, stream)[1:]]
            self.assertEqual(b"".join(data), TEXT)

    def test_other_packets_of_the_pid_stay(self):
        module, sent = compressed(1)
        packets = packets_of(tables() + on(PID, [transport.dii_section(1, 1, 20, [module]), *blocks(module, sent, 20)]))
        clock = b"\x07\x10clock!"
        header = packets[3][:3] + b"\x30"
        scrambled = packets[3][:3] + b"\x95" + packets[3][4:]
        with_clock = header[:3] + bytes([0x30 | packets[3][3] % 16]) + clock + packets[3][4 : 4 + 176]
        stream, told = self.unpacked([*packets[:3], with_clock, scrambled, packets[2], *packets[4:]])
        self.assertEqual(self.lines(stream), [("module", 0x40, 1, 1, TEXT)])
        self.assertIn(scrambled, stream)
        kept = [stream[at : at + 188] for at in range(0, len(stream), 188) if stream[at + 3] & 0xF0 == 0x20]
        self.assertEqual([(pid_of(one), one[4], one[5:12]) for one in kept], [(PID, 183, clock[1:])])
        self.assertEqual(told, "")


class DataOnly(InFolder):
    def test_only_tables_and_data_stay(self):
        module, sent = compressed(1)
        data = packets_of(tables() + on(PID, [transport.dii_section(1, 1, 100, [module]), *blocks(module, sent)]))
        others = [transport.packet(pid, at % 16, False, bytes(184)) for at in range(5) for pid in (300, 8191, 16)]
        whole, _ = self.unpacked([*others, *data, *others])
        stream, told = self.unpacked([*others, *data[:4], *others, *data[4:], *others], "--data-only")
        self.assertEqual((stream, told), (whole[len(others) * 188 : -len(others) * 188], ""))

    def test_a_service_is_kept_alone(self):
        streams = [ElementaryStream(DATA_STREAM, PID, 0x40), ElementaryStream(DATA_STREAM, PID + 1, 0x40)]
        sections = [(0, transport.pat_section([(0, 16), (9, 400), (3, 401)]))]
        sections += [(400, transport.pmt_section(9, streams[:1])), (401, transport.pmt_section(3, streams[1:]))]
        modules = [compressed(1, b"first " * 100), compressed(2, b"second " * 100)]
        for stream, (module, sent) in zip(streams, modules):
            sections += on(stream.pid, [transport.dii_section(1, 1, 100, [module]), *blocks(module, sent)])
        for service, pids in ((9, {0, 400, PID}), (3, {0, 401, PID + 1})):
            stream, told = self.unpacked(packets_of(sections), "--data-only", "--service", str(service))
            self.assertEqual(({pid_of(stream[at : at + 188]) for at in range(0, len(stream), 188)}, told), (pids, ""))
            if PROGRAM:
                whole, _ = self.unpacked(packets_of(sections))
                lines = [self.replay(it, "--service", str(service)) for it in (stream, whole)]
                self.assertEqual(lines[0][:-1], lines[1][:-1])
                self.assertIn("module 40", lines[0][0])

    def test_a_clock_reference_of_each_second_is_kept(self):
        sections, pmt = tables(), tables()[1][1]
        sections[1] = MAP_PID, transport.with_header(pmt[:8], (0xE000 | 300).to_bytes(2, "big") + pmt[10:-4])
        data = packets_of(sections + on(PID, [transport.dii_section(1, 1, 100, [Module(1, 1, 3000)]), *blocks(Module(1, 1, 3000), bytes(3000))]))
        packets, begin = data[:2], (1 << 33) - 100_000  # (the clock comes to its end on the way)
        for at in range(100):
            clock = (begin + 9000 * at) % (1 << 33)
            reference = (clock >> 1).to_bytes(4, "big") + bytes([(clock & 1) << 7 | 0x7E, 0])
            packets.append(b"\x47\x41\x2c" + bytes([0x30 | at % 16, 20, 0x50]) + reference + bytes(13) + bytes(range(163)))
            packets += [transport.packet(300, at % 16, False, bytes(184))] + ([data[2 + at // 3]] if at % 3 == 0 and 2 + at // 3 < len(data) else [])
        wrong = packets[2][:1] + bytes([packets[2][1] | 0x80]) + packets[2][2:]
        stream, told = self.unpacked([*packets[:2], wrong, *packets[2:]], "--data-only")
        kept = [stream[at : at + 188] for at in range(0, len(stream), 188)]
        clocks = [one for one in kept if pid_of(one) == 300]
        self.assertEqual(([one for one in kept if pid_of(one) != 300], told), (data, ""))
        self.assertEqual([one[6:12] for one in clocks], [packets[at][6:12] for at in range(2, len(packets)) if packets[at][3] & 0x20][::10])
        self.assertEqual({(one[1], one[3] & 0xF0, one[4], transport.payload_of(one)) for one in clocks}, {(1, 0x20, 183, None)})
        self.assertEqual(self.lines(stream), [("module", 0x40, 1, 1, bytes(3000))])
        whole, cut = (shown_pages.Recording(path).read() for path in (self.source, self.target))
        times = [it.clock.at(it.arrivals[0].packet) for it in (whole, cut)]
        self.assertLess(abs(times[0] - times[1]), 1)
        self.assertGreater(times[1], 2)

    def test_a_pid_is_kept_alone_without_tables(self):
        module, sent = compressed(1)
        data = packets_of(on(PID, [transport.dii_section(1, 1, 100, [module]), *blocks(module, sent)]))
        stream, told = self.unpacked(b"".join(b"time" + one for one in data[:2] + [transport.packet(300, 0, True, b"")] + data[2:]), "--data-only", "--data-pid", str(PID))
        self.assertEqual(({pid_of(stream[at : at + 188]) for at in range(0, len(stream), 188)}, told), ({PID}, ""))
        blocks_of = [transport.read_ddb(section).block for section in sections_on(PID, stream)[1:]]
        self.assertEqual(b"".join(blocks_of), TEXT)
        if PROGRAM:
            self.assertEqual(self.replay(stream, "--data-pid", str(PID))[0], "module 40 0001 01 780")

    def test_the_lines_of_generated_recordings_stay(self):
        for number in range(PLANS // 3):
            with self.subTest(number):
                dice = random.Random(number)
                recording = framed(packets_of_plan(Plan(number), False), dice.choice([188, 192, 204]), dice)
                whole, told = self.unpacked(recording)
                stream, told_again = self.unpacked(recording, "--data-only")
                self.assertEqual(told_again, told)
                self.assertLess(len(stream), len(whole))
                self.assertTrue(Model().read(stream) == Model().read(whole), "the modules differ")
                if PROGRAM and number % 2 == 0:
                    self.assertEqual(self.replay(stream)[:-1], self.replay(whole)[:-1])


class Listing(InFolder):
    def test_services_components_and_modules_are_listed(self):
        module, sent = compressed(1, info=b"\x01\x04a%\x1b\xff")
        other, cut, empty = Module(2, 255, 3, b"\xc2\x05\x01\x00\x00\x00\x05"), Module(3, 1, 101, b"\xc2"), Module(4, 1, 0)
        streams = [ElementaryStream(2, 300, None), ElementaryStream(DATA_STREAM, PID, None), ElementaryStream(DATA_STREAM, 600, 0x50, 12)]
        sections = [(0, transport.pat_section([(0, 16), (9, 400), (3, 401)])), (400, transport.pmt_section(9, streams))]
        data = [transport.dii_section(1, 1, 100, [module, other, cut, empty]), *blocks(module, sent), *blocks(cut, b"x" * 101)[:1]]
        self.write(b"".join(b"time" + packet for packet in packets_of(sections + on(600, data))))
        status, printed, told = run("list", self.source)
        wanted = [
            "packets of 192 bytes: 5",
            "service 9, PMT on PID 400",
            "  component - on PID 512, no data component",
            "  component 50 on PID 600, data component 000c",
            f"    module 0001 version 01, {len(sent)} bytes compressed from 780, complete, a%25%1B%FF",
            "    module 0002 version ff, 3 bytes compressed, not by zlib, not complete, no Type",
            "    module 0003 version 01, 101 bytes, not complete, no Type",
            "    module 0004 version 01, 0 bytes, complete, no Type",
            "service 3, PMT on PID 401, which didn't come",
        ]
        self.assertEqual((status, printed.split("\n")[: len(wanted)], told), (0, wanted, ""))

    def test_no_more_modules_are_listed_than_there_is_room_for(self):
        sections = [transport.dii_section(at, 1, 9, [Module(number, at, 1) for number in range(10)]) for at in range(9)]
        self.write(b"".join(packets_of(tables() + on(PID, [*sections, *blocks(Module(9, 8, 1), b"x", 9)]))))
        with mock.patch.object(carousels, "MOST_LISTED", 25):
            self.assertEqual(run("list", self.source)[1].count("    module"), 25)

    def test_what_can_be_read_once_is_read_once(self):
        packets = b"".join(packets_of(on(PID, [transport.dii_section(1, 1, 9, [Module(1, 1, 3)])])))
        os.mkfifo(self.source)
        for data, wanted in ((packets, "(PAT)"), (b"no packets" * 9, "no packets")):
            writer = threading.Thread(target=self.write, args=(data,))
            writer.start()
            status, printed, told = run("list", self.source)
            writer.join()
            self.assertEqual((status, printed), (1, ""))
            self.assertIn(wanted, told)

    def test_a_module_is_listed_once(self):
        module = Module(1, 1, 3)
        rows = [transport.dii_section(1, 1, 9, [module]), *blocks(module, b"sea", 9), transport.dii_section(2, 1, 9, [])]
        self.write(b"".join(packets_of(tables() + on(PID, rows * 2) + tables([]) + tables() + on(PID, rows[:1]))))
        self.assertEqual(run("list", self.source)[1].count("module"), 1)


class CommandLine(InFolder):
    def test_a_faulty_command_line_has_status_2(self):
        faulty = [[], ["list"], ["unpack", "x"], ["list", "x", "y"], ["help"], ["unpack", "x", "y", "z"], ["unpack", "x", "y", "--service", "1"], ["unpack", "x", "y", "--data-only", "--service", "1", "--data-pid", "16"]]
        for words in [*faulty, *(["unpack", "x", "y", "--data-only", option, number] for option in ("--service", "--data-pid") for number in ("0", "65536", "-1", "x"))]:
            status, printed, told = run(*words)
            self.assertEqual((status, printed), (2, ""))
            self.assertIn("usage: prepare_recording.py", told)

    def test_help_is_given(self):
        for words in (["--help"], ["list", "--help"], ["unpack", "--help"]):
            status, printed, told = run(*words)
            self.assertEqual((status, told), (0, ""))
            self.assertIn(" ".join(["usage: prepare_recording.py", *words[:-1]]), printed)

    def test_files_that_cannot_be_used_are_told(self):
        packets = b"".join(packets_of(tables()))
        self.write(packets)
        os.symlink(self.source, f"{self.folder}/same.ts")
        rows = [
            (["list", f"{self.folder}/none.ts"], "No such file"),
            (["list", self.folder], "Is a directory"),
            (["unpack", f"{self.folder}/none.ts", self.target], "No such file"),
            (["unpack", self.source, self.source], "OUT would be written over it"),
            (["unpack", self.source, f"{self.folder}/same.ts"], "OUT would be written over it"),
            (["unpack", self.source, f"{self.folder}/none/out.ts"], "No such file"),
            (["unpack", self.source, self.folder], "is no file"),
        ]
        for words, wanted in rows:
            status, printed, told = run(*words)
            self.assertEqual((status, printed), (1, ""))
            self.assertIn(wanted, told)
        with open(self.source, "rb") as file:
            self.assertEqual(file.read(), packets)
        self.assertEqual(sorted(os.listdir(self.folder)), ["in.ts", "same.ts"])

    def test_what_another_run_left_stays(self):
        self.write(b"".join(packets_of(tables())))
        os.symlink(f"{self.folder}/none", f"{self.target}.part")
        status, printed, told = run("unpack", self.source, self.target)
        self.assertEqual((status, printed), (1, ""))
        self.assertIn(f"{self.target}.part is there: another run writes it, or one was broken off; remove it then", told)
        self.assertEqual(sorted(os.listdir(self.folder)), ["in.ts", "out.ts.part"])

    def test_what_is_no_stream_is_told_without_a_traceback(self):
        dice = random.Random(5)
        module, sent = compressed(1)
        packets = packets_of(tables() + on(PID, [transport.dii_section(1, 1, 20, [module]), *blocks(module, sent, 20)]))
        for at in range(200):
            data = bytearray(b"".join(packets))
            for _ in range(dice.randrange(1, 20)):
                data[dice.randrange(len(data))] = dice.randrange(256)
            self.write(bytes(data[dice.randrange(200) * (at % 2) :]))
            for words in (["list", self.source], ["unpack", self.source, self.target]):
                status, _, told = run(*words)
                self.assertIn(status, (0, 1), told)
                self.assertEqual(status == 1, ".ts: " in told)


class Generated(InFolder):
    def test_the_lines_are_those_of_the_recording_without_compression(self):
        unpacked = 0
        for number in range(PLANS):
            with self.subTest(number):
                plan = Plan(number)
                plain, packets = b"".join(packets_of_plan(plan, True)), packets_of_plan(plan, False)
                dice = random.Random(number)
                stream, _ = self.unpacked(framed(packets, dice.choice([188, 192, 204]), dice))
                # (lines with a module's bytes are long: what differs would take long to tell)
                self.assertTrue(self.lines(stream) == self.lines(plain), "the modules differ")
                if PROGRAM:
                    self.assertEqual(self.replay(stream)[:-1], self.replay(plain)[:-1])
                unpacked += Model().read(plain) != Model().read(b"".join(packets))
        self.assertGreater(unpacked, PLANS // 2)


@unittest.skipUnless(multiplexed_recordings.is_possible(), "ffmpeg isn't there")
class Multiplexed(InFolder):
    def made(self, options):
        """Returns a stream that ffmpeg made, with a picture and a sound."""
        sources = ["-f", "lavfi", "-i", "testsrc=size=320x240:rate=25", "-f", "lavfi", "-i", "sine", "-t", "2"]
        codecs = ["-c:v", "mpeg2video", "-b:v", "1M", "-c:a", "mp2", "-f", "mpegts", *options]
        subprocess.run(["ffmpeg", "-v", "error", "-y", *sources, *codecs, self.source], stdin=subprocess.DEVNULL, check=True)
        with open(self.source, "rb") as file:
            return file.read()

    def test_a_multiplexed_stream_is_listed_unpacked_and_replayed(self):
        page = b"Content-Type: text/X-arib-bml\r\nContent-Location: startup.bml\r\n\r\n<bml><head/><body><p>sea</p></body></bml>"
        for size, options in ((188, []), (192, ["-mpegts_m2ts_mode", "1"])):
            with self.subTest(size):
                data = self.made(options)
                modules, component = [compressed(0, page), compressed(1)], ElementaryStream(DATA_STREAM, PID, 0x40)
                sections = [transport.dii_section(1, 1, 100, [module for module, _ in modules])]
                sections += [section for module, sent in modules for section in blocks(module, sent)]
                carousel, rows, front = packets_of(on(PID, sections)), [], size - PACKET_SIZE
                self.assertEqual(data[front::size], b"\x47" * (len(data) // size))
                pat = sections_on(0, b"".join(data[at + front : at + size] for at in range(0, len(data), size)))[0]
                maps = {pid for _, pid in transport.read_pat(pat)}
                for at in range(0, len(data), size):
                    one = data[at + front : at + size]
                    rows.append(data[at : at + front] + (with_components(one, [component], 1) if pid_of(one) in maps else one))
                    if at >= 50 * size and carousel:
                        rows.append(data[at : at + front] + carousel.pop(0))
                stream, told = self.unpacked(b"".join(rows))
                lines = [("module", 0x40, 0, 1, page), ("module", 0x40, 1, 1, TEXT)]
                self.assertEqual((self.lines(stream), carousel, told), (lines, [], ""))
                others = [row[front:] for row in rows if pid_of(row[front:]) != PID]
                packets = [stream[at : at + PACKET_SIZE] for at in range(0, len(stream), PACKET_SIZE)]
                self.assertEqual([one for one in packets if pid_of(one) != PID], others)
                status, printed, _ = run("list", self.source)
                self.assertEqual(status, 0)
                self.assertIn(f"packets of {size} bytes: {len(rows)}\n", printed)
                self.assertIn("component 40 on PID 512, data component 0007\n", printed)
                self.assertEqual(printed.count(", complete, no Type"), 2)
                if PROGRAM:
                    self.assertIn("load /40/0000/startup.bml", self.replay(stream))

    def stages(self, sent):
        """Returns four stages of two services: the first one's second component leaves and comes back under another tag, and
        the second service gets one."""
        one, two, other = (ElementaryStream(DATA_STREAM, PID + at, tag) for at, tag in enumerate([0x40, 0x50, 0x40]))
        moved, counters, stages = two._replace(component=0x51), {}, []
        maps = [({101: [one, two]}, [one, two]), ({101: [one], 102: [other]}, [two, other]), ({101: [one, moved], 102: [other]}, [two]), ({101: []}, [])]
        for components, come in maps:
            packets = []
            for stream in come:
                for section in self.sections(stream, sent):
                    taken = transport.counters_from(counters.get(stream.pid, 0), transport.packets_taken(section))
                    counters[stream.pid] = (taken[-1] + 1) % 16
                    packets += transport.section_packets(stream.pid, taken, section)
            stages.append(multiplexed_recordings.Stage(components, packets, 800))
        return stages

    def sections(self, stream, sent):
        """Returns a round of the carousel of a component: two modules, compressed where sent says so, whose texts name its PID."""
        texts = [TEXT + b"%d %d" % (stream.pid, number) for number in range(2)]
        modules = [compressed(number, text) if sent else (Module(number, 1, len(text)), text) for number, text in enumerate(texts)]
        dii = transport.dii_section(1, 1, 100, [module for module, _ in modules])
        return [dii, *(section for module, data in modules for section in blocks(module, data))]

    def test_two_services_whose_maps_change_are_unpacked_from_a_cut_recording(self):
        multiplexed_recordings.write_multiplex(self.source, 6, multiplexed_recordings.Rate("1M", "500k", "4M"))
        with open(self.source, "rb") as file:
            data = file.read()
        multiplex = [data[at : at + PACKET_SIZE] for at in range(0, len(data), PACKET_SIZE)]
        plain, packets = (list(multiplexed_recordings.with_data(multiplex, self.stages(sent))) for sent in (False, True))
        wanted = self.lines(b"".join(plain))
        self.assertEqual([line[:3] for line in wanted], [
            ("module", 0x40, 0), ("module", 0x40, 1), ("module", 0x50, 0), ("module", 0x50, 1), ("gone", 0x50, 0), ("gone", 0x50, 1),
            ("module", 0x51, 0), ("module", 0x51, 1), ("gone", 0x40, 0), ("gone", 0x40, 1), ("gone", 0x51, 0), ("gone", 0x51, 1),
        ])
        for size in (188, 192, 204):
            with self.subTest(size):
                front, behind = {188: (0, 0), 192: (4, 0), 204: (0, 16)}[size]
                stream, told = self.unpacked(b"".join(bytes(front) + one + bytes(behind) for one in packets)[100:-77])
                self.assertEqual((self.lines(stream) == wanted, told), (True, ""))
                status, printed, _ = run("list", self.source)
                self.assertEqual((status, printed.count("data component 0007"), printed.count(", complete")), (0, 4, 8))
                self.assertIn(f"packets of {size} bytes: {len(packets) - 2}\n", printed)
                if PROGRAM:
                    for service in ("101", "102"):
                        lines = [[line for line in self.replay(it, "--service", service) if line.split()[0] != "end"] for it in (stream, b"".join(plain))]
                        self.assertEqual(lines[0], lines[1])
                        self.assertEqual(len([line for line in lines[0] if line.startswith("module")]), 6 if service == "101" else 2)


if __name__ == "__main__":
    if "--program" in sys.argv:
        place = sys.argv.index("--program")
        PROGRAM = os.path.abspath(sys.argv[place + 1])
        del sys.argv[place : place + 2]
    unittest.main()
