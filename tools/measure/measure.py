#!/usr/bin/env python3
"""Measures how fast a release build replays large streams, beside md5sum and cat over the same file.

usage: measure.py PROGRAM [--megabytes N] [--rounds N] [--stream FILE] [KIND..]

It makes a stream of at least N million bytes (320) of each kind that is named, or of all four:

    module      one packet in 20 is on the data PID, with a carousel of one module of 1 MiB that repeats
    service     PAT, PMT and 16 components, on whose PIDs every fifth packet is, with 2 modules of 1 MiB each
    data        every packet is on the data PID, with the carousel of `module`
    broadcast   PAT and PMT that repeat, and 4 components, on whose PIDs every fifth packet is: a start document in an entity
                with its style sheet in another one, and modules of 300,000 bytes; DIIs repeat, some sections
                come damaged and some with a packet lost before they come whole

The other packets have random payloads. The program replays each with the record `all`, and what it writes is compared with
what is due. Each command runs once to warm the cache, then N rounds (3), of which the best counts, and then once more for
its greatest resident memory. `processor` is in seconds too, and says more than `seconds` where other work shares the machine.
With --stream the stream is made as FILE and kept, else it lies in a temporary folder (TMPDIR) and is removed. Status: 0 where
all was measured, 1 where a run went wrong.
"""

import argparse
import os
import random
import subprocess
import sys
import tempfile
import time
from typing import NamedTuple

from measuring import timed

from sent_modules import BLOCK_SIZE, DATA_PID, OPTIONS, block_sections
from transport import (
    PACKET_SIZE,
    PAYLOAD_SIZE,
    ElementaryStream,
    Module,
    dii_section,
    packet,
    packets_taken,
    pat_section,
    pmt_section,
    section_packets,
)

MAP_PID = 496
COMPONENTS = 16
# The PIDs of the others: fifteen times a picture's, three times a sound's, once that of null packets.
OTHER_PIDS = [0x111] * 15 + [0x112] * 3 + [0x1FFF]
MODULE_SIZE = 1 << 20


class WentWrong(Exception):
    """A run whose outcome is not what is due."""


class Payload(NamedTuple):
    """What a packet carries: its PID, whether it starts a unit, its payload, and whether it is lost on its way."""

    pid: int
    starts_unit: bool
    payload: bytes
    lost: bool = False


class Kind(NamedTuple):
    """A kind of stream: its tables, its data, one packet of which comes in so many, the program's option, and what is due."""

    tables: list[Payload]
    data: list[Payload]
    every: int
    option: list[str]
    lines: str


def payloads_of(pid, sections):
    """Returns the payloads of sections that begin in packets of their own."""
    packets = []
    for section in sections:
        # (the counters are set where the packets are sent)
        packets += section_packets(pid, [0] * packets_taken(section), section)
    return [Payload(pid, one[1] & 0x40 != 0, one[4:]) for one in packets]


def carousel_of(noise, pid, numbers):
    """Returns the payloads of one round of a carousel of modules with these numbers: the DII and each block."""
    sections = [dii_section(1, 1, BLOCK_SIZE, [Module(number, 1, MODULE_SIZE) for number in numbers])]
    for number in numbers:
        sections += block_sections(number, noise.randbytes(MODULE_SIZE))
    return payloads_of(pid, sections)


def one_module(noise, every):
    line = f"module 40 0001 01 {MODULE_SIZE}\n"
    return Kind([], carousel_of(noise, DATA_PID, [1]), every, OPTIONS, line)


def whole_service(noise):
    streams = [ElementaryStream(0x0D, DATA_PID + at, 0x40 + at) for at in range(COMPONENTS)]
    tables = payloads_of(0, [pat_section([(1, MAP_PID)])]) + payloads_of(MAP_PID, [pmt_section(1, streams)])
    rounds = [carousel_of(noise, stream.pid, [1, 2]) for stream in streams]
    # (all have as many packets, so that their modules come in turn)
    data = [payload for at_once in zip(*rounds) for payload in at_once]
    due = [(number, at) for number in (1, 2) for at in range(COMPONENTS)]
    lines = "".join(f"module {0x40 + at:02x} {number:04x} 01 {MODULE_SIZE}\n" for number, at in due)
    return Kind(tables, data, 5, [], lines)


def entity_of(parts):
    """Returns an entity with these parts, each a name and its bytes."""
    lines = [b"Content-Type: multipart/mixed; boundary=b", b""]
    for name, data in parts:
        lines += [b"--b", b"Content-Location: " + name, b"", data]
    return b"\r\n".join([*lines, b"--b--", b""])


def damaged(section):
    """Returns the section with a bit flipped."""
    return section[:-9] + bytes([section[-9] ^ 1]) + section[-8:]


def sections_of(modules):
    """Returns one round of a carousel of modules, each a number and its bytes: for each block what is sent, where the DII
    stands before every fortieth."""
    dii = dii_section(1, 1, BLOCK_SIZE, [Module(number, 1, len(content)) for number, content in modules])
    blocks = [block for number, content in modules for block in block_sections(number, content)]
    return [[dii, block] if at % 40 == 0 else [block] for at, block in enumerate(blocks)]


def broadcast(noise):
    page = b'<bml><head><link href="../0001/a.css"/></head><body>' + b"<p>text</p>" * 1000 + b"</body></bml>"
    start = [(0, entity_of([(b"startup.bml", page)])), (1, entity_of([(b"a.css", b"p { color-index: 1 }"), (b"b.png", noise.randbytes(200_000))]))]
    others = [[(number, noise.randbytes(300_000)) for number in (1, 2)] for _ in range(3)]
    streams = [ElementaryStream(0x0D, DATA_PID + at, 0x40 + at) for at in range(4)]
    tables = payloads_of(0, [pat_section([(1, MAP_PID)])]) + payloads_of(MAP_PID, [pmt_section(1, streams)])
    data, lines, count = [], "", 0
    for stream, modules in zip(streams, [start, *others]):
        for group in sections_of(modules):
            data += tables if len(group) > 1 else []
            for section in group:
                count += 1
                if count % 20 == 0:
                    data += payloads_of(stream.pid, [damaged(section)])
                if count % 31 == 0 and packets_taken(section) > 2:
                    cut = payloads_of(stream.pid, [section])
                    data += [cut[0], cut[1]._replace(lost=True), *cut[2:]]
                data += payloads_of(stream.pid, [section])
        for number, content in modules:
            lines += f"module {stream.component:02x} {number:04x} 01 {len(content)}\n"
        if stream is streams[0]:
            lines += "load /40/0000/startup.bml\n"
    return Kind([], data, 5, [], lines)


KINDS = {
    "module": lambda noise: one_module(noise, 20),
    "service": whole_service,
    "data": lambda noise: one_module(noise, 1),
    "broadcast": broadcast,
}


class Sender:
    """Writes packets to a file, and counts them."""

    def __init__(self, file):
        self.file = file
        self.counters = {}
        self.packets = 0

    def send(self, payloads):
        sent = []
        for pid, starts_unit, payload, lost in payloads:
            counter = self.counters.get(pid, 0)
            self.counters[pid] = (counter + 1) % 16
            if not lost:
                sent.append(packet(pid, counter, starts_unit, payload))
        self.file.write(b"".join(sent))
        self.packets += len(sent)


def write_stream(path, kind, noise, megabytes):
    """Writes the stream and returns how many packets it has."""
    groups = -(-megabytes * 1_000_000 // (kind.every * PACKET_SIZE))
    if groups < len(kind.data):
        raise WentWrong(f"{megabytes} million bytes do not hold one round of the data")
    with open(path, "wb") as file:
        sender = Sender(file)
        sender.send(kind.tables)
        for group in range(groups):
            payloads = [kind.data[group % len(kind.data)]]
            random_bytes = noise.randbytes(PAYLOAD_SIZE * (kind.every - 1))
            for at in range(kind.every - 1):
                pid = OTHER_PIDS[(group + at) % len(OTHER_PIDS)]
                payloads.append(Payload(pid, False, random_bytes[at * PAYLOAD_SIZE : (at + 1) * PAYLOAD_SIZE]))
            sender.send(payloads)
        # (so that no writing goes on while the commands run)
        file.flush()
        os.fsync(file.fileno())
    return sender.packets


class Cost(NamedTuple):
    """What a run took, in seconds."""

    elapsed: float
    processor: float  # by the program and by the system for it


def run(command, wanted):
    """Runs a command, compares its output with what is wanted where that is not None, and returns what it took."""
    to = subprocess.DEVNULL if wanted is None else subprocess.PIPE
    ran, *cost = timed(command, stdout=to)
    if ran.returncode or ran.stdout != wanted:
        raise WentWrong(f"{command[0]} ended with status {ran.returncode} and wrote {ran.stdout!r}; {wanted!r} is due")
    return Cost(*cost)


def greatest_memory(command):
    """Runs a command and returns the greatest resident memory that Linux tells of it while it runs, in KiB."""
    greatest = 0
    with subprocess.Popen(command, stdin=subprocess.DEVNULL, stdout=subprocess.DEVNULL) as started:
        while started.poll() is None:
            with open(f"/proc/{started.pid}/status", encoding="ascii") as status:
                peaks = [int(line.split()[1]) for line in status if line.startswith("VmHWM:")]
            greatest = max([greatest, *peaks])
            time.sleep(0.002)
    return greatest


def measure(program, kind, stream, record, packets, rounds):
    """Returns for each command its name, its least costs, and its greatest resident memory in KiB."""
    lines = f"{kind.lines}end {packets}\n".encode("ascii")
    commands = [
        (os.path.basename(program), [program, "replay", *kind.option, stream, record], lines),
        ("md5sum", ["md5sum", stream], None),
        ("cat", ["cat", stream], None),
    ]
    found = []
    for name, command, wanted in commands:
        run(command, wanted)
        costs = [run(command, wanted) for _ in range(rounds)]
        least = Cost(min(cost.elapsed for cost in costs), min(cost.processor for cost in costs))
        found.append((name, least, greatest_memory(command)))
    return found


def table(name, found, size, packets, rounds):
    """Returns the lines of the table."""
    lines = [
        f"{name}: {size:,} bytes, {packets:,} packets; best of {rounds}, warm cache",
        f"{'':12} {'seconds':>8} {'MB/s':>7} {'x md5sum':>9} {'x cat':>7} {'processor':>10} {'peak MiB':>9}",
    ]
    elapsed = {name: cost.elapsed for name, cost, _ in found}
    for name, cost, memory in found:
        rate, of_md5sum, of_cat = size / cost.elapsed / 1e6, cost.elapsed / elapsed["md5sum"], cost.elapsed / elapsed["cat"]
        times = f"{cost.elapsed:8.3f} {rate:7.0f} {of_md5sum:9.2f} {of_cat:7.2f} {cost.processor:10.3f}"
        lines.append(f"{name:12} {times} {memory / 1024:9.1f}")
    return lines


def main():
    parser = argparse.ArgumentParser(usage="measure.py PROGRAM [--megabytes N] [--rounds N] [--stream FILE] [KIND..]")
    parser.add_argument("program")
    parser.add_argument("kinds", nargs="*", choices=[[], *KINDS])  # (argparse looks for the empty list too)
    parser.add_argument("--megabytes", type=int, default=320)
    parser.add_argument("--rounds", type=int, default=3)
    parser.add_argument("--stream")
    asked = parser.parse_intermixed_args()
    with tempfile.TemporaryDirectory(prefix="measure-") as room:
        stream, record = asked.stream or f"{room}/stream.ts", f"{room}/record.txt"
        with open(record, "wb") as file:
            file.write(b"all\n")
        for name in asked.kinds or KINDS:
            noise = random.Random(1)
            try:
                kind = KINDS[name](noise)
                packets = write_stream(stream, kind, noise, asked.megabytes)
                found = measure(os.path.abspath(asked.program), kind, stream, record, packets, asked.rounds)
            except (WentWrong, OSError) as fault:
                print(f"measure.py: {fault}", file=sys.stderr)
                return 1
            print("\n".join(table(name, found, os.path.getsize(stream), packets, asked.rounds)))
    return 0


if __name__ == "__main__":
    sys.exit(main())
