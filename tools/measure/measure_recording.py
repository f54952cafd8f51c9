#!/usr/bin/env python3
"""Measures how long prepare_recording.py, extract.py and report.py take over a large recording.

usage: measure_recording.py [--megabytes N] [--multiplexed [--share N]] [--data-only] [--program PROGRAM]

It makes a recording of N million bytes (300) in packets of 192 bytes: one packet in 10 is on the PIDs of two components, each with four modules
of 200,000 to 600,000 bytes that zlib made smaller, and whose carousels repeat; the others are random. The first component also has the page of the
example `weather`, with its pictures. With --multiplexed it is one that ffmpeg
makes, of two services with picture and sound at 16 Mbit/s: one packet in six, or in N, is on the PIDs of three such components, the PMTs
change three times, and it is cut in mid-packet at both ends. Each command runs once: `list`, `unpack`, extract.py and `unpack --data-only`; with --data-only
the first two are left out. With a
PROGRAM each stream that came of it is replayed, and its report written; the lines have to be the same, but for the packets in `end`. Told are its
time and its greatest resident memory. Status: 0 where all were done, 1 where one wasn't, 2 where there is no ffmpeg.
"""

import argparse
import os
import random
import subprocess
import sys
import tempfile
import time
import zlib
from itertools import chain, cycle, islice

from places import ROOT, USERS

from multiplexed_recordings import Rate, Stage, is_possible, repeated, with_data, write_multiplex
from shown_pages import Recording
from transport import (
    DATA_STREAM,
    PACKET_SIZE,
    PAYLOAD_SIZE,
    ElementaryStream,
    Module,
    compression_type,
    ddb_section,
    dii_section,
    packet,
    packets_of_sections,
    pat_section,
    pmt_section,
)

TOOL, EXTRACT, REPORT = (str(USERS / name) for name in ("prepare_recording.py", "extract.py", "report.py"))
EXAMPLE = ROOT / "examples" / "weather"
MAP_PID = 496
DATA_PID = 512
OTHER_PID = 300
BLOCK_SIZE = 4000
EVERY = 10
RATE, SECONDS = Rate("9M", "2M", "16M"), 20  # of a multiplex, before it is repeated
STAGES = 4


def example_modules():
    """Returns the modules of the example with its page, as pairs of their descriptors and their bytes."""
    return [(it.module.info, it.data) for it in Recording(EXAMPLE / "stream.ts").read().arrivals]


def carousel(noise, pid):
    """Returns the sections of one round of a carousel, each with its PID: the DII stands before every fortieth block. That of the first PID begins with
    the modules of the example."""
    modules, blocks = [], []
    contents = example_modules() if pid == DATA_PID else []
    for _ in range(4):
        words = [noise.randbytes(5) for _ in range(2000)]
        contents.append((b"", b"".join(noise.choices(words, k=noise.randrange(40_000, 120_000)))))
    for number, (info, data) in enumerate(contents):
        sent = zlib.compress(data)
        modules.append(Module(number, 1, len(sent), info + compression_type(len(data))))
        for at in range(0, len(sent), BLOCK_SIZE):
            blocks.append((pid, ddb_section(1, number, 1, at // BLOCK_SIZE, sent[at : at + BLOCK_SIZE])))
    dii = pid, dii_section(1, 1, BLOCK_SIZE, modules)
    return [section for at, block in enumerate(blocks) for section in ([dii, block] if at % 40 == 0 else [block])]


def write_recording(path, megabytes):
    """Writes the recording, and returns how many bytes it has."""
    noise = random.Random(1)
    tables = [(0, pat_section([(1, MAP_PID)]))]
    tables.append((MAP_PID, pmt_section(1, [ElementaryStream(DATA_STREAM, DATA_PID + at, 0x40 + at) for at in range(2)])))
    rounds = [section for at in range(2) for section in carousel(noise, DATA_PID + at)]
    # (sixteen rounds, so that the counters of each PID come to where they began)
    data, count = packets_of_sections((tables + rounds) * 16)
    with open(path, "wb") as file:
        for number in range(megabytes * 1_000_000 // ((PACKET_SIZE + 4) * EVERY)):
            at = number % count * PACKET_SIZE
            packets = [data[at : at + PACKET_SIZE]]
            packets += [packet(OTHER_PID, other % 16, False, noise.randbytes(PAYLOAD_SIZE)) for other in range(EVERY - 1)]
            file.write(b"".join(number.to_bytes(4, "big") + one for one in packets))
    return os.path.getsize(path)


def flow(noise, pid):
    """Yields the packets of a carousel without end."""
    data, count = packets_of_sections(carousel(noise, pid) * 16)
    return cycle([data[at * PACKET_SIZE : (at + 1) * PACKET_SIZE] for at in range(count)])


def write_multiplexed(path, megabytes, share, room):
    """Writes the recording that ffmpeg makes, and returns how many bytes it has; one packet in so many is of data."""
    noise, base = random.Random(1), f"{room}/base.ts"
    write_multiplex(base, SECONDS, RATE, "720x480")
    count = megabytes * 1_000_000 // (PACKET_SIZE + 4)
    streams = [ElementaryStream(DATA_STREAM, DATA_PID + at, tag) for at, tag in enumerate([0x40, 0x50, 0x40])]
    flows = [flow(noise, stream.pid) for stream in streams]
    data = chain.from_iterable(zip(flows[0], flows[2], flows[0], flows[1]))
    maps = [{101: streams[:2]}, {101: streams[:1], 102: streams[2:]}, {101: streams[:2], 102: streams[2:]}, {101: streams[:1], 102: streams[2:]}]
    stages = [Stage(components, islice(data, count // share // STAGES), 2000) for components in maps]
    packets = repeated(base, RATE, -(-count * PACKET_SIZE // os.path.getsize(base)) + 1)
    with open(path, "wb") as file:
        for number, one in enumerate(islice(with_data(packets, stages), count)):
            file.write((number.to_bytes(4, "big") + one)[100 if number == 0 else 0 : 50 if number == count - 1 else None])
    os.remove(base)
    return os.path.getsize(path)


def told(name, words, out=None):
    """Runs a command, prints what it cost, and returns whether it did what it is for; what it prints goes to a file."""
    with open(out or os.devnull, "wb") as printed:
        status, seconds, processor, memory = measured(words, printed)
    if status == 0:
        print(f"{name}: {seconds:.1f} seconds, {processor:.1f} of the processor, memory {memory / 1024:.1f} MiB", flush=True)
    return status == 0


def look(program, stream, room):
    """Replays a stream and writes its report; returns the lines but for the last, or None where one of them wasn't done."""
    record, lines = EXAMPLE / "record.txt", f"{room}/lines.txt"
    is_done = told("  replay", [program, "replay", stream, str(record)], lines)
    words = [REPORT, lines, f"{room}/report", "--stream", stream, "--record", str(record)]
    if not is_done or not told("  report", [sys.executable, "-B", *words]):
        return None
    with open(lines, "rb") as printed:
        return printed.read().splitlines()[:-1]


def main():
    parser = argparse.ArgumentParser(usage="measure_recording.py [--megabytes N] [--multiplexed [--share N]] [--data-only] [--program PROGRAM]")
    parser.add_argument("--megabytes", type=int, default=300)
    parser.add_argument("--multiplexed", action="store_true")
    parser.add_argument("--share", type=int, default=6)
    parser.add_argument("--data-only", action="store_true")
    parser.add_argument("--program", type=os.path.abspath)
    asked = parser.parse_args()
    if asked.multiplexed and not is_possible():
        print("measure_recording.py: there is no ffmpeg", file=sys.stderr)
        return 2
    with tempfile.TemporaryDirectory(prefix="measure-") as room:
        os.chdir(room)  # (where nothing is kept, and what is kept goes with it)
        source, target = f"{room}/in.m2ts", f"{room}/out.ts"
        size = write_multiplexed(source, asked.megabytes, asked.share, room) if asked.multiplexed else write_recording(source, asked.megabytes)
        print(f"{size:,} bytes", flush=True)
        whole = [("list", [TOOL, "list", source], False), ("unpack", [TOOL, "unpack", source, target], True)]
        rows = [("extract", [EXTRACT, source, f"{room}/modules"], False), ("unpack --data-only", [TOOL, "unpack", source, target, "--data-only"], True)]
        seen = []
        for name, words, is_made in rows if asked.data_only else whole + rows:
            if not told(name, [sys.executable, "-B", *words]):
                return 1
            if is_made:
                print(f"  {os.path.getsize(target):,} bytes came of it", flush=True)
                seen.append(look(asked.program, target, room) if asked.program else [])
                os.remove(target)
        if None in seen or seen[0] != seen[-1]:
            print("measure_recording.py: a replay or its report failed, or the lines of both streams differ", file=sys.stderr)
            return 1
    return 0


def measured(command, printed):
    """Runs a command, whose standard output goes to a file, and returns its status, its seconds, those of the processor, and the greatest resident
    memory that Linux tells of it while it runs, in KiB."""
    begin, ended, greatest = time.perf_counter(), 0, 0
    with subprocess.Popen(command, stdin=subprocess.DEVNULL, stdout=printed) as started:
        while not ended:
            with open(f"/proc/{started.pid}/status", encoding="ascii") as told:
                greatest = max([greatest, *(int(line.split()[1]) for line in told if line.startswith("VmHWM:"))])
            time.sleep(0.01)
            ended, status, used = os.wait4(started.pid, os.WNOHANG)
        started.returncode = os.waitstatus_to_exitcode(status)
    return started.returncode, time.perf_counter() - begin, used.ru_utime + used.ru_stime, greatest


if __name__ == "__main__":
    sys.exit(main())
