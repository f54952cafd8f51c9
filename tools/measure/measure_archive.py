#!/usr/bin/env python3
"""Measures how long archive.py takes over many small recordings.

usage: measure_archive.py PROGRAM [--count N] [--jobs N]

It makes N recordings (1,000) of some 60 to 600 packets: of tables, a carousel with a page and three modules, of which every other one is compressed, and noise on
another PID, in packets of 188 or 192 bytes; every hundredth one is no recording. The tool runs once over all of them, and once more over what is done. Told are the
seconds, those of the processor, and the greatest resident memory of one of its processes. Status: 0 where the right ones were done.
"""

import argparse
import random
import resource
import subprocess
import sys
import tempfile
import time
import zlib
from pathlib import Path

from places import USERS
from transport import (
    DATA_STREAM,
    PAYLOAD_SIZE,
    TYPE_DESCRIPTOR,
    ElementaryStream,
    Module,
    compression_type,
    ddb_section,
    descriptor,
    dii_section,
    packet,
    packets_of_sections,
    pat_section,
    pmt_section,
)

TOOL = str(USERS / "archive.py")
MAP_PID, DATA_PID, OTHER_PID = 496, 512, 300
BLOCK_SIZE = 1000
PAGE = b"""<bml><body style="width:960px;height:540px"><p style="left:20px;top:20px;width:400px;height:40px">page %d</p></body></bml>"""


def recording(number):
    """Returns the packets of a recording."""
    dice = random.Random(number)
    texts = [b"Content-Type: text/X-arib-bml\r\nContent-Location: startup.bml\r\n\r\n" + PAGE % number]
    texts += [dice.randbytes(100) * dice.randrange(1, 400) for _ in range(3)]
    entries, blocks = [], []
    for at, text in enumerate(texts):
        sent, info = text, descriptor(TYPE_DESCRIPTOR, b"text/plain") if at else b""
        if number % 2:
            sent, info = zlib.compress(text), info + compression_type(len(text))
        entries.append(Module(at, 1, len(sent), info))
        blocks += [ddb_section(1, at, 1, place // BLOCK_SIZE, sent[place : place + BLOCK_SIZE]) for place in range(0, len(sent), BLOCK_SIZE)]
    sections = [(0, pat_section([(1, MAP_PID)])), (MAP_PID, pmt_section(1, [ElementaryStream(DATA_STREAM, DATA_PID, 0x40)]))]
    data, _ = packets_of_sections(sections + [(DATA_PID, it) for it in (dii_section(1, 1, BLOCK_SIZE, entries), *blocks)])
    noise = b"".join(packet(OTHER_PID, at % 16, False, dice.randbytes(PAYLOAD_SIZE)) for at in range(dice.randrange(50, 500)))
    return data + noise


def write_recordings(folder, count):
    """Writes the recordings, and returns how many bytes they have."""
    total = 0
    for number in range(count):
        data = recording(number) if number % 100 != 99 else b"no recording " * 1000
        if number % 3 == 0:
            data = b"".join(bytes(4) + data[at : at + 188] for at in range(0, len(data), 188))
        (folder / f"{number:04}.ts").write_bytes(data)
        total += len(data)
    return total


def main():
    parser = argparse.ArgumentParser(usage="measure_archive.py PROGRAM [--count N] [--jobs N]")
    parser.add_argument("program")
    parser.add_argument("--count", type=int, default=1000)
    parser.add_argument("--jobs", type=int, default=4)
    asked = parser.parse_args()
    with tempfile.TemporaryDirectory(prefix="measure-") as room:
        folder = Path(room, "in")
        folder.mkdir()
        total = write_recordings(folder, asked.count)
        print(f"{asked.count:,} recordings, {total:,} bytes, {asked.jobs} at once")
        for what in ("all", "again"):
            words = [sys.executable, "-B", TOOL, str(folder), f"{room}/out", "--program", asked.program, "--jobs", str(asked.jobs)]
            begun, used = time.perf_counter(), resource.getrusage(resource.RUSAGE_CHILDREN)
            ran = subprocess.run(words, capture_output=True, check=False)
            ended = resource.getrusage(resource.RUSAGE_CHILDREN)
            processor = ended.ru_utime + ended.ru_stime - used.ru_utime - used.ru_stime
            print(f"{what:5}: {time.perf_counter() - begun:.1f} seconds, {processor:.1f} of the processor, memory {ended.ru_maxrss / 1024:.1f} MiB")
            told = ran.stdout.decode().splitlines()[-1]
            print(f"       {told.replace(room, '..')}")
            bad = asked.count // 100
            if f"{asked.count - bad} done, {bad} failed" not in told:
                return 1
    return 0


if __name__ == "__main__":
    sys.exit(main())
