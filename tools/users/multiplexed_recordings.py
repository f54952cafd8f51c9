"""Recordings as ffmpeg multiplexes them: two services with picture and sound at a constant rate. Data carousels stand in place of null
packets, and the components of data in the PMTs, which may change on the way."""

import shutil
import struct
import subprocess
from typing import NamedTuple

from recordings import PAT_PID, Assembler, pid_of
from transport import DATA_COMPONENT, PACKET_SIZE, STREAM_IDENTIFIER, descriptor, read_pat, section_packets, with_header

SERVICES = 101, 102
NULL_PID = 0x1FFF
READ_PACKETS = 10_000
CODECS = ["-c:v", "mpeg2video", "-c:a", "mp2"]
PROGRAMS = [f"title=one:program_num={SERVICES[0]}:st=0:st=1", f"title=two:program_num={SERVICES[1]}:st=2:st=3"]


class Stage(NamedTuple):
    """A part of a recording: the components of data that each service has in it, the packets of data that come, one in place of every
    other null packet, and how many null packets are left before the first, so that each PMT comes."""

    components: dict
    packets: object
    wait: int


class Rate(NamedTuple):
    """What a second of a multiplex takes in bits: the first picture, the second one, and the whole."""

    first: str
    second: str
    whole: str


def is_possible():
    """Whether this machine has ffmpeg."""
    return shutil.which("ffmpeg") is not None


def programs(rate):
    return [word for it in PROGRAMS for word in ("-program", it)] + ["-muxrate", rate.whole, "-f", "mpegts"]


def write_multiplex(path, seconds, rate, size="320x240"):
    """Writes a multiplex of so many seconds, in packets of 188 bytes."""
    sources = [word for it in (f"testsrc2=size={size}:rate=25", "sine=500", "testsrc=size=320x240:rate=25", "sine=900") for word in ("-f", "lavfi", "-i", it)]
    maps = [word for it in "0123" for word in ("-map", it)]
    rates = ["-b:v:0", rate.first, "-minrate:v:0", rate.first, "-maxrate:v:0", rate.first, "-bufsize:v:0", "1835k", "-b:v:1", rate.second]
    command = ["ffmpeg", "-v", "error", "-y", *sources, *maps, "-t", str(seconds), *CODECS, *rates, *programs(rate), path]
    subprocess.run(command, stdin=subprocess.DEVNULL, check=True)


def repeated(path, rate, times):
    """Yields the packets of a multiplex that ffmpeg repeats so many times, with clocks and counters that run on."""
    command = ["ffmpeg", "-v", "error", "-stream_loop", str(times - 1), "-i", path, "-map", "0", "-c", "copy", *programs(rate), "-"]
    with subprocess.Popen(command, stdin=subprocess.DEVNULL, stdout=subprocess.PIPE) as started:
        try:
            while data := started.stdout.read(READ_PACKETS * PACKET_SIZE):
                yield from (data[at : at + PACKET_SIZE] for at in range(0, len(data), PACKET_SIZE))
        finally:
            started.kill()


def with_components(packet, components, version):
    """Returns the packet of a PMT with these components of data more, in this version."""
    section, streams = Assembler().push(packet)[0], b""
    for component in components:
        info = descriptor(STREAM_IDENTIFIER, bytes([component.component])) + descriptor(DATA_COMPONENT, b"\x00\x07")
        streams += struct.pack(">BHH", component.kind, 0xE000 | component.pid, 0xF000 | len(info)) + info
    header = section[:5] + bytes([section[5] & 0xC1 | version % 32 << 1]) + section[6:8]
    return section_packets(pid_of(packet), [packet[3] % 16], with_header(header, section[8:-4] + streams))[0]


def with_data(packets, stages):
    """Yields the packets of a multiplex with the data of stages in it; in the last one null packets stay once its data is at its end."""
    maps, left = {}, list(enumerate(stages))
    version, stage = left.pop(0)
    data, wait = iter(stage.packets), stage.wait
    for packet in packets:
        pid = pid_of(packet)
        if pid == NULL_PID:
            wait -= 1
            if wait < 0 and wait % 2:
                found = next(data, None)
                if found is not None:
                    packet = found
                elif left:
                    version, stage = left.pop(0)
                    data, wait = iter(stage.packets), stage.wait
        elif pid == PAT_PID and not maps:
            maps = {its_pid: service for section in Assembler().push(packet) for service, its_pid in read_pat(section)}
        elif pid in maps:
            packet = with_components(packet, stage.components.get(maps[pid], []), version)
        yield packet
