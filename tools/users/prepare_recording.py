#!/usr/bin/env python3
"""Prepares a recording from the air for bml_replay.

    tools/users/prepare_recording.py list IN [--service N]
    tools/users/prepare_recording.py unpack IN OUT [--data-only [--service N | --data-pid N]]

IN is a transport stream in packets of 188 bytes, alone, with 4 bytes before each (192, as in .m2ts) or with 16 after it (204, with
parity). `list` prints its services, their components of data, and all modules of their carousels, and then what a replay of the first service or of
service N needs: tools/users/diagnosis.py. `unpack` writes it in packets of
188 bytes, in which the modules that zlib compressed are unpacked; all else stays as it came. A module that can't be unpacked stays as it is
announced, and a line on standard error says why. tools/users/carousels.py says how a carousel is replaced.

With --data-only pictures and sound are left out: what is written are the packets of the PAT, the PMTs and the PIDs of data, of all services or of
service N, from where a table names them, and a clock reference of each second, so that times are known. A replay prints the same lines as over the whole recording, but for the number of packets in `end`, if its
record takes all packets and it asks for no PID. With --data-pid N the packets of that PID alone are written, and no table is read.

The file is read once, from the front. What is kept of it are the carousels. Status: 0 where it was done, 1 where IN has no packets or
tables, or a file can't be read or written, 2 where the command line is none of the above. This tool is tested, and not proved.
"""

import argparse
import os
import re
import stat
import sys

from carousels import Listing, Output, UnpackedComponent
from diagnosis import TABLE, Survey, findings_of, said_by_system, survey
from recordings import PacketReader, Reception, pid_of
from transport import PACKET_SIZE, TYPE_DESCRIPTOR, ZLIB, compression_of, descriptors

NAME = "prepare_recording.py"
SHOWN_BYTES = 20_000_000  # between two states of the progress
CLOCK_STEP = 90_000  # a second
NO_CLOCK = 0x1FFF  # the PID of clock references where there are none
TOLD_BYTES = 1_000_000  # that are written more than they were read
# What isn't to be said of a recording that was unpacked: it is mended, or was said module by module.
MENDED = ("packets of 192 or 204 bytes", "compressed modules", "modules that never came whole")


class Fault(Exception):
    """What is wrong with a file."""


class Terminal:
    """Standard error: lines, and how far the work is where somebody looks at it."""

    def __init__(self, total):
        self.is_watched = sys.stderr.isatty()
        self.total = total
        self.shown = 0

    def clear(self):
        if self.is_watched:
            print("\r\033[K", end="", file=sys.stderr, flush=True)

    def say(self, line):
        self.clear()
        print(f"{NAME}: {line}", file=sys.stderr)

    def progress(self, read):
        if self.is_watched and read - self.shown >= SHOWN_BYTES:
            self.shown = read
            print(f"\r{read // 1_000_000} of {self.total // 1_000_000} MB", end="", file=sys.stderr, flush=True)


def receive_all(recording, reception, pass_on):
    """Hands the packets of a recording to the reception, and those that it doesn't take to pass_on."""
    for packets in recording.packets():
        for packet in packets:
            pid = pid_of(packet)
            if pid not in reception.wanted or not reception.take(pid, packet):
                pass_on(packet)


def receive_wanted(recording, reception, pass_on):
    """Hands the packets that the reception wants to it, and those of them that it doesn't take to pass_on, with a clock reference each second."""
    clocks = Clocks(reception, pass_on)
    for _, pid, packet in recording.packets_on(lambda: reception.wanted, clocks.pids):
        if pid not in reception.wanted:
            clocks.take(pid, packet)
        elif not reception.take(pid, packet):
            pass_on(packet)


class Clocks:
    """The clock references of the services, of which one for each second is passed on, in a packet without anything else."""

    def __init__(self, reception, pass_on):
        self.reception, self.pass_on = reception, pass_on
        self.last = {}  # by PID, in steps of 90 kHz

    def pids(self):
        return {pid for pid in self.reception.clocks.values() if pid not in self.reception.wanted and pid != NO_CLOCK}

    def take(self, pid, packet):
        now = int.from_bytes(packet[6:10], "big") << 1 | packet[10] >> 7
        if pid not in self.last or (now - self.last[pid]) % (1 << 33) >= CLOCK_STEP:
            self.last[pid] = now
            field = bytes([PACKET_SIZE - 5]) + packet[5 : 5 + packet[4]].ljust(PACKET_SIZE - 5, b"\xff")
            self.pass_on(packet[:1] + bytes([packet[1] & 0x1F]) + packet[2:3] + bytes([0x20 | packet[3] & 0x0F]) + field)


def checked_findings(found, source):
    """Returns what is to be known of a recording; raises a Fault where nothing can be done with it."""
    findings = findings_of(found, source)
    fatal = [finding for finding in findings if finding.is_fatal]
    if fatal:
        raise Fault(fatal[0].text())
    return findings


def printable(data):
    """Returns a text as it is printed: bytes outside of ASCII and `%` as %HH."""
    return "".join(chr(byte) if 0x20 <= byte < 0x7F and byte != 0x25 else f"%{byte:02X}" for byte in data)


def module_line(module, is_whole):
    """Returns the line of a module in the list."""
    compression = compression_of(module.info)
    size = f"{module.size} bytes"
    if compression is not None:
        size += f" compressed from {compression.size}" if compression.method == ZLIB else " compressed, not by zlib"
    types = [data for tag, data in descriptors(module.info) or [] if tag == TYPE_DESCRIPTOR]
    kind = printable(types[0]) if types else "no Type"
    return f"    module {module.number:04x} version {module.version:02x}, {size}, {'' if is_whole else 'not '}complete, {kind}"


def lines_of(found):
    """Returns the lines of the services, each with its components and their modules."""
    lines, reception = [], found.reception
    for service, pid in reception.programs.items():
        lines.append(f"service {service}, PMT on PID {pid}" + ("" if service in reception.named else ", which didn't come"))
        for stream in reception.named.get(service, {}):
            tag = "-" if stream.component is None else f"{stream.component:02x}"
            kind = "no data component" if stream.data_component is None else f"data component {stream.data_component:04x}"
            lines.append(f"  component {tag} on PID {stream.pid}, {kind}")
            whole = found.listings[stream.pid].whole if stream.pid in found.listings else {}
            lines += [module_line(module, is_whole) for module, is_whole in whole.items()]
    return lines


def list_modules(source, service):
    """Prints what is in a recording, and what is to be known before a replay."""
    with open(source, "rb") as file:
        terminal = Terminal(os.fstat(file.fileno()).st_size)
        found = survey(file, service, progress=terminal.progress)
    terminal.clear()
    findings = checked_findings(found, source)
    print("\n".join([f"packets of {found.recording.size} bytes: {found.recording.count}", *lines_of(found)]))
    if findings:
        print("\n".join([f"before a replay ({TABLE}):", *(f"  {finding.text()}" for finding in findings)]))


def check_target(source, target):
    """Refuses a place that what is written can't have."""
    if os.path.exists(target) and os.path.samefile(source, target):
        raise Fault("OUT would be written over it: name another file")
    if os.path.exists(target) and not stat.S_ISREG(os.stat(target).st_mode):
        raise Fault(f"{target} is no file that can be replaced")
    part = f"{target}.part"
    if os.path.lexists(part):
        raise Fault(f"{part} is there: another run writes it, or one was broken off; remove it then")
    return part


def unpack(source, target, data_only=False, service=None, data_pid=None, tells=True):
    """Writes a recording whose modules are unpacked, or its data alone; tells also what is to be known of it, where it is to. It is made beside its
    place, and put there when it is whole."""
    with open(source, "rb") as file:
        part = check_target(source, target)
        with open(part, "xb+") as made:
            try:
                terminal = Terminal(os.fstat(file.fileno()).st_size)
                output, listings = Output(made), {}
                recording = PacketReader(file, terminal.progress)
                reception = Reception(lambda pid: UnpackedComponent(pid, output, terminal.say, listings.setdefault(pid, Listing())), service, data_pid)
                (receive_wanted if data_only else receive_all)(recording, reception, output.write)
                terminal.clear()
                findings = checked_findings(Survey(recording, reception, listings, service, data_pid), source)
                reception.end()
                made.flush()
                os.replace(part, target)
            except BaseException:
                os.remove(part)
                raise
    for finding in findings if tells else []:
        if finding.row not in MENDED:
            terminal.say(finding.text())
    tell_growth(terminal, recording, output)


def tell_growth(terminal, recording, output):
    """Says why more was written than was read."""
    growth = output.place - recording.count * PACKET_SIZE
    if growth >= TOLD_BYTES:
        why = "modules are unpacked each time that they come round, and sections are in packets of their own"
        terminal.say(f"{growth / 1_000_000:,.0f} MB more than its packets had, since {why}; --data-only leaves out pictures and sound")


def number_between(least, most):
    """Returns what reads a number of the command line, in decimal digits."""

    def number(text):
        if not re.fullmatch("[0-9]{1,10}", text) or not least <= int(text) <= most:
            raise argparse.ArgumentTypeError(f"{text} is no number from {least} to {most}")
        return int(text)

    return number


def asked_of(words):
    """Returns what a command line asks for; ends the program where it is faulty."""
    parser = argparse.ArgumentParser(prog=NAME, description="Prepares a recording from the air for bml_replay. Tested, and not proved.")
    commands = parser.add_subparsers(dest="command", required=True, metavar="list | unpack")
    lists = commands.add_parser("list", help="prints what is in a recording", description="Prints the services, components and modules of a recording.")
    lists.add_argument("source", metavar="IN")
    lists.add_argument("--service", type=number_between(1, 65_535), metavar="N", help="tells what a replay of service N needs, and not of the first")
    unpacks = commands.add_parser("unpack", help="writes it for bml_replay", description="Writes a recording in packets of 188 bytes, with its modules unpacked.")
    unpacks.add_argument("source", metavar="IN")
    unpacks.add_argument("target", metavar="OUT")
    unpacks.add_argument("--data-only", action="store_true", help="leaves out pictures and sound")
    which = unpacks.add_mutually_exclusive_group()
    which.add_argument("--service", type=number_between(1, 65_535), metavar="N", help="keeps the data of service N alone")
    which.add_argument("--data-pid", type=number_between(16, 8_190), metavar="N", help="keeps the packets of PID N alone")
    asked = parser.parse_args(words)
    if asked.command == "unpack" and not asked.data_only and (asked.service or asked.data_pid):
        unpacks.error("--service and --data-pid go with --data-only")
    return asked


def main(words):
    asked = asked_of(words)
    try:
        if asked.command == "list":
            list_modules(asked.source, asked.service)
        else:
            unpack(asked.source, asked.target, asked.data_only, asked.service, asked.data_pid)
        sys.stdout.flush()
    except Fault as fault:
        print(f"{NAME}: {asked.source}: {fault}", file=sys.stderr)
        return 1
    except OSError as fault:
        print(f"{NAME}: {said_by_system(fault)}", file=sys.stderr)
        return 1
    except KeyboardInterrupt:
        print(f"{NAME}: interrupted", file=sys.stderr)
        return 1
    return 0


if __name__ == "__main__":
    sys.exit(main(sys.argv[1:]))
