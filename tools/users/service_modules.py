"""The modules that a receiver of one service acquires, with their bytes: by the rules of docs/FORMATS.md, as bml_replay acquires them, but that
compressed modules are unpacked, as prepare_recording.py unpacks them. Tested, and not proved."""

from typing import NamedTuple

from carousels import (
    MOST_BLOCKS,
    MOST_CAROUSEL_BYTES,
    MOST_MODULE_BYTES,
    BadCompression,
    KeptModule,
    block_count,
    entries_of,
    faults_of,
    unpacked,
)
from recordings import PAT_PID, Assembler
from transport import DATA_STREAM, Module, compression_of, is_intact, read_ddb, read_dii, read_pat, read_pmt

MOST_COMPONENTS = 16
# The component that a PID of data is where no table is read.
SINGLE_COMPONENT = 0x40


class Arrival(NamedTuple):
    """A module that is whole: its component, its entry in the DII, its bytes, unpacked where it was compressed, the number of the packet with
    which it was whole, counted from 1, and why it stays as it came, where it is compressed and doesn't unpack."""

    component: int
    module: Module
    data: bytes
    packet: int
    fault: str | None = None

    def is_unpacked(self):
        return self.fault is None and compression_of(self.module.info) is not None


class Skip(NamedTuple):
    """A module that isn't acquired: its component, its entry in the DII, the number of the packet that announced it, and why."""

    component: int
    module: Module
    packet: int
    fault: str


def component_map(streams):
    """Returns the PID of each component of data in a PMT by its tag: of the first 16 with distinct tags and PIDs."""
    pids = {}
    for stream in streams:
        is_new = stream.component not in pids and stream.pid not in pids.values()
        if stream.kind == DATA_STREAM and stream.component is not None and is_new and len(pids) < MOST_COMPONENTS:
            pids[stream.component] = stream.pid
    return pids


def skips_of(dii):
    """Returns why modules of a DII aren't acquired, by their numbers."""
    skips, total = {number: fault for number, fault in faults_of(dii).items() if fault}, 0
    for number, module in entries_of(dii).items():
        if compression_of(module.info) is not None:
            continue
        if module.size > MOST_MODULE_BYTES or block_count(module.size, dii.block_size) > MOST_BLOCKS:
            skips[number] = f"it has more than {MOST_MODULE_BYTES} bytes or {MOST_BLOCKS} blocks"
        elif total + module.size > MOST_CAROUSEL_BYTES:
            skips[number] = f"it and those announced before it have more than {MOST_CAROUSEL_BYTES} bytes"
        else:
            total += module.size
    return skips


class Carousel:
    """The modules of a component: what is announced, and what came of it."""

    def __init__(self):
        self.section = self.transaction = None  # of the DII in force
        self.entries = {}  # what is announced, by number: the modules with their bytes as far as they came
        self.skips = {}  # why some of them aren't acquired

    def take(self, section):
        """Takes a section; returns the modules that are whole with it, and those that are announced anew and aren't acquired."""
        if section == self.section or not is_intact(section):
            return [], []
        dii = read_dii(section)
        if dii is not None:
            return self.announce(section, dii) if dii.transaction != self.transaction else ([], [])
        ddb = read_ddb(section)
        entry = None if ddb is None else self.entries.get(ddb.module)
        if entry is None or ddb.module in self.skips or not entry.takes(ddb):
            return [], []
        entry.keep(ddb)
        return [entry] if entry.is_whole() else [], []

    def announce(self, section, dii):
        """Takes another DII: what is announced as before stays as it is."""
        before, skipped = self.entries, self.skips
        self.section, self.transaction, self.skips, self.entries = section, dii.transaction, skips_of(dii), {}
        new = []
        for number, module in sorted(entries_of(dii).items()):
            made, old = KeptModule(dii, module), before.get(number)
            stays = old is not None and old.key == made.key and (number in skipped) == (number in self.skips)
            self.entries[number] = old if stays else made
            new += [] if stays else [made]
        whole = [entry for entry in new if entry.is_whole() and entry.module.number not in self.skips]
        return whole, [entry for entry in new if entry.module.number in self.skips]


class ServiceModules:
    """Follows the tables of a service, and hands each module of its components that is whole, or isn't acquired, to what takes them.

    Without a wish it is the first service; where a PID of data is asked for, no table is read.
    """

    def __init__(self, take_arrival, take_skip, service=None, data_pid=None):
        self.take_arrival, self.take_skip = take_arrival, take_skip
        self.asked = service
        self.reads_tables = data_pid is None
        self.service = None  # its number, and the PID of its PMT
        self.map = {} if data_pid is None else {SINGLE_COMPONENT: data_pid}
        self.carousels = {tag: Carousel() for tag in self.map}
        self.assemblers = {}
        self.follow()

    def follow(self):
        """Keeps the assemblers of the PIDs that are wanted, and begins those that are new."""
        tables = [PAT_PID, *([self.service[1]] if self.service else [])] if self.reads_tables else []
        self.wanted = {*tables, *self.map.values()}
        self.assemblers = {pid: self.assemblers.get(pid) or Assembler() for pid in self.wanted}

    def take(self, pid, packet, number):
        """Takes a packet of a wanted PID, whose number is counted from 1."""
        for section in self.assemblers[pid].push(packet):
            if pid in self.wanted:
                self.take_section(pid, section, number)

    def take_section(self, pid, section, number):
        if self.reads_tables and pid == PAT_PID:
            self.take_programs(section)
        elif self.reads_tables and self.service and pid == self.service[1]:
            self.take_streams(section)
        else:
            for tag in [tag for tag, its_pid in self.map.items() if its_pid == pid]:
                self.take_message(tag, section, number)

    def take_programs(self, section):
        """Takes a PAT: of two programs with one number the first counts."""
        programs = read_pat(section) if is_intact(section) else None
        for service in programs or []:
            if service[0] == self.asked or (self.asked is None and service[0]):
                self.service = service
                break
        self.follow()

    def take_streams(self, section):
        """Takes a PMT: a component that left the map or got another PID begins anew."""
        found = read_pmt(section) if is_intact(section) else None
        if found is None or found[0] != self.service[0]:
            return
        before, self.map = self.map, component_map(found[1])
        self.carousels = {tag: self.carousels[tag] if before.get(tag) == pid else Carousel() for tag, pid in self.map.items()}
        self.follow()

    def take_message(self, tag, section, number):
        whole, skipped = self.carousels[tag].take(section)
        for entry in whole:
            self.take_arrival(arrival_of(tag, entry, number))
            entry.content = None
        for entry in skipped:
            fault = self.carousels[tag].skips[entry.module.number]
            self.take_skip(Skip(tag, entry.module, number, fault))


def arrival_of(tag, entry, number):
    """Returns a module that is whole, unpacked where that is possible."""
    data, compression = bytes(entry.content or b""), compression_of(entry.module.info)
    if compression is not None:
        try:
            data = unpacked(data, compression.size)
        except BadCompression as fault:
            return Arrival(tag, entry.module, data, number, str(fault))
    return Arrival(tag, entry.module, data, number)
