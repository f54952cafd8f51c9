"""The modules of the data carousels in a recording: which blocks of them came, and a stream in which they are unpacked.

How a carousel with compressed modules is replaced:

- On its PID the packets go out as they came, up to the first DII that announces a module to unpack. From there on each intact section of
  the PID stands in packets of its own, with running counters, at the place of the packet that completed it.
- A DII announces each module that was unpacked with its size then, without its CompressionType, under a transactionId of its own; all
  else in it stays. Whether a module will come whole isn't known yet when its DII is written: so until then null packets keep the place, which are
  written over. Each of them says where the one before is, so that no list of them is kept.
- The blocks of a module that is unpacked stand at the place of the packet with which it was whole, one after the other, and again each time
  that all of its blocks came again. Those that came are left out.
- A module that stays compressed keeps its entry and its blocks: those that were held when it was given up stand at that place.
"""

import struct
import zlib

from recordings import SYNC, Assembler
from transport import (
    MESSAGE_DII,
    MOST_BLOCK_BYTES,
    PACKET_SIZE,
    PAYLOAD_SIZE,
    ZLIB,
    compression_of,
    counters_from,
    ddb_message,
    dii_message,
    is_intact,
    packet,
    packets_taken,
    payload_of,
    read_ddb,
    read_dii,
    section_packets,
    with_header,
    without_compression,
)

# The limits of bml_replay: of a module, of the modules of a component together, and of a module's blocks.
MOST_MODULE_BYTES = 1 << 20
MOST_CAROUSEL_BYTES = 1 << 25
MOST_BLOCKS = 1 << 16
# So many DIIs of a carousel may wait for a module; then it is given up.
MOST_OPEN = 256
# So many modules of a PID are listed.
MOST_LISTED = 100_000
NULL_PID = 0x1FFF
NULL_PACKET = packet(NULL_PID, 0, False, b"")
PCR_FLAG = 0x10
NO_PLACE = -1


def block_count(size, block_size):
    """Returns how many blocks a module has, which are more than there can be where blocks have no bytes."""
    if block_size == 0:
        return MOST_BLOCKS + 1 if size else 0
    return -(-size // block_size)


def entries_of(dii):
    """Returns the modules that a DII announces: of two with one number the first."""
    entries = {}
    for module in dii.modules:
        entries.setdefault(module.number, module)
    return entries


class Acquisition:
    """A module as a DII announces it, and which of its blocks came: of two for one place the first counts."""

    def __init__(self, dii, module):
        self.key = dii.download, dii.block_size, module
        self.module = module
        self.count = block_count(module.size, dii.block_size)
        self.begin_round()

    def begin_round(self):
        """Forgets which blocks came."""
        self.came, self.lacking = None, self.count

    def is_whole(self):
        return self.lacking == 0

    def takes(self, ddb):
        """Takes note of a DDB, and says whether it is a block that was lacking."""
        download, block_size, module = self.key
        if (ddb.download, ddb.version) != (download, module.version) or self.is_whole():
            return False
        self.came = self.came or bytearray(min(self.count, MOST_BLOCKS))
        length = min(block_size, module.size - ddb.number * block_size)
        if ddb.number >= self.count or len(ddb.block) != length or self.came[ddb.number]:
            return False
        self.came[ddb.number] = 1
        self.lacking -= 1
        return True


class Listing:
    """All modules that were announced on a PID of data, in the order in which they were, and which of them came whole; and how many sections came
    that announce, that are blocks, that are others, and that are damaged."""

    def __init__(self):
        self.whole = {}  # by modules as they were announced
        self.diis = self.blocks = self.others = self.damaged = 0
        self.begin_anew()

    def begin_anew(self):
        self.transaction = self.dii = None
        self.acquisitions = {}

    def take_section(self, section, is_whole):
        """Takes a section, and whether it is intact."""
        if section == self.dii:
            self.diis += 1
            return
        if not is_whole:
            self.damaged += 1
            return
        dii = read_dii(section)
        ddb = read_ddb(section) if dii is None else None
        self.diis += dii is not None
        self.blocks += ddb is not None
        self.others += dii is None and ddb is None
        if dii is not None and dii.transaction != self.transaction:
            self.transaction, self.dii = dii.transaction, section
            self.announce(dii)
        elif ddb is not None and ddb.module in self.acquisitions:
            acquisition = self.acquisitions[ddb.module]
            if acquisition.takes(ddb) and acquisition.is_whole():
                self.note(acquisition.module, True)

    def note(self, module, is_whole):
        """Lists a module, where there is room."""
        if module in self.whole or len(self.whole) < MOST_LISTED:
            self.whole[module] = self.whole.get(module) or is_whole

    def announce(self, dii):
        before, self.acquisitions = self.acquisitions, {}
        for number, module in entries_of(dii).items():
            made = Acquisition(dii, module)
            old = before.get(number)
            kept = old if old is not None and old.key == made.key else made
            self.acquisitions[number] = kept
            self.note(module, kept.is_whole())


class ListedComponent:
    """A PID of data whose modules are listed."""

    def __init__(self):
        self.listing = Listing()
        self.end()

    def begin_anew(self):
        self.listing.begin_anew()

    def end(self):
        self.assembler = Assembler()
        self.begin_anew()

    def take(self, packet_bytes):
        for section in self.assembler.push(packet_bytes):
            self.listing.take_section(section, section == self.listing.dii or is_intact(section))


class Output:
    """A file of packets that are written one after the other, and some of them once more."""

    def __init__(self, file):
        self.file = file
        self.place = 0

    def write(self, data):
        """Writes packets, and returns their place."""
        place = self.place
        self.file.write(data)
        self.place += len(data)
        return place

    def write_over(self, place, data):
        self.file.seek(place)
        self.file.write(data)
        self.file.seek(self.place)

    def read(self, place, count):
        self.file.seek(place)
        data = self.file.read(count)
        self.file.seek(self.place)
        return data


class Channel:
    """The packets of one PID in the output: as they came, or else sections in packets of their own."""

    def __init__(self, pid, output):
        self.pid = pid
        self.output = output
        self.sends = False  # whether it takes sections
        self.counter = None  # that of the next packet
        # While packets go out as they came: the places of those that hold a section that isn't whole yet, the first of them, and
        # how many bytes of it are that section's.
        self.begun = [], b"", 0

    def pass_on(self, packet_bytes, assembler):
        """Writes a packet that the assembler took, as it came."""
        place = self.output.write(packet_bytes)
        payload, piece = payload_of(packet_bytes), assembler.piece
        if assembler.last is not packet_bytes or payload is None:
            return
        self.counter = (packet_bytes[3] + 1) % 16
        if not piece or len(piece) <= len(payload):
            self.begun = [place] if piece else [], packet_bytes, len(piece or b"")
        else:
            self.begun[0].append(place)

    def start(self, packet_bytes):
        """Begins to take sections, in place of this packet: what came of a section that isn't whole yet is taken away."""
        places, first, length = self.begun
        self.counter = packet_bytes[3] % 16 if self.counter is None else self.counter
        if places:
            self.output.write_over(places[0], first[: PACKET_SIZE - length] + b"\xff" * length)
            self.counter = (first[3] + 1) % 16
        for place in places[1:]:
            self.output.write_over(place, NULL_PACKET)
        self.sends = True

    def counters(self, count):
        counters = counters_from(self.counter, count)
        self.counter = (self.counter + count) % 16
        return counters

    def send(self, section):
        """Writes a section, where the channel takes sections."""
        if self.sends:
            self.output.write(b"".join(section_packets(self.pid, self.counters(packets_taken(section)), section)))

    def keep_clock(self, packet_bytes):
        """Writes a packet of which nothing is read as it came, and of another one the clock reference, where it has one."""
        if payload_of(packet_bytes) is None:
            self.output.write(packet_bytes)
        elif packet_bytes[3] & 0x20 and packet_bytes[4] and packet_bytes[5] & PCR_FLAG:
            header = struct.pack(">BHB", SYNC[0], self.pid, 0x20 | (self.counter - 1) % 16)
            field = packet_bytes[5 : 5 + packet_bytes[4]]
            self.output.write(header + bytes([PAYLOAD_SIZE - 1]) + field.ljust(PAYLOAD_SIZE - 1, b"\xff"))

    def reserve(self, count, before):
        """Keeps the place of so many packets, with a note of the place kept before, and returns it."""
        note = struct.pack(">qB", before, self.counters(count)[0])
        return self.output.write(packet(NULL_PID, 0, False, note) + NULL_PACKET * (count - 1))

    def fill(self, place, count, section):
        """Writes a section at a place that was kept, and returns the place kept before."""
        before, counter = struct.unpack(">qB", self.output.read(place + 4, 9))
        self.output.write_over(place, b"".join(section_packets(self.pid, counters_from(counter, count), section)))
        return before


class KeptModule(Acquisition):
    """A module whose bytes are kept as they come."""

    def __init__(self, dii, module):
        super().__init__(dii, module)
        self.content = None  # what came of it

    def keep(self, ddb):
        """Keeps the bytes of a block that was taken."""
        if self.content is None:
            self.content = bytearray(self.module.size)
        at = ddb.number * self.key[1]
        self.content[at : at + len(ddb.block)] = ddb.block


class BadCompression(Exception):
    """Why a module can't be unpacked."""


def unpacked(data, size):
    """Returns what zlib made smaller, which has that size; raises BadCompression where it hasn't."""
    unpacker = zlib.decompressobj()
    try:
        found = unpacker.decompress(data, size + 1)
    except zlib.error as fault:
        raise BadCompression(f"it doesn't unpack: {fault}") from None
    if len(found) > size:
        raise BadCompression(f"it unpacks to more than the {size} bytes that are announced")
    if not unpacker.eof:
        raise BadCompression("what it unpacks to has no end")
    if len(found) < size:
        raise BadCompression(f"it unpacks to {len(found)} bytes, and {size} are announced")
    return found


class CompressedModule(KeptModule):
    """A module that is to be unpacked. It is open until it is unpacked or left as it came."""

    def __init__(self, dii, module):
        super().__init__(dii, module)
        self.size = compression_of(module.info).size
        self.header = b""  # of the section that carried its first block
        self.first = None  # the DDB in it, without its bytes
        self.is_open = True
        self.is_unpacked = False

    def take(self, ddb, header):
        """Takes a block, and says whether the module is whole with it."""
        if not self.takes(ddb):
            return False
        if self.is_open:
            if self.content is None:
                self.header, self.first = header, ddb._replace(block=b"")
            self.keep(ddb)
        return self.is_whole()

    def unpack(self):
        """Unpacks the module, or else returns why it can't be unpacked."""
        try:
            self.content = unpacked(self.content or b"", self.size)
        except BadCompression as fault:
            return str(fault)
        self.is_open, self.is_unpacked = False, True
        return None

    def sections(self):
        """Yields the sections of its blocks, unpacked or as far as they came."""
        size = min(self.key[1], MOST_BLOCK_BYTES) if self.is_unpacked else self.key[1]
        count = block_count(len(self.content or b""), size)
        for number in range(count):
            if self.is_unpacked or self.came[number]:
                block = bytes(self.content[number * size : (number + 1) * size])
                last = min(count - 1 - number // 256 * 256, 255)
                header = self.header[:6] + bytes([number % 256, last])
                yield with_header(header, ddb_message(self.first._replace(number=number, block=block)))


class Announcement:
    """A DII as it is written: at once, where all of its modules to unpack are settled, and else where places were kept for it."""

    def __init__(self, section, transaction, modules):
        self.came = section
        self.transaction = transaction
        self.modules = modules  # to unpack, by their numbers
        self.unsettled = list(modules.values())
        self.written = None  # the section that is written, once it is settled
        self.last_place = NO_PLACE

    def is_open(self):
        """Whether a module is open; one that isn't is never asked again."""
        while self.unsettled and not self.unsettled[-1].is_open:
            self.unsettled.pop()
        return bool(self.unsettled)

    def rewritten(self):
        """Returns the section that announces what was unpacked."""
        dii, modules, left = read_dii(self.came), [], dict(self.modules)
        if not self.modules and self.transaction == dii.transaction:
            return self.came
        for entry in dii.modules:
            # (of two entries with one number the first counts)
            module = left.pop(entry.number, None)
            if module is not None and module.is_unpacked:
                entry = entry._replace(size=module.size, info=without_compression(entry.info))
            modules.append(entry)
        is_cut_anew = any(module.is_unpacked for module in self.modules.values())
        block_size = min(dii.block_size, MOST_BLOCK_BYTES) if is_cut_anew else dii.block_size
        new = dii._replace(transaction=self.transaction, block_size=block_size, modules=modules)
        return with_header(self.came[:8], dii_message(new))

    def send(self, channel):
        """Writes the DII, or keeps a place for it."""
        if self.written is None:
            self.last_place = channel.reserve(packets_taken(self.came), self.last_place)
        else:
            channel.send(self.written)

    def settle(self, channel):
        """Writes the DII at all places that were kept for it."""
        self.written = self.rewritten()
        while self.last_place != NO_PLACE:
            self.last_place = channel.fill(self.last_place, packets_taken(self.came), self.written)


def own_transaction(transaction, in_force):
    """Returns another transactionId than this one and the one in force: another version, whose bits a section's header doesn't
    repeat."""
    changed = transaction ^ 1 << 29
    return changed if changed != in_force else transaction ^ 1 << 28


def fault_of(compression, size, block_size, room):
    """Returns why a compressed module can't be unpacked, where that shows before its blocks come."""
    if compression.method is None:
        return "its CompressionType is too short"
    if compression.method != ZLIB:
        return f"its CompressionType names the method {compression.method}, and not zlib"
    if size > MOST_MODULE_BYTES:
        return f"it has more than {MOST_MODULE_BYTES} bytes"
    if block_count(size, block_size) > MOST_BLOCKS:
        return f"it has more than {MOST_BLOCKS} blocks"
    if size > room:
        return f"it and those announced with it have more than {MOST_CAROUSEL_BYTES} bytes"
    return None


def faults_of(dii):
    """Returns for each compressed module of a DII why it can't be unpacked, or None where it may be. Room is kept for the others."""
    entries = entries_of(dii)
    compressions = {number: compression_of(module.info) for number, module in entries.items()}
    plain = [module.size for number, module in entries.items() if compressions[number] is None]
    room = MOST_CAROUSEL_BYTES - sum(size for size in plain if size <= MOST_MODULE_BYTES)
    faults = {}
    for number, compression in compressions.items():
        if compression is not None:
            size = max(entries[number].size, compression.size)
            faults[number] = fault_of(compression, size, min(dii.block_size, MOST_BLOCK_BYTES), room)
            room -= 0 if faults[number] else size
    return faults


class UnpackedComponent:
    """A PID of data, whose carousel is replaced from the first DII on that announces modules to unpack."""

    def __init__(self, pid, output, tell, listing):
        self.pid = pid
        self.tell = tell  # takes a line that says why a module stays compressed
        self.listing = listing  # of the modules as they came
        listing.begin_anew()
        self.assembler = Assembler()
        self.channel = Channel(pid, output)
        self.written_transaction = None  # of the DII in force in the output
        self.waiting = []  # the announcements that are open
        self.restart()

    def restart(self):
        self.transaction = self.dii = self.announcement = None  # the DII in force, as it came and as it is written
        self.modules = {}  # that are to be unpacked, by their numbers
        self.refused = {}  # that aren't, by what they are announced with

    def take(self, packet_bytes):
        sections = []
        for section in self.assembler.push(packet_bytes):
            is_whole = is_intact(section)
            self.listing.take_section(section, is_whole)
            sections += [section] if is_whole else []
        if not self.channel.sends and any(self.asks_to_unpack(section) for section in sections):
            self.channel.start(packet_bytes)
        for section in sections:
            self.take_section(section)
        if self.channel.sends:
            self.channel.keep_clock(packet_bytes)
        else:
            self.channel.pass_on(packet_bytes, self.assembler)

    def asks_to_unpack(self, section):
        """Whether a section is another DII than the one in force, with a module to unpack."""
        if section[0] != MESSAGE_DII[0] or section == self.dii:
            return False
        dii = read_dii(section)
        return dii is not None and dii.transaction != self.transaction and None in faults_of(dii).values()

    def take_section(self, section):
        dii = None if section == self.dii else read_dii(section)
        if dii is not None and dii.transaction != self.transaction:
            self.announce(section, dii)
        if section == self.dii or dii is not None:
            self.announcement.send(self.channel)
            return
        ddb = read_ddb(section)
        module = None if ddb is None else self.modules.get(ddb.module)
        if module is None or (ddb.download, ddb.version) != (module.key[0], module.module.version):
            self.channel.send(section)
        else:
            self.take_block(module, ddb, section)

    def take_block(self, module, ddb, section):
        """Takes a block of a module that is to be unpacked, of which nothing is written before it is settled."""
        if not (module.is_open or module.is_unpacked):
            self.channel.send(section)
        elif module.take(ddb, section[:8]):
            self.complete(module)
            self.settle()

    def complete(self, module):
        """Unpacks a module that is whole, and writes its blocks."""
        fault = module.unpack() if module.is_open else None
        if fault is not None:
            self.leave(module, fault)
            return
        module.begin_round()
        for section in module.sections():
            self.channel.send(section)

    def leave(self, module, fault):
        """Leaves a module compressed, and writes what came of it."""
        module.is_open = False
        self.say(module.module, fault)
        for section in module.sections():
            self.channel.send(section)
        module.content = None

    def say(self, module, fault):
        name = f"module {module.number:04x} version {module.version:02x} on PID {self.pid}"
        self.tell(f"{name} stays compressed: {fault}")

    def announce(self, section, dii):
        """Takes another DII: what is announced as before stays as it is, and what isn't is let go."""
        faults, before = faults_of(dii), self.modules
        keys = {number: (dii.download, dii.block_size, module) for number, module in entries_of(dii).items() if number in faults}
        self.refuse({key: faults[number] for number, key in keys.items() if faults[number] is not None})
        self.modules = {
            number: before[number] if number in before and before[number].key == key else CompressedModule(dii, key[2])
            for number, key in keys.items()
            if faults[number] is None
        }
        self.let_go([module for number, module in before.items() if self.modules.get(number) is not module])
        self.transaction, self.dii = dii.transaction, section
        self.announcement = Announcement(section, self.next_transaction(), self.modules)
        self.written_transaction = self.announcement.transaction
        self.waiting.append(self.announcement)
        for module in self.modules.values():
            if module.is_open and module.is_whole():
                self.complete(module)
        self.settle()

    def refuse(self, refused):
        """Says which modules of a DII can't be unpacked, where the DII before didn't announce them so."""
        for key, fault in refused.items():
            if key not in self.refused:
                self.say(key[2], fault)
        self.refused = refused

    def next_transaction(self):
        """Returns the transactionId under which the DII in force is written: its own where it is another DII than the one that came, or
        where the one before is written under that."""
        is_taken = self.channel.sends and self.transaction == self.written_transaction
        return own_transaction(self.transaction, self.written_transaction) if self.modules or is_taken else self.transaction

    def let_go(self, modules):
        """Leaves those of the modules that are open, and keeps no bytes of any."""
        for module in modules:
            if module.is_open:
                self.leave(module, "it never came whole")
            module.content = None

    def settle(self):
        """Writes the announcements that aren't open any more; where too many are, the modules of the first are given up."""
        if len(self.waiting) > MOST_OPEN:
            for module in self.waiting[0].modules.values():
                if module.is_open:
                    self.leave(module, f"it isn't whole after {MOST_OPEN} DIIs")
        for announcement in self.waiting:
            if not announcement.is_open():
                announcement.settle(self.channel)
        self.waiting = [announcement for announcement in self.waiting if announcement.is_open()]

    def end(self):
        self.let_go(list(self.modules.values()))
        self.settle()

    def begin_anew(self):
        self.end()
        self.listing.begin_anew()
        self.restart()
