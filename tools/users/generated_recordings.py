"""Recordings for tests: small ones from sections, others in two forms, with compressed modules and without compression, and what a stream
holds by the rules of docs/FORMATS.md.

Of the latter each is made from a plan, which a number settles: tables, one or two components, carousels that change, rounds of their modules, and
what of them is damaged or lost. Both forms have the same DIIs and modules in the same order, and the same of them comes to harm. In the
form without compression a module that can't be unpacked, or that never comes whole, is the compressed one.
"""

import random
import zlib
from typing import NamedTuple

from recordings import Assembler, pid_of
from transport import (
    COMPRESSION_TYPE,
    DATA_STREAM,
    PACKET_SIZE,
    PAYLOAD_SIZE,
    TYPE_DESCRIPTOR,
    ElementaryStream,
    Module,
    compression_of,
    compression_type,
    ddb_section,
    descriptor,
    dii_section,
    is_intact,
    packet,
    packets_of_sections,
    pat_section,
    payload_of,
    pmt_section,
    read_ddb,
    read_dii,
    read_pat,
    read_pmt,
)

SERVICE = 101
MAP_PID = 496
PID = 512
DATA_PIDS = [PID, 513]
OTHER_PID = 300
PAGE = b"""<bml><head><title>t</title></head><body style="width:960px;height:540px"><p>%d</p></body></bml>"""


TEXT = b"sun and rain " * 60


def compressed(number, data=TEXT, version=1, size=None, info=b"", packed=None):
    """Returns a compressed module's entry and the bytes that are sent."""
    sent = zlib.compress(data) if packed is None else packed
    return Module(number, version, len(sent), info + compression_type(len(data) if size is None else size)), sent


def blocks(module, sent, block_size=100, download=1):
    """Returns the sections of a module's blocks, each of so many bytes of what is sent."""
    places = range(0, len(sent), block_size)
    return [ddb_section(download, module.number, module.version, at // block_size, sent[at : at + block_size]) for at in places]


def tables(streams=(ElementaryStream(DATA_STREAM, PID, 0x40),), service=1):
    return [(0, pat_section([(service, MAP_PID)])), (MAP_PID, pmt_section(service, list(streams)))]


def on(pid, sections):
    return [(pid, section) for section in sections]


def packets_of(sections):
    """Returns the packets of sections, each with its PID, that begin in packets of their own."""
    data, count = packets_of_sections(sections)
    return [data[at * PACKET_SIZE : (at + 1) * PACKET_SIZE] for at in range(count)]


def sections_on(pid, stream):
    """Returns the sections of a PID in a stream of packets of 188 bytes."""
    assembler, sections = Assembler(), []
    for at in range(0, len(stream), PACKET_SIZE):
        if pid_of(stream[at : at + PACKET_SIZE]) == pid:
            sections += assembler.push(stream[at : at + PACKET_SIZE])
    return sections


def counters_on(pid, stream):
    packets = [stream[at : at + PACKET_SIZE] for at in range(0, len(stream), PACKET_SIZE)]
    return [packet[3] % 16 for packet in packets if pid_of(packet) == pid and payload_of(packet) is not None]


class Content(NamedTuple):
    """A module in one version: its number, its bytes, those that are sent where it is compressed, and its info then."""

    number: int
    version: int
    plain: bytes
    sent: bytes
    plain_info: bytes
    sent_info: bytes
    can_unpack: bool
    is_weak_at_end: bool  # whether its last block or its first comes to harm

    def bytes_of(self, compressed):
        return self.sent if compressed else self.plain

    def entry(self, compressed):
        return Module(self.number, self.version, len(self.bytes_of(compressed)), self.sent_info if compressed else self.plain_info)


class Scene(NamedTuple):
    """A carousel of a component, as one DII announces it."""

    component: int
    transaction: int
    download: int
    block_size: int
    contents: tuple

    def identity(self, content):
        return self.download, self.block_size, content


class Event(NamedTuple):
    """What comes next: the DII of a scene, the blocks of one of its modules, or a PMT with components."""

    kind: str
    scene: Scene | None = None
    content: Content | None = None
    harm: str = ""
    components: tuple = ()


def sections_of(scene, content, compressed):
    """Returns the sections of a module's blocks."""
    return blocks(content, content.bytes_of(compressed), scene.block_size, scene.download)


class Plan:
    """What a recording with this number has, event by event."""

    def __init__(self, number):
        self.number = number
        self.dice = random.Random(number)
        self.components = tuple(range(self.dice.choice([1, 2])))
        self.is_dense = self.dice.random() < 0.4
        self.versions = {}
        self.events = [Event("map", components=self.components)]
        for component in self.components:
            self.versions[component] = self.dice.randrange(256)
        scenes = {component: self.scene(component, None) for component in self.components}
        for _ in range(self.dice.randrange(1, 5)):
            self.rounds(scenes)
            if self.dice.random() < 0.2 and len(self.components) > 1:
                self.events.append(Event("map", components=self.components[:1]))
                self.rounds(scenes)
                self.events.append(Event("map", components=self.components))
            scenes = {component: self.scene(component, scene) if self.dice.random() < 0.7 else scene for component, scene in scenes.items()}
        self.rounds(scenes)
        self.fates = self.find_fates()

    def content(self, component, number):
        """A module: compressed or not, and such as don't unpack."""
        dice = self.dice
        self.versions[component] = version = (self.versions[component] + 1) % 256
        text = bytes(dice.choices(b"abcdefgh", k=dice.choice([1, 50, 400, 3000]))) * dice.randrange(1, 4)
        if number == 0:
            text = b"Content-Type: text/X-arib-bml\r\nContent-Location: startup.bml\r\n\r\n" + PAGE % dice.randrange(10**6)
        info = descriptor(TYPE_DESCRIPTOR, b"text/plain") if number and dice.random() < 0.5 else b""
        kind = dice.choice(["plain", "zlib", "zlib", "zlib", "broken", "cut", "short", "long", "method", "large"] if number else ["plain", "zlib"])
        if kind == "plain":
            return Content(number, version, text, text, info, info, True, dice.random() < 0.5)
        sent, size, method = zlib.compress(text, dice.randrange(10)), len(text), 0
        if kind == "broken":
            sent = sent[:-1] + bytes([sent[-1] ^ 1])
        elif kind == "cut":
            sent = sent[:-5]
        elif kind in ("short", "long"):
            size += 1 if kind == "long" else -1
        elif kind == "large":
            size = (1 << 20) + 1
        method = 1 if kind == "method" else 0
        other = descriptor(0xC0, b"other")
        sent_info = info + descriptor(COMPRESSION_TYPE, bytes([method]) + size.to_bytes(4, "big")) + other
        return Content(number, version, text, sent, info + other, sent_info, kind == "zlib", dice.random() < 0.5)

    def scene(self, component, before):
        """The next carousel of a component: some modules stay, some have another version, some go and come."""
        dice = self.dice
        stays = {content.number: content for content in before.contents} if before else {}
        contents = []
        for number in sorted(dice.sample(range(6), dice.randrange(1, 6)), key=lambda number: dice.random()):
            keeps = number in stays and dice.random() < 0.6
            contents.append(stays[number] if keeps else self.content(component, number))
        if before is not None and dice.random() < 0.9:
            return before._replace(transaction=dice.randrange(1 << 32), contents=tuple(contents))
        return Scene(component, dice.randrange(1 << 32), dice.randrange(1 << 32), dice.choice([60, 200, 1000, 4000]), tuple(contents))

    def rounds(self, scenes):
        """Some rounds of carousels: module by module, where those of two components come in turn."""
        for _ in range(self.dice.randrange(1, 4)):
            groups = [[Event("dii", scene, harm=self.harm(0.1))] for scene in scenes.values()]
            for scene in scenes.values():
                groups += [[Event("blocks", scene, content, self.harm(0.3))] for content in scene.contents]
            if self.dice.random() < 0.5:
                self.dice.shuffle(groups)
            self.events += [event for group in groups for event in group]

    def harm(self, chance):
        if self.dice.random() >= chance:
            return ""
        return "flip" if self.is_dense else self.dice.choice(["flip", "loss"])

    def find_fates(self):
        """Returns for each event whether what it sends is the compressed form, also in the form without compression: walks through the
        events as a receiver would, and notes of each module, from the DII that announces it up to one that doesn't, whether it comes
        whole."""
        spans, in_force, whole = [{} for _ in self.events], {}, set()
        for place, event in enumerate(self.events):
            if event.kind == "map":
                in_force = {component: in_force.get(component, {}) for component in event.components}
                continue
            scene = event.scene
            if scene.component not in in_force:
                continue
            now = in_force[scene.component]
            announced = {scene.identity(content): now.get(scene.identity(content), (place, content)) for content in scene.contents}
            if event.kind == "dii":
                spans[place] = announced
                if not event.harm:
                    in_force[scene.component] = announced
            elif scene.identity(event.content) in now:
                spans[place] = now
                if not event.harm:
                    whole.add(now[scene.identity(event.content)])
        return [{identity for identity, span in spans_there.items() if span not in whole} for spans_there in spans]

    def is_compressed(self, place, scene, content):
        """Whether an event's module is the compressed one in the form without compression."""
        return not content.can_unpack or scene.identity(content) in self.fates[place]

    def sections(self, place, plain):
        """Returns the PID of an event's sections, the sections, and the places of those that come to harm."""
        event = self.events[place]
        if event.kind == "map":
            streams = [ElementaryStream(DATA_STREAM, DATA_PIDS[component], 0x40 + component, 7) for component in event.components]
            return MAP_PID, [pmt_section(SERVICE, streams)], []
        scene = event.scene
        if event.kind == "dii":
            entries = [content.entry(not plain or self.is_compressed(place, scene, content)) for content in scene.contents]
            sections = [dii_section(scene.transaction, scene.download, scene.block_size, entries)]
        else:
            sections = sections_of(scene, event.content, not plain or self.is_compressed(place, scene, event.content))
        weak = len(sections) - 1 if event.content and event.content.is_weak_at_end else 0
        return DATA_PIDS[scene.component], sections, [weak] if event.harm else []


class Sender:
    """Makes the packets of a recording, with others between them."""

    def __init__(self, dice):
        self.dice = dice
        self.packets = []
        self.counters = {}

    def counter(self, pid):
        self.counters[pid] = counter = (self.counters.get(pid, 6) + 1) % 16
        return counter

    def between(self, pid):
        """Sends what has no bytes of a section: a packet of another PID, one without payload, a scrambled or a repeated one."""
        kind = self.dice.choice(["other"] * 8 + ["empty", "scrambled", "repeated"])
        if kind == "other":
            self.packets.append(packet(OTHER_PID, self.counter(OTHER_PID), False, self.dice.randbytes(PAYLOAD_SIZE)))
        elif kind == "empty":
            self.packets.append(bytes([0x47, pid >> 8, pid & 255, 0x20 | self.counters.get(pid, 0), 183, 0]) + b"\xff" * 182)
        elif kind == "scrambled":
            one = packet(pid, self.dice.randrange(16), False, self.dice.randbytes(PAYLOAD_SIZE))
            self.packets.append(one[:3] + bytes([one[3] | 0x80]) + one[4:])
        elif self.packets and pid_of(self.packets[-1]) == pid and self.packets[-1][3] & 0xC0 == 0:
            self.packets.append(self.packets[-1])

    def send(self, pid, payloads, lost):
        """Sends payloads, each with whether a unit starts in it; those at the lost places take a counter, and don't come."""
        for place, (starts_unit, payload) in enumerate(payloads):
            counter = self.counter(pid)
            if place not in lost:
                self.packets.append(self.one(pid, counter, starts_unit, payload))
            if self.dice.random() < 0.3:
                self.between(pid)

    def one(self, pid, counter, starts_unit, payload):
        """Returns a packet, where a payload that leaves room has an adaptation field before it now and then."""
        room = PAYLOAD_SIZE - len(payload)
        if room < 2 or self.dice.random() < 0.5:
            return packet(pid, counter, starts_unit, payload)
        made = packet(pid, counter, starts_unit, b"")
        return made[:3] + bytes([0x30 | counter, room - 1, 0]) + b"\xff" * (room - 2) + payload


def payloads_apart(sections):
    """Returns the payloads of sections that begin in packets of their own, and for each section the places of its payloads."""
    payloads, places = [], []
    for section in sections:
        data = b"\x00" + section
        begin = len(payloads)
        payloads += [(at == 0, data[at : at + PAYLOAD_SIZE]) for at in range(0, len(data), PAYLOAD_SIZE)]
        places.append(range(begin, len(payloads)))
    return payloads, places


def payloads_joined(sections):
    """Returns the payloads of sections laid end to end."""
    starts, data = set(), b""
    for section in sections:
        starts.add(len(data))
        data += section
    payloads, at = [], 0
    while at < len(data):
        marks = [start - at for start in starts if at <= start < at + PAYLOAD_SIZE - 1]
        taken = data[at : at + PAYLOAD_SIZE - (1 if marks else 0)]
        payloads.append((bool(marks), bytes([min(marks)]) + taken if marks else taken))
        at += len(taken)
    return payloads


def packets_of_plan(plan, plain):
    """Returns the packets of a plan's recording in one of its forms."""
    sender = Sender(random.Random(2 * plan.number + plain))
    sender.send(0, payloads_apart([pat_section([(0, 16), (SERVICE, MAP_PID)])])[0], [])
    waiting = {}

    def flush():
        for pid, sections in waiting.items():
            sender.send(pid, payloads_joined(sections), [])
        waiting.clear()

    for place, event in enumerate(plan.events):
        pid, sections, weak = plan.sections(place, plain)
        lost = []
        payloads, places = payloads_apart(sections)
        if event.harm == "flip":
            sections = [flipped(section, sender.dice) if at in weak else section for at, section in enumerate(sections)]
            payloads, _ = payloads_apart(sections)
        elif event.harm == "loss":
            lost = [sender.dice.choice(places[at]) for at in weak]
        if not plan.is_dense or event.kind == "map":
            flush()
            sender.send(pid, payloads, lost)
        else:
            # (two components' packets come in turn, so only those of one PID are joined)
            if pid not in waiting or sender.dice.random() < 0.3:
                flush()
            waiting.setdefault(pid, []).extend(sections)
    flush()
    # (after the last packet there may be noise, so that it isn't taken for one)
    sender.packets.append(packet(OTHER_PID, sender.counter(OTHER_PID), False, b"noise"))
    return sender.packets


def flipped(section, dice):
    """Returns a section with a bit flipped after its header."""
    at = dice.randrange(8, len(section))
    return section[:at] + bytes([section[at] ^ 1 << dice.randrange(8)]) + section[at + 1 :]


def framed(packets, size, dice):
    """Returns packets in a file of packets of that size, with noise in front and at the end."""
    noise = dice.randbytes(dice.choice([0, 0, 1, 100, 1000]))
    front, behind = {188: (0, 0), 192: (4, 0), 204: (0, 16)}[size]
    end = dice.randbytes(dice.choice([0, 0, 100])) if dice.random() < 0.3 and size != 188 else b""
    return noise + b"".join(dice.randbytes(front) + one + dice.randbytes(behind) for one in packets) + end


class Model:
    """What a receiver of the first service prints of modules, with the bytes of each: packet by packet, by docs/FORMATS.md."""

    def __init__(self):
        self.lines = []
        self.service = None
        self.map = {}
        self.assemblers = {0: Assembler()}
        self.carousels = {}

    def read(self, stream):
        for at in range(0, len(stream), PACKET_SIZE):
            one = stream[at : at + PACKET_SIZE]
            if pid_of(one) in self.assemblers:
                for section in self.assemblers[pid_of(one)].push(one):
                    if is_intact(section):
                        self.turn(pid_of(one), section)
        return self.lines

    def turn(self, pid, section):
        if pid == 0:
            services = [found for found in read_pat(section) or [] if found[0]]
            self.service = services[0] if services else self.service
        elif self.service and pid == self.service[1]:
            found = read_pmt(section)
            if found and found[0] == self.service[0]:
                self.take_map({stream.component: stream.pid for stream in found[1] if stream.kind == DATA_STREAM})
        else:
            for component in [tag for tag, its_pid in self.map.items() if its_pid == pid]:
                self.message(component, section)
        wanted = {0, *self.map.values(), *(self.service or (0, 0))[1:]}
        self.assemblers = {pid: self.assemblers.get(pid) or Assembler() for pid in wanted}

    def take_map(self, new):
        for tag in sorted(self.map):
            if new.get(tag) != self.map[tag]:
                self.lines += [("gone", tag, number) for number in sorted(self.carousels.pop(tag)["entries"])]
        self.map = new
        for tag in new:
            self.carousels.setdefault(tag, {"dii": None, "entries": {}})

    def message(self, tag, section):
        dii, ddb, carousel = read_dii(section), read_ddb(section), self.carousels[tag]
        if dii and (carousel["dii"] is None or dii.transaction != carousel["dii"].transaction):
            self.announce(tag, dii, carousel)
        entry = carousel["entries"].get(ddb.module) if ddb else None
        if not entry or entry["skip"] or (ddb.download, ddb.version) != (carousel["dii"].download, entry["module"].version):
            return
        size, block_size = entry["module"].size, carousel["dii"].block_size
        count = -(-size // block_size)
        if ddb.number < count and len(ddb.block) == min(block_size, size - ddb.number * block_size) and ddb.number not in entry["blocks"]:
            entry["blocks"][ddb.number] = ddb.block
            if len(entry["blocks"]) == count:
                data = b"".join(entry["blocks"][number] for number in range(count))
                self.lines.append(("module", tag, ddb.module, entry["module"].version, data))

    def announce(self, tag, dii, carousel):
        before, entries, total = carousel["entries"], {}, 0
        for module in dii.modules:
            if module.number not in entries:
                skip = "compressed" if compression_of(module.info) else ""
                if not skip and (module.size > 1 << 20 or module.size > dii.block_size << 16 or total + module.size > 1 << 25):
                    skip = "large"
                total += 0 if skip else module.size
                key = dii.download, dii.block_size, module, skip
                entries[module.number] = {"key": key, "module": module, "skip": skip, "blocks": {}}
        for number in sorted({*before, *entries}):
            if number not in entries:
                self.lines.append(("gone", tag, number))
            elif number in before and before[number]["key"] == entries[number]["key"]:
                entries[number] = before[number]
            elif entries[number]["skip"]:
                self.lines.append(("skip", tag, number, entries[number]["skip"]))
            elif entries[number]["module"].size == 0:
                self.lines.append(("module", tag, number, entries[number]["module"].version, b""))
        carousel["dii"], carousel["entries"] = dii, entries
