"""What stands behind the lines of a run: the modules of its stream with their bytes, and by them the colours and the pictures of its display lists.

    recording = Recording("stream.ts", data_pid=256).read()
    follower = Follower(lines, recording)
    follower.look_at(place)  # of the display list whose line `show` is lines[place]

A module is held from its line `module` on, up to another one of it or its line `gone`. Each such line is found in the stream, in their
order; where one isn't there, it is another stream, and nothing is followed from there on. That a script locked a module isn't in the lines: then the page has the
module as it was, and what is drawn is what came. Tested, and not proved.
"""

import re
from bisect import bisect_right
from itertools import islice
from typing import NamedTuple

from arib_text import readable
from colours import FIXED, BadColours, read_colours, with_colours
from drawings import Look, unescaped
from entities import BadEntity, resources_of
from page_styles import address_of, styles_of
from pictures import BadPicture, picture_of
from recordings import PacketReader, pid_of
from service_modules import ServiceModules
from transport import compression_of, is_intact, read_pmt

SEARCHED_PIECES = 8  # of a stream, for its first clock reference
MOST_KEPT = 1 << 28  # bytes of modules of a stream
MOST_PICTURES = 100  # that are remembered
MOST_NAME = 64  # characters
FIRST_PID, NO_PID = 0x10, 0x1FFF  # a PCR_PID of a service that has clock references is in between
SECOND = 27_000_000  # steps of the clock
CLOCK_END = (1 << 33) * 300
MOST_STEP = 10 * SECOND
PATH = re.compile(rb"(?:arib-dc://[^/]*)?/([0-9A-Fa-f]{2})/([0-9A-Fa-f]{4})(?:/([^/]+))?")
SIBLING = re.compile(rb"\.\./([0-9A-Fa-f]{4})/([^/]+)")
WIDE = re.compile(rb"[\x8e\xa1-\xfe][\xa1-\xfe]")
SIZES = {"960x540": (960, 540), "720x480": (720, 480)}
RATIOS = {"16v9": 16 / 9, "4v3": 4 / 3}


class Path(NamedTuple):
    """A component, a module and a name, which is empty for the module itself."""

    component: int
    module: int
    name: bytes = b""


def is_name(data):
    return 0 < len(WIDE.sub(b"x", data)) <= MOST_NAME and b"/" not in data


def resolved(text, base):
    """Returns the path that a text names, seen from the path of a document, or None (docs/FORMATS.md, "Paths")."""
    found, sibling = PATH.fullmatch(text), SIBLING.fullmatch(text)
    if found:
        path = Path(int(found[1], 16), int(found[2], 16), found[3] or b"")
    elif base is None:
        return None
    elif sibling:
        path = Path(base.component, int(sibling[1], 16), sibling[2])
    else:
        path = base._replace(name=text)
    return path if is_name(path.name) or (found and not path.name) else None


class Clock:
    """Times in a stream, by its clock references (ISO/IEC 13818-1, 2.4.3.5), which are counted from the first of them."""

    def __init__(self):
        self.packets, self.times, self.last, self.pid = [], [], 0, None

    @staticmethod
    def field_of(packet):
        """Returns the clock reference of a packet in steps of the clock, or None where it has none."""
        if not (packet[3] & 0x20 and packet[4] >= 7 and packet[5] & 0x10):
            return None
        field = int.from_bytes(packet[6:12], "big")
        return (field >> 15) * 300 + (field & 0x1FF)

    def take(self, pid, packet, number):
        """Takes the clock reference of a packet, where it has one; a jump, and a change to another PID, counts as no time."""
        now = self.field_of(packet)
        if now is None:
            return
        step = (now - self.last) % CLOCK_END if pid == self.pid else 0
        self.times.append((self.times[-1] if self.times else 0) + (step if step <= MOST_STEP else 0))
        self.packets.append(number)
        self.last, self.pid = now, pid

    def told(self, number):
        """Returns the time at a packet as a text, which is empty where there are no clock references."""
        seconds = self.at(number)
        if seconds is None:
            return ""
        minutes, milliseconds = divmod(round(1000 * seconds), 60_000)
        return f"{minutes // 60}:{minutes % 60:02}:{milliseconds // 1000:02}.{milliseconds % 1000:03}"

    def at(self, number):
        """Returns the seconds at the last clock reference up to a packet, or None where there are no clock references."""
        place = bisect_right(self.packets, number)
        return self.times[max(place - 1, 0)] / SECOND if self.times else None


class TimedModules(ServiceModules):
    """The modules of a service, with the PID of its clock references."""

    clock_pid, asked_for = None, (None, None, set())

    def all_wanted(self):
        """Returns the PIDs of tables, data and clock references."""
        if self.asked_for[:2] != (self.wanted, self.clock_pid):
            self.asked_for = self.wanted, self.clock_pid, self.wanted | {self.clock_pid} - {None}
        return self.asked_for[2]

    def take_streams(self, section):
        super().take_streams(section)
        found = read_pmt(section) if is_intact(section) else None
        if found is not None and found[0] == self.service[0]:
            pid = int.from_bytes(section[8:10], "big") & 0x1FFF
            self.clock_pid = pid if FIRST_PID <= pid < NO_PID else self.clock_pid


class Recording:
    """What came in a stream for one service: its modules in their order, with their bytes, its packets and its times."""

    def __init__(self, path, service=None, data_pid=None):
        self.path, self.service, self.data_pid = path, service, data_pid
        self.arrivals, self.kept = [], 0
        self.packets = 0
        self.clock = Clock()
        self.modules = TimedModules(self.keep, lambda skip: None, service, data_pid)

    def keep(self, arrival):
        """Keeps a module; past what may be kept, without its bytes."""
        if compression_of(arrival.module.info) is not None:
            return  # (the program skips it)
        self.kept += len(arrival.data)
        self.arrivals.append(arrival if self.kept <= MOST_KEPT else arrival._replace(data=b""))

    def read(self, progress=lambda read: None):
        """Reads the stream, and tells after each piece how many bytes were read."""
        modules, clock = self.modules, self.clock
        modules.clock_pid = first_clock(self.path)
        with open(self.path, "rb") as file:
            reader = PacketReader(file, progress)
            for number, pid, packet in reader.packets_on(modules.all_wanted):
                if pid in modules.wanted:
                    modules.take(pid, packet, number)
                if pid == modules.clock_pid:
                    clock.take(pid, packet, number)
        self.packets = reader.count
        return self


def first_clock(path):
    """Returns the PID of the first clock reference near the stream's beginning, or None: that of a service whose tables name none."""
    with open(path, "rb") as file:
        for packets in islice(PacketReader(file).packets(), SEARCHED_PIECES):
            for packet in packets:
                if Clock.field_of(packet) is not None:
                    return pid_of(packet)
    return None


class PageLook(Look):
    """How the display lists of a page look by its styles, its colour table and its pictures."""

    def __init__(self, values, colours, find, fault):
        width, height = SIZES.get(values.get("resolution"), SIZES["960x540"])
        super().__init__(colours, width, height, RATIOS.get(values.get("display-aspect-ratio"), 16 / 9), fault)
        self.find = find

    def picture(self, name):
        return self.find(name, self.colours)


class Follower:
    """Goes along the lines of a run, and says how its display lists look. Without a recording nothing is known of that."""

    def __init__(self, lines, recording=None):
        self.lines, self.recording = lines, recording
        self.arrived = {}  # by the places of their lines: the modules that came
        self.fault = ""
        self.held, self.resources, self.pictures = {}, {}, {}
        self.document = None  # the path of the one that is loaded
        self.values = {}  # of its styles
        self.taken = self.place = 0  # of the arrivals and of the lines

    def look_at(self, place):
        """Returns how the display list looks that begins in that line; lines are asked for in their order."""
        for at in range(self.place, place):
            self.take(at)
        self.place = max(self.place, place)
        if self.recording is None or self.fault or self.document is None:
            return Look()
        return self.page_look()

    def end(self):
        """Goes along what is left of the lines."""
        self.look_at(len(self.lines))
        return self

    def take(self, at):
        word, *fields = self.lines[at].split(b" ")
        if self.recording is None or self.fault:
            return
        if word == b"module" and len(fields) == 4:
            self.take_module(at, fields)
        elif word == b"gone" and len(fields) == 2:
            self.held.pop(tuple(fields), None)
        elif word == b"load" and len(fields) == 1:
            self.document = resolved(unescaped(fields[0]), None)
            document = self.resource(self.document)
            self.values = styles_of(document, lambda text: self.named(text) or b"") if document else {}

    def take_module(self, at, fields):
        """Finds a module in the stream."""
        arrivals = self.recording.arrivals
        for place in range(self.taken, len(arrivals)):
            it = arrivals[place]
            if [b"%02x" % it.component, b"%04x" % it.module.number, b"%02x" % it.module.version, b"%d" % it.module.size] == fields:
                self.taken, self.arrived[at] = place + 1, it
                self.held[fields[0], fields[1]] = it
                return
        why = "it is another stream, or another service or PID was asked for (--service, --data-pid)"
        self.fault = f"The module of line {at + 1} isn't in the stream at that place: {why}."

    def resource(self, path):
        """Returns the bytes at a path, or None where nothing is held there."""
        it = path and self.held.get((b"%02x" % path.component, b"%04x" % path.module))
        if not it:
            return None
        if it not in self.resources:
            self.resources = {held: parts for held, parts in self.resources.items() if held in self.held.values()}
            self.resources[it] = parts_of(it)
        return self.resources[it].get(path.name)

    def named(self, text):
        """Returns the bytes that a text of the document names, which has a character for each byte, or None."""
        data = text if isinstance(text, bytes) else text.encode("latin-1", errors="replace")
        return self.resource(resolved(data, self.document))

    def picture(self, name, colours):
        """Returns the picture that a text of the document names, in these colours."""
        data = self.named(name)
        if data is None:
            raise BadPicture("")
        if (data, colours) not in self.pictures:
            if len(self.pictures) >= MOST_PICTURES:
                self.pictures.clear()
            self.pictures[data, colours] = picture_of(data, colours)
        return self.pictures[data, colours]

    def page_look(self):
        colours, fault = FIXED, ""
        address = address_of(self.values.get("clut", ""))
        table = self.named(address) if address else None
        if address:
            try:
                colours = with_colours(read_colours(table or b""))
            except BadColours as bad:
                name = readable(address.encode("latin-1", errors="replace"))[:MOST_NAME]
                fault = f"the colour table isn't held: {name}" if table is None else f"the colour table {name} can't be read: {bad}"
        return PageLook(self.values, colours, self.picture, fault)


def parts_of(arrival):
    """Returns the resources of a module by their names."""
    try:
        return {it.name: it.data for it in resources_of(arrival.module.info, arrival.data) if it.is_found}
    except BadEntity:
        return {}


def number(text):
    if not (text.isascii() and text.isdigit()):
        raise ValueError
    return int(text)


def add_service(parser):
    """Adds the words that name the service of a stream, or the PID of its data, as the program's words do."""
    which = parser.add_mutually_exclusive_group()
    which.add_argument("--service", type=number)
    which.add_argument("--data-pid", type=number)
