#!/usr/bin/env python3
"""Makes a transport stream from its description: make_stream.py DESCRIPTION OUTPUT

examples/README.md explains the format of descriptions.
"""

import os
import re
import sys
import zlib

from transport import (
    PACKET_SIZE,
    TYPE_DESCRIPTOR,
    ElementaryStream,
    EventMessage,
    Module,
    compression_type,
    counters_from,
    ddb_section,
    descriptor,
    dii_section,
    event_message,
    packets_taken,
    pat_section,
    place_in_packets,
    pmt_section,
    section_packets,
    stream_descriptors_section,
)

TOKEN = re.compile(r'"[^"]*"(?:\*[0-9]+)?|#.*|[^\s"#]+')
# What stands before a packet and after it, by the size of both with it.
ROUND_PACKETS = {188: (0, 0), 192: (4, 0), 204: (0, 16)}
BYTES = re.compile(r'(?:"([ -~]*)"|([0-9A-Fa-f]{2}))(?:\*([0-9]+))?')


class Fault(Exception):
    """What is wrong with a statement."""


def number(text, bits):
    try:
        value = int(text, 16 if text.lower().startswith("0x") else 10)
    except ValueError:
        raise Fault(f"{text} is no number") from None
    if not 0 <= value < 1 << bits:
        raise Fault(f"{text} is no number of {bits} bits")
    return value


def bytes_of(words):
    """Reads bytes: each word is two hexadecimal digits or a text in quotes, with *N after it where it stands N times."""
    data = b""
    for word in words:
        found = BYTES.fullmatch(word)
        if not found:
            raise Fault(f"{word} is neither two hexadecimal digits nor a text in quotes")
        text, digits, times = found.groups()
        item = bytes.fromhex(digits) if text is None else text.encode("ascii")
        data += item * int(times or 1)
    return data


def parted(name, text, mark, form):
    """The fields of a value, which has a given form."""
    fields = text.split(mark)
    if len(fields) != len(form.split(mark)):
        raise Fault(f"{name}={text} is not of the form {name}={form}")
    return fields


class Fields:
    """The fields NAME=VALUE of a statement, each of which is to be taken once."""

    def __init__(self, words):
        self.left = [word.partition("=")[::2] for word in words]

    def taken_of(self, *names):
        """Takes the fields of these names, in the order written."""
        found = [field for field in self.left if field[0] in names]
        self.left = [field for field in self.left if field[0] not in names]
        return found

    def all_of(self, name):
        return [value for _, value in self.taken_of(name)]

    def optional(self, name):
        found = self.all_of(name)
        if len(found) > 1:
            raise Fault(f"{name}= stands twice")
        return found[0] if found else None

    def number(self, name, bits):
        value = self.optional(name)
        if value is None:
            raise Fault(f"{name}= is missing")
        return number(value, bits)

    def number_or_0(self, name, bits):
        return number(self.optional(name) or "0", bits)

    def end(self):
        if self.left:
            raise Fault(f"{self.left[0][0]} has no meaning here")


class Stream:
    """A stream that grows by statements, which name files in a folder."""

    def __init__(self, folder):
        self.folder = folder
        self.made = {}  # the files that statements make, by their names
        self.data = bytearray()
        self.pid = None
        self.front, self.behind = 0, 0  # bytes round each packet
        self.packets = 0
        self.next_counters = {}
        self.last_section = None  # where its first packet begins, and its length

    def send(self, section, counters):
        """Adds the packets of a section, whose counters rise by one from the PID's last where none are given."""
        if self.pid is None:
            raise Fault("a statement pid is to come first")
        count = packets_taken(section)
        if counters is None:
            counters = counters_from(self.next_counters.get(self.pid, 0), count)
        elif len(counters) != count:
            raise Fault(f"counters= has {len(counters)} numbers, and the section takes {count} packets")
        self.next_counters[self.pid] = (counters[-1] + 1) % 16
        self.last_section = len(self.data), len(section)
        for packet in section_packets(self.pid, counters, section):
            # (an arrival time stands in front: one more for each packet)
            self.data += self.packets.to_bytes(4, "big")[: self.front] + packet + bytes(self.behind)
            self.packets += 1

    def file(self, name):
        if name in self.made:
            return self.made[name]
        try:
            with open(os.path.join(self.folder, name), "rb") as file:
                return file.read()
        except OSError as fault:
            raise Fault(str(fault)) from None

    def size(self, text):
        """A size: a number, or that of a file after an @."""
        return len(self.file(text[1:])) if text.startswith("@") else number(text, 32)

    def module(self, text, infos):
        module, version, size = parted("module", text, "/", "NUMBER/VERSION/SIZE")
        return Module(number(module, 16), number(version, 8), self.size(size), infos.get(number(module, 16), b""))

    def module_infos(self, fields):
        """The infos of modules by their numbers: descriptors and other bytes, in the order written."""
        makers = {
            "type": lambda value: descriptor(TYPE_DESCRIPTOR, value.encode("ascii")),
            "zlib": lambda value: compression_type(self.size(value)),
            "info": bytes.fromhex,
        }
        infos = {}
        for name, text in fields.taken_of(*makers):
            module, _, value = text.partition(":")
            if not value:
                raise Fault(f"{name}={text} is not of the form {name}=MODULE:VALUE")
            infos[number(module, 16)] = infos.get(number(module, 16), b"") + makers[name](value)
        return infos

    def compress(self, words):
        """Makes a file: the zlib data of another, by Huffman codes alone, since how zlib looks for repeats changes with its version."""
        fields = Fields(words)
        name, of = fields.optional("file"), fields.optional("of")
        fields.end()
        if not name or not of:
            raise Fault("compressed takes a file= and an of=")
        maker = zlib.compressobj(9, strategy=zlib.Z_HUFFMAN_ONLY)
        self.made[name] = maker.compress(self.file(of)) + maker.flush()

    def entity(self, words):
        """Makes a file: an entity of several parts, whose lines end with CR LF, and whose parts are files."""
        fields = Fields(words)
        name, boundary = fields.optional("file"), fields.optional("boundary")
        parts = [parted("part", text, ":", "NAME:TYPE:FILE") for text in fields.all_of("part")]
        fields.end()
        if not name or not boundary:
            raise Fault("entity takes a file= and a boundary=")
        lines = [f'Content-Type: multipart/mixed; boundary="{boundary}"'.encode("ascii"), b""]
        for part, media, file in parts:
            head = [f"--{boundary}", f"Content-Type: {media}", f"Content-Location: {part}", ""]
            lines += [line.encode("ascii") for line in head] + [self.file(file)]
        self.made[name] = b"\r\n".join([*lines, f"--{boundary}--".encode("ascii"), b""])

    def pat(self, words):
        fields = Fields(words)
        counters = counters_of(fields)
        programs = [parted("program", text, ":", "NUMBER:PID") for text in fields.all_of("program")]
        fields.end()
        self.send(pat_section([(number(program, 16), number(pid, 13)) for program, pid in programs]), counters)

    def pmt(self, words):
        fields = Fields(words)
        counters = counters_of(fields)
        program = fields.number("program", 16)
        streams = [stream_of_program(text) for text in fields.all_of("stream")]
        fields.end()
        self.send(pmt_section(program, streams), counters)

    def dii(self, words):
        fields = Fields(words)
        counters = counters_of(fields)
        infos = self.module_infos(fields)
        modules = [self.module(text, infos) for text in fields.all_of("module")]
        identity = [fields.number("transaction", 32), fields.number("download", 32), fields.number("blocksize", 16)]
        fields.end()
        self.send(dii_section(*identity, modules), counters)

    def ddb(self, words):
        fields, block = fields_and_bytes(words)
        counters = counters_of(fields)
        identity = [fields.number("download", 32), fields.number("module", 16)]
        identity += [fields.number("version", 8), fields.number("number", 16)]
        fields.end()
        self.send(ddb_section(*identity, block), counters)

    def blocks(self, words):
        fields = Fields(words)
        identity = [fields.number("download", 32), fields.number("module", 16), fields.number("version", 8)]
        size, name = fields.number("blocksize", 16), fields.optional("file")
        fields.end()
        if name is None or size == 0:
            raise Fault("blocks takes a file= and a blocksize= above 0")
        data = self.file(name)
        for at in range(0, len(data), size):
            self.send(ddb_section(*identity, at // size, data[at : at + size]), None)

    def events(self, words):
        parts = [[]]
        for word in words:
            if word == "|":
                parts.append([])
            else:
                parts[-1].append(word)
        self.send(stream_descriptors_section(stream_descriptor(part) for part in parts), None)

    def flip(self, words):
        fields = Fields(words)
        at, bit = fields.number("byte", 12), fields.number("bit", 3)
        fields.end()
        if self.last_section is None:
            raise Fault("no section stands before it")
        start, length = self.last_section
        if at >= length:
            raise Fault(f"the last section has {length} bytes, and so no byte {at}")
        packet, byte = divmod(place_in_packets(at), PACKET_SIZE)
        self.data[start + packet * (self.front + PACKET_SIZE + self.behind) + self.front + byte] ^= 1 << bit

    def select_pid(self, words):
        if len(words) != 1:
            raise Fault("pid takes one number")
        self.pid = number(words[0], 13)

    def select_size(self, words):
        if len(words) != 1 or number(words[0], 8) not in ROUND_PACKETS:
            raise Fault("packets takes one number, which is 188, 192 or 204")
        self.front, self.behind = ROUND_PACKETS[number(words[0], 8)]
        self.last_section = None

    def bytes(self, words):
        self.data += bytes_of(words)

    def state(self, line):
        """Carries out a line of a description."""
        if TOKEN.sub("", line).strip():
            raise Fault("a quote is not closed")
        words = [word for word in TOKEN.findall(line) if not word.startswith("#")]
        if not words:
            return
        statements = {
            "packets": self.select_size,
            "pid": self.select_pid,
            "pat": self.pat,
            "pmt": self.pmt,
            "entity": self.entity,
            "compressed": self.compress,
            "dii": self.dii,
            "ddb": self.ddb,
            "blocks": self.blocks,
            "events": self.events,
            "flip": self.flip,
            "bytes": self.bytes,
        }
        if words[0] not in statements:
            raise Fault(f"{words[0]} is no statement")
        statements[words[0]](words[1:])

    def describe(self, text):
        """Carries out the lines of a description."""
        for at, line in enumerate(text.splitlines(), 1):
            try:
                self.state(line)
            except (Fault, ValueError) as fault:
                raise Fault(f"line {at}: {fault}") from None


def fields_and_bytes(words):
    """The fields NAME=VALUE among some words, and the bytes that the others say."""
    named = [word for word in words if re.match(r"[a-z]+=", word)]
    return Fields(named), bytes_of([word for word in words if word not in named])


def stream_descriptor(words):
    """Reads a part of a statement `events`: an event message, a descriptor of any tag, or bytes as they are."""
    fields, data = fields_and_bytes(words)
    if not fields.left:
        return data
    tag = fields.optional("tag")
    if tag is None:
        identity = [fields.number("group", 12), fields.number("id", 8), fields.number("version", 8)]
        made = event_message(EventMessage(*identity, data, fields.number_or_0("type", 8), fields.number_or_0("mode", 8)))
    else:
        made = descriptor(number(tag, 8), data)
    fields.end()
    return made


def stream_of_program(text):
    """Reads a stream of a PMT: its type, PID and component, and its data component where a fourth field says it."""
    form = "TYPE:PID:COMPONENT:DATA" if text.count(":") == 3 else "TYPE:PID:COMPONENT"
    kind, pid, tag, *data = parted("stream", text, ":", form)
    component = None if tag == "-" else number(tag, 8)
    return ElementaryStream(number(kind, 8), number(pid, 13), component, number(data[0], 16) if data else None)


def counters_of(fields):
    text = fields.optional("counters")
    return None if text is None else [number(word, 4) for word in text.split(",")]


def stream_of(text, folder):
    """Returns the bytes of the stream that a description's text describes, whose files lie in the folder."""
    stream = Stream(folder)
    stream.describe(text)
    return bytes(stream.data)


def main(words):
    if len(words) != 2:
        print("usage: make_stream.py DESCRIPTION OUTPUT", file=sys.stderr)
        return 2
    description, output = words
    try:
        with open(description, encoding="ascii") as file:
            data = stream_of(file.read(), os.path.dirname(description))
        with open(output, "wb") as file:
            file.write(data)
    except (Fault, OSError, UnicodeDecodeError) as fault:
        print(f"make_stream.py: {description}: {fault}", file=sys.stderr)
        return 1
    return 0


if __name__ == "__main__":
    sys.exit(main(sys.argv[1:]))
