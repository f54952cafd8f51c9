"""Tables of runs: how they are read, and what the fields of a row come to.

tables/README.md explains their format.
"""

import re
from collections import ChainMap
from typing import NamedTuple

import make_stream
from journals import AREA_SIZE
from make_stream import Fault, Stream

NAME = r"[a-z][a-z0-9-]*"
FIELD = re.compile(rf"({NAME}):(?:[ \t](.*))?")
REFERENCE = re.compile(rf"({NAME})(?:\.(size)|\*([0-9]+|{NAME}))?")
# What stands alone on its line, and what a line is made of: a reference, an escape, or a text.
ALONE = re.compile(r"\$\{([^{}]*)\}")
PIECE = re.compile(r"\$\{([^{}]*)\}|\\(x[0-9A-Fa-f]{2}|.?)|((?:[^\\$]|\$(?!\{))+)")
ESCAPES = {"n": b"\n", "r": b"\r", "t": b"\t", "\\": b"\\"}
# The fields that a row may do without.
OPTIONAL = {"stderr": [], "status": ["0"], "kept": [], "kept-after": ["${kept}"], "journal": [], "folder": [], "link": []}


class Run(NamedTuple):
    """A run of the program, and what it has to write, to end with and to keep.

    What is kept, before and after it, are the bytes of an area, or those of the file nvram.bin, or None where there are none.
    """

    name: str
    arguments: list[str]
    stream: bytes
    record: bytes
    stdout: bytes
    stderr: bytes
    status: int
    kept: bytes | None = None
    kept_after: bytes | None = None
    folder: str = ""  # a folder beside the files, where it has a name
    journal: bytes | None = None  # the bytes of the file of the journal, where they are told
    link: str = ""  # a link beside them that leads nowhere, where it has a name
    again: "Run | None" = None  # the next run in the same place


class Row:
    """A row of a table: its own fields, then those of its group and of its table, by their names.

    Each field is the list of its lines as they were written.
    """

    def __init__(self, name, own, *outer):
        self.name = name
        self.own = own
        self.fields = ChainMap(own, *outer, OPTIONAL)
        self.again = None  # the row of the next run in the same place
        self.used = set()
        self.open = []  # the fields that are being worked out, the outermost first
        self.packets = None  # those of the stream, once it is made

    def run(self):
        """Returns the run that the row describes, with those that follow it in the same place."""
        if self.again and self.again.own.keys() & {"kept", "journal", "folder", "link"}:
            raise Fault("what is there before a further run is what the one before it left")
        stream = RowStream(self)
        stream.describe(self.lines("stream").decode("ascii"))
        self.packets = stream.packets
        run = Run(
            self.name,
            self.text("args").decode("ascii").split(),
            bytes(stream.data),
            self.lines("record"),
            self.lines("stdout"),
            self.lines("stderr"),
            make_stream.number(self.text("status").decode("ascii"), 8),
            self.kept("kept"),
            self.kept("kept-after"),
            self.text("folder").decode("ascii"),
            self.kept("journal"),
            self.text("link").decode("ascii"),
            self.again and self.again.run(),
        )
        for name in self.own:
            if name not in self.used:
                raise Fault(f"{name} is used by nothing")
        return run

    def kept(self, name):
        """Returns the kept bytes that a field tells, or None where it is empty.

        They are written as in descriptions of streams, and `..` after them fills the area up.
        """
        words = make_stream.TOKEN.findall(self.text(name).decode("ascii"))
        if not words:
            return None
        if words[-1] == "..":
            return make_stream.bytes_of(words[:-1]).ljust(AREA_SIZE, b"\0")
        return make_stream.bytes_of(words)

    def lines(self, name):
        """Returns the bytes of a field whose lines have their ends."""
        return b"".join(line + end for line, end in self.ended_lines(name, None))

    def text(self, name, number=None):
        """Returns the bytes of a field whose last line has no end."""
        lines = list(self.ended_lines(name, number))
        ended = b"".join(line + end for line, end in lines[:-1])
        return ended + lines[-1][0] if lines else b""

    def ended_lines(self, name, number):
        """Gives the lines that a field comes to, each with its end.

        In a field that is repeated the number is that of the repetition, and else None.
        """
        if name in self.open:
            raise Fault(f"{name} stands in itself")
        if name not in self.fields:
            raise Fault(f"there is no {name}")
        self.used.add(name)
        self.open.append(name)
        for line in self.fields[name]:
            alone = ALONE.fullmatch(line)
            if alone:
                yield from self.referred_lines(alone[1], number)
            else:
                yield self.line(line, number)
        self.open.pop()

    def referred_lines(self, reference, number):
        """Gives the lines that a reference which stands alone on its line comes to."""
        name, size, times = parts_of(reference)
        if size or name in ("packets", "number"):
            yield self.referred_text(reference, number), b"\n"
        else:
            for each in self.numbers(times, number):
                yield from self.ended_lines(name, each)

    def referred_text(self, reference, number):
        """Returns what a reference within a line comes to."""
        name, size, times = parts_of(reference)
        known = {"packets": self.packets, "number": number}
        if name in known:
            if known[name] is None or size or times:
                raise Fault(f"${{{reference}}} has no meaning here")
            return str(known[name]).encode("ascii")
        if size:
            return str(len(self.text(name, number))).encode("ascii")
        return b"".join(self.text(name, each) for each in self.numbers(times, number))

    def numbers(self, times, number):
        """The numbers of the repetitions; what isn't repeated has that of what it stands in."""
        if times is None:
            return [number]
        count = times if times.isdigit() else self.text(times).decode("ascii")
        return range(1, make_stream.number(count, 16) + 1)

    def line(self, line, number):
        """Returns what a line comes to, with its end."""
        data, end, at = b"", b"\n", 0
        while at < len(line):
            piece = PIECE.match(line, at)
            if not piece:
                raise Fault(f"{line[at:]} is no reference")
            reference, escape, text = piece.groups()
            at = piece.end()
            if reference is not None:
                data += self.referred_text(reference, number)
            elif text is not None:
                data += text.encode("euc_jp")
            elif escape == "":
                end = b""
            else:
                data += escaped(escape)
        return data, end


class RowStream(Stream):
    """A stream whose statements name fields of a row where they name files."""

    def __init__(self, row):
        super().__init__(None)
        self.row = row

    def file(self, name):
        return self.made[name] if name in self.made else self.row.text(name)


def parts_of(reference):
    """The name, the word `size` and the repetitions of a reference."""
    found = REFERENCE.fullmatch(reference)
    if not found:
        raise Fault(f"${{{reference}}} is no reference")
    return found.groups()


def escaped(escape):
    """The byte that stands after a backslash."""
    if len(escape) == 3:
        return bytes.fromhex(escape[1:])
    if escape not in ESCAPES:
        raise Fault(f"\\{escape} stands for nothing")
    return ESCAPES[escape]


class Table:
    """A table that grows by lines."""

    def __init__(self):
        self.rows = []  # each with the number of its line
        self.row = None  # the last run that was begun
        self.scopes = [{}]  # the fields of the table, of the group, and of the row
        self.group = None
        self.is_bare = False  # whether a row was begun, and no comment came after it
        self.value = None  # the lines of the field that was begun last

    def read(self, number, line):
        """Reads a line."""
        field = FIELD.fullmatch(line)
        if line.startswith("#"):
            self.is_bare = False
            return
        if not line.strip() or line[0] in " \t":
            self.go_on(line.strip(" \t"))
            return
        self.see_comment()
        if not field:
            raise Fault("it is neither a field nor a comment, nor is it indented")
        self.begin(number, field[1], (field[2] or "").strip(" \t"))

    def see_comment(self):
        """Sees that the last row's first line was followed by a comment."""
        if self.is_bare:
            raise Fault("a row's first line is followed by a comment that tells its rule")

    def begin(self, number, name, text):
        """Begins a group, a row, the next run of a row, or a field."""
        self.value = None
        if name == "group":
            self.group, self.scopes, self.row = text, [self.scopes[0], {}], None
        elif name == "row":
            self.scopes = [*self.scopes[: 1 if self.group is None else 2], {}]
            title = text if self.group is None else f"{self.group}: {text}"
            if not text or title in (row.name for _, row in self.rows):
                raise Fault("a row has a name of its own")
            self.row = Row(title, *reversed(self.scopes))
            self.rows.append((number, self.row))
            self.is_bare = True
        elif name == "again":
            self.begin_again(text)
        elif name in self.scopes[-1]:
            raise Fault(f"{name} stands twice")
        else:
            self.value = self.scopes[-1][name] = [text] if text else []

    def begin_again(self, text):
        """Begins the next run of a row: what it doesn't say is as in the run before it."""
        if text or self.row is None:
            raise Fault("`again:` stands alone, in a row")
        self.scopes = [*self.scopes, {}]
        self.row.again = Row(self.row.name, *reversed(self.scopes))
        self.row = self.row.again

    def go_on(self, line):
        """Adds a line to the field that was begun last."""
        if self.value is not None:
            self.value.append(line)
        elif line:
            raise Fault("it is indented, and belongs to no field")

    def end(self):
        """Ends the table, and takes the empty lines at the ends of fields away."""
        self.see_comment()
        for _, row in self.rows:
            while row:
                for lines in (lines for fields in row.fields.maps for lines in fields.values()):
                    while lines and not lines[-1]:
                        lines.pop()
                row = row.again


def runs_of(path):
    """Returns the runs of the table in a file."""
    with open(path, encoding="utf-8") as file:
        lines = file.read().split("\n")
    table, runs, number = Table(), [], 0
    try:
        for number, line in enumerate(lines, 1):
            table.read(number, line)
        table.end()
        for number, row in table.rows:
            runs.append(row.run())
    except (Fault, ValueError) as fault:
        raise Fault(f"{path}:{number}: {fault}") from None
    if not runs:
        raise Fault(f"{path}: it has no row")
    return runs
