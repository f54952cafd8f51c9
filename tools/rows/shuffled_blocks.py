"""Sections of a carousel in any order, against lines that are counted from the rules.

Two DIIs announce modules, of which one changes its version and one comes and goes; the blocks come
in no order, again and again, and some of them never count. What has to be printed is counted
section by section, by the rules of docs/FORMATS.md, "Modules".
"""

from typing import NamedTuple

from sent_modules import run_of_sections
from transport import Module, ddb_section, dii_section

ROWS, SECTIONS = 20, 60
BLOCK_SIZE = 4
# The modules of each DII, by its transaction: the second has another version of module 2, and
# module 3 besides.
ANNOUNCED = {
    1: [Module(1, 1, 10), Module(2, 1, 8)],
    2: [Module(1, 1, 10), Module(2, 2, 8), Module(3, 1, 4)],
}


class Dii(NamedTuple):
    """The DII of a transaction."""

    transaction: int

    def section(self):
        return dii_section(self.transaction, 1, BLOCK_SIZE, ANNOUNCED[self.transaction])


class Block(NamedTuple):
    """A block of a module; in a damaged one a bit is flipped, after the CRC_32 was made."""

    module: int
    version: int
    number: int
    data: bytes
    is_damaged: bool = False

    def section(self):
        whole = bytearray(ddb_section(1, self.module, self.version, self.number, self.data))
        whole[-5] ^= self.is_damaged
        return bytes(whole)


# What is sent, in no order: blocks that are asked for, one of a version that never is, one that is
# too long, one past the last, and a damaged one.
SENT = [
    Dii(1),
    Dii(2),
    Block(1, 1, 0, b"abcd"),
    Block(1, 1, 1, b"efgh"),
    Block(1, 1, 2, b"ij"),
    Block(2, 1, 0, b"klmn"),
    Block(2, 1, 1, b"opqr"),
    Block(2, 2, 0, b"KLMN"),
    Block(2, 2, 1, b"OPQR"),
    Block(3, 1, 0, b"stuv"),
    Block(1, 2, 0, b"ABCD"),
    Block(1, 1, 2, b"ijkl"),
    Block(2, 1, 2, b"wxyz"),
    Block(3, 1, 0, b"stuv", is_damaged=True),
]


class Counted:
    """The modules that are announced, by their numbers, and of each which blocks came."""

    def __init__(self):
        self.modules = {}
        self.came = {}

    def lines_of(self, sent):
        """Counts a section, and returns the lines that it brings about."""
        return self.announce(sent) if isinstance(sent, Dii) else self.take(sent)

    def announce(self, dii):
        """Counts a DII: the blocks of a module stay where its entry stays as it is."""
        modules = {module.number: module for module in ANNOUNCED[dii.transaction]}
        gone = sorted(self.modules.keys() - modules.keys())
        kept = {number for number, module in modules.items() if self.modules.get(number) == module}
        self.came = {number: self.came[number] if number in kept else set() for number in modules}
        self.modules = modules
        return [f"gone 40 {number:04x}\n" for number in gone]

    def take(self, block):
        """Counts a block: a whole one, of the version announced, and of the length at its place."""
        module = self.modules.get(block.module)
        if block.is_damaged or module is None or module.version != block.version:
            return []
        length = min(BLOCK_SIZE, module.size - block.number * BLOCK_SIZE)
        if len(block.data) != length or block.number in self.came[block.module]:
            return []
        self.came[block.module].add(block.number)
        if len(self.came[block.module]) < -(-module.size // BLOCK_SIZE):
            return []
        return [f"module 40 {module.number:04x} {module.version:02x} {module.size}\n"]


def runs():
    """Returns the runs: so many streams of so many sections each."""
    found, seed = [], 1
    for row in range(ROWS):
        counted, sections, lines = Counted(), [], []
        for _ in range(SECTIONS):
            seed = (seed * 1_664_525 + 1_013_904_223) % 2**32
            sent = SENT[(seed >> 16) % len(SENT)]
            sections.append(sent.section())
            lines += counted.lines_of(sent)
        found.append(run_of_sections(f"order {row + 1}", sections, "".join(lines), "all\n"))
    return found
