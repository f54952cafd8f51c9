"""Modules as the sections that send them, for a replay of the data on one PID: what many rows, and the tools that
measure, have in common."""

from collections.abc import Iterable, Sequence

from tables import Run
from transport import TYPE_DESCRIPTOR, Module, ddb_section, descriptor, dii_section, packets_of_sections

DATA_PID = 256
OPTIONS = ["--data-pid", str(DATA_PID)]
FILES = ["stream.ts", "record.txt"]
REPLAY = ["replay", *OPTIONS, *FILES]
BLOCK_SIZE = 4000
Sent = tuple[int, bytes, bytes]  # a module: its number, its info and its bytes
BML, CSS, ECMASCRIPT = (
    descriptor(TYPE_DESCRIPTOR, name) for name in (b"text/X-arib-bml", b"text/css", b"text/X-arib-ecmascript")
)


def announcement(modules: Iterable[Sent], transaction: int = 1) -> bytes:
    """Returns the DII of modules in version 1, each a number, its info and its bytes, by their numbers."""
    return dii_section(
        transaction, 1, BLOCK_SIZE, [Module(number, 1, len(data), info) for number, info, data in sorted(modules)]
    )


def block_sections(number: int, data: bytes, size: int = BLOCK_SIZE) -> list[bytes]:
    """Returns the sections with the blocks of a module in version 1."""
    return [ddb_section(1, number, 1, at // size, data[at : at + size]) for at in range(0, len(data), size)]


def carousel_sections(modules: Sequence[Sent], away: Sequence[Sent] = ()) -> list[bytes]:
    """Returns the sections that send modules once, each a number, its info and its bytes: the DII, and then their
    blocks as they are listed.

    The DII announces those that stay away, too.
    """
    return [
        announcement([*modules, *away]),
        *(section for number, _, data in modules for section in block_sections(number, data)),
    ]


def sent(sections: Iterable[bytes]) -> tuple[bytes, int]:
    """Returns the packets of sections on the data PID, and how many they are."""
    return packets_of_sections((DATA_PID, section) for section in sections)


def run_of_sections(name: str, sections: Iterable[bytes], told: str, record: str) -> Run:
    """Returns the run of sections on the data PID, each in packets of its own, which prints `told` before its last
    line."""
    stream, packets = sent(sections)
    return Run(name, REPLAY, stream, record.encode("ascii"), f"{told}end {packets}\n".encode("latin-1"), b"", 0)
