#!/usr/bin/env python3
"""What a folder keeps: the file nvram.jnl, a journal of two slots, and the file nvram.bin, in which areas were kept before.

usage: journals.py FOLDER

writes what is kept in a folder to standard output. Status: 0, or 1 where nothing is kept.

docs/FORMATS.md, "The kept area", has the layout. Here it is read and written a second way than the program does it.
"""

import sys
from pathlib import Path

JOURNAL, OLDER = "nvram.jnl", "nvram.bin"
AREA_SIZE = 3072  # bytes of the area that a run keeps
SLOT_SIZE = 2 + AREA_SIZE  # a gate, a number and an area
OPEN = 1  # the gate of a slot that is whole
NUMBERS = 3  # how many numbers there are, from 0 on


def newest(journal):
    """Returns the area of a journal's newest slot, or None where no slot is open."""
    slots = [journal[place : place + SLOT_SIZE] for place in (0, SLOT_SIZE)]
    first, second = [slot if len(slot) == SLOT_SIZE and slot[0] == OPEN else None for slot in slots]
    if first and second:
        return (second if second[1] == (first[1] + 1) % NUMBERS else first)[2:]
    return (first or second or b"")[2:] or None


def files_of(kept):
    """Returns the files in which these bytes are kept: an area in a journal, others in nvram.bin, and None in no file."""
    if kept is None:
        return {}
    return {JOURNAL: bytes([OPEN, 0]) + kept} if len(kept) == AREA_SIZE else {OLDER: kept}


def older_in(folder):
    """Returns the bytes of the file nvram.bin in a folder, or None where there is none."""
    older = Path(folder, OLDER)
    return older.read_bytes() if older.is_file() else None


def kept_in(folder):
    """Returns what is kept in a folder: the newest area of its journal, or else the bytes of nvram.bin, or None."""
    journal = Path(folder, JOURNAL)
    area = newest(journal.read_bytes()) if journal.is_file() else None
    return older_in(folder) if area is None else area


def keep(folder, kept):
    """Has a folder keep these bytes and no others."""
    files = files_of(kept)
    for name in (JOURNAL, OLDER):
        path = Path(folder, name)
        if name in files:
            path.write_bytes(files[name])
        else:
            path.unlink(missing_ok=True)


def main():
    if len(sys.argv) != 2:
        sys.exit(__doc__.split("\n\n")[1])
    kept = kept_in(sys.argv[1])
    sys.stdout.buffer.write(kept or b"")
    return 1 if kept is None else 0


if __name__ == "__main__":
    sys.exit(main())
