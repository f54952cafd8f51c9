"""Lines of records and words of commands: which the program takes, and which it refuses.

A row here is a line or a few words, so these stand in Python and not in a table. The lines come over a
stream without a packet, and a replay that is taken ends since there is no stream of its name. What has
to come of each is from docs/FORMATS.md, "The record", and from the README's commands. What `gen` gives is
in gen_rows.py.
"""

import errno
import os
import re
from pathlib import Path

from sent_modules import REPLAY
from tables import Run

MOST_SHOWN = 128  # bytes of a bad line
USAGE = Path(__file__).resolve().parents[2] / "examples" / "usage" / "stderr"

# Each of them is an item, a line that asks for nothing, or bad.
ITEMS = [
    b"all",
    b"packets 1",
    b" packets\t 42\t",
    b"packets 0000000007",
    b"packets 4294967295",
    b"key 1",
    b"key 14",
    b"key 018",
    b"release 1",
    b"release 24",
    b"tick 1",
    b"tick 3600000",
    b"random 0",
    b"random 4294967295",
    b"date 0 0",
    b"date 157053 86399",
    b"date 157053 0",
    b"date 0 86399",
    b"date 0000157053 0000086399",
    b" date\t0000000001  0000000002 ",
    b"\tall",
    b" \tall\t ",
]
NOTHING = [b"", b" \t ", b"#", b"#all", b"# packets 0", b"\t ## x", b"   "]
BAD = [
    b"packets 4294967296",
    b"packets 00000000007",
    b"packets 0",
    b"packets",
    b"packets -1",
    b"packets 0x1",
    b"packets 1 2",
    b"packets1",
    b"packet 1",
    b"1 packets",
    b"Packets 1",
    b"all x",
    b"all 1",
    b"show 1",
    b"shows",
    b"all # all",
    b"packets 1 #",
    b"\x0b#",
    b"key 0",
    b"key 15",
    b"key 17",
    b"release 0",
    b"release 25",
    b"key 257",
    b"tick 0",
    b"tick 3600001",
    b"random 4294967296",
    b"random",
    b"tick 1 ms",
    b"keys 1",
    b"load",
    b"al",
    b"alll",
    b"ALL",
    b"all all",
    b"a ll",
    b"all\r",
    b"all\rall",
    b"rows",
    b"rows 0",
    b"rows left",
    b"rows 65 left",
    b"rows -1 left",
    b"rows 4294967296 left",
    b"rows 00000000000 left",
    b"rows 0x1 left",
    b"rows left 0",
    b"rows 0 Left",
    b"rows 0 lef",
    b"rows 0 lefts",
    b"rows 0 centre",
    b"rows 0 middle",
    b"rows 0 0",
    b"rows 0 left 0",
    b"rows 0 left right",
    b"rows 0 left #",
    b"rows 0 RIGHT",
    b"rows 0 rightcenter",
    b"rows 0left",
    b"rows0 left",
    b"rows +0 left",
    b"rows 0, left",
    b"row 0 left",
    b"Rows 0 left",
    b"show 0 left",
    b"packets 1 left",
    b"date",
    b"date 0",
    b"date 157054 0",
    b"date 0 86400",
    b"date 4294967295 0",
    b"date 4294967296 0",
    b"date 0 4294967296",
    b"date 00000000000 0",
    b"date 0 00000000000",
    b"date -1 0",
    b"date 0 -1",
    b"date 0x1 0",
    b"date 0 1.5",
    b"date 0 left",
    b"date 0 0 0",
    b"date 1970-01-01 0",
    b"date 0 0 #",
    b"date 157054 86399",
    b"date 157053 86400",
    b"date -25567 0",
    b"date +0 0",
    b"date 0,0",
    b"date0 0",
    b"date 0 0 left",
    b"Date 0 0",
    b"dates 0 0",
    b"rows 0 86399",
]

# Whole records, how many `show` and `rows` of them come to their turn, and the number of the first bad line.
RECORDS = [
    (b"", 0, None),
    (b"show", 1, None),
    (b"show\n", 1, None),
    (b"show\r\n", 1, None),
    (b"show\r", 0, 1),
    (b"show\r\r\n", 0, 1),
    (b"show\rshow\n", 0, 1),
    (b" \tshow\t \n", 1, None),
    (b"show\nshow\r\nshow", 3, None),
    (b"show\nshow\nload\nshow\n", 2, 3),
    (b"packets 1\nshow\nall\nshow", 2, None),
    (b"\n", 0, None),
    (b"\r\n", 0, None),
    (b"\r\r\n", 0, 1),
    (b"show\n\n\r\nshow\n\n", 2, None),
    (b"# one\nshow\n# show\n", 1, None),
    (b"rows 0 left\nrows 64 center\nrows 1 right\n", 3, None),
    (b" rows\t 0000000064 \tright ", 1, None),
    (b"rows 0 left\nrows 65 left\nshow\n", 1, 2),
    # A line has 128 bytes at most without its end.
    (b"show" + 124 * b" ", 1, None),
    (b"show" + 124 * b" " + b"\n", 1, None),
    (b"show" + 124 * b" " + b"\nsho ", 1, 2),
    (b"show" + 124 * b" " + b"\r\n", 1, None),
    (b"show" + 125 * b" ", 0, 1),
    (b"show" + 125 * b" " + b"\n", 0, 1),
    (b"show" + 125 * b" " + b"\r\n", 0, 1),
    (b"show" + 124 * b" " + b"\r", 0, 1),
    (b"#" + 127 * b" ", 0, None),
    (b"#" + 128 * b" ", 0, 1),
    (128 * b"\t", 0, None),
    (129 * b"\t", 0, 1),
    # More than the program holds of a record at once.
    (3000 * b"show\n", 3000, None),
    (3000 * b"show\n" + b"shown", 3000, 3001),
]

# The words of commands that are taken, and of those that are none.
COMMANDS = [
    "replay|s|r",
    "replay|--service|1|s|r",
    "replay|--service|65535|s|r",
    "replay|--data-pid|16|s|r",
    "replay|--data-pid|8190|s|r",
    "replay|--data-pid|0000000300|s|r",
    "replay|--data-pid|300|the stream|r-",
    "replay|gen|1",
]
NO_COMMANDS = [
    "replay|--service|0|s|r",
    "replay|--service|65536|s|r",
    "replay|--service||s|r",
    "replay|--data-pid|15|s|r",
    "replay|--data-pid|8191|s|r",
    "replay|--data-pid|00000000300|s|r",
    "replay|--data-pid|0x100|s|r",
    "replay|--data-pid||s|r",
    "replay|--data-pid|4294967596|s|r",
    "replay|--data-pid|300||r",
    "replay|--data-pid|300|s|",
    "replay|--data-pid|300|-s|r",
    "replay|--data-pid|300|s|-",
    "replay|--data-pid|300|s",
    "replay|--data-pid|300|s|r|r",
    "replay|--service|1|--data-pid|300|s|r",
    "replay|--pid|300|s|r",
    "--data-pid|300|replay|s|r",
    "replay|s|r|--data-pid|300",
    "replay|s",
    "replay|s|",
    "replay|-s|r",
    "replay|s|r|r",
    "Replay|s|r",
    "gen",
    "gen|1",
    "gen||1",
    "gen|1|",
    "gen|1|2|3",
    "gen|x|1",
    "gen|1|x",
    "gen|-1|1",
    "gen|0x1|1",
    "gen|1|0",
    "gen|1|101",
    "gen|1|4294967297",
    "gen|4294967296|1",
    "gen|00000000001|1",
    "gen|1|00000000001",
    "Gen|1|1",
    "1|gen|1",
    "replay|gen|1|1",
    "replay|gen|1|s|r",
    "gen|--data-pid|300|s|r",
    "",
]


def bad_line_told(record, number):
    """Returns what standard error has of a bad line: the status, and the front of the line, as README.md, "How it ends", has it."""
    line = record.split(b"\n")[number - 1]
    shown = re.sub(rb"[^ -~]|%", lambda it: b"%%%02X" % ord(it[0]), line[:MOST_SHOWN]) + (b" .." if len(line) > MOST_SHOWN else b"")
    return b"bad record line %d\nrecord.txt:%d: %s\n" % (number, number, shown)


def open_fault_told(name):
    """Returns what standard error has where no file has this name."""
    return b"open fault\n%s: %s (os error %d)\n" % (name.encode(), os.strerror(errno.ENOENT).encode(), errno.ENOENT)


def recorded(record, shows, bad):
    """Returns the run of a record over an empty stream: so many display lists, and then its end."""
    lines = shows * b"show 0\n"
    if bad is None:
        return Run(repr(record[:40]), REPLAY, b"", record, lines + b"end 0\n", b"", 0)
    return Run(repr(record[:40]), REPLAY, b"", record, lines, bad_line_told(record, bad), 2)


def record_lines():
    """Returns the runs of records."""
    rows = [(line, 0, None) for line in [*ITEMS, *NOTHING]]
    rows += [(line, 0, 1) for line in BAD]
    rows += [(b"show\n" + line + b"\n", 1, None) for line in [*ITEMS, *NOTHING]]
    return [recorded(*row) for row in [*rows, *RECORDS]]


def command_words():
    """Returns the runs of words: over no stream where they are a command, and `usage` where not."""
    taken = [Run(words, words.split("|"), b"", b"", b"", open_fault_told(words.split("|")[-2]), 3) for words in COMMANDS]
    usage = USAGE.read_bytes()
    return taken + [Run(words, words.split("|"), b"", b"", b"", usage, 1) for words in NO_COMMANDS]
