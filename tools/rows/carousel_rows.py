"""Carousels: messages byte by byte, sections in each order, and a module of as many blocks as may be.

A row here is a message of a line, or one of many streams, so these stand in Python and not in a table. What has to
come of them is from docs/FORMATS.md, "Messages of a data carousel" and "Modules".
"""

import itertools

from sent_modules import BML, CSS, block_sections, run_of_sections
from transport import MESSAGE_DDB, MESSAGE_DII, Module, ddb_section, dii_section, section

BLOCK_SIZE = 4


# Messages byte by byte


def dii(
    kind="1103 1002",
    lengths="00 001E",
    adaptation="",
    compatibility="0000",
    count="0001",
    entry="0001 00000008 02 00",
    private="0000",
    behind="",
):
    """Returns the message of a DII in hexadecimal digits, with the bytes after it in its section.

    It has the transactionId 2, the downloadId 1 and the blockSize 4, and announces 8 bytes of module 1 in version 2.
    The lengths are adaptationLength and messageLength.
    """
    fields = "00000001 0004 00 00 00000000 00000000"
    return f"{kind} 00000002 00 {lengths} {adaptation} {fields} {compatibility} {count} {entry} {private} {behind}"


def ddb(kind="1103 1003", lengths="00 000A", adaptation="", fields="0001 01 00 0001", block="65666768", behind=""):
    """Returns the message of a DDB in the same way: with the downloadId 1, and the second block of module 1 in version 1."""
    return f"{kind} 00000001 00 {lengths} {adaptation} {fields} {block} {behind}"


# Messages that are read, and those that are passed over, since a length doesn't fit or they are of another kind. In some
# of these the bytes after the message would make a length fit.
DIIS = [
    ("a DII", dii()),
    ("a DII with adaptation bytes", dii(lengths="02 0020", adaptation="0505")),
    ("a DII with all lengths", dii(lengths="00 0024", compatibility="0001 09", entry="0001 00000008 02 02 5200", private="0003 090909")),
    ("bytes after a DII", dii(behind="090909")),
]
DDBS = [
    ("a DDB", ddb()),
    ("a DDB with adaptation bytes", ddb(lengths="03 000D", adaptation="050505")),
    ("bytes after a DDB", ddb(behind="090909")),
]
PASSED_DIIS = [
    ("infoLength passes the message", dii(entry="0001 00000008 02 03")),
    ("infoLength passes the message, and not the section", dii(entry="0001 00000008 02 03", behind="00 0000")),
    ("infoLength takes privateDataLength", dii(entry="0001 00000008 02 02")),
    ("numberOfModules 2 and one module", dii(count="0002")),
    ("numberOfModules 2, and the second one after the message", dii(count="0002", behind="00000004 01 00 0000")),
    ("numberOfModules 0 and one module", dii(count="0000")),
    ("compatibility bytes past the message", dii(compatibility="0100")),
    ("private bytes past the message", dii(private="0001")),
    ("private bytes past the message, and not the section", dii(private="0001", behind="09")),
    ("a byte left in the message", dii(lengths="00 001F", behind="09")),
    ("messageLength a byte short", dii(lengths="00 001D")),
    ("messageLength past the section", dii(lengths="00 001F")),
    ("adaptationLength past the message", dii(lengths="1F 001E", behind="09")),
    ("a DII of a header alone", "1103 1002 00000002 00 00 0000"),
    ("a DII of no bytes", ""),
    ("a DII with the first byte 10", dii(kind="1003 1002")),
    ("a DII with the second byte 04", dii(kind="1104 1002")),
    ("a DII with the messageId of a DSI", dii(kind="1103 1006")),
    ("a DDB in the section of a DII", ddb()),
]
PASSED_DDBS = [
    ("messageLength 5", ddb(lengths="00 0005")),
    ("messageLength 5, and the section ends there", ddb(lengths="00 0005", fields="0001 01 00 00", block="")),
    ("messageLength of a shorter block", ddb(lengths="00 0009")),
    ("messageLength of a longer block, past the section", ddb(lengths="00 000B")),
    ("adaptation bytes up to the last field", ddb(lengths="05 000A")),
    ("adaptationLength past the message of a DDB", ddb(lengths="0B 000A", behind="09")),
    ("a DDB of a header alone", "1103 1003 00000001 00 00 0000"),
    ("a DDB of no bytes", ""),
    ("a DDB with the first byte 10", ddb(kind="1003 1003")),
    ("a DDB with the second byte 04", ddb(kind="1104 1003")),
    ("a DDB with the messageId of a cancel", ddb(kind="1103 1005")),
    ("a DII in the section of a DDB", dii()),
]

# What is told with the sections around the message, where it is passed over, and where it is read. With the DII the block
# of module 1 that came is forgotten, since the version is another one, and module 2 isn't announced any more.
PASSED_OVER = "module 40 0002 01 4\nmodule 40 0001 01 8\n"
READ_DII = "gone 40 0002\n"
READ_DDB = "module 40 0001 01 8\nmodule 40 0002 01 4\n"


def message_run(name, table_id, message, told):
    """Returns the run of a message after the first block of module 1, and before its second one and that of module 2."""
    sections = [
        dii_section(1, 1, BLOCK_SIZE, [Module(1, 1, 8), Module(2, 1, 4)]),
        ddb_section(1, 1, 1, 0, b"abcd"),
        section(table_id, bytes.fromhex(message)),
        ddb_section(1, 2, 1, 0, b"ijkl"),
        ddb_section(1, 1, 1, 1, b"efgh"),
    ]
    return run_of_sections(name, sections, told, "all\n")


def messages():
    """Returns the runs of messages that are read, and of those that are passed over."""
    (dii_table, _), (ddb_table, _) = MESSAGE_DII, MESSAGE_DDB
    groups = [
        (dii_table, DIIS, READ_DII),
        (dii_table, PASSED_DIIS, PASSED_OVER),
        (ddb_table, DDBS, READ_DDB),
        (ddb_table, PASSED_DDBS, PASSED_OVER),
    ]
    return [message_run(name, table, message, told) for table, rows, told in groups for name, message in rows]


# Sections in each order

# A page, and the sheet that it waits for: ten bytes in three blocks, which move the text of the page only if each stands
# at its place.
PAGE = b'<bml><head><link href="/40/0001"/></head><body><p>a</p></body></bml>'
SHEET = b"p{top:5px}"
SHOWN = "load /40/0000\nshow 0\nbox 0 0 0 0 8 0 7\nbox 0 5 0 0 8 0 7\ntext 0 5 0 0 7 24 a\n"


def orders():
    """Returns the runs of a DII and the blocks of the sheet in each order, after the DII and the page.

    The DII that comes again is the one in force, or another one that says the same.
    """
    modules = [Module(0, 1, len(PAGE), BML), Module(1, 1, len(SHEET), CSS)]
    first = [dii_section(1, 1, BLOCK_SIZE, modules), *block_sections(0, PAGE, BLOCK_SIZE)]
    told = f"module 40 0000 01 {len(PAGE)}\nmodule 40 0001 01 {len(SHEET)}\n{SHOWN}"
    runs = []
    for transaction in (1, 2):
        again = {"D": dii_section(transaction, 1, BLOCK_SIZE, modules), **dict(zip("012", block_sections(1, SHEET, BLOCK_SIZE)))}
        for order in itertools.permutations(again):
            name = f"order {''.join(order)}, transaction {transaction}"
            runs.append(run_of_sections(name, [*first, *(again[each] for each in order)], told, "all\nshow\n"))
    return runs


def most_blocks():
    """Returns the run of a module of 65,536 blocks, each of 15 bytes: the number of the last one is as great as may be."""
    data, size = bytes(983_040), 15
    sections = [dii_section(1, 1, size, [Module(1, 1, len(data))]), *block_sections(1, data, size)]
    return run_of_sections("65,536 blocks", sections, f"module 40 0001 01 {len(data)}\n", "all\n")


def all_blocks():
    """Returns the runs of blocks: in each order, and as many as may be."""
    return [*orders(), most_blocks()]
