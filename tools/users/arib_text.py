"""Texts of pages as characters in cells: EUC-JP with the additional kanji and symbols of ARIB STD-B24 (volume 1, part 2), by their Unicode forms.

A character of two bytes fills a cell as wide as it is high. Katakana after 8E and characters of one byte are half as wide. A character without a Unicode form
is the geta mark, which stands for a missing type in print.
"""

import re
from typing import NamedTuple

GETA = "\u3013"
UNREADABLE = "\ufffd"
KANA = 0x8E
WIDE = re.compile(rb"[\x8e\xa1-\xfe][\xa1-\xfe]|[\x00-\xff]", re.DOTALL)
# The rows of additional characters, from cell 1 on: their codes, from-to where they follow each other, and -N for N cells without one.
ROWS = {
    85: """3402 20158 4EFD 4EFF 4F9A 4FC9 509C 511E 51BC 351F 5307 5361 536C 8A79 20BB7 544D 5496 549C 54A9 550E 554A 5672 56E4 5733 5734
        FA10 5880 59E4 5A23 5A55 5BEC FA11 37E2 5EAC 5F34 5F45 5FB7 6017 FA6B 6130 6624 66C8 66D9 66FA 66FB 6852 9FC4 6911 693B 6A45 6A91
        6ADB 233CC 233FE 235C4 6BF1 6CE0 6D2E FA45 6DBF 6DCA 6DF8 FA46 6F5E 6FF9 7064 FA6C 242EE 7147 71C1 7200 739F 73A8 73C9 73D6 741B
        7421 FA4A 7426 742A 742C 7439 744B 3EDA 7575 7581 7772 4093 78C8 78E0 7947 79AE 9FC6 4103""",
    86: """9FC5 79DA 7A1E 7B7F 7C31 4264 7D8B 7FA1 8118 813A FA6D 82AE 845B 84DC 84EC 8559 85CE 8755 87EC 880B 88F5 89D2 8AF6 8DCE 8FBB 8FF6
        90DD 9127 912D 91B2 9233 9288 9321 9348 9592 96DE 9903 9940 9AD9 9BD6 9DD7 9EB4 9EB5""",
    90: """26CC 26CD 2757 26CF-26D1 -1 26D2 26D5 26D3 26D4 -4 1F17F 1F18A -2 26D6-26E1 2B55 3248-324F -4 2491-2493 1F14A 1F14C 1F13F 1F146
        1F14B 1F210-1F213 1F142 1F214-1F216 1F14D 1F131 1F13D 2B1B 2B24 1F217-1F21B 26BF 1F21C-1F225 1F14E 3299 1F200""",
    91: """26E3 2B56-2B59 2613 328B 3012 26E8 3246 3245 26E9 0FD6 26EA-26EC 2668 26ED-26EF 2693 2708 26F0-26F5 1F157 24B9 24C8 26F6 1F15F
        1F18B 1F18D 1F18C 1F179 26F7-26FA 1F17B 260E 26FB-26FE 1F17C 26FF""",
    92: """27A1 2B05-2B07 2B2F 2B2E 5E74 6708 65E5 5186 33A1 33A5 339D 33A0 33A4 1F100 2488-2490 6C0F 526F 5143 6545 524D 65B0 1F101-1F10A
        3233 3236 3232 3231 3239 3244 25B6 25C0 3016 3017 27D0 00B2 00B3 1F12D -30 1F12C 1F12B 3247 1F190 1F226 213B""",
    93: """322A-3230 3237 337E 337D 337C 337B 2116 2121 3036 26BE 1F240-1F248 1F12A 1F227-1F229 1F214 1F22A-1F231 2113 338F 3390 33CA 339E
        33A2 3371 -2 00BD 2189 2153 2154 00BC 00BE 2155-215A 2150 215B 2151 2152 2600-2602 26C4 2616 2617 26C9 26CA 2666 2665 2663 2660
        26CB 2A00 203C 2049 26C5 2614 26C6 2603 26C7 26A1 26C8 -1 269E 269F 266C 260E""",
    94: """2160-216B 2470-247F 3251-3254 1F110-1F129 3255-325A 2460-246F 2776-277F 24EB 24EC 325B""",
}


class Cell(NamedTuple):
    """A character, and whether it is as wide as it is high."""

    text: str
    is_wide: bool


def codes_of(row):
    """Returns the codes of a row's cells, or None for a cell without one."""
    codes = []
    for field in row.split():
        first, _, last = field.partition("-")
        codes += range(int(first, 16), int(last or first, 16) + 1) if first else [None] * int(last)
    return codes


ADDITIONAL = {(row, cell): chr(code) for row, text in ROWS.items() for cell, code in enumerate(codes_of(text), 1) if code is not None}


def character(code):
    """Returns the character of two bytes."""
    found = ADDITIONAL.get((code[0] - 0xA0, code[1] - 0xA0))
    if found:
        return found
    try:
        return code.decode("euc_jp")
    except UnicodeDecodeError:
        return UNREADABLE if code[0] == KANA else GETA


def single(code):
    """Returns the character of one byte; control characters are pictures of them."""
    if code < 0x20 or code == 0x7F:
        return chr(0x2400 + code) if code < 0x20 else "\u2421"
    return chr(code) if code < 0x80 else UNREADABLE


def cells_of(data):
    """Returns the cells of a text."""
    codes = WIDE.findall(data)
    return [Cell(single(it[0]), False) if len(it) == 1 else Cell(character(it), it[0] != KANA) for it in codes]


def readable(data):
    """Returns a text as it is read."""
    return "".join(cell.text for cell in cells_of(data))
