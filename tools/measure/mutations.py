"""How bytes are changed at random: a few changes, one after the other, drawn from a source of random numbers.

Most are small. A few words of the language of the text, and other texts of it, are put in now and then, so that not
all changes end at the first byte that fits nowhere.
"""

import math
from random import Random
from typing import NamedTuple

TELLING_BYTES = b"\x00\x01\x09\x0a\x0b\x0d\x20\x21\"#$%&'()*+,-./09:;<=>?AZ[\\]_az{|}~\x7f\x80\x8e\xa0\xa1\xfe\xff"
# How many changes a text gets, and the most bytes that they may leave, with how often.
COUNTS = (1, 1, 1, 2, 3, 5, 12, 40)
SIZES = ((4_000, 80), (60_000, 18), (1 << 20, 2))


class Language(NamedTuple):
    """Words and whole texts of a language."""

    words: list[bytes]
    texts: list[bytes]


def about(dice: Random, most: int) -> int:
    """Returns a number from 1 to `most`, each order of magnitude as often as any other."""
    return min(most, int(2 ** dice.uniform(0, math.log2(most + 1))))


def span(dice: Random, data: bytes) -> tuple[int, int]:
    """Returns the place and the end of some bytes, mostly of a few."""
    length = about(dice, len(data))
    at = dice.randrange(len(data) - length + 1)
    return at, at + length


def flipped(dice: Random, data: bytes, _: Language) -> bytes:
    at = dice.randrange(len(data))
    return data[:at] + bytes([data[at] ^ 1 << dice.randrange(8)]) + data[at + 1 :]


def replaced(dice: Random, data: bytes, _: Language) -> bytes:
    at = dice.randrange(len(data))
    return data[:at] + bytes([dice.choice(TELLING_BYTES)]) + data[at + 1 :]


def removed(dice: Random, data: bytes, _: Language) -> bytes:
    at, end = span(dice, data)
    return data[:at] + data[end:]


def moved(dice: Random, data: bytes, _: Language) -> bytes:
    at, end = span(dice, data)
    rest = data[:at] + data[end:]
    to = dice.randrange(len(rest) + 1)
    return rest[:to] + data[at:end] + rest[to:]


def repeated(dice: Random, data: bytes, _: Language) -> bytes:
    at, end = span(dice, data)
    times = 2 if dice.random() < 0.7 else about(dice, 20_000)
    times = max(1, min(times, (1 << 20) // (end - at)))
    return data[:at] + data[at:end] * times + data[end:]


def inserted(dice: Random, data: bytes, language: Language) -> bytes:
    at = dice.randrange(len(data) + 1)
    return data[:at] + dice.choice(language.words) + data[at:]


def overwritten(dice: Random, data: bytes, language: Language) -> bytes:
    at, end = span(dice, data)
    return data[:at] + dice.choice(language.words) + data[end:]


def ended(dice: Random, data: bytes, _: Language) -> bytes:
    return data[: dice.randrange(len(data) + 1)]


def joined(dice: Random, data: bytes, language: Language) -> bytes:
    other = dice.choice(language.texts)
    return data[: dice.randrange(len(data) + 1)] + other[dice.randrange(len(other) + 1) :]


CHANGES = [flipped, replaced, removed, moved, repeated, inserted, inserted, overwritten, overwritten, ended, joined]


def mutated(dice: Random, data: bytes, language: Language) -> bytes:
    """Returns bytes after some changes."""
    sizes, weights = zip(*SIZES)
    most = dice.choices(sizes, weights)[0]
    for _ in range(dice.choice(COUNTS)):
        # (what is empty begins anew as a word)
        data = dice.choice(CHANGES)(dice, data or dice.choice(language.words), language)[:most]
    return data
