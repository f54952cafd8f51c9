"""Hostile kept areas: bytes of chance, areas of the rows with changes, areas of another length, and journals whose slots are torn, each with a
page that reads and writes arrays. `area_case` draws a case from a source of random numbers.
"""

import functools

from places import TABLES  # (first, so that the others are found)
from hostile_texts import BML, Case, case_of, record_of
from mutations import Language, mutated

import tables
from journals import AREA_SIZE, JOURNAL, SLOT_SIZE, files_of

EARLIER_AREA_SIZE = 1024  # bytes of an area that an earlier receiver kept
ARRAY_COUNT = AREA_SIZE // 64
LENGTHS = [0, 0, 1, 2, 1000, 1023, EARLIER_AREA_SIZE, EARLIER_AREA_SIZE, 1025, 2048, 3071, 3073, 1 << 20]
FIELDS = ["B:1b", "U:1B", "U:2B", "U:4B", "I:1B", "I:2B", "I:4B", "S:1B", "S:5B", "S:63B", "S:64B", "S:1V", "S:1V"]
WRONG = ["", "B:2b", "U:3B", "S:0B", "S:65B", "s:1V", "U:1B ", "S:1V,,S:1V"]
READ = """
var told = "";
function each(s, n, m) {
  var l = browser.readPersistentArray("nvram://~/" + n, s);
  told = told + n + "=" + l + ";";
  if (l != null) told = told + browser.writePersistentArray("nvram://~/" + m, s, l);
}
%s
document.getElementById("t").firstChild.data = told;
"""


@functools.cache
def areas():
    """Returns the areas that rows of tables/ keep, and words for them."""
    runs = tables.runs_of(TABLES / "arrays.txt")
    kept = {area for run in runs for area in (run.kept, run.kept_after) if area and len(area) == AREA_SIZE}
    return Language([b"\x00", b"\xff", b"\xff" * 64, b"\x40", b"\x3f", b"ab", b"\x8e\xb1", b"\xa4"], sorted(kept))


def structure(dice):
    """Returns the text of a structure, or of none."""
    if dice.random() < 0.1:
        return dice.choice(WRONG)
    return ",".join(dice.choice(FIELDS) for _ in range(dice.choice((1, 1, 2, 3, 8, 40))))


def area_case(dice):
    calls = "".join(f'each("{structure(dice)}", {dice.randrange(ARRAY_COUNT + 1)}, {dice.randrange(ARRAY_COUNT)});\n' for _ in range(dice.choice((1, 4, 20))))
    document = f'<bml><head><script><![CDATA[{READ % calls}]]></script></head><body><p id="t">-</p></body></bml>'
    options, stream, record, *_ = case_of([(BML, document.encode("ascii"))], record_of(dice))
    way = dice.random()
    if way < 0.15:
        kept = dice.randbytes(dice.choice(LENGTHS))
    elif way < 0.5:
        kept = dice.randbytes(AREA_SIZE)
    else:
        kept = mutated(dice, dice.choice(areas().texts), areas())
        kept = (kept + bytes(AREA_SIZE))[:AREA_SIZE] if way < 0.95 else kept
    files = files_of(kept)
    if dice.random() < 0.4:
        files[JOURNAL] = journal_of(dice, kept)
    return Case(options, stream, record, files=files)


def journal_of(dice, kept):
    """Returns a journal: slots of chance or with this area, with gates and numbers of chance, whole or cut, or longer than it should be."""
    areas = [dice.choice(((kept + bytes(AREA_SIZE))[:AREA_SIZE], dice.randbytes(AREA_SIZE), bytes(AREA_SIZE))) for _ in range(2)]
    slots = b"".join(bytes([dice.choice((1, 1, 0, 255)), dice.choice((0, 1, 2, 2, 255))]) + area for area in areas)
    return slots[: dice.choice((2 * SLOT_SIZE, 2 * SLOT_SIZE, SLOT_SIZE, dice.randrange(2 * SLOT_SIZE)))] + dice.choice((b"", b"", b"\1"))
