#!/usr/bin/env python3
"""Compares the dates of `es_date` with those of Python's datetime: compare_dates.py [--program PROGRAM] [--write]

Runs the program `date_tests` over the rows of crates/date_tests/data and over all 182,621 days of the years 1900 to
2399, in pieces: of each day its date, its day of the week, and the number that this date has again. The program is
compiled without proof for each piece; with --program PROGRAM it is one that was built, as `rt ci` leaves it in
crates/date_tests/out. It prints the first answers that differ, and how many answers were compared. The answers of
Python are worked out by `datetime.date` and `divmod` alone. With --write it also writes those to the rows as the file
`stdout`, which `rt ci` compares.
Status: 0 where all answers are the same, 1 where one differs, and 2 where the program didn't run.
"""

import argparse
import os
import subprocess
import sys
import tempfile
from datetime import date, timedelta
from pathlib import Path

CRATE = Path(__file__).resolve().parents[2] / "crates" / "date_tests"
EPOCH = date(1970, 1, 1)
FIRST, LAST = (date(1900, 1, 1) - EPOCH).days, (date(2399, 12, 31) - EPOCH).days
# How many days are asked for at once: `rt try` ends a run that prints more than 1 MiB.
AT_ONCE = 30_000
UNITS = {1: 1, 2: 60, 3: 3600, 4: 86_400, 5: 604_800}


def joined(numbers):
    return "none" if numbers is None else " ".join(map(str, numbers))


def civil(day):
    if not FIRST <= day <= LAST:
        return None
    it = EPOCH + timedelta(days=day)
    return it.year, it.month, it.day, it.isoweekday() % 7


def day_number(year, month, day):
    if not (1900 <= year <= 2399 and 1 <= month <= 12):
        return None
    number = (date(year, month, 1) - EPOCH).days + day - 1
    return (number,) if FIRST <= number <= LAST else None


def moment(seconds):
    day, second = divmod(seconds, 86_400)
    return (day, second) if FIRST <= day <= LAST else None


def fields(year, month, day, hour, minute, second):
    year, month = divmod(year * 12 + month, 12)
    if not 1900 <= year <= 2399:
        return None
    first = (date(year, month + 1, 1) - EPOCH).days
    return moment((first + day - 1) * 86_400 + hour * 3600 + minute * 60 + second)


def is_good(day, second):
    return FIRST <= day <= LAST and 0 <= second < 86_400


def good(day, second):
    if not is_good(day, second):
        return None
    return day, second, second // 3600, second // 60 % 60, second % 60


def later(day, second, count, unit):
    if not is_good(day, second) or unit not in UNITS:
        return None
    return moment(day * 86_400 + second + count * UNITS[unit])


def after(day, second, milliseconds):
    return moment(day * 86_400 + second + milliseconds // 1000) if is_good(day, second) else None


def since(day, second, from_day, from_second, unit):
    if not is_good(day, second) or not is_good(from_day, from_second) or unit not in UNITS:
        return None
    seconds = (day - from_day) * 86_400 + second - from_second
    units = abs(seconds) // UNITS[unit] * (1 if seconds >= 0 else -1)
    return (units,) if -2**31 <= units < 2**31 else None


KINDS = {"civil": civil, "day": day_number, "fields": fields, "good": good, "later": later, "after": after, "since": since}


def expected(row):
    """What is printed of a row of the data."""
    if not row or row.startswith("#"):
        return row
    kind, *numbers = row.split()
    return f"{row}: {joined(KINDS[kind](*map(int, numbers)))}"


def expected_day(day):
    """What is printed of a day in a row of days."""
    return f"{day} {joined(civil(day))} {day}"


def printed(path, program):
    """The lines that the program prints over the rows of a file; where none is named, the crate runs unproved."""
    command = [program, str(path)] if program else ["rt", "try", "--", str(path)]
    run = subprocess.run(command, cwd=CRATE, capture_output=True, text=True, check=False)
    if run.returncode != 0:
        sys.stderr.write(run.stderr[-2000:])
        sys.exit(2)
    return run.stdout.splitlines()


def questions(data):
    """What is asked in each run: rows, and the lines that are expected of them."""
    yield data, [expected(row) for row in data]
    for first in range(FIRST, LAST + 1, AT_ONCE):
        end = min(first + AT_ONCE, LAST + 1)
        row = f"days {first} {end}"
        yield [row], [f"{row}:", *map(expected_day, range(first, end))]


def main():
    parser = argparse.ArgumentParser(description="Compares dates with those of Python.")
    parser.add_argument("--write", action="store_true", help="write the answers to the rows as the file stdout")
    parser.add_argument("--program", type=os.path.abspath, help="date_tests as it was built")
    options = parser.parse_args()
    data = (CRATE / "data" / "dates.txt").read_text(encoding="ascii").splitlines()
    if options.write:
        (CRATE / "stdout").write_text("".join(expected(row) + "\n" for row in data), encoding="ascii")
    wanted, lines = [], []
    with tempfile.TemporaryDirectory() as room:
        asked = Path(room) / "rows.txt"
        for rows, answers in questions(data):
            asked.write_text("\n".join(rows) + "\n", encoding="ascii")
            wanted += answers
            lines += printed(asked, options.program)
    wrong = [pair for pair in zip(wanted, lines) if pair[0] != pair[1]]
    for answer, line in wrong[:10]:
        print(f"printed {line!r}, but {answer!r} was expected")
    print(f"{len(wanted)} lines, of which {len(lines)} were printed and {len(wrong)} differ")
    return 1 if wrong or len(lines) != len(wanted) else 0


if __name__ == "__main__":
    sys.exit(main())
