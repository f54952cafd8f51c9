#!/usr/bin/env python3
"""Writes a report of what a run printed, to be looked at in a browser: one HTML file that needs nothing else.

    tools/users/report.py OUTPUT FOLDER [--stream STREAM [--service N | --data-pid N]] [--record RECORD]

reads the lines of OUTPUT and writes FOLDER/report.html. It has the warnings (scripts that were stopped, events that were lost, documents
refused, modules skipped), the modules with their sizes and when they came, and then the run in parts, each up to a display list: its lines,
its drawing (tools/users/draw_display.py), and what differs from the display list before. A filter shows the lines of one kind, or with a text.
The lines don't tell when something happened but by their order and the clock of each display list. With the record of
the run each part also names the items that it comes from, and the packets that they took: a record that takes them in portions,
`packets 1000` and `show`, tells in which of these a module came. With the stream its size is told, drawings have the page's own colours and
pictures, and each module has the packet that completed it and the stream's time there, by its clock references; other lines have the packets that they are between. A
service or PID that the run was given is given here too.

Everything in OUTPUT may come from a broadcast, and is escaped. The script of the report is the same in all of them, and its policy
(Content-Security-Policy) lets a browser run that script alone. What is drawn stops at 10 MB, and tables at 1,000 rows.
Status: 0 where it was written, 1 where a file can't be read or written, or isn't what it is named as, 2 where the command line is none of the above.
"""

import argparse
import base64
import hashlib
import math
import os
import re
import sys
from collections import Counter
from html import escape
from pathlib import Path
from typing import NamedTuple

from diagnosis import diagnose, fault_of_output, fault_of_record, refusal_of_stream, said_by_system
from drawings import FONT_SCRIPT, NO_FONT, BadOutput, DisplayList, data_address, display_lists, drawing, numbers, rectangle, shapes_of
from pictures import BadPicture
from shown_pages import Follower, Recording, add_service

MOST_ROWS = 1000  # of a table
MOST_DRAWN = 10_000_000  # characters of all drawings together
MOST_PICTURES = 50_000_000  # bytes of all pictures together
WARNINGS = {
    b"stop": "a script was stopped",
    b"lost": "an event was lost",
    b"badscript": "a script is no program",
    b"refuse": "a document was refused",
    b"skip": "a module was skipped",
}
# The kinds of lines, as the filter offers them.
KINDS = ["module", "gone", "skip", "dataevent", "load", "refuse", "badscript", "stop", "lost", "launch", "sound", "kept", "show", "box", "text", "row", "picture", "focus", "end"]
KEYS = {1: "up", 2: "down", 3: "left", 4: "right", 18: "enter", 19: "back", 20: "data", 21: "blue", 22: "red", 23: "green", 24: "yellow"}
KEYS |= {5 + digit: str(digit) for digit in range(10)}

STYLE = """
body{font:15px/1.5 sans-serif;margin:0 auto;padding:0 1em 4em;max-width:1080px;color:#202428;background:#fff}
h1{font-size:1.5em}h2{font-size:1.2em;margin:2em 0 .5em}h3{font-size:1em;margin:1.5em 0 .3em}
table{border-collapse:collapse}td,th{text-align:left;padding:.1em .8em;border-bottom:1px solid #d8dce0}
.lines{font:13px/1.5 monospace;margin:.3em 0}.lines p{margin:0;white-space:pre-wrap;overflow-wrap:anywhere}
.lines p[data-at]::after{content:attr(data-at);float:right;color:#687078;margin-left:2em}.lines p[id]::before{content:attr(id);display:inline-block;min-width:5em;color:#687078}
.stop,.lost,.badscript,.refuse,.skip{background:#fff0d0}.new{background:#f8e0f8}.was{color:#687078;text-decoration:line-through}
section{content-visibility:auto;contain-intrinsic-size:auto 400px;border-top:1px solid #d8dce0}
section > svg{width:100%;max-width:640px;height:auto;display:block;margin:.5em 0}
nav{position:sticky;top:0;background:#fff;padding:.6em 0;border-bottom:2px solid #202428;z-index:1}
#pictures{position:absolute;width:0;height:0}input,select{font:inherit}#part{width:5em}section{scroll-margin-top:4em}p[id]{scroll-margin-top:5em}small{color:#586068}[hidden]{display:none!important}
"""
SCRIPT = """
const lines = [...document.querySelectorAll("section p[id]")];
const parts = [...document.querySelectorAll("section")];
const text = document.querySelector("#text"), kind = document.querySelector("#kind"), found = document.querySelector("#found");
function filter() {
  const wanted = text.value.toLowerCase(), all = !wanted && !kind.value, shown = new Set();
  let count = 0;
  for (const line of lines) {
    const fits = all || (!kind.value || line.classList.contains(kind.value)) && line.textContent.toLowerCase().includes(wanted);
    line.hidden = !fits;
    if (fits) { count += 1; shown.add(line.closest("section")); }
  }
  for (const part of parts) {
    part.hidden = !all && !shown.has(part);
    for (const list of part.querySelectorAll("details")) list.open = !all && list.querySelector("p[id]:not([hidden])") !== null;
  }
  found.textContent = all ? "" : count + " of " + lines.length + " lines";
}
let waiting = 0;
text.addEventListener("input", () => { clearTimeout(waiting); waiting = setTimeout(filter, 200); });
kind.addEventListener("change", filter);
document.querySelector("#part").addEventListener("change", event => { location.hash = "P" + event.target.value; });
"""
SCRIPT += FONT_SCRIPT


class Part(NamedTuple):
    """The lines of a run up to a display list and with it, or after the last one: where they begin, the clocks of the display list before and
    of this one, the lines before it, and what is shown. The last part shows nothing."""

    first: int
    before: int
    clock: int | None
    lines: list[bytes]
    shown: DisplayList | None


class Acquired(NamedTuple):
    """A module that came: its component, number, version, size, its line, and its part."""

    component: str
    number: str
    version: str
    size: int
    line: int
    part: int


class Report(NamedTuple):
    """What a report tells: the lines of the run, its parts, the items of the record for each of them, the packets that were taken before and with these,
    sentences about the run, the stream where it is known, and what is to be known of it. Without a record there are neither items nor packets."""

    name: str
    lines: list[bytes]
    parts: list[Part]
    items: list[list[str]]
    spans: list[tuple[float, float]]
    notes: list[str]
    recording: Recording | None
    findings: list[str]


class Sprites:
    """The pictures of a report: each of them stands in it once, and drawings name it."""

    def __init__(self):
        self.found, self.size = {}, 0

    def image(self, found, place):
        """Returns the shape of a picture at its place."""
        name = "p" + hashlib.sha256(found.data).hexdigest()[:16]
        if name not in self.found:
            if self.size + len(found.data) > MOST_PICTURES:
                raise BadPicture("not shown here, since this report is large")
            self.found[name] = found
            self.size += len(found.data)
        return f'<use {place} href="#{name}"/>'

    def html(self):
        symbols = [
            f'<symbol id="{name}" viewBox="0 0 {it.width} {it.height}" preserveAspectRatio="none">'
            f'<image width="{it.width}" height="{it.height}" href="{data_address(it)}"/></symbol>'
            for name, it in self.found.items()
        ]
        return ['<svg id="pictures">', *symbols, "</svg>"] if symbols else []


def plain_text(line):
    """Returns a line as it is shown: its texts are EUC-JP, and each other byte is written in hexadecimal digits."""
    text = line.decode("euc_jp", errors="backslashreplace")
    return re.sub("[\x00-\x1f\x7f]", lambda it: f"\\x{ord(it[0]):02x}", text)


def shown_text(line):
    """Returns a line as it is shown, in HTML."""
    return escape(plain_text(line), quote=False)


def kind_of(line):
    """Returns the kind of a line, by which it is shown."""
    word = line.split(b" ")[0].decode("ascii", errors="replace")
    return word if word in KINDS else "other"


def parts_of(lines):
    """Returns the parts of a run."""
    parts, first, before = [], 0, 0
    for shown in display_lists(lines):
        parts.append(Part(first, before, shown.clock, lines[first : shown.place], shown))
        first, before = shown.place + 1 + len(shown.lines), shown.clock
    if lines[first:] or not parts:
        parts.append(Part(first, before, None, lines[first:], None))
    return parts


def part_places(parts, count):
    """Returns for each line the number of its part, counted from 1."""
    places = []
    for number, (part, behind) in enumerate(zip(parts, [*(it.first for it in parts[1:]), count]), 1):
        places += [number] * (behind - part.first)
    return places


def items_of(record):
    """Returns the items of a record, in lists that each end with an item `show` or `rows`, but for the last one."""
    items = [[]]
    for line in record.decode("ascii", errors="backslashreplace").split("\n"):
        fields = line.rstrip("\r").split()
        if not fields or fields[0].startswith("#"):
            continue
        is_key = fields[0] in ("key", "release") and len(fields) == 2 and re.fullmatch("[0-9]{1,10}", fields[1])
        name = KEYS.get(int(fields[1])) if is_key else None
        items[-1].append(" ".join(fields) + (f" ({name})" if name else ""))
        if fields == ["show"] or (fields[0] == "rows" and len(fields) == 3):
            items.append([])
    return items


def space_of(items):
    """Returns how many pixels are between two characters of a row in the display list that these items end with."""
    asked = re.fullmatch("rows ([0-9]{1,10}) [a-z]+", items[-1]) if items else None
    return int(asked[1]) if asked else 0


def taken_by(items, count):
    """Returns how many packets were taken before each list of items and with it, or infinity where that isn't known; the run took so many in
    all, or it isn't known how many."""
    most = math.inf if count is None else count
    spans, taken = [], 0
    for part in items:
        first = taken
        for item in part:
            number = re.fullmatch("packets ([0-9]{1,10})", item)
            if number or item == "all":
                taken = min(taken + int(number[1]), most) if number else most
        spans.append((first, taken))
    return spans


def packets_told(first, taken):
    """Returns which packets a list of items takes, counted from 1."""
    if first == math.inf:
        return "not known"
    if taken == math.inf:
        return f"from {first + 1:,} on"
    return f"{first + 1:,} to {taken:,}" if taken > first else "none"


def moments_of(report):
    """Returns for each line the first packet and the last one with which it may have come, as far as the stream tells; a module came with the
    packet that completed it."""
    follower = Follower(report.lines, report.recording).end()
    if report.recording is None or follower.fault:
        return {}
    places, most = part_places(report.parts, len(report.lines)), report.recording.packets
    spans = report.spans + [(0, math.inf)] * len(report.parts)
    moments, low, high = {}, 0, most
    for place in range(len(report.lines)):
        arrival = follower.arrived.get(place)
        low = max(low, arrival.packet if arrival else min(spans[places[place] - 1][0], most))
        moments[place] = [low, most]
    for place in reversed(range(len(report.lines))):
        high = min(high, follower.arrived[place].packet) if place in follower.arrived else min(high, spans[places[place] - 1][1])
        moments[place][1] = max(high, moments[place][0])
    return moments


def moment_told(report, first, last):
    """Returns when something happened that came with one of these packets: in which packet, and at which time of the stream."""
    clock = report.recording.clock
    times = list(dict.fromkeys(filter(None, (clock.told(first), clock.told(last)))))
    packets = f"packet {first:,}" if first == last else f"packets {first:,} to {last:,}"
    return ", ".join([packets, *([" to ".join(times)] if times else [])])


def acquisitions(lines, places):
    """Returns the modules that came, in the order of their lines, and of each that went or was skipped the last line that says so."""
    came, went = [], {}
    for place, line in enumerate(lines):
        word, *fields = line.decode("ascii", errors="replace").split(" ")
        if word == "module" and len(fields) == 4 and re.fullmatch("[0-9]{1,20}", fields[3]):
            came.append(Acquired(*fields[:3], int(fields[3]), place + 1, places[place]))
            went.pop(tuple(fields[:2]), None)
        elif word in ("gone", "skip") and len(fields) >= 2:
            went[tuple(fields[:2])] = word, place + 1
    return came, went


def link(line):
    return f'<a href="#L{line}">{line}</a>'


def table(heads, rows):
    """Returns a table, of so many rows as are to be shown, and how many are left out. The cells are HTML."""
    written = ["<table><tr>" + "".join(f"<th>{head}</th>" for head in heads) + "</tr>"]
    written += ["<tr>" + "".join(f"<td>{cell}</td>" for cell in row) + "</tr>" for row in rows[:MOST_ROWS]]
    left = len(rows) - MOST_ROWS
    return [*written, "</table>", *([f"<p>{left:,} more aren't in this table; their lines are below.</p>"] if left > 0 else [])]


def between(part):
    """Returns when the lines of a part came, by the clocks of the display lists round them."""
    if part.clock is None:
        return f"from {part.before} on"
    return str(part.clock) if part.clock == part.before else f"{part.before} to {part.clock}"


def module_table(report, places, moments):
    """Returns the table of the modules that came."""
    came, went = acquisitions(report.lines, places)
    last = {(it.component, it.number): it.line for it in came}
    rows = []
    for order, it in enumerate(came, 1):
        name = it.component, it.number
        word, line = went.get(name, ("", 0))
        state = f"another one in line {link(last[name])}" if last[name] > it.line else f"{word} in line {link(line)}" if word else "held"
        packets = packets_told(*report.spans[it.part - 1]) if it.part <= len(report.spans) else "not known"
        times = []
        if moments:
            packet, _ = moments[it.line - 1]
            packets, times = f"{packet:,}", list(filter(None, [report.recording.clock.told(packet)]))
        when = [link(it.line), it.part, packets, *times, between(report.parts[it.part - 1])]
        rows.append([order, *(escape(cell) for cell in it[:3]), f"{it.size:,}", *when, state])
    total = sum(it.size for it in came)
    head = [f"<h2>Modules</h2><p>Modules that came: {len(came):,}, with {total:,} bytes together.</p>"]
    times = ["stream time"] if moments and report.recording.clock.times else []
    heads = ["", "component", "module", "version", "bytes", "line", "part", "packets", *times, "clock (ms)", "at the end"]
    return head + (table(heads, rows) if rows else [])


def warning_table(report, places):
    """Returns the table of the lines that warn."""
    found = [(place, line) for place, line in enumerate(report.lines) if line.split(b" ")[0] in WARNINGS]
    counts = Counter(line.split(b" ")[0] for _, line in found)
    sums = [f"{WARNINGS[word]}: {counts[word]:,}" for word in WARNINGS if counts[word]]
    rows = [[link(place + 1), places[place], WARNINGS[line.split(b" ")[0]], f"<code>{shown_text(line)}</code>"] for place, line in found]
    told = [f'<p class="refuse">{escape(finding)}</p>' for finding in report.findings]
    head = ["<h2>Warnings</h2>", *told, f"<p>{'; '.join(sums) or 'None of the lines warns'}.</p>"]
    return head + (table(["line", "part", "what", "which"], rows) if rows else [])


def line_html(place, line, mark="", moment=""):
    """Returns a line with its number and, where it is known, when it came; its class is its kind."""
    kinds = " ".join(it for it in (kind_of(line), mark) if it)
    when = f' data-at="{moment}"' if moment else ""
    return f'<p id="L{place + 1}" class="{kinds}"{when}>{shown_text(line)}</p>'


def outlines(lines, colour):
    """Returns dashed outlines of the places that lines of a display list name; a row has none."""
    places = dict.fromkeys(tuple(numbers(line.split(b" ")[1:], 4)) for line in lines if kind_of(line) != "row")
    words = f'fill="none" stroke="{colour}" stroke-width="3" stroke-dasharray="9 6"'
    return [rectangle(x - 4, y - 4, width + 8, height + 8, words) for x, y, width, height in places]


def display_html(shown, before, room, look, space):
    """Returns a display list with its drawing, where there is room for it, and what differs from the one before; and the room that was taken, which is all of
    it where the drawing found none. In rows so many pixels are between two characters."""
    new = list((Counter(shown.lines) - Counter(before)).elements())
    was = list((Counter(before) - Counter(shown.lines)).elements())
    told, marks = "nothing was shown before", []
    if before:
        told = f"new lines: {len(new):,} (dashed in magenta), lines gone: {len(was):,} (dashed in grey)"
        told = told if new or was else "the same lines as before in another order"
        marks = outlines(was, "#a0a0a0") + outlines(new, "#ff40ff")
    picture, is_new = "", shown.lines != before
    if not is_new:
        told = "the same as the one before" if before else "nothing is shown"
    elif room > 0:
        picture = drawing(shown.clock, shapes_of(shown.lines, look, space) + marks, look)
    taken = len(picture)
    if is_new and not 0 < taken <= room:
        told, picture, taken = told + "; not drawn here, since this report is large", "", max(room, 0)
    left, listed = Counter(new), []
    for at, line in enumerate(shown.lines, shown.place + 1):
        listed.append(line_html(at, line, "new" if left[line] else ""))
        left[line] -= 1 if left[line] else 0
    listed += [f'<p class="was">{shown_text(line)}</p>' for line in was]
    told += f"; {escape(look.fault)}" if look.fault else ""
    head = f"<summary>The display list: {len(shown.lines):,} lines; {told}</summary>"
    return [picture, "<details>", head, '<div class="lines">', *listed, "</div></details>"], taken


def part_html(report, number, before, room, look, moments):
    """Returns a part with its lines and its display list, and the room that its drawing took."""
    part = report.parts[number - 1]
    shown = "after the last display list" if number > 1 else "without a display list"
    shown = f"up to the display list at {part.clock} ms" if part.shown else shown
    written = [f'<section id="P{number}"><h3>Part {number}: {shown}</h3>']
    items = report.items[number - 1] if number <= len(report.items) else []
    if items:
        told = escape("; ".join(items))
        written.append(f"<p><small>The record: {told}. Packets: {packets_told(*report.spans[number - 1])}.</small></p>")
    told = []
    for place, line in enumerate(part.lines, part.first):
        told.append(line_html(place, line, "", moment_told(report, *moments[place]) if place in moments else ""))
    written += ['<div class="lines">', *told]
    drawn = 0
    if part.shown:
        written.append(line_html(part.shown.place, report.lines[part.shown.place]) + "</div>")
        listed, drawn = display_html(part.shown, before, room, look, space_of(items))
        written += listed
    else:
        written.append("</div>")
    return [*written, "</section>"], drawn


def page(report):
    """Returns the report as HTML."""
    places, written, drawn, before = part_places(report.parts, len(report.lines)), [], 0, []
    follower, sprites, moments = Follower(report.lines, report.recording), Sprites(), moments_of(report)
    for number, part in enumerate(report.parts, 1):
        look = follower.look_at(part.shown.place if part.shown else len(report.lines))
        look.image = sprites.image
        html, more = part_html(report, number, before, MOST_DRAWN - drawn, look, moments)
        written += html
        drawn += more
        before = part.shown.lines if part.shown else before
    kinds = "".join(f"<option>{kind}</option>" for kind in [*KINDS, "other"])
    name, notes = escape(report.name), [*report.notes, follower.fault]
    return "\n".join([
        f'<!DOCTYPE html><html lang="en"><head><meta charset="utf-8"><meta http-equiv="Content-Security-Policy" content="{policy()}">',
        f'<meta name="viewport" content="width=device-width"><title>{name}</title><style>{STYLE}</style></head><body>',
        f"<h1>{name}</h1><p>{len(report.lines):,} lines. {' '.join(map(escape, filter(None, notes)))}</p>",
        f'<p id="fonts" hidden>{NO_FONT}</p>',
        *warning_table(report, places),
        *module_table(report, places, moments),
        "<h2>The run, part by part</h2>",
        '<nav><label>Lines with <input id="text" type="search"></label>',
        f'<label>of the kind <select id="kind"><option value="">any</option>{kinds}</select></label> <span id="found"></span>',
        f'<label>part <input id="part" type="number" min="1" max="{len(report.parts)}"> of {len(report.parts):,}</label></nav>',
        *sprites.html(),
        *written,
        f"<script>{SCRIPT}</script></body></html>\n",
    ])


def policy():
    """Returns the policy under which a browser runs the script of a report, and nothing else."""
    digest = base64.b64encode(hashlib.sha256(SCRIPT.encode()).digest()).decode()
    return f"default-src 'none'; style-src 'unsafe-inline'; img-src data:; script-src 'sha256-{digest}'"


def notes_of(count, parts, items, stream):
    """Returns sentences about the whole run, which took so many packets."""
    shows = sum(1 for part in parts if part.shown)
    notes = [f"{shows:,} display lists."]
    cut = "The last line is no `end`: the run stopped before the end of its record, or the file was cut."
    notes.append(cut if count is None else f"The record was read to its end; {count:,} packets were taken.")
    if items and len(items) - 1 != shows:
        notes.append(f"The record asks for {len(items) - 1:,} display lists: it is another one, or the run stopped in it.")
    if stream:
        notes.append(f"The stream {os.path.basename(stream)} has {os.path.getsize(stream):,} bytes.")
    return notes


def report_of(output, stream=None, record=None, service=None, data_pid=None):
    """Returns the report of a file of lines."""
    lines = Path(output).read_bytes().split(b"\n")
    if lines[-1] == b"":
        lines.pop()
    items = items_of(Path(record).read_bytes()) if record else []
    recording = Recording(stream, service, data_pid).read() if stream else None
    findings = [it.text() for it in diagnose(stream, service, data_pid)] if stream else []
    return report_of_lines(f"Report of {os.path.basename(output)}", lines, items, stream, recording, findings)


def report_of_lines(name, lines, items, stream, recording, findings=()):
    """Returns the report of lines, of the items of their record and of their stream, as far as these are known, and with what is to be known of the
    stream."""
    parts = parts_of(lines)
    ended = re.fullmatch(rb"end ([0-9]{1,20})", lines[-1]) if lines else None
    count = int(ended[1]) if ended else None
    notes = notes_of(count, parts, items, stream)
    return Report(name, lines, parts, items, taken_by(items, count), notes, recording, findings)


def main(words):
    parser = argparse.ArgumentParser(usage="report.py OUTPUT FOLDER [--stream STREAM [--service N | --data-pid N]] [--record RECORD]")
    parser.add_argument("output")
    parser.add_argument("folder")
    parser.add_argument("--stream")
    add_service(parser)
    parser.add_argument("--record")
    asked = parser.parse_args(words)
    try:
        for path, fault_of in ((asked.output, fault_of_output), (asked.stream, refusal_of_stream), (asked.record, fault_of_record)):
            if path is not None and (fault := fault_of(path)):
                print(f"report.py: {path}: {fault}", file=sys.stderr)
                return 1
        report = report_of(asked.output, asked.stream, asked.record, asked.service, asked.data_pid)
        made = Path(asked.folder) / "report.html"
        text = page(report)
        made.parent.mkdir(parents=True, exist_ok=True)
        made.write_text(text, encoding="utf-8")
    except BadOutput as fault:
        print(f"report.py: {asked.output} is no output of a run: it has a display list {fault}", file=sys.stderr)
        return 1
    except OSError as fault:
        print(f"report.py: {said_by_system(fault)}", file=sys.stderr)
        return 1
    print(made)
    return 0


if __name__ == "__main__":
    sys.exit(main(sys.argv[1:]))
