#!/usr/bin/env python3
"""Writes the modules of a recording, and what is in them, to the disk.

    tools/users/extract.py IN FOLDER [--service N | --data-pid N]

reads the recording IN (packets of 188, 192 or 204 bytes) as a receiver of its first service, or of the service or the PID of data that is asked
for. FOLDER has to be new or empty. Each module that is whole is written to it, in each version that comes:

    FOLDER/40/0000.v01/startup.bml    of component 40 the module 0000 in version 01, and in it the part startup.bml

A module that zlib compressed is unpacked. One that has other bytes than before in the same version is 0000.v01.2, and so on. FOLDER/index.html
lists them in the order in which they were whole: component, module, version, type, bytes, names, and the packet with which it was whole,
counted from 1. It shows texts, and pictures in their own colours, or in the receivers' common fixed ones where they have none. A line `module cc mmmm vv size PLACE` is printed for each.

What names a part comes from a broadcast: see `safe_name` for what becomes of it. A name that a browser would run has `.txt` after it. At most
4 GB, 100,000 files and 200,000 modules are written, and the page has at most 5,000 rows. Status: 0 where it was done, 1 where IN has no packets or no module
comes, or a file can't be read or written, 2 where the command line is none of the above. This tool is tested, and not proved.
"""

import argparse
import hashlib
import os
import re
import sys
import unicodedata
from html import escape
from pathlib import Path
from typing import NamedTuple

from colours import FIXED
from diagnosis import diagnose, said_by_system
from drawings import data_address
from entities import BadEntity, Part, resources_of
from pictures import JPEG, MNG, PNG, BadPicture, picture_of
from recordings import PacketReader
from service_modules import ServiceModules
from transport import compression_of

NAME = "extract.py"
MOST_BYTES = 4_000_000_000  # that are written
MOST_FILES = 100_000
MOST_ROWS = 5_000  # of the page
MOST_MODULES = 200_000  # that are noted; more aren't written
MOST_SHOWN = 4_000_000  # characters of all texts on the page together
MOST_PICTURES = 1_000  # that are shown
MOST_EMBEDDED = 10_000_000  # bytes of those that stand in the page
MOST_OF_A_TEXT = 20_000
MOST_NAME_BYTES = 100  # of a file
# The names of what has none, by its media type.
ENDINGS = {
    "text/x-arib-bml": ".bml",
    "text/css": ".css",
    "text/x-arib-ecmascript": ".ecm",
    "text/plain": ".txt",
    "image/jpeg": ".jpg",
    "image/x-arib-png": ".png",
    "image/png": ".png",
    "image/x-arib-mng": ".mng",
    "audio/x-arib-aiff": ".aif",
}
TEXTS = re.compile(r"\.(bml|css|ecm|es|js|txt)$", re.IGNORECASE)
# What a browser runs, or shows with scripts that are in it.
RUN_BY_BROWSERS = re.compile(r"\.(html?|shtml?|xhtml?|xht|svgz?|xml|xsl|xslt|mht|mhtml|hta|url|desktop|lnk|exe|bat|cmd|com|ps1|sh)$", re.IGNORECASE)
RESERVED = re.compile(r"(con|prn|aux|nul|com[0-9]|lpt[0-9])(\..*)?", re.IGNORECASE)

STYLE = """
body{font:15px/1.5 sans-serif;margin:0 auto;padding:0 1em 4em;max-width:1080px;color:#202428;background:#fff}
h1{font-size:1.5em}table{border-collapse:collapse}td,th{text-align:left;vertical-align:top;padding:.2em .8em;border-bottom:1px solid #d8dce0}
img{max-width:320px;max-height:180px;display:block;background:repeating-conic-gradient(#e4e8ec 0 25%,#fff 0 50%) 0 0/16px 16px}
pre{font:12px/1.4 monospace;white-space:pre-wrap;overflow-wrap:anywhere;max-height:20em;overflow:auto;background:#f4f6f8;padding:.5em;margin:.3em 0}
td{overflow-wrap:anywhere}small{color:#586068}.fault{background:#fff0d0}
"""


class Fault(Exception):
    """What is wrong with a file."""


class Resource(NamedTuple):
    """What was written of a module's part: its name as it came, its file in FOLDER, its media type, its bytes, and what is to be known of it."""

    name: str
    file: str
    media_type: str
    size: int
    note: str
    shown: str | None = None  # the beginning of a text


class Row(NamedTuple):
    """A module that came: when, what, where it is written, and what is in it; or why nothing is."""

    packet: int
    component: int
    number: int
    version: int
    size: int
    place: str | None
    resources: list
    note: str


def text_of(data):
    """Returns bytes of a broadcast as a text: they are EUC-JP, and each other byte is written in hexadecimal digits."""
    return data.decode("euc_jp", errors="backslashreplace")


def cut_name(name, most):
    """Returns a name of at most so many bytes, with the ending that it has."""
    stem, ending = os.path.splitext(name)
    if len(ending.encode()) > 20:
        stem, ending = name, ""
    while len((stem + ending).encode()) > most:
        stem = stem[:-1]
    return stem + ending


def safe_name(name, media_type):
    """Returns a name for a file: letters, digits and `.-_~+=@` stay, and each other character is `_`. It begins with no dot and ends with none,
    isn't reserved by any system, has at most MOST_NAME_BYTES, and isn't one that a browser would run."""
    safe = "".join(it if it in ".-_~+=@" or unicodedata.category(it)[0] in "LN" else "_" for it in unicodedata.normalize("NFC", name))
    safe = safe.strip(".")
    if not safe:
        safe = "resource" + ENDINGS.get(media_type.partition(";")[0].strip().lower(), ".bin")
    if RESERVED.fullmatch(safe):
        safe = "_" + safe
    safe = cut_name(safe, MOST_NAME_BYTES)
    return safe + ".txt" if RUN_BY_BROWSERS.search(safe) else safe


def free_name(name, taken):
    """Returns the name, or where one is taken that systems don't tell from it the first that is free of `name~2.ending` and so on."""
    stem, ending = os.path.splitext(name)
    found, number = name, 1
    while found.casefold() in taken:
        number += 1
        found = f"{stem}~{number}{ending}"
    taken.add(found.casefold())
    return found


class Folder:
    """Where modules are written, and what was."""

    def __init__(self, place):
        self.place = Path(place)
        self.rows = []
        self.skips = []
        self.places = {}  # of each version of a module: where it is, by the digest of its bytes
        self.bytes = self.files = self.shown = self.left = 0

    def check(self):
        """Refuses a place where something is."""
        if os.path.lexists(self.place) and (not self.place.is_dir() or any(self.place.iterdir())):
            raise Fault(f"{self.place} is there and isn't an empty folder: name another")

    def take_skip(self, skip):
        if len(self.skips) < MOST_ROWS:
            self.skips.append(skip)

    def take_arrival(self, arrival):
        """Writes a module, and prints its line."""
        if len(self.rows) >= MOST_MODULES:
            self.left += 1
            return
        component, module, data = arrival.component, arrival.module, arrival.data
        same = self.places.setdefault((component, module.number, module.version), {})
        digest = hashlib.sha256(data + bytes([arrival.fault is None])).digest()
        notes, resources = self.notes_of(arrival), []
        place = same.get(digest)
        if place is not None:
            notes.append(f"the same as before, in {place}")
        elif self.bytes + len(data) > MOST_BYTES or self.files >= MOST_FILES:
            notes.append("not written, since this folder is full")
        else:
            again = f".{len(same) + 1}" if same else ""
            place = same[digest] = f"{component:02x}/{module.number:04x}.v{module.version:02x}{again}"
            resources = self.written(place, arrival, notes)
        self.rows.append(Row(arrival.packet, component, module.number, module.version, len(data), place, resources, "; ".join(notes)))
        print(f"module {component:02x} {module.number:04x} {module.version:02x} {len(data)} {place or '-'}")

    def notes_of(self, arrival):
        """Returns what is to be known of a module before what is in it."""
        if arrival.fault:
            return [f"compressed, and left as it came: {arrival.fault}"]
        return [f"unpacked from {arrival.module.size:,} bytes"] if arrival.is_unpacked() else []

    def written(self, place, arrival, notes):
        """Writes what is in a module, and returns its resources."""
        try:
            parts = [Part(b"", b"", arrival.data)] if arrival.fault else resources_of(arrival.module.info, arrival.data)
        except BadEntity as fault:
            notes.append(f"no entity, so it has no resource: {fault}")
            parts = [Part(b"", b"", arrival.data)]
        (self.place / place).mkdir(parents=True)
        taken, resources = set(), []
        for part in parts:
            if self.files >= MOST_FILES:
                notes.append("not all of it is written, since this folder is full")
                break
            media_type = text_of(part.media_type)
            file = f"{place}/{free_name(safe_name(text_of(part.name), media_type), taken)}"
            with open(self.place / file, "xb") as made:
                made.write(part.data)
            self.files += 1
            self.bytes += len(part.data)
            note = "" if part.is_found else "another part before it has its name, so no path leads to it"
            resources.append(Resource(text_of(part.name), file, media_type, len(part.data), note, self.shown_text(file, part.data)))
        if not parts:
            notes.append("nothing is in it")
        return resources

    def shown_text(self, file, data):
        """Returns the beginning of a text, where it is one and there is room for it on the page."""
        if not TEXTS.search(file) or self.shown >= MOST_SHOWN or len(self.rows) >= MOST_ROWS:
            return None
        text = text_of(data[:MOST_OF_A_TEXT])
        text = re.sub(r"[\x00-\x08\x0b-\x1f\x7f]", "\ufffd", text.replace("\r\n", "\n"))
        self.shown += len(text)
        return text + ("\n.." if len(data) > MOST_OF_A_TEXT else "")


class Pictures:
    """The pictures of a page: how many are shown, and how many bytes of them stand in it."""

    def __init__(self):
        self.shown = self.embedded = 0

    def html(self, file, data):
        """Returns a picture as it is shown, where bytes are one and there is room: one that a browser can show is its file, and another stands in the
        page with the receivers' common fixed colours."""
        if not data.startswith((JPEG, PNG, MNG)) or self.shown >= MOST_PICTURES:
            return []
        try:
            found = picture_of(data, FIXED)
        except BadPicture as fault:
            return [f'<small class="fault">a picture that can\'t be shown: {escape(str(fault))}</small>']
        self.shown += 1
        address, note = path_url(file), ""
        if data.startswith(MNG) or b"PLTE" in found.data and b"PLTE" not in data:
            if self.embedded + len(found.data) > MOST_EMBEDDED:
                return []
            self.embedded += len(found.data)
            address, note = data_address(found), "<small>its first picture, or in the receivers' common fixed colours</small>"
        return [f'<img loading="lazy" src="{escape(address)}" alt="a picture that this browser can\'t show">{note}']


def resource_html(folder, resource, pictures):
    """Returns a part of a module, with its picture or its text."""
    written = [f'<a href="{escape(path_url(resource.file))}">{escape(resource.name or "(no name)")}</a>']
    written.append(f"<small>{escape(resource.media_type or 'no type')}, {resource.size:,} bytes</small>")
    file = os.path.basename(resource.file)
    if file != resource.name:
        written.append(f"<small>written as {escape(file)}</small>")
    if resource.note:
        written.append(f'<small class="fault">{escape(resource.note)}</small>')
    written += pictures.html(resource.file, (folder / resource.file).read_bytes())
    if resource.shown is not None:
        written.append(f"<details><summary>its text</summary><pre>{escape(resource.shown)}</pre></details>")
    return "<div>" + " ".join(written) + "</div>"


def path_url(path):
    """Returns the address of a file in the folder: bytes that aren't letters or digits are %HH."""
    return "".join(chr(it) if chr(it).isalnum() and it < 0x80 or it in b"/.-_~" else f"%{it:02X}" for it in path.encode())


def row_html(folder, order, row, pictures):
    """Returns the row of a module."""
    note = f'<div class="fault">{escape(row.note)}</div>' if row.note and not row.note.startswith("unpacked") else f"<small>{escape(row.note)}</small>"
    resources = "".join(resource_html(folder, it, pictures) for it in row.resources)
    cells = [order, f"{row.component:02x}", f"{row.number:04x}", f"{row.version:02x}", f"{row.size:,}", f"{row.packet:,}", resources + note]
    return "<tr>" + "".join(f"<td>{cell}</td>" for cell in cells) + "</tr>"


def page_parts(folder, source, told):
    """Yields the page, piece by piece."""
    name, total = escape(os.path.basename(source)), sum(row.size for row in folder.rows)
    yield '<!DOCTYPE html><html lang="en"><head><meta charset="utf-8">'
    yield """<meta http-equiv="Content-Security-Policy" content="script-src 'none'; object-src 'none'; frame-src 'none'; connect-src 'none'">"""
    yield f'<meta name="viewport" content="width=device-width"><title>Modules of {name}</title><style>{STYLE}</style></head><body>'
    yield f"<h1>Modules of {name}</h1><p>{escape(told)} Modules that came: {len(folder.rows):,}, with {total:,} bytes together.</p>"
    yield "<p><small>Numbers of components, modules and versions are hexadecimal. A packet is the one with which the module was whole,"
    yield " counted from 1 in the recording. This page is tested, and not proved.</small></p>"
    yield "<table><tr>" + "".join(f"<th>{it}</th>" for it in ["", "component", "module", "version", "bytes", "packet", "what is in it"]) + "</tr>"
    pictures = Pictures()
    for order, row in enumerate(folder.rows[:MOST_ROWS], 1):
        yield row_html(folder.place, order, row, pictures)
    yield "</table>"
    if folder.left:
        yield f'<p class="fault">{folder.left:,} modules that came after the first {MOST_MODULES:,} aren\'t written.</p>'
    if len(folder.rows) > MOST_ROWS:
        yield f"<p>{len(folder.rows) - MOST_ROWS:,} more aren't on this page; their files are in the folder.</p>"
    if folder.skips:
        yield "<h2>Modules that weren't taken</h2><table><tr><th>component</th><th>module</th><th>version</th><th>packet</th><th>why</th></tr>"
        for skip in folder.skips:
            module, why = skip.module, ("compressed: " if compression_of(skip.module.info) else "") + skip.fault
            cells = [f"{skip.component:02x}", f"{module.number:04x}", f"{module.version:02x}", f"{skip.packet:,}", escape(why)]
            yield "<tr>" + "".join(f"<td>{cell}</td>" for cell in cells) + "</tr>"
        yield "</table>"
    yield "</body></html>"


def read_modules(file, modules):
    """Hands the packets of a file to what follows a service, and returns their size and number."""
    recording = PacketReader(file)
    for number, pid, packet in recording.packets_on(lambda: modules.wanted):
        modules.take(pid, packet, number)
    return recording.size, recording.count


def extract(source, place, service=None, data_pid=None):
    """Writes the modules of a recording to a folder, and returns it."""
    folder = Folder(place)
    with open(source, "rb") as file:
        folder.check()
        modules = ServiceModules(folder.take_arrival, folder.take_skip, service, data_pid)
        size, count = read_modules(file, modules)
    told = f"{count:,} packets of {size} bytes."
    if not folder.rows:
        raise Fault(why_nothing(source, service, data_pid))
    with open(folder.place / "index.html", "x", encoding="utf-8", errors="backslashreplace") as made:
        made.writelines(f"{part}\n" for part in page_parts(folder, source, told))
    return folder


def why_nothing(source, service, data_pid):
    """Returns why no module of a recording came whole."""
    findings = diagnose(source, service, data_pid)
    told = " ".join(it.text() for it in findings if it.row not in ("packets of 192 or 204 bytes", "compressed modules"))
    return f"no module came whole. {told}".strip()


def number_between(least, most):
    def number(text):
        if not re.fullmatch("[0-9]{1,10}", text) or not least <= int(text) <= most:
            raise argparse.ArgumentTypeError(f"{text} is no number from {least} to {most}")
        return int(text)

    return number


def main(words):
    parser = argparse.ArgumentParser(usage="extract.py IN FOLDER [--service N | --data-pid N]", epilog="What it writes is told at its head.")
    parser.add_argument("source", metavar="IN")
    parser.add_argument("folder", metavar="FOLDER")
    which = parser.add_mutually_exclusive_group()
    which.add_argument("--service", type=number_between(1, 65_535), metavar="N")
    which.add_argument("--data-pid", type=number_between(16, 8_190), metavar="N")
    asked = parser.parse_args(words)
    try:
        extract(asked.source, asked.folder, asked.service, asked.data_pid)
        sys.stdout.flush()
    except Fault as fault:
        print(f"{NAME}: {asked.source}: {fault}", file=sys.stderr)
        return 1
    except OSError as fault:
        print(f"{NAME}: {said_by_system(fault)}", file=sys.stderr)
        return 1
    except KeyboardInterrupt:
        print(f"{NAME}: interrupted", file=sys.stderr)
        return 1
    return 0


if __name__ == "__main__":
    sys.exit(main(sys.argv[1:]))
