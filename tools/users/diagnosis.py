"""What is to be known of a file before a replay of it: what it is, and why a replay shows less than somebody may expect, each with what to do.

`docs/TROUBLE.md`, "What the tools say of a recording", has a row for each finding, which names it. prepare_recording.py, extract.py, report.py,
remote.py, open.py and archive.py tell the same by what is here. Tested, and not proved.
"""

import os
import re
import stat
from typing import NamedTuple

from carousels import MOST_MODULE_BYTES, ListedComponent
from recordings import PACKET_SIZE, Assembler, PacketReader, Reception
from service_modules import MOST_COMPONENTS, SINGLE_COMPONENT
from transport import MESSAGE_DDB, MESSAGE_DII, compression_of, is_intact, payload_of, read_ddb, read_dii

TABLE = 'docs/TROUBLE.md, "What the tools say of a recording"'
HEAD = 65_536  # bytes by which a file is told
START_MODULE = 0
MOST_NAMED = 8  # PIDs or modules that a sentence names
MOST_TARGETS = 32  # services or PIDs of a recording
SEARCHED_PACKETS = 500_000  # in which carousels are searched that no table names

MAGIC = [
    (b"\xff\xd8\xff", "a JPEG picture"),
    (b"\x89PNG", "a PNG picture"),
    (b"\x8aMNG", "an MNG picture"),
    (b"GIF8", "a GIF picture"),
    (b"\x1f\x8b", "packed by gzip"),
    (b"PK\x03\x04", "a ZIP archive"),
    (b"7z\xbc\xaf\x27\x1c", "a 7z archive"),
    (b"Rar!", "a RAR archive"),
    (b"BZh", "packed by bzip2"),
    (b"\xfd7zXZ\x00", "packed by xz"),
    (b"\x28\xb5\x2f\xfd", "packed by zstd"),
    (b"\x1aE\xdf\xa3", "a Matroska or WebM file"),
    (b"\x00\x00\x01\xba", "an MPEG program stream"),
    (b"%PDF", "a PDF document"),
    (b"\x7fELF", "a program"),
    (b"#!", "a script"),
]
UNKNOWN = "of a kind that isn't known here"
# What a recording becomes when it is converted.
CONVERTED = ("a Matroska or WebM file", "an MPEG program stream", "an MP4 or QuickTime file", "an AVI or WAVE file")
OUTPUT_LINE = re.compile(
    rb"(module|skip|gone) [0-9a-f]{2} [0-9a-f]{4}\b.*|(load|launch) /.*|refuse /.*|badscript /.*|stop [A-Z]\w+ \w+|lost \w+|sound [0-9]+|kept nvram:.*|"
    rb"show [0-9]+|(box|text|picture|focus)( [0-9-]+){4}.*|row( [0-9-]+){2} .*|end [0-9]+"
)
RECORD_LINE = re.compile(
    rb"[ \t]*(#.*|all|show|(packets|key|release|tick|random)[ \t]+[0-9]+|rows[ \t]+[0-9]+[ \t]+(left|center|right)|date[ \t]+[0-9]+[ \t]+[0-9]+)?[ \t]*\r?"
)


class Finding(NamedTuple):
    """What is to be known of a file: the row of docs/TROUBLE.md, what was found, what to do, and whether nothing can be replayed for that."""

    row: str
    found: str
    remedy: str
    is_fatal: bool = False

    def text(self):
        return f"{self.found}. {self.remedy}. [{self.row}]"


# ---- what a file is


def is_text(data):
    """Whether bytes may be a text."""
    return bool(data) and not re.search(rb"[\x00-\x08\x0e-\x1a\x1c-\x1f\x7f]", data)


def whole_lines(data):
    """Returns the lines that are whole in the beginning of a file."""
    lines = data.split(b"\n")
    return lines[:-1] if len(data) >= HEAD or not lines[-1] else lines


def is_output(data):
    """Whether the beginning of a file may be that of what a run printed, which may be nothing: its first line is, or half of them are."""
    lines = whole_lines(data)
    fitting = [bool(OUTPUT_LINE.fullmatch(line)) for line in lines]
    return not lines or fitting[0] or 2 * sum(fitting) >= len(lines)


def is_record(data):
    """Whether the beginning of a file may be that of a record with an item."""
    lines = whole_lines(data)
    return is_text(data) and all(RECORD_LINE.fullmatch(line) for line in lines) and any(line.strip() and not line.strip().startswith(b"#") for line in lines)


def kind_of(data):
    """Returns what a file is by its beginning, where it is no transport stream."""
    if not data:
        return "empty"
    found = next((kind for front, kind in MAGIC if data.startswith(front)), None)
    if found:
        return found
    if data[4:8] == b"ftyp":
        return "an MP4 or QuickTime file"
    if data.startswith(b"RIFF"):
        return "an AVI or WAVE file"
    if is_record(data):
        return "a record of bml_replay"
    if is_text(data):
        if is_output(data):
            return "what a run of bml_replay printed"
        return "an HTML page" if re.match(rb"\s*<(!doctype html|html)", data, re.IGNORECASE) else "a text"
    return UNKNOWN


def beginning(path):
    """Returns the beginning of a file; of what can't be read twice, as a pipe, nothing that has a kind."""
    if os.path.exists(path) and not os.path.isfile(path) and not os.path.isdir(path):
        return b"\x00"
    with open(path, "rb") as file:
        return file.read(HEAD)


def fault_of_output(path):
    """Returns why a file isn't what a run printed, or None where it may be."""
    data = beginning(path)
    if is_output(data):
        return None
    kind = kind_of(data) if refusal_of_stream(path) else "a transport stream"
    order = {"a transport stream": ": name the lines first, and the stream by --stream", "a record of bml_replay": ": name the lines first, and the record by --record"}
    at, line = next((at, line) for at, line in enumerate(whole_lines(data), 1) if not OUTPUT_LINE.fullmatch(line))
    where = f", whose line {at} is {shown(line)}" if kind == "a text" else ""
    return f"it is no output of a run, but {kind}{where}{order.get(kind, '')}"


def fault_of_record(path):
    """Returns why a file isn't a record, or None where it may be, perhaps with a bad line: its first line is one of a record, or half of them are."""
    data = beginning(path)
    lines = whole_lines(data)
    fitting = [bool(RECORD_LINE.fullmatch(line)) for line in lines]
    kind = kind_of(data) if not data or refusal_of_stream(path) else "a transport stream"
    if kind in ("empty", "a record of bml_replay") or kind == "a text" and (fitting[:1] == [True] or 2 * sum(fitting) >= len(lines)):
        return None
    order = {"a transport stream": "the stream", "what a run of bml_replay printed": "the lines"}
    where = f", whose line 1 is {shown(lines[0])}" if kind == "a text" and lines else ""
    return f"it is no record, but {kind}{where}" + (f": name the record in place of {order[kind]}" if kind in order else "")


def shown(line):
    """Returns the beginning of a line as it is told."""
    text = line[:60].decode("ascii", errors="backslashreplace")
    return '"' + re.sub("[\x00-\x1f\x7f]", lambda it: f"\\x{ord(it[0]):02x}", text) + ('" ..' if len(line) > 60 else '"')


def finding_of_kind(data):
    """Returns the finding of a file without packets, by its beginning."""
    kind = kind_of(data)
    if kind == "empty":
        return Finding("an empty file", "It has no bytes", "See whether it was copied whole", True)
    if kind in ("a record of bml_replay", "what a run of bml_replay printed"):
        return Finding("arguments in another order", f"It is {kind}, and no transport stream", "Name the stream first", True)
    if kind in CONVERTED:
        lost = "Data broadcasts are lost when a recording is converted: take it as it was recorded (.ts, .m2ts)"
        return Finding("no transport stream", f"There are no packets in it: it is {kind}", lost, True)
    known = f"it is {kind}" if kind != UNKNOWN else "a transport stream has 0x47 every 188, 192 or 204 bytes"
    return Finding("no transport stream", f"There are no packets in it: {known}", "Name a transport stream (.ts, .m2ts)", True)


def fault_of_path(path):
    """Returns why a path names no file that can be read once from the front, or None where it does."""
    mode = os.stat(path).st_mode
    return "it is a folder" if stat.S_ISDIR(mode) else None


def refusal_of_stream(path):
    """Returns why a file is no transport stream, or None where packets are at its beginning."""
    with open(path, "rb") as file:
        return finding_of_kind(beginning(path)).text() if PacketReader(file).size is None else None


def said_by_system(fault):
    """Returns what the system says of a file that can't be used: its name and why, where both are known."""
    return f"{fault.filename}: {fault.strerror}" if isinstance(getattr(fault, "filename", None), (str, os.PathLike)) and fault.strerror else str(fault)


def explained(told, stream, record):
    """Returns what the program says of its end, with what it says it of: the line of the record, or the file. Where the program tells it, this is its
    second line."""
    status, _, cause = told.partition("\n")
    if cause:
        return f"{status}: {cause}"
    bad = re.search("bad record line ([0-9]{1,10})", told)
    if bad:
        lines = record.split(b"\n")
        line = lines[int(bad[1]) - 1] if int(bad[1]) <= len(lines) else b""
        return f"{told}, which is {shown(line)}"
    if "open fault" in told or "read fault" in told:
        try:
            beginning(stream)
        except OSError as fault:
            return f"{told}: {stream}: {fault.strerror}"
    return told


# ---- what is in a recording


class Survey(NamedTuple):
    """What was found in a recording: its packets, which were read to their end, its tables, the listing of each PID of data, and what is asked for."""

    recording: PacketReader
    reception: Reception
    listings: dict
    service: int | None = None
    data_pid: int | None = None


def survey(file, service=None, data_pid=None, progress=lambda read: None):
    """Reads a recording to its end. Where it has no packets there is nothing in it."""
    recording, components = PacketReader(file, progress), {}
    reception = Reception(lambda pid: components.setdefault(pid, ListedComponent()), data_pid=data_pid)
    for _, pid, packet in recording.packets_on(lambda: reception.wanted):
        reception.take(pid, packet)
    reception.end()
    return Survey(recording, reception, {pid: component.listing for pid, component in components.items()}, service, data_pid)


def carousel_pids(path):
    """Returns the PIDs at the beginning of a recording on which a DII or a block of a carousel comes, whether a table names them or not."""
    found, assemblers = set(), {}
    if not os.path.isfile(path):
        return []
    with open(path, "rb") as file:
        recording = PacketReader(file)
        for packets in recording.packets():
            for packet in packets:
                pid = (packet[1] & 0x1F) << 8 | packet[2]
                if pid not in found and pid in assemblers or may_begin_message(packet):
                    sections = assemblers.setdefault(pid, Assembler()).push(packet)
                    if any(is_intact(it) and (read_dii(it) or read_ddb(it)) for it in sections):
                        found.add(pid)
            if recording.count >= SEARCHED_PACKETS:
                break
    return sorted(found)


def may_begin_message(packet):
    """Whether a section that may be a DII or a block begins in a packet."""
    payload = payload_of(packet) if packet[1] & 0x40 else None
    return payload is not None and payload[1 + payload[0] : 2 + payload[0]] in (bytes([MESSAGE_DII[0]]), bytes([MESSAGE_DDB[0]]))


def named(items):
    """Returns some items as a sentence names them."""
    items = [str(it) for it in items]
    return ", ".join(items[:MOST_NAMED]) + (f" and {len(items) - MOST_NAMED} more" if len(items) > MOST_NAMED else "")


def counted(count, name):
    return f"{count:,} {name}" if count != 1 else f"1 {name.removesuffix('s')}"


def size_finding(found):
    if found.recording.size == PACKET_SIZE:
        return []
    remedy = "`tools/users/prepare_recording.py unpack IN OUT` writes it in packets of 188 bytes, which the program takes"
    return [Finding("packets of 192 or 204 bytes", f"Its packets have {found.recording.size} bytes", remedy)]


def scrambled_finding(found):
    counts = found.recording.counts
    total = sum(counts.scrambled.values())
    if not total:
        return []
    data = [pid for pid in counts.scrambled if pid in found.listings or pid in found.reception.tables]
    pids = [f"{pid} ({counts.scrambled[pid]:,} of {counts.all[pid]:,})" for pid in sorted(counts.scrambled, key=lambda it: (it not in data, -counts.scrambled[it]))]
    told = f"{total:,} of {found.recording.count:,} packets are scrambled, on the PIDs {named(pids)}"
    if found.reception.streams and not data:
        return [Finding("scrambled packets", told + ": pictures and sound, and no data", "Nothing needs to be done for a replay")]
    told += f"; of these the PIDs {named(sorted(data))} have tables or data" if data else ""
    return [Finding("scrambled packets", told, "Descramble it first: what is scrambled isn't read")]


def damaged_finding(found):
    pids = [pid for pid in found.recording.counts.damaged if pid in found.listings or pid in found.reception.tables]
    marked = sum(found.recording.counts.damaged[pid] for pid in pids)
    sections = sum(listing.damaged for listing in found.listings.values())
    if not marked and not sections:
        return []
    told = [f"{counted(marked, 'packets')} of tables and data are marked as damaged"] if marked else []
    told += [f"{counted(sections, 'sections')} of data are damaged"] if sections else []
    return [Finding("damaged packets or sections", " and ".join(told), "They are passed over, and read when they come again: record longer, or with better reception")]


def table_findings(found, path):
    """Returns what is to be known of the tables, and the service that is followed."""
    reception, service = found.reception, found.service
    if not reception.programs:
        told = f"It has {counted(found.recording.count, 'packets')}, and no table of its services (PAT) came whole"
        return [Finding("no PAT", told, by_pid(path, "Record longer, or take the whole stream and not one programme's part of it"), True)], None
    if service is not None and service not in reception.programs:
        told = f"Service {service} isn't in it"
        return [Finding("a service that isn't there", told, f"Its services are {named(sorted(reception.programs))}: ask for one of them by --service N", True)], None
    service = service or reception.first
    if service not in reception.streams:
        told = f"The table of service {service} (PMT, on PID {reception.programs[service]}) didn't come whole"
        others = sorted(set(reception.streams))
        remedy = f"Ask for another by --service N: that of {named(others)} came" if others else by_pid(path, "Record longer")
        return [Finding("no PMT", told, remedy, not others or found.service is not None)], None
    return [], service


def by_pid(path, otherwise):
    """Returns what to do where no table leads to the data."""
    pids = carousel_pids(path)
    if pids:
        return f"There are carousels on the PIDs {named(pids)}: ask for one by --data-pid N"
    return otherwise


def service_findings(found, path, service):
    """Returns what is to be known of the components of a service, and these, each with its tag and its PID."""
    reception = found.reception
    streams = reception.named[service]
    components = [(it.component, it.pid) for it in streams if it.component is not None]
    with_data = [it for it in sorted(reception.named) if any(stream.component is not None for stream in reception.named[it])]
    if not streams:
        told = f"Service {service} has no component of data"
        if with_data:
            return [Finding("a service without data", told, f"Services with data are {named(with_data)}: ask for one by --service N")], []
        none = "None of its services has a component of data (stream_type 0D in the PMT)"
        lost = "Many recorders leave data out: set yours to keep all that is sent"
        return [Finding("no service with data", none, by_pid(path, lost))], []
    if not components:
        told = f"The components of data of service {service} have no component_tag, on the PIDs {named(it.pid for it in streams)}"
        return [Finding("no component tag", told, "Ask for one by --data-pid N")], []
    more, count = [], len(reception.streams[service])
    if count > MOST_COMPONENTS:
        more.append(Finding("more than 16 components", f"Service {service} has {count} components of data", "The first 16 are received: ask for another by --data-pid N"))
    if all(tag != SINGLE_COMPONENT for tag, _ in components):
        told = f"Service {service} has no component 40, which has the start document, but {named(f'{tag:02x} on PID {pid}' for tag, pid in components)}"
        more.append(Finding("no component 40", told, "Ask for one by --data-pid N: then it is component 40"))
    return more, components


def carousel_findings(found, components):
    """Returns what is to be known of the carousels of components."""
    findings = []
    for tag, pid in components:
        listing, count, scrambled = found.listings.get(pid), found.recording.counts.all[pid], found.recording.counts.scrambled[pid]
        name = f"component {tag:02x} on PID {pid}"
        if not count:
            findings.append(Finding("no packets of a component", f"No packet of {name} is in it", "The recorder left it out, or it isn't sent: record all that is sent, or longer"))
        elif scrambled == count or listing is None:
            continue
        elif not listing.diis and listing.blocks:
            told = f"The carousel of {name} has {counted(listing.blocks, 'blocks')}, and no announcement (DII), so no module of it is known"
            findings.append(Finding("a carousel without a DII", told, "Record longer, so that one comes"))
        elif not listing.diis and not listing.others:
            told = f"{counted(count, 'packets')} of {name} came, and no whole section"
            findings.append(Finding("no section of a component", told, "Record longer, or with better reception"))
    return findings


def module_findings(found, components):
    """Returns what is to be known of the modules of components."""
    findings, modules = [], {(tag, module): is_whole for tag, pid in components for module, is_whole in listed(found, pid)}
    packed = [(tag, module) for tag, module in modules if compression_of(module.info) is not None]
    large = [(tag, module) for tag, module in modules if module.size > MOST_MODULE_BYTES]
    lacking = [(tag, module) for (tag, module), is_whole in modules.items() if not is_whole and (tag, module) not in large]
    if packed:
        told = f"{len(packed):,} of {counted(len(modules), 'modules')} are compressed: {module_names(packed)}"
        findings.append(Finding("compressed modules", told, "`tools/users/prepare_recording.py unpack IN OUT` unpacks them"))
    if large:
        told = f"{counted(len(large), 'modules')} of more than {MOST_MODULE_BYTES:,} bytes: {module_names(large)}"
        findings.append(Finding("large modules", told, "They aren't received: this is a limit of the program"))
    if lacking:
        told = f"{len(lacking):,} of {counted(len(modules), 'modules')} never came whole: {module_names(lacking)}"
        findings.append(Finding("modules that never came whole", told, "Record longer: each comes again and again"))
    announced = [module.number for tag, module in modules if tag == SINGLE_COMPONENT]
    if announced and START_MODULE not in announced:
        findings.append(Finding("no start document", "Module 0000 of component 40, which has the start document, is never announced", "Record longer"))
    return findings


def listed(found, pid):
    return found.listings[pid].whole.items() if pid in found.listings else []


def module_names(modules):
    return named(f"{tag:02x} {module.number:04x} version {module.version:02x}" for tag, module in modules)


def findings_of(found, path):
    """Returns what is to be known of a recording that was surveyed, the worst first."""
    if found.recording.size is None or is_another_kind(found, path):
        return [finding_of_kind(beginning(path))]
    findings, components = [], [(SINGLE_COMPONENT, found.data_pid)]
    if found.data_pid is None:
        findings, service = table_findings(found, path)
        more, components = service_findings(found, path, service) if service is not None else ([], [])
        findings += more
    findings += size_finding(found) + scrambled_finding(found)
    return findings + carousel_findings(found, components) + module_findings(found, components) + damaged_finding(found)


def is_another_kind(found, path):
    """Whether a file is of a known kind, and less than half of it are bytes that happen to look like packets."""
    is_covered = 2 * found.recording.count * found.recording.size >= found.recording.read
    return not is_covered and kind_of(beginning(path)) != UNKNOWN


def diagnose(path, service=None, data_pid=None, progress=lambda read: None):
    """Reads a recording, and returns what is to be known of it before a replay."""
    fault = fault_of_path(path)
    if fault:
        return [Finding("no transport stream", f"There are no packets in it: {fault}", "Name a file", True)]
    with open(path, "rb") as file:
        return findings_of(survey(file, service, data_pid, progress), path)


# ---- what may be replayed


class Target(NamedTuple):
    """What may be replayed of a recording: a service, or a PID of data."""

    service: int | None = None
    data_pid: int | None = None

    def name(self):
        return f"service {self.service}" if self.service else f"PID {self.data_pid}"

    def folder(self):
        return f"service-{self.service}" if self.service else f"pid-{self.data_pid}"

    def options(self):
        return ["--service", str(self.service)] if self.service else ["--data-pid", str(self.data_pid)]


def targets_of(found, source):
    """Returns what may be replayed of a recording: its services with data, or where there are none its PIDs with carousels."""
    named = found.reception.named
    services = [number for number in found.reception.programs if any(it.component is not None for it in named.get(number, []))]
    if services:
        return [Target(service=number) for number in services][:MOST_TARGETS]
    is_read = found.recording.size is not None
    return [Target(data_pid=pid) for pid in (carousel_pids(source) if is_read else []) if 16 <= pid <= 8190][:MOST_TARGETS]
