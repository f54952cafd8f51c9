#!/usr/bin/env python3
"""Opens a recording as a viewer would: a page with what is displayed, and the keys of a remote control.

    tools/users/remote.py STREAM [--service N | --data-pid N] [--record RECORD] [--program PROGRAM] [--port N] [--open]

prints the address of the page, which a browser of this machine opens (with --open at once), and serves it until it is interrupted. The session begins
with RECORD, or else with a record that takes all packets. Each press of a key adds its lines to the record, `key` and `release` and `show`, and each
step of time a `tick`; then PROGRAM (build/bml_replay) replays STREAM from its start, in an empty folder, so that no replay finds what another one
kept. So what is shown is what the program printed for that record. The page saves the record, which shows the same tomorrow, takes the last press back, and has the report
of the session (report.py).

The slider goes to a packet of the recording. Forwards it adds `packets N`. Backwards it takes presses back up to the last one that hadn't taken so many, or, if the
record took more from its beginning, begins it anew. Beside it stand the stream's time by its clock references, and the clock that the record let pass. How far a replay is shows
there, and it can be stopped. One that fails, is stopped or takes over ten minutes is told; its press stays in the record until it is taken back.

The stream is also read by this tool, for its colours, pictures and times (shown_pages.py). Until that is done, pictures are frames.

Only the page drives the session. The server listens on the loopback address alone, its address has a word drawn at random, a request with the
name of another host is refused, and nothing is served but the page (tools/users/remote.html), its answers and the report. Stream and program are those of the command line.
Status: 0 where it was interrupted, 1 where a file can't be used, 2 where the command line is none of the above.
"""

import argparse
import base64
import hashlib
import hmac
import json
import os
import re
import secrets
import signal
import subprocess
import sys
import tempfile
import threading
import time
import webbrowser
from http.server import BaseHTTPRequestHandler, ThreadingHTTPServer
from pathlib import Path
from typing import NamedTuple

from diagnosis import diagnose, explained, fault_of_record, refusal_of_stream, said_by_system
from drawings import FONT_SCRIPT, NO_FONT, BadOutput, DisplayList, Look, display_lists, drawing, shapes_of
from report import KEYS, items_of, kind_of, page, plain_text, policy, report_of_lines, space_of
from shown_pages import Follower, Recording, add_service, number

TOOLS = Path(__file__).resolve().parent
PAGE = (TOOLS / "remote.html").read_text(encoding="utf-8").replace("FONT_SCRIPT", FONT_SCRIPT).replace("NO_FONT", NO_FONT)
PROGRAM = TOOLS.parents[1] / "build" / "bml_replay"
FIRST_RECORD = b"# begun by tools/users/remote.py\nall\nshow\n"
LIMIT = 600  # seconds for a replay
# So many seconds may a replay take before it is said that the stream can be cut, if it has so many bytes.
LONG, LARGE = 1, 10_000_000
PATIENCE = 2  # seconds in which a stream is read before its first picture is drawn
MOST_MILLISECONDS = 3_600_000
MOST_PACKETS = (1 << 32) - 1
MARKS = 100  # times along the slider, and
MOST_ARRIVALS = 300  # modules
MOST_BODY = 1000  # bytes of a request
MOST_LINES = 5000  # of those that are shown beside the picture


def policy_of(page):
    """Returns the policy under which a browser runs the script of the page, and nothing else."""
    script = page.split("<script>")[1].split("</script>")[0]
    digest = base64.b64encode(hashlib.sha256(script.encode()).digest()).decode()
    return (
        f"default-src 'none'; script-src 'sha256-{digest}'; style-src 'unsafe-inline'; connect-src 'self'; img-src data:; "
        "base-uri 'none'; form-action 'none'; frame-ancestors 'none'"
    )


POLICY = policy_of(PAGE)


class Failed(Exception):
    """Why a replay gave no lines."""


class Press(NamedTuple):
    """What was pressed, and its lines of the record."""

    name: str
    lines: bytes


class Printed(NamedTuple):
    """What a replay printed, without the line `end`: how many lines, a digest of them, and how many packets it took."""

    count: int
    digest: bytes
    packets: int | None


class Shown(NamedTuple):
    """What the page shows of a replay: all of its lines, where those begin that no replay of a shorter record printed, its display list, how many pixels
    are between two characters in the rows of that, and the packets that it took."""

    lines: list[bytes]
    first: int
    listed: DisplayList
    space: int
    packets: int | None


class Drawn(NamedTuple):
    """The drawing of a display list, and what is wrong with its look."""

    drawing: str
    fault: str


def digest_of(lines):
    return hashlib.sha256(b"\n".join(lines)).digest()


def key_press(code):
    return Press(KEYS[code], f"# {KEYS[code]}\nkey {code}\nrelease {code}\nshow\n".encode())


def time_step(milliseconds):
    return Press(f"{milliseconds} ms", f"# {milliseconds} ms\ntick {milliseconds}\nshow\n".encode())


def packet_step(packets):
    return Press(f"{packets} packets", f"# {packets} packets\npackets {packets}\nshow\n".encode())


def file_place(process, path):
    """Returns how far a process has read a file, or None where that isn't known."""
    try:
        for entry in Path(f"/proc/{process}/fd").iterdir():
            if os.path.realpath(entry) == os.path.realpath(path):
                told = Path(f"/proc/{process}/fdinfo/{entry.name}").read_text(encoding="ascii")
                return int(re.search("pos:\\s*([0-9]+)", told)[1])
    except (OSError, TypeError):
        pass
    return None


def part_of(place, size):
    """Returns which part of a file was read, or None where that isn't known."""
    return None if place is None or not size else min(1, place / size)


class Replay:
    """A run of the program over a record, in a folder where nothing is kept."""

    def __init__(self, command):
        self.command = command
        self.started, self.is_stopped, self.begun = None, False, time.monotonic()

    def lines(self, record):
        """Returns the lines that the program prints."""
        with tempfile.TemporaryDirectory(prefix="replay-") as room:
            Path(room, "record.txt").write_bytes(record)
            files = {"stdin": subprocess.DEVNULL, "stdout": subprocess.PIPE, "stderr": subprocess.PIPE, "cwd": room}
            try:
                # (a session of its own, so that whatever it starts ends with it)
                self.started = subprocess.Popen([*self.command, "record.txt"], start_new_session=True, **files)
            except OSError as fault:
                raise Failed(f"The program can't be run: {fault}") from fault
            if self.is_stopped:
                self.end()
            try:
                printed, told = self.started.communicate(timeout=LIMIT)
            except subprocess.TimeoutExpired as fault:
                self.end()
                self.started.communicate()
                raise Failed(f"The replay took more than {LIMIT} seconds, and was ended.") from fault
        if self.is_stopped:
            raise Failed("The replay was stopped.")
        if self.started.returncode:
            why = told.decode("utf-8", errors="replace").strip()
            raise Failed(f"The program ended with status {self.started.returncode}: {explained(why[-500:], self.command[-1], record)}")
        lines = printed.split(b"\n")
        return lines[:-1] if lines[-1] == b"" else lines

    def end(self):
        """Ends the program, where it runs."""
        if self.started and self.started.poll() is None:
            os.killpg(self.started.pid, signal.SIGKILL)

    def stop(self):
        self.is_stopped = True
        self.end()

    def part(self):
        """Returns how much of the stream was read, as a part of it, or None where that isn't known."""
        try:
            return part_of(self.started and file_place(self.started.pid, self.command[-1]), os.path.getsize(self.command[-1]))
        except OSError:
            return None


class Reading(threading.Thread):
    """Reads a recording beside all else."""

    def __init__(self, recording):
        super().__init__(daemon=True)
        self.recording, self.read, self.fault = recording, 0, ""
        self.is_read = self.is_done = False  # whether its modules are there, and whether it was looked through
        self.findings = []  # what is to be known of it
        self.start()

    def run(self):
        recording = self.recording
        try:
            recording.read(self.take)
            self.is_read = True
            self.findings = [it.text() for it in diagnose(recording.path, recording.service, recording.data_pid)]
        except Exception as fault:  # (whatever comes: what is shown then is the lines alone)
            self.fault = f"The recording can't be read for its pictures: {fault}"
        self.is_done = True

    def take(self, read):
        self.read = read

    def part(self):
        try:
            return part_of(self.read, os.path.getsize(self.recording.path))
        except OSError:
            return None


class Session:
    """A record that grows by presses, and what the program printed for it."""

    def __init__(self, command, record, recording=None):
        self.command = command
        self.reading = Reading(recording) if recording else None
        self.record = record if record.endswith(b"\n") or not record else record + b"\n"
        items = items_of(self.record)
        if items[-1] or len(items) == 1:
            self.record += b"show\n"
        self.presses, self.fault = [], ""
        self.printed = []  # for the record before each press that is in it, and for the whole one; None where a replay failed
        self.shown = None  # of the last replay that didn't fail
        self.drawn, self.drawn_with, self.has_waited = None, None, False
        self.running, self.seconds = None, 0
        self.lock = threading.Lock()
        # (whoever asks for the state waits for the first replay, and may ask how far it is)
        self.lock.acquire()
        threading.Thread(target=self.begin, daemon=True).start()

    def begin(self):
        """Replays the record for the first time."""
        try:
            self.replay()
        finally:
            self.lock.release()

    def end(self):
        """Ends the replay that runs, where one does, with whatever it keeps on the disk."""
        self.stop()
        self.lock.acquire(timeout=PATIENCE)

    def text(self):
        """Returns the whole record."""
        return self.record + b"".join(press.lines for press in self.presses)

    def recording(self):
        """Returns the recording, once it is read."""
        return self.reading.recording if self.reading and self.reading.is_read else None

    def replay(self):
        """Replays the record, and keeps what was printed, or else why nothing was."""
        self.printed, self.fault = self.printed[: len(self.presses)], ""
        before = next(filter(None, reversed(self.printed)), Printed(0, digest_of([]), None))
        self.running = Replay(self.command)
        try:
            lines = self.running.lines(self.text())
            ended = re.fullmatch(rb"end ([0-9]{1,20})", lines[-1]) if lines else None
            packets, body = int(ended[1]) if ended else None, lines[:-1] if ended else lines
            listed = [it for it in display_lists(body) if it.place >= before.count][-1]
            shapes_of(listed.lines, Look())
            self.shown, self.drawn = Shown(lines, before.count, listed, space_of(items_of(self.text())[-2]), packets), None
            self.printed.append(Printed(len(body), digest_of(body), packets))
            if digest_of(body[: before.count]) != before.digest:
                self.fault = "The lines of the presses before aren't what they were: has the stream or the program changed?"
        except Failed as fault:
            self.fail(str(fault))
        except (BadOutput, IndexError):
            self.fail("The program printed a display list that no run prints, or none.")
        self.seconds, self.running = time.monotonic() - self.running.begun, None

    def fail(self, fault):
        self.fault = fault + ("\nThe picture is that of the record before." if self.shown else "")
        self.printed.append(None)

    def draw(self):
        """Returns the drawing of what is shown, which is another one once the recording is read."""
        if self.reading and not self.has_waited:
            self.reading.join(PATIENCE)
            self.has_waited = True
        recording = self.recording()
        if self.drawn is None or self.drawn_with is not recording:
            follower = Follower(self.shown.lines, recording)
            look = follower.look_at(self.shown.listed.place)
            drawn = drawing(self.shown.listed.clock, shapes_of(self.shown.listed.lines, look, self.shown.space), look)
            self.drawn, self.drawn_with = Drawn(drawn, follower.fault or look.fault), recording
        return self.drawn

    def press(self, press):
        with self.lock:
            self.presses.append(press)
            self.replay()

    def undo(self):
        with self.lock:
            if self.presses:
                self.presses.pop()
                self.replay()

    def seek(self, packets):
        """Goes to a packet of the recording."""
        with self.lock:
            places = [place for place, printed in enumerate(self.printed) if printed and printed.packets is not None and printed.packets <= packets]
            if places:
                self.presses = self.presses[: places[-1]]
                taken = self.printed[places[-1]].packets
            else:
                self.record, self.presses, self.printed, taken = b"# begun by tools/users/remote.py\n", [], [], 0
                self.record += f"packets {packets}\nshow\n".encode()
                taken = packets
            if packets > taken:
                self.presses.append(packet_step(packets - taken))
            self.replay()

    def stop(self):
        """Stops the replay that runs, where one does."""
        if running := self.running:
            running.stop()

    def progress(self):
        """Returns what is going on, as the page shows it."""
        if running := self.running:
            return {"what": "replaying", "part": running.part(), "seconds": round(time.monotonic() - running.begun, 1)}
        # (where nothing is displayed, it is also told why)
        is_empty = self.shown and not self.shown.listed.lines
        if self.reading and not (self.reading.is_done or (self.reading.is_read and not is_empty)):
            return {"what": "reading", "part": self.reading.part(), "seconds": 0}
        return {"what": "", "part": None, "seconds": 0}

    def along(self):
        """Returns what stands along the slider: how many packets there are, the times at equal steps, and the modules that came."""
        recording = self.recording()
        if not recording:
            return {"packets": self.shown.packets if self.shown else None, "times": [], "arrivals": []}
        times = [recording.clock.at(recording.packets * step // MARKS) for step in range(MARKS + 1)]
        names = [[it.packet, f"{it.component:02x} {it.module.number:04x} {it.module.version:02x}"] for it in recording.arrivals[:MOST_ARRIVALS]]
        return {"packets": recording.packets, "times": times, "arrivals": names}

    def report(self):
        """Returns the report of what is shown, as HTML."""
        with self.lock:
            shown, recording = self.shown, self.recording()
            return page(report_of_lines("Report of a session", shown.lines if shown else [], items_of(self.text()), self.command[-1] if recording else None, recording))

    def proposal(self):
        """Returns what makes presses quicker, where they take long."""
        stream = self.command[-1]
        if self.seconds <= LONG or not os.path.isfile(stream) or os.path.getsize(stream) < LARGE:
            return ""
        cut = "tools/users/prepare_recording.py unpack --data-only leaves pictures and sound out, and what it writes replays in a moment."
        return f" The last press took {self.seconds:.1f} seconds: {cut}"

    def why_empty(self):
        """Returns what is to be known of the recording, where nothing is shown."""
        findings = self.reading.findings if self.reading and self.shown and not self.shown.listed.lines else []
        return "\n".join(["Nothing is displayed.", *findings]) if findings else ""

    def state(self):
        """Returns what the page shows."""
        with self.lock:
            shown = self.shown
            drawn = self.draw() if shown else Drawn("", "")
            new = shown.lines[shown.first :] if self.printed[-1] else []
            lines = [[kind_of(line), plain_text(line)] for line in new[:MOST_LINES]]
            if len(new) > MOST_LINES:
                lines.append(["other", f"({len(new) - MOST_LINES} more lines)"])
            told = f"Presses: {len(self.presses)}" + (f", the last one {self.presses[-1].name}" if self.presses else "")
            recording = self.recording()
            is_known = recording and shown and shown.packets is not None
            return {
                "drawing": drawn.drawing,
                "lines": lines,
                "fault": self.fault or drawn.fault or (self.reading.fault if self.reading else "") or self.why_empty(),
                "told": told + (f". Clock: {shown.listed.clock} ms" if shown else "") + self.proposal(),
                "record": self.text().decode("ascii", errors="backslashreplace"),
                "clock": shown.listed.clock if shown else None,
                "taken": shown.packets if shown else None,
                "time": recording.clock.at(shown.packets) if is_known else None,
                "along": self.along(),
                "progress": self.progress(),
            }


class Refused(Exception):
    """A request that isn't served, with its status."""


class Handler(BaseHTTPRequestHandler):
    """Answers the requests of the page."""

    server_version, sys_version = "remote", ""
    timeout = 30

    def log_message(self, *_):
        """Keeps quiet about each request."""

    def answer(self, status, kind, data, more=()):
        """Sends an answer with its heads; those of more count before the others."""
        self.send_response(status)
        heads = {"Content-Type": kind, "Content-Length": str(len(data)), "Cache-Control": "no-store", "Referrer-Policy": "no-referrer"}
        heads |= {"X-Content-Type-Options": "nosniff", "Content-Security-Policy": POLICY, **dict(more)}
        for name, value in heads.items():
            self.send_header(name, value)
        self.end_headers()
        self.wfile.write(data)

    def name(self):
        """Returns what the address asks for after the word, where this is the session's and the host is this one."""
        port = self.server.server_address[1]
        if self.headers.get_all("Host") not in ([f"127.0.0.1:{port}"], [f"localhost:{port}"]):
            raise Refused(403, "another host is meant")
        _, word, *rest = [*self.path.split("/", 2), ""][:3]
        if not hmac.compare_digest(word.encode("utf-8", "replace"), self.server.word.encode()) or self.path.count("/") != 2:
            raise Refused(404, "there is no such page")
        return rest[0]

    def body(self):
        """Returns what the page sent."""
        origin, host = self.headers.get("Origin"), self.headers["Host"]
        length = self.headers.get("Content-Length", "")
        if origin not in (None, f"http://{host}") or self.headers.get("Content-Type") != "application/json":
            raise Refused(403, "it isn't the page that asks")
        if not length.isascii() or not length.isdigit() or int(length[:9]) > MOST_BODY:
            raise Refused(413, "it is too long")
        try:
            words = json.loads(self.rfile.read(int(length)))
        except (ValueError, RecursionError) as fault:
            raise Refused(400, "it is no JSON") from fault
        return words if isinstance(words, dict) else {}

    def serve(self, method):
        try:
            method(self.name())
        except Refused as refused:
            self.answer(refused.args[0], "text/plain; charset=utf-8", refused.args[1].encode())

    def do_GET(self):
        self.serve(self.give)

    def do_POST(self):
        self.serve(self.act)

    def give(self, name):
        """Answers a request that changes nothing."""
        session = self.server.session
        if name == "":
            self.answer(200, "text/html; charset=utf-8", PAGE.encode())
        elif name == "state":
            self.give_state()
        elif name == "progress":
            self.answer(200, "application/json", json.dumps(session.progress()).encode())
        elif name == "report.html":
            self.answer(200, "text/html; charset=utf-8", session.report().encode(), {"Content-Security-Policy": policy()})
        elif name == "record.txt":
            more = {"Content-Disposition": 'attachment; filename="record.txt"'}
            self.answer(200, "application/octet-stream", session.text(), more)
        else:
            raise Refused(404, "there is no such page")

    def give_state(self):
        self.answer(200, "application/json", json.dumps(self.server.session.state()).encode())

    def act(self, name):
        """Answers a press."""
        session, words = self.server.session, self.body()
        if name == "press" and type(words.get("key")) is int and words["key"] in KEYS:
            session.press(key_press(words["key"]))
        elif name == "tick" and type(words.get("milliseconds")) is int and 1 <= words["milliseconds"] <= MOST_MILLISECONDS:
            session.press(time_step(words["milliseconds"]))
        elif name == "seek" and type(words.get("packets")) is int and 1 <= words["packets"] <= MOST_PACKETS:
            session.seek(words["packets"])
        elif name == "undo":
            session.undo()
        elif name == "stop":
            session.stop()
            self.answer(200, "application/json", b"{}")
            return
        else:
            raise Refused(400, "it is no key, no step of 1 to 3,600,000 ms and no packet")
        self.give_state()


class Server(ThreadingHTTPServer):
    """The server of a session, on the loopback address."""

    daemon_threads = True

    def __init__(self, session, port=0):
        super().__init__(("127.0.0.1", port), Handler)
        self.session, self.word = session, secrets.token_urlsafe(16)

    def handle_error(self, request, client_address):
        """Keeps quiet about a browser that went away in the middle of an answer."""
        if not isinstance(sys.exc_info()[1], (ConnectionError, TimeoutError)):
            super().handle_error(request, client_address)

    def address(self):
        return f"http://127.0.0.1:{self.server_address[1]}/{self.word}/"


def main(words):
    parser = argparse.ArgumentParser(
        usage="remote.py STREAM [--service N | --data-pid N] [--record RECORD] [--program PROGRAM] [--port N] [--open]"
    )
    parser.add_argument("stream")
    add_service(parser)
    parser.add_argument("--record")
    parser.add_argument("--program", default=str(PROGRAM))
    parser.add_argument("--port", type=number, default=0)
    parser.add_argument("--open", action="store_true")
    asked = parser.parse_args(words)
    program = os.path.abspath(asked.program)
    if not (os.path.isfile(program) and os.access(program, os.X_OK)):
        print(f"remote.py: {asked.program} is no program: build it first, by tools/users/build.sh", file=sys.stderr)
        return 1
    options = [("--service", asked.service), ("--data-pid", asked.data_pid)]
    command = [program, "replay", *(word for name, value in options if value is not None for word in (name, str(value)))]
    try:
        for path, fault_of in ((asked.stream, refusal_of_stream), (asked.record, fault_of_record)):
            if path is not None and (fault := fault_of(path)):
                print(f"remote.py: {path}: {fault}", file=sys.stderr)
                return 1
        record = Path(asked.record).read_bytes() if asked.record else FIRST_RECORD
        recording = Recording(os.path.abspath(asked.stream), asked.service, asked.data_pid)
        server = Server(Session([*command, os.path.abspath(asked.stream)], record, recording), asked.port)
    except (OSError, OverflowError) as fault:
        print(f"remote.py: {said_by_system(fault)}", file=sys.stderr)
        return 1
    print(f"Open {server.address()} in a browser of this machine. Ctrl-C ends it.", flush=True)
    if asked.open:
        webbrowser.open(server.address())
    with server:
        try:
            server.serve_forever()
        except KeyboardInterrupt:
            print()
        server.session.end()
    return 0


if __name__ == "__main__":
    sys.exit(main(sys.argv[1:]))
