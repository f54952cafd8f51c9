#!/usr/bin/env python3
"""Tests remote.py.

usage: test_remote.py [--program PROGRAM] [what unittest takes]

The answers of the page are asked for over the loopback address, with programs that are scripts, and with --program also with that program
over the example menu-keys. Where there is a Chromium, the page is opened in it too, and driven by its keys.
"""

import base64
import hashlib
import http.client
import json
import os
import re
import signal
import subprocess
import sys
import tempfile
import threading
import time
import unittest
from pathlib import Path
from unittest import mock
from xml.etree import ElementTree

import browser
import remote
import report
from generated_pages import PID, clut_of, entity_of, png_of, stream_of
from shown_pages import Recording

PROGRAM = None  # with which recordings are replayed
TOOL = Path(remote.__file__)
EXAMPLE = Path(__file__).resolve().parents[2] / "examples" / "menu-keys"
# A program that prints a display list for each `show` of its record, with the keys so far. A key 20 fails, a key 21 takes long.
SCRIPT = f"#!{sys.executable} -S\n" + """
import sys, time
keys, clock = [], 0
assert sys.argv[1] == "replay"
for line in open(sys.argv[-1]):
    word, *rest = line.split() or ["#"]
    if word == "show":
        print(f"show {clock}\\nbox 0 0 9 9 1 1 1\\ntext 0 0 9 9 7 24 </text></script><img src=x onerror=document.title=1>{keys}")
    elif word == "tick":
        clock += int(rest[0])
    elif word == "key":
        keys.append(int(rest[0]))
        print("stop Budget keydown")
    if word == "key" and rest == ["20"]:
        sys.exit("bad record line 7")
    if word == "key" and rest == ["21"]:
        time.sleep(60)
    if word == "key" and rest == ["22"]:
        print("show x")
print("end 5")
"""
# A program that counts the packets that its record takes.
COUNTING = f"#!{sys.executable} -S\n" + """
import sys
taken = 0
for line in open(sys.argv[-1]):
    word, *rest = line.split() or ["#"]
    taken += int(rest[0]) if word == "packets" else 0
    if word == "show":
        print(f"show 0\\nbox 0 0 9 9 1 1 {taken % 9}")
print(f"end {taken}")
"""
# What a program begins with that keeps a file where it runs, and tells how long it is.
KEEPING = """import sys, time
with open("nvram.jnl", "ab") as kept:
    kept.write(b"x")
    print(f"kept nvram://~/0 {kept.tell()}")"""


class Served(unittest.TestCase):
    """Tests with a session that is served."""

    def setUp(self):
        folder = tempfile.TemporaryDirectory(prefix="remote-")
        self.addCleanup(folder.cleanup)
        self.folder = folder.name
        self.program = f"{self.folder}/program"
        Path(self.program).write_text(SCRIPT, encoding="utf-8")
        os.chmod(self.program, 0o755)

    def serve(self, record=remote.FIRST_RECORD, command=None, recording=None):
        """Serves a session, and returns it."""
        session = remote.Session(command or [self.program, "replay", "stream.ts"], record, recording)
        self.addCleanup(session.end)
        with session.lock:
            pass  # (the first replay is over)
        self.server = remote.Server(session)
        thread = threading.Thread(target=self.server.serve_forever, kwargs={"poll_interval": 0.02})
        thread.start()
        self.addCleanup(thread.join)
        self.addCleanup(self.server.server_close)
        self.addCleanup(self.server.shutdown)
        return session

    def ask(self, path, words=None, heads=None, word=None, method=None):
        """Returns the status of an answer, its heads and its bytes."""
        host = f"127.0.0.1:{self.server.server_address[1]}"
        made = http.client.HTTPConnection(host, timeout=30)
        body = None if words is None else words if isinstance(words, bytes) else json.dumps(words).encode()
        heads = {"Host": host, **({} if words is None else {"Content-Type": "application/json"}), **(heads or {})}
        heads = {name: value for name, value in heads.items() if value is not None}
        made.putrequest(method or ("GET" if words is None else "POST"), f"/{self.server.word if word is None else word}{path}", skip_host=True)
        for name, value in {**heads, **({} if body is None or "Content-Length" in heads else {"Content-Length": str(len(body))})}.items():
            made.putheader(name, value)
        made.endheaders(body)
        answer = made.getresponse()
        data = answer.read()
        made.close()
        return answer.status, answer.headers, data

    def state(self, path="/state", words=None):
        """Returns the state that an answer gives."""
        status, _, data = self.ask(path, words)
        self.assertEqual(status, 200, data)
        return json.loads(data)


class Answers(Served):
    def test_the_page_is_served_under_a_policy_for_its_script(self):
        self.serve()
        status, heads, data = self.ask("/")
        self.assertEqual((status, data.decode()), (200, remote.PAGE))
        self.assertIn("default-src 'none'; script-src 'sha256-", heads["Content-Security-Policy"])
        script = re.search("<script>(.*)</script>", remote.PAGE, re.DOTALL)[1]
        digest = base64.b64encode(hashlib.sha256(script.encode()).digest()).decode()
        self.assertIn(f"script-src 'sha256-{digest}'; style-src", heads["Content-Security-Policy"])
        self.assertEqual(remote.PAGE.count("<script"), 1)
        kinds = {"/": "text/html; charset=utf-8", "/state": "application/json", "/record.txt": "application/octet-stream"}
        for path, kind in kinds.items():
            heads = self.ask(path)[1]
            told = heads["Content-Type"], heads["X-Content-Type-Options"], heads["Referrer-Policy"], heads["Cache-Control"]
            self.assertEqual(told, (kind, "nosniff", "no-referrer", "no-store"))

    def test_it_listens_on_the_loopback_address_alone(self):
        self.serve()
        self.assertEqual(self.server.server_address[0], "127.0.0.1")
        with remote.Server(self.server.session) as other:
            self.assertNotEqual(other.word, self.server.word)
        self.assertGreaterEqual(len(self.server.word), 20)

    def test_other_addresses_are_refused(self):
        session = self.serve()
        port = self.server.server_address[1]
        for word in ("", "x", self.server.word[:-1], self.server.word + "x", self.server.word.swapcase()):
            for path, words in (("/", None), ("/state", None), ("/record.txt", None), ("/press", {"key": 2}), ("", None)):
                self.assertEqual(self.ask(path, words, word=word)[0], 404)
        for path in ("", "//", "/none", "/state?x", "/../state", "/state/", "/remote.py"):
            self.assertEqual(self.ask(path)[0], 404, path)
        for host in (None, "", "127.0.0.1", f"example.org:{port}", f"127.0.0.1:{port + 1}", f"127.0.0.1.example.org:{port}", f"[::1]:{port}"):
            for path, words in (("/", None), ("/state", None), ("/press", {"key": 2})):
                self.assertEqual(self.ask(path, words, {"Host": host})[0], 403, host)
        self.assertEqual(self.ask("/state", heads={"Host": f"localhost:{port}"})[0], 200)
        self.assertEqual(session.presses, [])

    def test_requests_that_are_not_the_page_s_are_refused(self):
        session = self.serve()
        host = f"127.0.0.1:{self.server.server_address[1]}"
        for heads in ({"Origin": "http://example.org"}, {"Origin": "null"}, {"Content-Type": "text/plain"}, {"Content-Type": None}):
            self.assertEqual(self.ask("/press", {"key": 2}, heads)[0], 403)
        for length in ("1001", "9" * 30, "-1", "x", "\u00b2", None):
            self.assertEqual(self.ask("/press", b"", {"Content-Length": length} if length else {"Content-Length": ""})[0], 413, length)
        for words in (b"", b"{", b"[" * 900, b"\xff", [], 2, {}, {"key": 0}, {"key": 15}, {"key": 25}, {"key": "2"}, {"key": True}, {"key": 2.0}):
            self.assertEqual(self.ask("/press", words)[0], 400, words)
        for words in ({}, {"milliseconds": 0}, {"milliseconds": 3_600_001}, {"milliseconds": None}, {"milliseconds": "1\nshow"}):
            self.assertEqual(self.ask("/tick", words)[0], 400, words)
        for method in ("PUT", "DELETE", "HEAD", "OPTIONS"):
            self.assertEqual(self.ask("/press", {"key": 2}, method=method)[0], 501)
        self.assertEqual((self.ask("/press")[0], self.ask("/state", {"key": 2})[0], session.presses), (404, 400, []))
        self.assertEqual(self.ask("/press", {"key": 2}, {"Origin": f"http://{host}"})[0], 200)
        self.assertEqual([press.name for press in session.presses], ["down"])

    def test_a_press_adds_its_lines_and_shows_what_came(self):
        self.serve()
        first = self.state()
        self.assertEqual([kind for kind, _ in first["lines"]], ["show", "box", "text", "end"])
        self.assertEqual((first["fault"], first["told"]), ("", "Presses: 0. Clock: 0 ms"))
        pressed = self.state("/press", {"key": 18})
        wanted = ["stop Budget keydown", "show 0", "box 0 0 9 9 1 1 1", "text 0 0 9 9 7 24 </text></script><img src=x onerror=document.title=1>[18]", "end 5"]
        self.assertEqual(pressed["lines"], [[line.split()[0], line] for line in wanted])
        self.assertEqual(pressed["record"], first["record"] + "# enter\nkey 18\nrelease 18\nshow\n")
        self.assertEqual(pressed["told"], "Presses: 1, the last one enter. Clock: 0 ms")
        texts = [it.text for it in ElementTree.fromstring(pressed["drawing"]).iter("{http://www.w3.org/2000/svg}text")]
        self.assertEqual(texts, ["</text></script><img src=x onerror=document.title=1>[18]"])
        ticked = self.state("/tick", {"milliseconds": 250})
        self.assertEqual(ticked["lines"][0], ["show", "show 250"])
        self.assertEqual(ticked["record"], pressed["record"] + "# 250 ms\ntick 250\nshow\n")
        self.assertEqual(self.ask("/record.txt")[2].decode(), ticked["record"])
        self.assertEqual(self.state("/undo", {}), pressed)
        self.assertEqual(self.state(), pressed)
        self.assertEqual(self.state("/undo", {}), first)
        self.assertEqual(self.state("/undo", {}), first)

    def test_every_key_has_its_code(self):
        self.serve()
        for code in [*range(1, 15), *range(18, 25)]:
            with mock.patch.object(remote.Replay, "lines", lambda replay, record: [b"show 0"]):
                record = self.state("/press", {"key": code})["record"]
            self.assertTrue(record.endswith(f"key {code}\nrelease {code}\nshow\n"))
        self.assertEqual({int(code) for code in re.findall('data-key="([0-9]+)"', remote.PAGE)}, {*remote.KEYS})

    def test_a_session_goes_on_from_a_record(self):
        rows = [(b"tick 5\nshow", b"tick 5\nshow\n"), (b"tick 5\n", b"tick 5\nshow\n"), (b"show\ntick 5", b"show\ntick 5\nshow\n"), (b"", b"show\n")]
        for given, begun in [*rows, (b"# show", b"# show\nshow\n"), (b"show\r\n\n", b"show\r\n\n")]:
            self.serve(given)
            self.assertEqual(self.ask("/record.txt")[2], begun)
            self.assertEqual(len([kind for kind, _ in self.state()["lines"] if kind == "show"]), begun.split().count(b"show") - begun.count(b"#"))

    def test_a_replay_that_fails_is_told_and_its_press_stays(self):
        self.serve()
        first = self.state("/press", {"key": 2})
        rows = [(20, "The program ended with status 1: bad record line 7, which is \"show\""), (22, "The program printed a display list that no run prints, or none.")]
        for code, why in rows:
            failed = self.state("/press", {"key": code})
            self.assertEqual(failed["fault"], f"{why}\nThe picture is that of the record before.")
            self.assertEqual((failed["drawing"], failed["lines"]), (first["drawing"], []))
            self.assertIn(f"key 2\nrelease 2\nshow\n# {remote.KEYS[code]}\nkey {code}\n", self.ask("/record.txt")[2].decode())
            self.assertIn(why, self.state("/press", {"key": 3})["fault"])
            self.state("/undo", {})
            self.assertEqual(self.state("/undo", {}), first)

    def test_a_replay_that_takes_too_long_is_ended(self):
        self.serve()
        first = self.state()
        with mock.patch.object(remote, "LIMIT", 0.3):
            begin = time.monotonic()
            failed = self.state("/press", {"key": 21})
            self.assertLess(time.monotonic() - begin, 10)
        self.assertIn("The replay took more than 0.3 seconds, and was ended.", failed["fault"])
        self.assertEqual(failed["drawing"], first["drawing"])
        self.assertEqual(self.state("/undo", {}), first)
        self.assertEqual(remote.LIMIT, 600)

    def test_a_replay_is_followed_and_stopped(self):
        Path(self.program).write_text(SCRIPT.replace("time.sleep(60)", "it = open(sys.argv[-2], 'rb', 0); it.read(25); it.seek(25); time.sleep(60)"), encoding="utf-8")
        stream = f"{self.folder}/stream.ts"
        Path(stream).write_bytes(bytes(100))
        self.serve(command=[self.program, "replay", stream])
        first, answers = self.state(), []
        self.assertEqual(first["progress"], {"what": "", "part": None, "seconds": 0})
        pressing = threading.Thread(target=lambda: answers.append(self.state("/press", {"key": 21})))
        pressing.start()
        end, told = time.monotonic() + 30, {}
        while told.get("part") != 0.25 and time.monotonic() < end:
            told = self.state("/progress")
        self.assertEqual((told["what"], told["part"]), ("replaying", 0.25))
        self.assertEqual(self.ask("/stop", {})[2], b"{}")
        pressing.join(30)
        self.assertEqual(answers[0]["fault"], "The replay was stopped.\nThe picture is that of the record before.")
        self.assertEqual(self.state("/undo", {}), first)
        self.assertEqual(self.ask("/stop", {})[0], 200)

    def test_the_first_replay_is_followed_too(self):
        Path(self.program).write_text(f"#!{sys.executable} -S\nimport time\ntime.sleep(60)\n", encoding="utf-8")
        session = remote.Session([self.program, "replay", "stream.ts"], remote.FIRST_RECORD)
        end = time.monotonic() + 30
        while session.progress()["what"] != "replaying" and time.monotonic() < end:
            time.sleep(0.02)
        self.assertEqual(session.progress()["what"], "replaying")
        session.stop()
        self.assertEqual(session.state()["fault"], "The replay was stopped.")

    def test_the_slider_goes_to_a_packet(self):
        Path(self.program).write_text(COUNTING, encoding="utf-8")
        self.serve(b"packets 10\nshow\n")
        first = self.state()
        self.assertEqual((first["taken"], first["clock"], first["time"], first["along"]["packets"]), (10, 0, None, 10))
        further = self.state("/seek", {"packets": 25})
        self.assertEqual((further["taken"], further["record"]), (25, "packets 10\nshow\n# 15 packets\npackets 15\nshow\n"))
        self.state("/press", {"key": 2})
        self.state("/seek", {"packets": 40})
        back = self.state("/seek", {"packets": 30})
        self.assertEqual(back["record"], further["record"] + "# down\nkey 2\nrelease 2\nshow\n# 5 packets\npackets 5\nshow\n")
        self.assertEqual(self.state("/seek", {"packets": 25})["record"], further["record"] + "# down\nkey 2\nrelease 2\nshow\n")
        self.assertEqual(self.state("/seek", {"packets": 11})["record"], "packets 10\nshow\n# 1 packets\npackets 1\nshow\n")
        anew = self.state("/seek", {"packets": 7})
        self.assertEqual((anew["taken"], anew["record"], anew["told"]), (7, "# begun by tools/users/remote.py\npackets 7\nshow\n", "Presses: 0. Clock: 0 ms"))
        for words in ({}, {"packets": 0}, {"packets": 1 << 32}, {"packets": "7"}, {"packets": 7.5}, {"packets": True}):
            self.assertEqual(self.ask("/seek", words)[0], 400)

    def test_a_recording_gives_colours_pictures_and_times(self):
        data = entity_of({"startup.bml": b'<bml><body style="clut:url(a.clut)"></body></bml>', "a.clut": clut_of(128, [(1, 2, 3, 255)]), "a.png": png_of([b"\x80"])})
        stream = f"{self.folder}/stream.ts"
        Path(stream).write_bytes(stream_of([(None, data)]))
        lines = [f"module 40 0000 01 {len(data)}", "load /40/0000/startup.bml", "show 0", "box 0 0 9 9 128 0 8", "picture 1 1 4 4 - a.png", "end 3"]
        Path(self.program).write_text(f"#!{sys.executable} -S\nprint({chr(10).join(lines)!r})", encoding="utf-8")
        session = self.serve(command=[self.program, "replay", stream], recording=Recording(stream, data_pid=PID))
        session.reading.join(30)
        state = self.state()
        self.assertIn('fill="#010203"', state["drawing"])
        self.assertIn('<image x="1" y="1" width="4" height="4"', state["drawing"])
        packets = session.reading.recording.packets
        self.assertEqual(state["along"], {"packets": packets, "times": [None] * 101, "arrivals": [[packets, "40 0000 01"]]})
        self.assertEqual((state["fault"], state["progress"]["what"]), ("", ""))
        self.assertIn('<use x="1" y="1" width="4" height="4" href="#p', self.ask("/report.html")[2].decode())
        self.serve(recording=Recording(f"{self.folder}/none"))
        self.assertIn("can't be read for its pictures", self.state()["fault"])

    def test_the_report_of_the_session_is_served(self):
        self.serve()
        self.state("/press", {"key": 18})
        status, heads, data = self.ask("/report.html")
        self.assertEqual((status, heads["Content-Security-Policy"]), (200, report.policy()))
        text = data.decode()
        self.assertIn("The record: key 18 (enter); release 18 (enter); show. Packets: none.", text)
        self.assertEqual((text.count("<section"), "onerror=document.title=1&gt;" in text), (3, True))
        self.assertNotIn("<img", text)

    def test_a_program_that_cannot_be_run_is_told(self):
        self.serve(command=[f"{self.folder}/none", "replay", "stream.ts"])
        state = self.state()
        self.assertIn("The program can't be run", state["fault"])
        self.assertEqual((state["drawing"], state["lines"], state["told"]), ("", [], "Presses: 0"))
        self.assertEqual(self.ask("/record.txt")[2], remote.FIRST_RECORD)

    def test_no_replay_finds_what_another_one_kept(self):
        Path(self.program).write_text(SCRIPT.replace("import sys, time", KEEPING), encoding="utf-8")
        self.serve()
        first = self.state()
        self.assertEqual((first["fault"], first["lines"][0]), ("", ["kept", "kept nvram://~/0 1"]))
        pressed = self.state("/press", {"key": 2})
        self.assertEqual((pressed["fault"], pressed["lines"][0]), ("", ["stop", "stop Budget keydown"]))

    def test_lines_that_changed_are_told(self):
        self.serve()
        Path(self.program).write_text(SCRIPT.replace("9 9 1 1 1", "8 8 1 1 1"), encoding="utf-8")
        self.assertIn("has the stream or the program changed?", self.state("/press", {"key": 2})["fault"])


class CommandLine(Served):
    def test_what_cannot_be_used_is_told(self):
        stream = str(EXAMPLE / "stream.ts")
        rows = [
            ([self.program, "--program", self.program], 1, "There are no packets in it: it is a script."),
            ([stream, "--program", f"{self.folder}/none"], 1, "is no program: build it first"),
            ([f"{self.folder}/none", "--program", self.program], 1, "No such file"),
            ([stream, "--program", self.program, "--record", f"{self.folder}/none"], 1, "No such file"),
            ([stream, "--program", self.program, "--port", "99999"], 1, "remote.py: "),
            ([], 2, "usage"), ([stream, "--service", "1", "--data-pid", "256"], 2, "not allowed"), ([stream, "--service", "-1"], 2, "usage"),
        ]
        for words, status, wanted in rows:
            ran = subprocess.run([sys.executable, "-B", TOOL, *words], capture_output=True, check=False, timeout=60)
            self.assertEqual((ran.returncode, ran.stdout), (status, b""))
            self.assertIn(wanted, ran.stderr.decode())

    def test_it_serves_what_the_command_line_names(self):
        script = SCRIPT.replace('print("end 5")', 'print("load", *sys.argv[1:-1])')
        Path(self.program).write_text(script, encoding="utf-8")
        stream = str(EXAMPLE / "stream.ts")
        command = [sys.executable, "-B", TOOL, stream, "--data-pid", "256", "--program", self.program]
        # What is started in the background, as the whole test may be, has SIGINT ignored.
        heard = {"preexec_fn": lambda: signal.signal(signal.SIGINT, signal.SIG_DFL)}
        with subprocess.Popen(command, stdout=subprocess.PIPE, stderr=subprocess.PIPE, **heard) as started:
            told = started.stdout.readline().decode()
            port, word = re.fullmatch(r"Open http://127\.0\.0\.1:([0-9]+)/([\w-]+)/ in .*\n", told).groups()
            self.server = mock.Mock(server_address=("127.0.0.1", int(port)), word=word)
            lines = self.state()["lines"]
            started.send_signal(signal.SIGINT)
            self.assertEqual((started.wait(30), started.stderr.read()), (0, b""))
        self.assertEqual(lines[-1], ["load", f"load replay --data-pid 256 {stream}"])


class OverExample(Served):
    """Tests over the example menu-keys, with the program that is named."""

    def serve_example(self):
        if not PROGRAM:
            self.skipTest("no program is named")
        stream = str(EXAMPLE / "stream.ts")
        return self.serve(command=[PROGRAM, "replay", "--data-pid", "256", stream], recording=Recording(stream, data_pid=256))

    def replay(self, record):
        """Returns what the program prints for a record."""
        path = f"{self.folder}/saved.txt"
        Path(path).write_bytes(record)
        command = [PROGRAM, "replay", "--data-pid", "256", EXAMPLE / "stream.ts", path]
        return subprocess.run(command, capture_output=True, check=True, timeout=60).stdout.decode("ascii").splitlines()


class Replaying(OverExample):
    def test_a_menu_is_picked_from(self):
        session = self.serve_example()
        states = [self.state(), self.state("/press", {"key": 2}), self.state("/press", {"key": 18})]
        self.assertEqual([it["fault"] for it in states], ["", "", ""])
        self.assertEqual(["text 100 300 200 40 7 24 picked 1" in [line for _, line in it["lines"]] for it in states], [False, False, True])
        self.assertEqual(len({it["drawing"] for it in states}), 3)
        shown = [line for state in states for _, line in state["lines"] if line != "end 11"]
        self.assertEqual(self.replay(self.ask("/record.txt")[2]), [*shown, "end 11"])
        self.assertEqual(self.state("/undo", {}), states[1])
        self.assertEqual(len(session.presses), 1)


@unittest.skipUnless(browser.program(), "there is no Chromium")
class InBrowser(OverExample):
    """Tests in one browser, which is started for all of them."""

    @classmethod
    def setUpClass(cls):
        cls.started = cls.enterClassContext(browser.Browser())

    def test_no_text_is_a_mark_and_faults_are_told(self):
        self.serve()
        page = self.started.open(self.server.address())
        page.wait("document.querySelector('#picture text') !== null")
        page.value("document.querySelector('[data-key=\"24\"]').click()")
        page.wait("told.textContent.startsWith('Presses: 1, the last one yellow')")
        self.assertIn("<img src=x onerror=document.title=1>[24]", page.value("lines.textContent"))
        self.assertIn("<img src=x onerror=document.title=1>[24]", page.value("document.querySelector('#picture text').textContent"))
        self.assertEqual(page.value("[document.title, document.querySelectorAll('img').length]"), ["Remote control", 0])
        self.assertEqual(page.value("document.querySelector('#lines .stop').textContent"), "stop Budget keydown")
        page.key("d", 68, "d")
        page.wait("fault.textContent.includes('bad record line 7')")
        self.assertEqual(page.value("document.querySelectorAll('#picture text').length"), 1)
        page.key("u", 85, "u")
        page.wait("fault.textContent === ''")
        for stop in (lambda: page.value("document.querySelector('#stop').click()"), lambda: page.key("Escape", 27)):
            page.key("b", 66, "b")
            page.wait("document.querySelector('#stop').checkVisibility() && document.querySelector('#doing').textContent.startsWith('replaying')")
            stop()
            page.wait("fault.textContent.startsWith('The replay was stopped.') && !document.querySelector('#stop').checkVisibility()")
            page.key("u", 85, "u")
            page.wait("fault.textContent === ''")
        self.assertEqual(self.started.errors, [])

    def test_the_page_is_driven_by_its_keys(self):
        self.serve_example()
        page = self.started.open(self.server.address())
        page.wait("document.querySelector('#picture text') !== null")
        first = page.value("document.querySelector('#picture').innerHTML")
        page.key("ArrowDown", 40)
        page.wait("told.textContent.startsWith('Presses: 1, the last one down')")
        second = page.value("document.querySelector('#picture').innerHTML")
        page.value("document.querySelector('[data-key=\"18\"]').click()")
        page.wait("told.textContent.startsWith('Presses: 2, the last one enter')")
        self.assertEqual(len({first, second, page.value("document.querySelector('#picture').innerHTML")}), 3)
        lines = page.value("[...document.querySelectorAll('#lines p')].map(it => it.textContent)")
        self.assertIn("text 100 300 200 40 7 24 picked 1", lines)
        saved = page.value("fetch(document.querySelector('a[download]').href).then(it => it.text())")
        self.assertEqual(saved, page.value("record.textContent"))
        self.assertEqual(self.replay(saved.encode())[-len(lines) :], lines)
        page.value("document.querySelector('[data-key=\"18\"]').focus()")
        page.key("Enter", 13, "\r")
        page.wait("told.textContent.startsWith('Presses: 3, the last one enter')")
        page.key("t", 84, "t")
        page.wait("told.textContent.endsWith('Clock: 1000 ms')")
        for _ in range(3):
            page.key("u", 85, "u")
        page.wait("told.textContent.startsWith('Presses: 1,')")
        self.assertEqual(page.value("document.querySelector('#picture').innerHTML"), second)
        self.slides(page)
        self.assertEqual(self.started.errors, [])

    def slides(self, page):
        """Goes to packets by the slider, and opens the report of the session."""
        self.assertEqual(page.value("document.querySelector('#packet').textContent"), "packet 11 of 11")
        self.assertEqual(page.value("document.querySelectorAll('#arrivals i').length"), 1)
        page.value("slider.value = 5; slider.dispatchEvent(new Event('change'))")
        page.wait("document.querySelector('#packet').textContent === 'packet 5 of 11'")
        self.assertEqual(page.value("document.querySelectorAll('#picture text').length"), 0)
        page.value("slider.value = 11; slider.dispatchEvent(new Event('change'))")
        page.wait("document.querySelector('#picture text') !== null")
        self.assertTrue(page.value("record.textContent").endswith("packets 5\nshow\n# 6 packets\npackets 6\nshow\n"))
        shown = page.value("[picture, picture.querySelector('svg')].map(it => it.getBoundingClientRect()).map(it => it.width / it.height)")
        self.assertTrue(all(abs(it - 16 / 9) < 0.01 for it in shown), shown)
        # (a text's box cuts it at its own edges)
        cut = "getComputedStyle(document.querySelector('%s svg svg')).width"
        self.assertIn(page.value(cut % "#picture"), ("auto", "200px"))
        opened = self.started.open(page.value("document.querySelector('#report').href"))
        self.assertIn(opened.value(cut % "section"), ("auto", "200px"))
        self.assertEqual(opened.value("document.querySelectorAll('section').length"), 3)
        opened.value("kind.value = 'text'; kind.dispatchEvent(new Event('change'))")
        self.assertIn(" of ", opened.value("found.textContent"))


if __name__ == "__main__":
    if "--program" in sys.argv:
        place = sys.argv.index("--program")
        PROGRAM = os.path.abspath(sys.argv[place + 1])
        del sys.argv[place : place + 2]
    unittest.main()
