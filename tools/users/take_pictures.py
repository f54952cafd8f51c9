#!/usr/bin/env python3
"""Takes the pictures of reports, of a drawing and of the remote control in docs/pictures, by a headless Chromium: take_pictures.py PROGRAM"""

import os
import subprocess
import sys
import tempfile
import threading
from pathlib import Path

import browser
import draw_display
import remote
import report
from shown_pages import Recording

ROOT = Path(__file__).resolve().parents[2]
EXAMPLES, PICTURES = ROOT / "examples", ROOT / "docs" / "pictures"
SCALE = 0.7
# Of each report its example, and the width and height of what is taken.
REPORTS = [("weather", 900, 1620), ("service", 900, 960)]


def take(page, name, width, height):
    """Takes the picture of a page in a window of that size."""
    page.resize(width, height)
    # (parts of a report are drawn once they are in sight)
    page.value("new Promise(done => requestAnimationFrame(() => setTimeout(() => requestAnimationFrame(done), 1000)))")
    (PICTURES / name).write_bytes(page.picture(width, height, SCALE))


def report_picture(started, program, name, size):
    """Takes the picture of the report of an example."""
    example = EXAMPLES / name
    with tempfile.TemporaryDirectory(prefix="picture-") as room:
        output = f"{room}/{name}"
        Path(output).write_bytes(lines_of(program, example))
        html = report.page(report.report_of(output, str(example / "stream.ts"), str(example / "record.txt")))
        Path(f"{room}/report.html").write_text(html, encoding="utf-8")
        take(started.open(f"file://{room}/report.html"), f"report-{name}.png", *size)


def lines_of(program, example):
    """Returns what the program prints for an example."""
    return subprocess.run([program, *(example / "args").read_text().split()], cwd=example, stdout=subprocess.PIPE, check=True).stdout


def drawn_picture(started, program):
    """Takes the picture of the last display list of the example weather."""
    example = EXAMPLES / "weather"
    drawn, _ = draw_display.drawings(lines_of(program, example).split(b"\n"), Recording(example / "stream.ts").read())
    with tempfile.TemporaryDirectory(prefix="picture-") as room:
        Path(f"{room}/show.svg").write_text(drawn[-1], encoding="utf-8")
        take(started.open(f"file://{room}/show.svg"), "weather.png", 960, 540)


def remote_picture(started, program):
    """Takes the picture of the remote control, with the menu picked from."""
    stream = str(EXAMPLES / "weather" / "stream.ts")
    session = remote.Session([program, "replay", stream], remote.FIRST_RECORD, Recording(stream))
    for code in (2, 18):
        session.press(remote.key_press(code))
    with remote.Server(session) as server:
        threading.Thread(target=server.serve_forever, daemon=True).start()
        page = started.open(server.address())
        page.wait("document.querySelector('#picture text') !== null")
        take(page, "remote.png", 1280, 760)
        server.shutdown()


def main(words):
    if len(words) != 1 or not browser.program():
        print("usage: take_pictures.py PROGRAM, with a Chromium on the PATH", file=sys.stderr)
        return 2
    with browser.Browser() as started:
        for name, *size in REPORTS:
            report_picture(started, os.path.abspath(words[0]), name, size)
        drawn_picture(started, os.path.abspath(words[0]))
        remote_picture(started, os.path.abspath(words[0]))
    return 0


if __name__ == "__main__":
    sys.exit(main(sys.argv[1:]))
