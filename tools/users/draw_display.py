#!/usr/bin/env python3
"""Draws the display lists in what a run printed: one SVG for each `show`, to be looked at.

    tools/users/draw_display.py OUTPUT FOLDER [--stream STREAM [--service N | --data-pid N]]

reads the lines of OUTPUT and writes FOLDER/show-1.svg, show-2.svg and so on. Boxes have their background and border, texts their colour and
size. With the stream of the run, and its service or PID if it was named, the page's own colour table and its pictures are drawn (shown_pages.py), and its plane has the
size that it asks for. Without it colours are the receivers' common fixed ones, and pictures a frame with their type and name, as those are that
can't be shown. A colour that is in no table is a grey with its number beside it. What is clear shows the checkered ground behind the display.
Texts are EUC-JP, one after the other in their box, cut at its edges and not broken into rows. Where OUTPUT has rows of a text (the item `rows` of the
record), these are drawn, each at its place, without the space that the record asked for between two characters.

A drawing is a help for the eye. What was shown is what the lines say; a drawing is neither proved nor a receiver's.
"""

import argparse
import sys
from pathlib import Path

from diagnosis import fault_of_output, refusal_of_stream, said_by_system
from drawings import BadOutput, display_lists, drawing, shapes_of
from shown_pages import Follower, Recording, add_service


def drawings(lines, recording=None):
    """The pictures of all display lists in the lines of a run, and what is wrong with them."""
    follower, drawn, faults = Follower(lines, recording), [], {}
    for shown in display_lists(lines):
        look = follower.look_at(shown.place)
        drawn.append(drawing(shown.clock, shapes_of(shown.lines, look), look))
        faults |= {fault: None for fault in (follower.fault, look.fault) if fault}
    return drawn, list(faults)


def main(words):
    parser = argparse.ArgumentParser(usage="draw_display.py OUTPUT FOLDER [--stream STREAM [--service N | --data-pid N]]")
    parser.add_argument("output")
    parser.add_argument("folder")
    parser.add_argument("--stream")
    add_service(parser)
    asked = parser.parse_args(words)
    try:
        for path, fault_of in ((asked.output, fault_of_output), (asked.stream, refusal_of_stream)):
            if path is not None and (fault := fault_of(path)):
                print(f"draw_display.py: {path}: {fault}", file=sys.stderr)
                return 1
        recording = Recording(asked.stream, asked.service, asked.data_pid).read() if asked.stream else None
        drawn, faults = drawings(Path(asked.output).read_bytes().split(b"\n"), recording)
        folder = Path(asked.folder)
        folder.mkdir(parents=True, exist_ok=True)
        for place, text in enumerate(drawn, 1):
            (folder / f"show-{place}.svg").write_text(text, encoding="utf-8")
    except BadOutput as bad:
        print(f"draw_display.py: {asked.output} is no output of a run: it has a display list {bad}", file=sys.stderr)
        return 1
    except OSError as fault:
        print(f"draw_display.py: {said_by_system(fault)}", file=sys.stderr)
        return 1
    for fault in faults:
        print(f"draw_display.py: {fault}", file=sys.stderr)
    print(f"{len(drawn)} display lists drawn")
    return 0


if __name__ == "__main__":
    sys.exit(main(sys.argv[1:]))
