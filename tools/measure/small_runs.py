"""The small runs whose instructions are counted: streams, documents, scripts, and pages that act, each the same
whenever it is made.

Each is a kind of work that a broadcast brings, in such a number that this work is most of the run. What is due of it
is how many lines begin with each word, but for those of a display list.
"""

import random
import tempfile
from collections.abc import Callable, Sequence
from pathlib import Path
from typing import NamedTuple

from measure import KINDS, write_stream
from measure_pages import Messages, section_of_messages, sections_of, with_items
from measure_scripts import SCRIPTS
from measuring import with_script

from sent_modules import BML, DATA_PID, FILES, REPLAY, carousel_sections, sent
from transport import DATA_STREAM, PAYLOAD_SIZE, ElementaryStream, packet, packets_of_sections, pat_section, pmt_section

MAP_PID = 496
BROADCAST_MEGABYTES = 12  # which hold one round of its data
Counts = dict[str, int]  # of lines, by their first words
SHOWN = {"box", "text", "picture", "focus"}


class Run(NamedTuple):
    """The words of the command, the stream and the record that they name, and how many lines are due by their first
    words."""

    words: list[str]
    stream: bytes
    record: str
    due: Counts


def replay(sections: list[bytes], due: Counts, record: str = "all\n") -> Run:
    """A replay of sections on the data PID."""
    return Run(REPLAY, sent(sections)[0], record, {**due, "end": 1})


def paged(document: str, behind: str = "", due: Counts | None = None, messages: Sequence[Messages] = ()) -> Run:
    """A replay of a document as module 0000, of what the record has after `all`, and of the messages of each section
    after the document."""
    return replay(
        sections_of(document.encode("ascii"), messages), {"module": 1, "load": 1, **(due or {})}, "all\n" + behind
    )


def other_pids() -> Run:
    packets = [packet(0x111, number % 16, False, bytes(PAYLOAD_SIZE)) for number in range(40_000)]
    return Run(REPLAY, b"".join(packets), "all\n", {"end": 1})


def data_alone() -> Run:
    sections = carousel_sections([(1, b"", random.Random(1).randbytes(1 << 18))])
    return replay(sections * 6, {"module": 1})


def tables_alone() -> Run:
    streams = [ElementaryStream(DATA_STREAM, DATA_PID + place, 0x40 + place) for place in range(16)]
    tables = [(0, pat_section([(1, MAP_PID)])), (MAP_PID, pmt_section(1, streams))]
    return Run(["replay", *FILES], packets_of_sections(tables * 2_000)[0], "all\n", {"end": 1})


def broadcast() -> Run:
    noise = random.Random(1)
    kind = KINDS["broadcast"](noise)
    with tempfile.TemporaryDirectory(prefix="small-runs-") as room:
        path = Path(room, "stream.ts")
        write_stream(path, kind, noise, BROADCAST_MEGABYTES)
        stream = path.read_bytes()
    return Run(["replay", *kind.option, *FILES], stream, "all\n", {"module": 8, "load": 1, "end": 1})


def generated() -> Run:
    return Run(["gen", "1", "20"], b"", "", {"gen": 1, "packets": 1, "bytes": 1, "lines": 1})


def document_of_texts() -> Run:
    rows = "".join(
        f'<div id="d{number}" title="row &amp; line"><p>Osaka, {number} &lt; 30</p></div>' for number in range(2_000)
    )
    return paged(with_script("", rows))


def document_of_styles() -> Run:
    rules = "".join(
        f"p.c{number}:focus, #i{number}, .c{number} {{ left: {number}px; color-index: {number % 8} }}\n"
        for number in range(800)
    )
    rows = "".join(
        f'<p class="c{number % 800}" id="i{number}" style="top:{number % 540}px">x</p>' for number in range(1_600)
    )
    return paged(
        f"<bml><head><style><![CDATA[{rules}]]></style></head><body>{rows}</body></bml>", "show\n", {"show": 1}
    )


def rows_with_focus(count: int, handler: str) -> str:
    """So many elements that can have the focus, each above the next one, with a handler of keys."""
    return "".join(
        f'<p style="nav-index:{place};nav-down:{(place + 1) % count}" onkeydown="{handler}">x</p>'
        for place in range(count)
    )


def keys() -> Run:
    page = with_script("var n = 0;", rows_with_focus(40, "n++;"))
    return paged(page, "key 2\nrelease 2\nkey 18\nrelease 18\n" * 500)


def display_lists() -> Run:
    page = with_script(
        "function k(e) { e.normalStyle.colorIndex = 1; }", rows_with_focus(1_000, "k(document.currentEvent.target);")
    )
    return paged(page, "show\nkey 2\nshow\n" * 10, {"show": 20})


def messages() -> Run:
    """Messages over 1,000 items, each of which fires one of them."""
    page = with_items(999, ' es_ref=""').replace(
        "<body>",
        '<body><beitem type="EventMessageFired" subscribe="subscribe"'
        " onoccur=\"browser.playRomSound('romsound://1');\"/>",
    )
    return paged(page, due={"sound": 1_000}, messages=[section_of_messages(50, version) for version in range(20)])


def timers() -> Run:
    return paged(
        with_script('var n = 0; function f() { n++; } browser.setInterval("f()", 100, 0);', ""), "tick 200000\n"
    )


def launches() -> Run:
    front = '<p style="nav-index:0" onkeydown="browser.launchDocument(\'/40/%\');">x</p>' + "<p/>" * 100
    modules = [
        (number, BML, with_script("", front.replace("%", other)).encode("ascii"))
        for number, other in [(1, "0000"), (0, "0001")]
    ]
    return replay(
        carousel_sections(modules), {"module": 2, "load": 201, "launch": 200}, "all\n" + "key 19\nrelease 19\n" * 200
    )


def arrays() -> Run:
    script = 'var l = new Array(0, "Osaka"); for (var i = 0; i < 100; i++) '
    script += '{ l[0] = i; browser.writePersistentArray("nvram://~/0", "U:2B,S:1V", l); }'
    script += ' for (i = 0; i < 500; i++) browser.readPersistentArray("nvram://~/0", "U:2B,S:1V");'
    return paged(with_script(script, ""), due={"kept": 100})


def of_script(script: str) -> Callable[[], Run]:
    return lambda: paged(with_script(script, ""))


# What makes each run, by its name.
RUNS: dict[str, Callable[[], Run]] = {
    "packets of other PIDs": other_pids,
    "a stream of data alone": data_alone,
    "a stream of tables alone": tables_alone,
    "a broadcast": broadcast,
    "a stream out of a number": generated,
    "a document of texts": document_of_texts,
    "a document of styles": document_of_styles,
    "keys": keys,
    "display lists": display_lists,
    "messages over 1,000 items": messages,
    "timers": timers,
    "launches": launches,
    "persistent arrays": arrays,
    **{f"script: {name}": of_script(script) for name, script in SCRIPTS},
}


def is_due(run: Run, status: int, written: bytes) -> bool:
    """Whether a run ended well, and wrote as many lines of each kind as are due."""
    counts: Counts = {}
    for line in written.decode("euc_jp", "replace").splitlines():
        word = line.split(" ")[0]
        if word not in SHOWN:
            counts[word] = counts.get(word, 0) + 1
    return status == 0 and counts == run.due
