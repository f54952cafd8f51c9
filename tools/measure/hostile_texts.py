"""Hostile documents, entities, styles, scripts and records: some mutated from those of the rows, some made by their grammars, some at
the limits that docs/FORMATS.md has. Event messages and other announcements come after documents and scripts. For each kind a function
draws a case from a source of random numbers.
"""

import functools
import re
from typing import NamedTuple

from places import DATA, EXAMPLES, TABLES  # (first, so that the others are found)
from mutations import Language, about, mutated

import document_rows
import line_rows
import style_rows
import tables
from sent_modules import BLOCK_SIZE, BML, CSS, ECMASCRIPT, OPTIONS, carousel_sections, sent
from transport import EventMessage, Module, descriptor, dii_section, event_message, stream_descriptors_section

MOST_BYTES = 1 << 20  # of a module
MOST_LEVELS = 64
MOST_NODES = 16_384
MOST_CALLS = 256
KEYS = [*range(1, 15), *range(18, 25)]
ENTITY = b""  # the info of a module that holds an entity
LOAD = b"load /40/0000"


class Case(NamedTuple):
    """The words after `replay`, the two files, a line that the run has to write, where one is known, and the files of what is kept before it, where there are some."""

    options: list[str]
    stream: bytes
    record: bytes
    due: bytes = b""
    files: dict[str, bytes] | None = None


def case_of(modules, record, due=b"", behind=()):
    """Returns the case of modules, each with its info and its bytes, from module 0000 on; this one comes last, and after it these sections."""
    numbered = [(number, info, data) for number, (info, data) in enumerate(modules)]
    return Case(OPTIONS, sent([*carousel_sections(numbered[::-1]), *behind])[0], record, due)


def record_of(dice):
    """Returns a record that takes all packets, and mostly presses some keys."""
    lines = ["all", "show"]
    for _ in range(dice.choice((0, 1, 3, 10, 30))):
        key = dice.choice((1, 2, 3, 4, 18, 18, 19, 20, 20, 21, 22, 23, 24, *KEYS))
        lines += [f"key {key}"] + [f"release {key}"] * (dice.random() < 0.7)
        if dice.random() < 0.3:
            lines.append(f"tick {dice.choice((1, 99, 100, 200))}")
    lines[:0] = [f"random {dice.getrandbits(32)}" for _ in range(dice.choice((0, 0, 2)))]
    return "\n".join([*lines, "show", ""]).encode("ascii")


# What comes to event items


def events_section(dice):
    """Returns a section of event messages, mostly of few groups, ids and versions, and now and then of what is none."""
    made = []
    for _ in range(dice.choice((0, 1, 1, 2, 5))):
        group, number, version = dice.choice((0, 1, 1, 255, 4095)), dice.choice((1, 1, 2, 255)), dice.choice((1, 1, 2, 255))
        private = dice.choice(WELL_FORMED) * dice.choice((0, 1, 3))
        made.append(event_message(EventMessage(group, number, version, private, dice.choice((0, 9)), dice.choice((0, 0, 0, 0, 1)))))
    if dice.random() < 0.1:
        made.append(dice.choice((descriptor(0x40, bytes(10)), descriptor(0x17, bytes(12)), dice.randbytes(2), b"\x40")))
    return stream_descriptors_section(made)


def told_sections(dice):
    """Returns sections for event items: messages, and other announcements of the modules."""
    sections = []
    for _ in range(dice.choice((0, 1, 1, 5, 60))):
        if dice.random() < 0.8:
            sections.append(events_section(dice))
        else:
            modules = [Module(number, dice.randrange(1, 3), dice.choice((0, 4)), BML) for number in range(dice.randrange(4))]
            sections.append(dii_section(dice.randrange(1, 9), 1, BLOCK_SIZE, modules))
    return sections


def event_item(dice, handler):
    """Returns an event item with this handler."""
    often = {b"id": 0.5, b"type": 0.98, b"subscribe": 0.9}
    found = {name: dice.choice(values) for name, values in ITEM_ATTRIBUTES.items() if dice.random() < often.get(name, 0.3)}
    attributes = b"".join(b" " + name + b'="' + value + b'"' for name, value in found.items())
    return b"<beitem" + attributes + b' onoccur="' + escaped(handler) + b'"/>'


def escaped(text):
    return text.replace(b"&", b"&amp;").replace(b"<", b"&lt;").replace(b'"', b"&quot;")


# What the rows have


@functools.cache
def fields_of_rows(name):
    """Returns what the field of that name comes to in each row of the tables that has it."""
    found = set()
    for path in sorted(TABLES.glob("*.txt")):
        table = tables.Table()
        for number, line in enumerate(path.read_text(encoding="utf-8").split("\n"), 1):
            table.read(number, line)
        table.end()
        found.update(row.text(name) for _, row in table.rows if name in row.fields)
    return sorted(found)


@functools.cache
def rows_of_scripts():
    """Returns the rows of the tests of scripts, each a list of its fields."""
    rows = []
    for path in sorted(DATA.glob("*.txt")):
        for line in path.read_text(encoding="utf-8").splitlines():
            if line and line[0] not in "#=":
                rows.append([unescaped(field) for field in line.split("\t")])
    return rows


def unescaped(field):
    signs = {"n": "\n", "r": "\r", "t": "\t", "\\": "\\", "": ""}
    return re.sub(r"\\(x[0-9A-F]{2}|.|$)", lambda it: chr(int(it[1][1:], 16)) if it[1][:1] == "x" else signs.get(it[1], it[1]), field)


@functools.cache
def documents():
    texts = [text.encode("latin-1") for text in [*document_rows.MALFORMED, *document_rows.READ, *document_rows.WRONG_ROOT]]
    texts += [text.replace("@", document_rows.BODY).encode("latin-1") for text, *_ in document_rows.TREES]
    texts += [text.encode("latin-1") for text, *_ in document_rows.SOURCES]
    texts += [text.encode("latin-1") for text in document_rows.WAITING + document_rows.NOT_WAITING]
    texts += [path.read_bytes() for path in sorted(EXAMPLES.glob("*/startup.bml"))]
    # (the long ones are at limits, and come by themselves)
    texts = [text for text in [*texts, *fields_of_rows("document")] if text and len(text) < 20_000]
    return Language(DOCUMENT_WORDS, texts)


@functools.cache
def sheets():
    texts = [text.encode("latin-1") for text, _ in style_rows.SHEETS + style_rows.INLINE if text]
    texts += [path.read_bytes() for path in sorted(EXAMPLES.glob("*/*.css"))]
    return Language(STYLE_WORDS, texts)


@functools.cache
def programs():
    texts = [field.encode("latin-1", "replace") for row in rows_of_scripts() for field in row[1:-1] if len(field) > 6]
    texts += [path.read_bytes() for path in sorted(EXAMPLES.glob("*/*.ecm"))]
    return Language(TOKENS, texts + [text for text in fields_of_rows("script") if text])


@functools.cache
def records():
    lines = line_rows.ITEMS + line_rows.NOTHING + line_rows.BAD
    texts = [b"\n".join(lines[at : at + 9]) for at in range(0, len(lines), 3)] + [record for record, *_ in line_rows.RECORDS if record]
    return Language([line + b"\n" for line in lines] + RECORD_WORDS, texts)


# Documents

TAGS = ["body", "div", "p", "span", "a", "br", "input", "object", "bevent", "title", "head", "blink", "_x.y:z-1", "BODY"]
DRAWN = ["div", "p", "p", "span", "a", "br", "input", "object"]
WELL_FORMED = [b"a", b" ", b"\r\n", b"text of a paragraph", b"\xa4\xa2", b"\xa4", b"\x8e", b"]]>", b"\x00", b"\x0b", b"\x7f", b"%"]
WELL_FORMED += [b"&", b"&#", b"&#;", b"&#x;", b"&#0;", b"&#128;", b"&#x7f;", b"&#65", b"&#99999999999999999999;", b"&lt", b"&amp;lt;", b"&nbsp;"]
WELL_FORMED += [b"<!-- - -->", b"<!---->", b"<??>", b"<![CDATA[ <a> ]]>", b"<![CDATA[]]>"]
MALFORMED = [b"<!-->", b"<![CDATA[", b"<!DOCTYPE bml>", b"<", b"</p>"]
HANDLERS = ["onload", "onunload", "onkeydown", "onkeyup", "onclick", "onfocus", "onblur", "onoccur"]
# The attributes of event items, each with values that it may have.
ITEM_ATTRIBUTES = {
    b"id": [b"m", b"x"],
    b"type": [b"EventMessageFired", b"EventMessageFired", b"ModuleUpdated", b"DataButtonPressed", b"ModuleLocked", b"DataEventChanged", b"TimerFired"],
    b"subscribe": [b"subscribe", b"subscribe", b"subscribe", b""],
    b"es_ref": [b"/40", b"arib-dc://h/40", b"/41", b""],
    b"message_group_id": [b"1", b"1", b"255", b"x"],
    b"message_id": [b"1", b"255", b"2", b""],
    b"message_version": [b"255", b"1", b"4294967296"],
    b"module_ref": [b"/40/0001", b"/40/0000", b"../0002/n", b"n", b""],
}
PATHS = [b"/40/0001", b"/40/0000", b"/40/0002", b"/41/0000/x", b"arib-dc://h/40/0001", b"../0001/n", b"n", b"", b"a/b", b"/40/0001/" + b"n" * 64]
DOCUMENT_WORDS = [f"<{tag}>".encode() for tag in TAGS] + [f"</{tag}>".encode() for tag in TAGS] + [f"<{tag}/>".encode() for tag in TAGS]
DOCUMENT_WORDS += WELL_FORMED + MALFORMED + [b"<bml>", b"</bml>", b"<script>", b"</script>", b"<style>", b"</style>", b"<link href='/40/0001'/>", b"]]>", b"-->", b"?>"]
DOCUMENT_WORDS += [b" a='1'", b" id='t'", b" class='c d'", b" style='nav-index:0'", b" onclick='a()'", b" src='/40/0001'", b"='", b'="', b"<", b"/", b">"]


class DocumentMaker:
    """Makes a document by the grammar; now and then a text in it is none of the grammar's."""

    def __init__(self, dice, nodes):
        self.dice = dice
        self.nodes = nodes  # that may still be made
        self.texts = WELL_FORMED if dice.random() < 0.9 else WELL_FORMED + MALFORMED

    def document(self):
        front = self.dice.choice([b"", b'<?xml version="1.0"?>\n<!DOCTYPE bml>', b"<!-- -->"])
        head = self.script() + b"<style>" + escaped(sheet(self.dice, 5)) + b"</style>" + b"<link href='/40/0001'/>"
        inside = b"".join(self.element(3) for _ in range(self.dice.choice((1, 3, 20))))
        while self.nodes > 0:
            inside += self.element(3)
        return front + b"<bml><head>" + head + b"</head><body" + self.attributes() + b">" + inside + b"</body></bml>"

    def script(self):
        text = PRELUDE + ScriptMaker(self.dice).statements(3)
        return b"<script><![CDATA[" + text.replace(b"]]>", b"]] >") + b"]]></script>"

    def element(self, level):
        self.nodes -= 1
        dice = self.dice
        if dice.random() < 0.03:
            return event_item(dice, ScriptMaker(dice).statements(2))
        tag = dice.choice(DRAWN if dice.random() < 0.8 else TAGS).encode()
        if dice.random() < 0.002:
            tag = b"n" * about(dice, 50_000)
        inside = b""
        while self.nodes > 0 and level < MOST_LEVELS + 1 and dice.random() < (0.9 if dice.random() < 0.5 else 0.4):
            inside += self.text() if dice.random() < 0.4 else self.element(level + 1)
        front = b"<" + tag + self.attributes()
        return front + b">" + inside + b"</" + tag + b">" if inside else front + b"/>"

    def text(self):
        self.nodes -= 1
        if self.dice.random() < 0.01:
            return self.script()
        return self.dice.choice(self.texts)

    def attributes(self):
        dice, found = self.dice, {}
        for _ in range(dice.choice((0, 0, 1, 1, 2, 4))):
            name, value = dice.choice([self.name, self.style, self.handler, self.source])()
            found[name] = value
        return b"".join(b" " + name + b'="' + escaped(value) + b'"' for name, value in found.items())

    def name(self):
        name = self.dice.choice([b"id", b"class", b"accesskey", b"title", b"ID"])
        return name, self.dice.choice([b"x", b"y", b"z", b"c", b"c d", b"R", b"B", b""])

    def style(self):
        return b"style", b";".join(declaration(self.dice) for _ in range(self.dice.choice((1, 3))))

    def handler(self):
        return self.dice.choice(HANDLERS).encode(), ScriptMaker(self.dice).statements(2)

    def source(self):
        return self.dice.choice([b"href", b"src", b"data", b"type", b"value"]), self.dice.choice(PATHS)


def near(dice, limit, most):
    """Returns a number near a limit, or any up to another one."""
    return limit + dice.randint(-2, 2) if dice.random() < 0.6 else about(dice, most)


def deep_document(dice):
    levels = max(3, near(dice, MOST_LEVELS, 20_000))
    tags = [dice.choice(["div", "p", "span", "x"]).encode() for _ in range(levels - 2)]
    front = b"<bml><body>" + b"".join(b"<" + tag + b">" for tag in tags)
    if dice.random() < 0.2:
        return front, b"refuse /40/0000 Malformed"
    back = b"".join(b"</" + tag + b">" for tag in reversed(tags)) + b"</body></bml>"
    return front + back, LOAD if levels <= MOST_LEVELS else b"refuse /40/0000 TooDeep"


def wide_document(dice):
    nodes = max(3, near(dice, MOST_NODES, 100_000))
    pairs, rest = divmod(nodes - 2, 2)
    inside = b"t<br/>" * pairs + b"<p/>" * rest if dice.random() < 0.5 else b"<p/>" * (nodes - 2)
    return b"<bml><body>" + inside + b"</body></bml>", LOAD if nodes <= MOST_NODES else b"refuse /40/0000 TooManyNodes"


def named_document(dice):
    name = b"n" * about(dice, 300_000)
    return b"<bml><body><" + name + b" " + name + b"=''></" + name + b"></body></bml>", LOAD


def attributed_document(dice):
    count = about(dice, 60_000)
    attributes = b"".join(b" a%d='%d'" % (at, at) for at in range(count))
    twice = b" a%d=''" % dice.randrange(count) if dice.random() < 0.5 else b""
    return b"<bml><body" + attributes + twice + b"/></bml>", b"refuse /40/0000 Malformed" if twice else LOAD


def referring_document(dice):
    text = dice.choice([text for text in WELL_FORMED if text.startswith(b"&")])
    return b"<bml><body><p>" + text * about(dice, 900_000 // len(text)) + b"</p></body></bml>", LOAD


def document_case(dice):
    way, info, due = dice.random(), BML, b""
    if way < 0.35:
        text = mutated(dice, dice.choice(documents().texts), documents())
    elif way < 0.85:
        text = DocumentMaker(dice, dice.choice((3, 20, 100, 400, 3_000))).document()
        if dice.random() < 0.3:
            text = mutated(dice, text, documents())
    else:
        makers = [deep_document, deep_document, wide_document, named_document, attributed_document, referring_document]
        text, due = dice.choice(makers)(dice)
    other = dice.choice([(CSS, sheet(dice, 10)), (ECMASCRIPT, PRELUDE + ScriptMaker(dice).statements(3))])
    return case_of([(info, text[:MOST_BYTES]), other], record_of(dice), due, told_sections(dice))


# Entities

HEADERS = [b"Content-Type: text/X-arib-bml", b"Content-Location: startup.bml", b"content-location:\tA/startup.bml ", b"Content-Location: sheet"]
HEADERS += [b"Content-Transfer-Encoding: binary", b"x:", b"a: b ", b"Content-Type:", b"a:b\r"]
BAD_HEADERS = [b"Content-Transfer-Encoding: base64", b": x", b"x", b"Content-Location: "]
BOUNDARIES = [b"b", b"B-1", b"b" * 70, b"--", b"", b"b" * 10_000]
ENTITY_WORDS = [b"\r\n", b"\r", b"\n", b"\r\n\r\n", b"--", b"--b", b"--b--", b"\r\n--b\r\n", b"\r\n--b--\r\n", b"--b \t\r\n", b"boundary=b;"]
ENTITY_WORDS += [header + b"\r\n" for header in HEADERS + BAD_HEADERS]


def entity(dice):
    boundary = dice.choice(BOUNDARIES if dice.random() < 0.2 else BOUNDARIES[:2])
    quote = dice.choice([b"", b'"'])
    lines = [b"Content-Type: multipart/mixed; boundary=" + quote + boundary + quote, b""]
    count = dice.choice((1, 2, 3, 8, 511, 512, 513)) if dice.random() < 0.3 else dice.choice((1, 2, 3))
    for at in range(count):
        lines += [b"--" + boundary + dice.choice([b"", b"", b" \t"])]
        lines += [b"Content-Location: " + (b"startup.bml" if at == 0 else b"%d" % (at % 300))] * (dice.random() < 0.9)
        lines += [dice.choice(HEADERS if dice.random() < 0.9 else BAD_HEADERS) for _ in range(dice.choice((0, 1, 2)))]
        lines += [b"", dice.choice(documents().texts)[:2_000] if count < 10 else b"x"]
    return b"\r\n".join([*lines, b"--" + boundary + b"--" * (dice.random() < 0.95), b""])


def entity_case(dice):
    text = entity(dice)
    if dice.random() < 0.5:
        text = mutated(dice, text, Language(ENTITY_WORDS, [text]))
    return case_of([(ENTITY, text[:MOST_BYTES])], b"all\nshow\n")


# Styles

PROPERTIES = [row[0].encode() for row in style_rows.PROPERTIES]
NAMES = [row[1] for row in style_rows.PROPERTIES]
VALUES = sorted({row[index].encode() for row in style_rows.PROPERTIES for index in (2, 3)} | {row[1].encode() for row in style_rows.VALUES})
SELECTORS = [b"*", b"p", b"div", b"span", b".c", b".d", b"#x", b"#y", b"p.c", b"p#x", b"q", b"p:hover", b"p .c", b"1p", b"", b"P"]
STATES = [b"", b"", b"", b":focus", b":active", b":ACTIVE"]
STYLE_WORDS = [b"{", b"}", b":", b";", b",", b"@", b"@media x{", b"@import x;", b"/*", b"*/", b"/**/", b"*", b"!important", b"px", b" ", b"\n"]
STYLE_WORDS += SELECTORS + PROPERTIES + VALUES + [b"p{left:1px}", b"*{top:0}"]


def declaration(dice):
    if dice.random() < 0.1:
        return dice.choice(STYLE_WORDS)
    return dice.choice(PROPERTIES) + b":" + dice.choice(VALUES if dice.random() < 0.7 else [b"%dpx" % dice.randint(-40_000, 40_000), b"0", b"1"])


def rule(dice):
    selectors = b",".join(dice.choice(SELECTORS) + dice.choice(STATES) for _ in range(dice.choice((1, 1, 2, 5))))
    return selectors + b"{" + b";".join(declaration(dice) for _ in range(dice.choice((0, 1, 2, 6)))) + b"}"


def sheet(dice, most):
    return b"\n".join(rule(dice) for _ in range(about(dice, most)))


def styled_body(dice):
    """Returns elements that the rules of sheets are about, and which of them can have the focus."""
    elements, depth = b"", dice.choice((1, 1, 10, 60))
    for _ in range(dice.choice((1, 5, 50, 400, 2_000))):
        style = b' style="' + escaped(declaration(dice)) + b'"' if dice.random() < 0.3 else b""
        names = dice.choice([b"", b' class="c"', b' class="c d\t c"', b' id="x"', b' id="y"'])
        tag = dice.choice([b"p", b"div", b"span", b"q"])
        elements += b"<" + tag + names + style + b">" + dice.choice([b"", b"t"]) + b"</" + tag + b">"
    return b"<body><p style='nav-index:0'>" + b"<div class='c'>" * depth + elements + b"</div>" * depth + b"</p></body>"


def style_case(dice):
    way = dice.random()
    if way < 0.5:
        text = mutated(dice, dice.choice(sheets().texts), sheets())
    elif way < 0.9:
        text = sheet(dice, 2_000)
        if dice.random() < 0.4:
            text = mutated(dice, text, sheets())
    else:
        piece = b"".join(dice.choice(STYLE_WORDS) for _ in range(dice.choice((1, 1, 2, 3)))) or b"{"
        text = piece * about(dice, 200_000 // len(piece)) + b"p{left:1px}"
    front = b'<bml><head><link href="/40/0001"/></head>'
    if dice.random() < 0.3:
        front = b"<bml><head><style>" + escaped(text) + b"</style></head>"
    return case_of([(BML, front + styled_body(dice) + b"</bml>"), (CSS, text[:MOST_BYTES])], record_of(dice))


# Scripts

WORDS = b"break case continue default delete do else for function if in new return switch this typeof var void while with null true false"
SIGNS = b"{ } ( ) [ ] . ; , < > <= >= == != + - * / % ++ -- << >> >>> & | ^ ! ~ && || ? : = += -= *= /= %= <<= >>= >>>= &= |= ^="
LITERALS = [b"0", b"1", b"2147483647", b"2147483648", b"017", b"08", b"0x1F", b"0x", b"1.5", b'""', b"'a'", b'"\\x41\\u0041\\101"', b'"', b"'\n"]
BLANKS = [b" ", b"\n", b"\t", b"\r", b"/* a */", b"/*\n*/", b"// a\n", b"/*", b"*/", b"//", b"\x0b", b"\x00", b"\xa4\xa2", b"#", b"@", b"\\"]
NAMES_OF_HOSTS = "document browser currentEvent currentFocus getElementById parentNode firstChild lastChild previousSibling nextSibling data length"
NAMES_OF_HOSTS += " tagName id className accessKey normalStyle focusStyle activeStyle focus blur value type target keyCode epgTune writePersistentArray"
NAMES_OF_HOSTS += " subscribe status moduleRef esRef messageGroupId messageId messageVersion privateData"
NAMES_OF_HOSTS += " browser Ureg Greg setInterval clearTimer launchDocument random playRomSound lockModuleOnMemory unlockModuleOnMemory"
BUILT_IN = "Object Array String Number Boolean isNaN parseInt fromCharCode charAt charCodeAt indexOf lastIndexOf substring split toString valueOf"
BUILT_IN += " join reverse sort NaN MAX_VALUE MIN_VALUE prototype constructor"
OWN_NAMES = "a b c d e f g i m n o s x"
ALL_NAMES = [name.encode() for name in [*OWN_NAMES.split(), *NAMES_OF_HOSTS.split(), *BUILT_IN.split(), *NAMES]]
TOKENS = WORDS.split() + SIGNS.split() + LITERALS + BLANKS + ALL_NAMES
BINARY = [sign for sign in SIGNS.split() if sign in b"< > <= >= == != + - * / % << >> >>> & | ^ && ||".split()]
ASSIGNING = b"= = = += -= *= /= %= <<= >>= >>>= &= |= ^=".split()
# The names of a program that are written to, those that mostly keep what they have, and methods of these.
WRITTEN = [b"b", b"c", b"e", b"x", b"i", b"s"]
METHODS = {
    b"s": [b"charAt", b"charCodeAt", b"indexOf", b"lastIndexOf", b"substring", b"split", b"toString", b"valueOf"],
    b"a": [b"join", b"reverse", b"sort", b"toString", b"valueOf"],
    b"o": [b"f"],
    b"n": [b"focus", b"blur"],
    b"d": [b"getElementById"],
    b"browser": [b"setInterval", b"clearTimer", b"launchDocument", b"random", b"playRomSound", b"lockModuleOnMemory", b"unlockModuleOnMemory"],
    b"i": [b"toString", b"valueOf"],
    b"String": [b"fromCharCode"],
}
FUNCTIONS = [b"timer", b"browser.random", b"f", b"g", b"o.f", b"String", b"Number", b"Boolean", b"parseInt", b"isNaN", b"Object", b"Array", b"d.getElementById"]
PRELUDE = b"""var s = "ab", i = 0, a = new Array(3, "1", 2), o = new Object(), n = document.getElementById("x"), b = "", c = 7, e = n, x = 1, d = document, m = d.getElementById("m");
function f(x) { return x + 1; } function g(x, y) { return f(x) + this; } o.f = f; o["1"] = a; a.o = o;
function timer(x) { browser.Ureg[x] = x; return browser.setInterval("fired", x, x); } function fired() { b = b + 1; typeof h == "undefined" ? 0 : h(); }
"""


class ScriptMaker:
    """Makes programs by the grammar, over the names of PRELUDE and of the host."""

    def __init__(self, dice):
        self.dice = dice

    def statements(self, level):
        return b"\n".join(self.statement(level) for _ in range(self.dice.choice((1, 2, 4))))

    def statement(self, level):
        ways = [self.plain, self.plain, self.variables]
        ways += [self.choice, self.loop, self.counted, self.visited, self.block] if level > 0 else []
        return self.dice.choice(ways)(level - 1)

    def plain(self, level):
        return self.expression(level + 2) + b";"

    def variables(self, level):
        return b"var " + self.written_name() + b" = " + self.expression(level + 2) + b";"

    def block(self, level):
        return b"{ " + self.statements(level) + b" }"

    def choice(self, level):
        other = b" else " + self.statement(level) if self.dice.random() < 0.5 else b""
        return b"if (" + self.expression(level) + b") " + self.block(level) + other

    def inside(self, level):
        end = self.dice.choice([b"", b"", b"break;", b"continue;"])
        return b"{ " + self.statements(level) + b" " + end + b" }"

    def loop(self, level):
        return b"while (" + self.expression(level) + b") " + self.inside(level)

    def counted(self, level):
        most = b"%d" % self.dice.choice((3, 10, 100, 100_000))
        return b"for (var i = 0; i < " + most + b"; i++) " + self.inside(level)

    def visited(self, level):
        return b"for (var s in " + self.expression(level) + b") " + self.inside(level)

    def own_name(self):
        return self.dice.choice(OWN_NAMES.split()).encode()

    def written_name(self):
        return self.dice.choice(WRITTEN) if self.dice.random() < 0.9 else self.own_name()

    def expression(self, level):
        dice = self.dice
        if level <= 0 or dice.random() < 0.15:
            return dice.choice([self.own_name, self.own_name, self.literal])()
        ways = [self.binary, self.unary, self.member, self.call, self.method, self.assignment, self.step, self.test, self.made]
        return dice.choice([*ways, self.subscription] if dice.random() < 0.3 else ways)(level - 1)

    def literal(self):
        return self.dice.choice([b"(0)", b"(1)", b"(-1)", b"(2147483647)", b"(0x1F)", b'""', b"'a'", b"'7'", b"null", b"true", b"this", b"'length'", b"NaN"])

    def binary(self, level):
        return b"(" + self.expression(level) + b" " + self.dice.choice(BINARY) + b" " + self.expression(level) + b")"

    def unary(self, level):
        return b"(" + self.dice.choice([b"-", b"+", b"!", b"~", b"typeof ", b"void ", b"delete "]) + self.expression(level) + b")"

    def target(self, level):
        return self.written_name() if self.dice.random() < 0.5 else self.member(level)

    def member(self, level):
        base = self.own_name() if self.dice.random() < 0.6 else self.expression(level)
        if self.dice.random() < 0.3:
            return base + b"[" + self.expression(level) + b"]"
        return base + b"." + self.dice.choice(ALL_NAMES)

    def arguments(self, level):
        return b"(" + b", ".join(self.expression(level) for _ in range(self.dice.choice((0, 1, 1, 2)))) + b")"

    def call(self, level):
        return self.dice.choice(FUNCTIONS if self.dice.random() < 0.95 else ALL_NAMES) + self.arguments(level)

    def method(self, level):
        base = self.dice.choice(list(METHODS))
        name = self.dice.choice(METHODS[base] if self.dice.random() < 0.95 else ALL_NAMES)
        return base + b"." + name + self.arguments(level)

    def assignment(self, level):
        return b"(" + self.target(level) + b" " + self.dice.choice(ASSIGNING) + b" " + self.expression(level) + b")"

    def subscription(self, level):
        return b"(m.subscribe = " + self.expression(level) + b")"

    def step(self, level):
        return b"(" + self.dice.choice([b"++%s", b"--%s", b"%s++", b"%s--"]) % self.target(level) + b")"

    def test(self, level):
        return b"(" + self.expression(level) + b" ? " + self.expression(level) + b" : " + self.expression(level) + b")"

    def made(self, level):
        return b"new " + self.dice.choice([b"Object", b"Array", b"f", b"String", b"Number"]) + self.arguments(level)


def soup(dice):
    mark = dice.choice([b"", b" ", b" "])
    return mark.join(dice.choice(TOKENS) for _ in range(about(dice, 20_000 if dice.random() < 0.05 else 200)))


def levelled(dice):
    """Returns a program as deep as it may be, or deeper, and whether it is one."""
    row = dice.choice([row for row in rows_of_scripts() if row[0] == "levels"])
    front, piece, middle, close, back = row[1:-1] if len(row) == 7 else ("", *row[1:-1], "")
    most = int(row[-1].split()[0])
    count = near(dice, most, 100_000)
    text = front + piece * count + middle + close * count + back
    return text.encode("latin-1")[:MOST_BYTES], count <= most and len(text) <= MOST_BYTES


def calling(dice):
    """Returns a program that calls itself, and the line that it comes to, where there is one."""
    depth = near(dice, MOST_CALLS - 1, 20_000)
    text = b"function f(n) { return n <= 0 ? 0 : f(n - 1); } f(%d);" % depth
    return text, b"stop Depth script" if depth >= MOST_CALLS else LOAD


ENDLESS = [b"while (true) ;", b"for (;;) { }", b"for (;;) s += s;", b"while (1) a[i++] = i;", b"while (1) o['n' + i++] = new Object();"]
ENDLESS += [b"for (;;) a.sort();", b"for (;;) a.reverse();", b"for (;;) s = s.split('');", b"for (;;) s = a.join(s);", b"for (;;) a = new Array(a, a);"]
ENDLESS += [b"for (;;) { a.length = a.length * 2 + 1; }", b"for (;;) for (s in a) ;", b"for (;;) n.firstChild.data += 'text';", b"for (;;) n.focus();"]
ENDLESS += [b"for (;;) browser.setInterval('f', 1, 0);", b"for (;;) browser.random(i++);", b"for (;;) browser.Greg[3] += 'text';"]
ENDLESS += [b"function fired() { for (;;) n.focus(); } for (;;) browser.setInterval('fired()', 100, 0);", b"browser.launchDocument('/40/0000');"]
ENDLESS += [b"for (;;) m.subscribe = !m.subscribe;", b"function h() { for (;;) s += document.currentEvent.privateData; }"]
ENDLESS += [b"for (;;) n.normalStyle.left = i++ + 'px';", b"for (;;) d.getElementById(s += 'x');", b"for (;;) { delete o[i]; o[++i] = 1; }"]
# (a script may declare `h`, `k` and `l`)
H, K, L = (b"typeof %b == 'undefined' ? 0 : %b();" % (name, name) for name in (b"h", b"k", b"l"))
PAGE = b"""<body id="b" onload="%b" onunload="%b"><p id="x" style="nav-index:0;nav-down:1" onfocus="%b" onkeydown="%b" onclick="%b">t</p>\
<p id="y" style="nav-index:1;nav-up:0" onblur="%b" accesskey="R"/>""" % (L, K, H, K, H, H)
ITEM = b'<beitem id="m" type="EventMessageFired" subscribe="subscribe" onoccur="%b"/>' % H


def page(dice):
    """Returns the body of a page, with one event item, with several, or with more than events can wait."""
    several = b"".join(event_item(dice, dice.choice((H, K, L))) for _ in range(3))
    return PAGE + ITEM + dice.choice((b"", several, several, ITEM * 300)) + b"</body>"


def script_case(dice):
    way, due = dice.random(), b""
    if way < 0.1:
        text = soup(dice)
    elif way < 0.4:
        text = mutated(dice, dice.choice(programs().texts), programs())
    elif way < 0.85:
        made = ScriptMaker(dice)
        functions = b"".join(b"function " + name + b"() { " + made.statements(2) + b" }\n" for name in (b"h", b"k", b"l"))
        text = PRELUDE + functions + made.statements(4)
        if dice.random() < 0.3:
            text = mutated(dice, text, programs())
    elif way < 0.93:
        text, is_program = levelled(dice)
        due = b"" if is_program else b"badscript /40/0000 1"
    elif way < 0.96:
        text, due = calling(dice)
    else:
        text, due = PRELUDE + dice.choice(ENDLESS), b""
    text = text[:MOST_BYTES]
    if dice.random() < 0.2:
        document = b"<bml><head><script>" + escaped(text) + b"</script></head>" + page(dice) + b"</bml>"
        due = due if len(document) <= MOST_BYTES else b""
        return case_of([(BML, document[:MOST_BYTES])], record_of(dice), due, told_sections(dice))
    document = b'<bml><head><script src="/40/0001"/></head>' + page(dice) + b"</bml>"
    return case_of([(BML, document), (ECMASCRIPT, text)], record_of(dice), due, told_sections(dice))


# Records

RECORD_WORDS = [b"all", b"packets ", b"key ", b"release ", b"tick ", b"random ", b"show", b"#", b"\t", b" ", b"\r", b"\n", b"\r\n", b"\x00", b"1"]
RECORD_WORDS += [b"0", b"18", b"4294967295", b"4294967296", b"99999999999", b"3600000", b" " * 128, b"x" * 129]


def item(dice):
    word = dice.choice(["key", "key", "release", "tick", "random", "show", "packets"])
    number = {"key": dice.choice(KEYS), "release": dice.choice(KEYS), "tick": about(dice, 3_600_000), "random": dice.randrange(1 << 32), "packets": 1}
    return f"{word} {number[word]}\n".encode("ascii") if word in number else b"show\n"


@functools.cache
def recorded_pages():
    """Returns streams with pages that answer keys, each with the words before it."""
    found = []
    for name in ("menu-keys", "scripts", "styles", "service"):
        words = (EXAMPLES / name / "args").read_text().split()
        found.append((words[1:-2], (EXAMPLES / name / "stream.ts").read_bytes()))
    handlers = b"var i = 0; function h() { i++; d.getElementById('y').focus(); } function k() { n.firstChild.data = i; } function l() { n.focus(); }"
    button = b'<beitem id="m" type="DataButtonPressed" subscribe="subscribe" onoccur="%b"/>' % H
    document = b"<bml><head><script><![CDATA[" + PRELUDE + handlers + b"]]></script></head>" + PAGE + button + b"</body></bml>"
    return [*found, case_of([(BML, document)], b"")[:2]]


def record_case(dice):
    options, stream = dice.choice(recorded_pages())
    way = dice.random()
    if way < 0.5:
        record = mutated(dice, dice.choice(records().texts), records())
    elif way < 0.9:
        record = b"all\n" + b"".join(item(dice) for _ in range(about(dice, 3_000)))
        if dice.random() < 0.3:
            record = mutated(dice, record, records())
    elif way < 0.95:
        record = b"all\n" + b"".join(b"key %d\nrelease %d\n" % (key, key) for key in dice.choices(KEYS, k=about(dice, 30_000)))
    else:
        record = dice.randbytes(about(dice, 5_000))
    return Case(options, stream, record)
