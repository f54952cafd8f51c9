"""Style texts of a line: which rules and values they say, and which value an element has.

A row here is a sheet or a value, so these stand in Python and not in a table. In each document a
script reads the styles of elements and writes what it read. What that has to be is from
docs/FORMATS.md, "Style texts" and "The cascade".
"""

import json

from document_rows import BODY, WRITE, run_of, script, written

# Elements beside the body that the sheets of the next table give a place.
PLACED = '<p/><p class="c"/><q/><r class="c"/><r id="i"/><_p/><p-1_/>'
PLACES = f"""
var told = "";
function place(style) {{ return style.left + "," + style.top; }}
function name(e) {{ return e.tagName + (e.className == "" ? "" : "." + e.className) + (e.id == "" ? "" : "#" + e.id); }}
for (var e = document.getElementById("t").nextSibling; e.tagName != "script"; e = e.nextSibling) {{
  var normal = place(e.normalStyle), focus = place(e.focusStyle), active = place(e.activeStyle);
  if (normal != "0px,0px") told += " " + name(e) + "=" + normal;
  if (focus != normal) told += " " + name(e) + ":focus=" + focus;
  if (active != normal) told += " " + name(e) + ":active=" + active;
}}
{WRITE} = told;
"""

# Sheets, and the places that aren't 0,0 in the normal state, or in another one not those of the normal.
SHEETS = [
    ("", ""),
    (" \t\r\n", ""),
    ("q{left:1px}", "q=1px,0px"),
    (
        "p{left:1px} .c{left:2px} p.c{left:3px;top:5px} #i{left:4px} q{bad;top:7px;left:red}",
        "p=1px,0px p.c=3px,5px q=0px,7px r.c=2px,0px r#i=4px,0px",
    ),
    ("*{top:0} p#i{left:1px} r#i{left:2px}", "r#i=2px,0px"),
    (
        "p:focus{top:1px} .c:ACTIVE{top:2px}",
        "p:focus=0px,1px p.c:focus=0px,1px p.c:active=0px,2px r.c:active=0px,2px",
    ),
    ("Q{TOP:1PX} q{LEFT:2PX}", "q=2px,0px"),
    ("p , .c{top:1px}", "p=0px,1px p.c=0px,1px r.c=0px,1px"),
    ("p,{top:1px}q{left:1px}", "q=1px,0px"),
    ("{top:1px}q{left:1px}", "q=1px,0px"),
    ("p,:focus{top:1px}", ""),
    ("*.c{left:1px}*#i{left:1px}r.c#i{left:1px}p.c.d{left:1px}p:focus:active{left:1px}", ""),
    ("p .c{left:1px}", ""),
    ("p:hover{left:1px}", ""),
    ("p: focus{left:1px}", ""),
    ("1p{left:1px} -p{left:1px} _p{left:2px}p-1_{left:3px}", "_p=2px,0px p-1_=3px,0px"),
    ("p:focus.c{left:1px}", ""),
    (".c:focus,#i{left:1px}", "p.c:focus=1px,0px r.c:focus=1px,0px r#i=1px,0px"),
    # The most specific one gives the value, wherever it stands.
    (
        "r#i:active{left:7px} #i{left:6px} p.c:focus{left:5px} p.c{left:4px} .c{left:3px} p{left:2px} *{left:1px}",
        "p=2px,0px p.c=4px,0px p.c:focus=5px,0px q=1px,0px r.c=3px,0px r#i=6px,0px r#i:active=7px,0px _p=1px,0px p-1_=1px,0px",
    ),
    # Comments are spaces.
    ("/* p{left:1px} */q{left:2px}", "q=2px,0px"),
    ("q/**/{left/**/:/**/1px/**/}", "q=1px,0px"),
    ("q{left:5/**/px}", ""),
    ("p/**/.c{left:1px}", ""),
    ("q{le/**/ft:1px}", ""),
    ("q{left:1px;/*/ top:2px}", "q=1px,0px"),
    ("q{left:1px}/* q{left:2px}", "q=1px,0px"),
    ('p{left:1px}/* "*/q{left:2px}"', "p=1px,0px p.c=1px,0px q=2px,0px"),
    # At-rules.
    ("@import x;q{left:1px}", "q=1px,0px"),
    ("@media x{p{left:1px}q{left:1px}}r{left:2px}", "r.c=2px,0px r#i=2px,0px"),
    ("@media x{q{left:1px}", ""),
    ("@x p{left:1px}q{left:2px}", "q=2px,0px"),
    ("@x;{q{left:1px}", ""),
    ("@x}y;q{left:1px}", "q=1px,0px"),
    ("@x{;}q{left:1px}", "q=1px,0px"),
    ("q{@x;top:1px}", "q=0px,1px"),
    ("p@x{left:1px}q{left:2px}", "q=2px,0px"),
    # Blocks.
    ("p{a{left:1px} top:2px}q{left:1px}", ""),
    ("q{top:1px", "q=0px,1px"),
    ("q{top:1px}} p{left:1px} r{left:2px}", "q=0px,1px r.c=2px,0px r#i=2px,0px"),
    ("<!-- p{left:1px} q{left:2px} -->", "q=2px,0px"),
    ("q{left:1px} p", "q=1px,0px"),
    # Declarations.
    ("q{top:1px;top:2px;}", "q=0px,2px"),
    ("q{;;top : 1px ;}", "q=0px,1px"),
    ("q{top:1px !important}", ""),
    ("q{top::1px;top 1px;top;:1px;left:1px:}", ""),
    ("q{colour:1;left:32768px;left:32767px;top:32768px}", "q=32767px,0px"),
    ("p\xa4\xa2{left:1px}q{top:\xa1\xa1 1px;left:2px}", "q=2px,0px"),
    ("a,q,c{left:-1px}", "q=-1px,0px"),
]
INLINE = [
    ("", ""),
    ("left:1px;top:2px", "q=1px,2px"),
    ("left:1px}", ""),
    ("@x;left:1px", "q=1px,0px"),
    ("left/* */:1px;/* top:2px", "q=1px,0px"),
    ("q{left:1px}", ""),
]

LINK = "<link href='/40/0001'/>"
# Documents with style texts, the sheet in module 0001, and left, top and width of the element `d`.
STYLED = [
    ("<style>d{left:1px} b{}</style>", None, "1px 0px 0px"),
    # styles and links in document order, wherever they stand
    (
        "<style>d{left:1px;top:1px;width:1px}</style><link href='/40/0001'/><style>d{width:3px}</style>",
        "d{top:2px;width:2px}",
        "1px 2px 3px",
    ),
    ("<link href='/40/0001'/><style>d{left:2px;top:2px}</style><link href='/40/0001'/>", "d{left:1px}", "1px 2px 0px"),
    ("<head><style>d{left:1px;top:1px}</style></head><x><p><style>d{top:2px}</style></p></x>", None, "1px 2px 0px"),
    # a link that is missing or isn't resolved is empty
    ("<link href='/40/0001'/><style>d{left:1px}</style>", None, "1px 0px 0px"),
    ("<link href='a/b'/><link href=''/><link href='/40/0001'/><link rel='r'/>", "d{left:1px}", "1px 0px 0px"),
    # a link's own text isn't read, nor the resource that a style names
    ("<link href='/40/0001'>d{top:9px}</link><style href='/40/0001'>d{width:3px}</style>", "d{left:1px}", "1px 0px 3px"),
    # the text in an element that stands in a style isn't that of the style
    ("<style>d{left:1px}<p>d{top:2px}</p>d{width:3px}</style>", None, "1px 0px 3px"),
    ("<style>d{left:<p>d{top:2px}</p>1px}</style>", None, "1px 0px 0px"),
    # a style in a style or in a link is a style text of its own, after the outer one
    ("<style>d{left:1px;top:1px}<style>d{left:2px;width:2px}</style>d{width:3px}</style>", None, "2px 1px 2px"),
    ("<link href='/40/0001'><style>d{left:2px}</style></link>", "d{left:1px;top:1px}", "2px 1px 0px"),
    # comments, character data and references of the document
    ("<style>d{left:1px}<!-- d{left:2px} --><![CDATA[d{top:1px} /* d{top:2px} */]]>d{width:3px}</style>", None, "1px 1px 3px"),
    ("<style>d&#123;left:1px;top&#x3a;2px}</style>", None, "1px 2px 0px"),
    # an open rule, comment or at-rule ends with its text
    ("<style>d{left:1px</style><style>d{top:2px}/*</style><style>d{width:3px} d</style><style>d{left:4px}</style>", None, "4px 2px 3px"),
    ("<link href='/40/0001'/><style>d{top:2px}</style>", "d{left:1px} @import", "1px 2px 0px"),
    # tags compare by case
    ("<STYLE>d{left:1px}</STYLE><Link href='/40/0001'/><styles>d{left:1px}</styles>", "d{top:1px}", "0px 0px 0px"),
]

# Long sheets, of so many pieces after a front, which a slow reader would go through again and again,
# and the same of `d`.
LONG = [
    ("", "{", 250_000, "0px 0px 0px"),
    ("", "@", 250_000, "0px 0px 0px"),
    ("", "@{", 125_000, "0px 0px 0px"),
    ("", "/*", 125_000, "0px 0px 0px"),
    ("", "a,", 125_000, "0px 0px 0px"),
    ("d{", "top:1px;", 31_250, "0px 1px 0px"),
    ("", "{}", 125_000, "0px 0px 0px"),
    ("", "*/ /*/", 41_666, "0px 0px 0px"),
    ("", "d{top:0;left:9px} ", 13_888, "9px 0px 0px"),
]

# Names of properties in scripts, texts, and what they are read as, or None where they are no values.
VALUES = [
    ("left", "-32768px", "-32768px"),
    ("left", "-32769px", None),
    ("left", "32767px", "32767px"),
    ("top", "32768px", None),
    ("top", "-0", "0px"),
    ("top", "-0px", "0px"),
    ("top", "0", "0px"),
    ("top", "00", None),
    ("top", "00px", "0px"),
    ("top", "007PX", "7px"),
    ("top", "+5px", None),
    ("top", "5 px", None),
    ("top", "px", None),
    ("top", "-px", None),
    ("top", "--1px", None),
    ("top", "5", None),
    ("top", "", None),
    ("top", "none", None),
    ("top", " 5PX ", "5px"),
    ("top", "/**/5px", None),
    ("top", "99999999999999999999px", None),
    ("top", "00000000000000000000001px", "1px"),
    ("width", "-0px", None),
    ("width", "-1px", None),
    ("height", "32767px", "32767px"),
    ("borderWidth", "0", "0px"),
    ("fontSize", "32768px", None),
    ("zIndex", "-32768", "-32768"),
    ("zIndex", "-0", "0"),
    ("zIndex", "1px", None),
    ("navUp", "32767", "32767"),
    ("navUp", "-0", None),
    ("navIndex", "NONE", "none"),
    ("navIndex", "none none", None),
    ("colorIndex", "007", "7"),
    ("colorIndex", "255", "255"),
    ("colorIndex", "256", None),
    ("backgroundColorIndex", "none", None),
    ("visibility", "Hidden\t", "hidden"),
    ("visibility", "visible", "visible"),
    ("visibility", "inherit", None),
    ("usedKeyList", "numeric-tuning basic\nbasic", "basic numeric-tuning"),
    ("usedKeyList", "data-button", "data-button"),
    ("usedKeyList", "numeric-tuning data-button", "data-button numeric-tuning"),
    ("usedKeyList", "none", "none"),
    ("usedKeyList", "none basic", None),
    ("usedKeyList", "basic,data-button", None),
]
# What is written before such a text, so that one that is no value leaves it.
BEFORE = {"px": "9px", "number": "9", "visibility": "hidden", "usedKeyList": "basic data-button numeric-tuning"}
IN_PIXELS = ["left", "top", "width", "height", "borderWidth", "fontSize"]

# Names in style texts and in scripts, the initial value, another one, and whether it is inherited.
PROPERTIES = [
    ("left", "left", "0px", "1px", False),
    ("top", "top", "0px", "1px", False),
    ("width", "width", "0px", "1px", False),
    ("height", "height", "0px", "1px", False),
    ("visibility", "visibility", "visible", "hidden", True),
    ("z-index", "zIndex", "0", "1", False),
    ("nav-index", "navIndex", "none", "1", False),
    ("nav-up", "navUp", "none", "1", False),
    ("nav-down", "navDown", "none", "1", False),
    ("nav-left", "navLeft", "none", "1", False),
    ("nav-right", "navRight", "none", "1", False),
    ("used-key-list", "usedKeyList", "basic data-button", "none", False),
    ("color-index", "colorIndex", "7", "1", True),
    ("background-color-index", "backgroundColorIndex", "8", "1", False),
    ("border-width", "borderWidth", "0px", "1px", False),
    ("border-color-index", "borderColorIndex", "7", "1", False),
    ("font-size", "fontSize", "24px", "1px", True),
]

# A small document: `b`, in it `d`, in it `q` with an inline text, and `c` of two classes.
CASCADE = (
    "<style>* { left: 1px; top: 1px } p { left: 2px; top: 2px } .c { left: 3px } p.c:focus { left: 4px } p.c:active { top: 4px } "
    ".c-d { width: 5px } #q { height: 6px } p#q, p { height: 7px; height: 8px } div { color-index: 9; z-index: 9 } "
    "div:focus { color-index: 10 } div:active { color-index: 11 }</style>"
    "<div><p id='q' style='top: 20px; top: 21px; font-size: 10px'/><p class='d&#9;c'/></div>"
)
NODES = "var q = document.getElementById('q'), d = q.parentNode, c = q.nextSibling, b = d.parentNode;\n"
# What is read of them, and what is read after a write.
READS = [
    ("b.normalStyle.left", "1px"),
    ("d.normalStyle.left", "1px"),
    ("c.normalStyle.left", "3px"),
    ("c.focusStyle.left", "4px"),
    ("c.activeStyle.left", "3px"),
    ("c.activeStyle.top", "4px"),
    ("c.normalStyle.width", "0px"),
    ("c.normalStyle.height", "8px"),
    ("q.normalStyle.left", "2px"),
    ("q.activeStyle.top", "21px"),
    ("q.normalStyle.height", "8px"),
    ("q.normalStyle.zIndex", "0"),
    ("q.focusStyle.colorIndex", "9"),
    ("b.normalStyle.colorIndex", "7"),
    ("q.normalStyle.fontSize", "10px"),
    ("c.normalStyle.fontSize", "24px"),
]
SET = "q.normalStyle.top = '3px'"
READS_BEHIND_IT = [("q.activeStyle.top", "3px"), ("q.normalStyle.fontSize", "10px"), ("c.normalStyle.top", "2px")]


def page(markup, text):
    return f"<bml>{markup}{BODY}{script(text)}</bml>"


def style(text):
    return f"<style><![CDATA[{text}]]></style>"


def sheets():
    """Returns the runs of documents whose elements a sheet or an inline text gives places."""
    rows = [(text, f"<bml>{style(text)}{BODY}{PLACED}{script(PLACES)}</bml>", told) for text, told in SHEETS]
    rows += [(text, f"<bml>{BODY}<q style='{text}'/>{script(PLACES)}</bml>", told) for text, told in INLINE]
    return [run_of(text, document, written("".join(f" {place}" for place in told.split()))) for text, document, told in rows]


def styled():
    """Returns the runs of documents with several style texts, and with long ones."""
    text = f"var s = document.getElementById('d').normalStyle; {WRITE} = s.left + ' ' + s.top + ' ' + s.width;"
    rows = [(markup, markup, sheet, told) for markup, sheet, told in STYLED]
    rows += [(f"{count} of {piece}", LINK, front + count * piece, told) for front, piece, count, told in LONG]
    return [run_of(name, page(f"{markup}<d id='d'/>", text), written(told), resource=sheet) for name, markup, sheet, told in rows]


def values():
    """Returns the runs of scripts that write a text to a style and read it."""
    found = []
    for name, text, told in VALUES:
        before = BEFORE["px" if name in IN_PIXELS else name if name in BEFORE else "number"]
        first, second = (f"s.{name} = {json.dumps(value)};" for value in (before, text))
        row = f"var s = document.getElementById('d').normalStyle; {first} {second} {WRITE} = s.{name};"
        found.append(run_of(f"{name} {text!r}", page("<d id='d'/>", row), written(before if told is None else told)))
    return found


def properties():
    """Returns the runs that tell of each property its names, its initial value and whether it is inherited."""
    found = []
    for css, name, initial, other, is_inherited in PROPERTIES:
        markup = f"<f id='f'/><d id='d' style='{css}:{other}'><e id='e'/></d>"
        styles = " + ' ' + ".join(f"document.getElementById('{element}').normalStyle.{name}" for element in "fde")
        told = f"{initial} {other} {other if is_inherited else initial}"
        found.append(run_of(css, page(markup, f"{WRITE} = {styles};"), written(told)))
    return found


def cascades():
    """Returns the runs that tell values of elements of one document."""
    rows = [("", read, told) for read, told in READS] + [(SET, read, told) for read, told in READS_BEHIND_IT]
    return [run_of(f"{before} {read}", page(CASCADE, f"{NODES}{before};{WRITE} = {read};"), written(told)) for before, read, told in rows]


def runs():
    """Returns all these runs."""
    return [*sheets(), *styled(), *values(), *properties(), *cascades()]
