"""What scripts read and write of nodes, and which element has the focus: rows of a line.

A row here is an expression or a key, so these stand in Python and not in a table. What has to come
of each is from docs/FORMATS.md, "Documents in scripts" and "Keys and focus".
"""

from document_rows import BODY, WRITE, run_of, script, written

# The nodes are: n[0] y, in it n[1] x and the text n[6]; the x has n[2] p with the text n[3], n[4]
# object and n[5] input.
NODES = (
    "<style>p { left: 10px; z-index: 3 } p:focus { left: 11px } x { color-index: 4 } x:active { color-index: 5 }</style>"
    "<y><x><p id='q' class='c d' accesskey='B' className='no class' style='used-key-list: numeric-tuning data-button'>a\xa4\xa2</p>"
    "<object data='/40/0001/a' type='image/jpeg' value='w'/><input type='text' value='v'/></x>z</y>"
)
NAMES = """
var n = new Array(), q = document.getElementById("q");
n[2] = q; n[1] = q.parentNode; n[0] = n[1].parentNode;
n[3] = q.firstChild; n[4] = q.nextSibling; n[5] = n[4].nextSibling; n[6] = n[1].nextSibling;
function told(value) {
  for (var i = 0; i < n.length; i++) if (value == n[i]) return "n" + i;
  return typeof value + " " + value;
}
"""
UNDEFINED = "undefined undefined"
NULL = "object null"

# Expressions, and what they are: a node, or their type and their text.
READS = [
    # neighbours
    ("n[0].parentNode.parentNode", NULL),
    ("n[0].parentNode.previousSibling", NULL),
    ("n[0].parentNode.nextSibling", NULL),
    ("n[0].firstChild", "n1"),
    ("n[0].lastChild", "n6"),
    ("n[1].parentNode", "n0"),
    ("n[1].firstChild", "n2"),
    ("n[1].lastChild", "n5"),
    ("n[1].previousSibling", NULL),
    ("n[1].nextSibling", "n6"),
    ("n[2].firstChild", "n3"),
    ("n[2].lastChild", "n3"),
    ("n[2].nextSibling", "n4"),
    ("n[3].parentNode", "n2"),
    ("n[3].firstChild", NULL),
    ("n[3].nextSibling", NULL),
    ("n[4].previousSibling", "n2"),
    ("n[4].nextSibling", "n5"),
    ("n[5].nextSibling", NULL),
    ("n[6].previousSibling", "n1"),
    # members
    ("n[3].data", "string a\xa4\xa2"),
    ("n[3].length", "number 2"),
    ("n[6].data", "string z"),
    ("n[6].length", "number 1"),
    ("n[3].tagName", UNDEFINED),
    ("n[3].id", UNDEFINED),
    ("n[3].normalStyle", UNDEFINED),
    ("n[2].tagName", "string p"),
    ("n[2].id", "string q"),
    ("n[2].className", "string c d"),
    ("n[2].accessKey", "string B"),
    ("n[4].data", "string /40/0001/a"),
    ("n[4].type", "string image/jpeg"),
    ("n[4].tagName", "string object"),
    ("n[5].value", "string v"),
    # members that some nodes have, and some don't
    ("n[2].data", UNDEFINED),
    ("n[2].length", UNDEFINED),
    ("n[2]['class']", UNDEFINED),
    ("n[2].classname", UNDEFINED),
    ("n[2].focus", UNDEFINED),
    ("n[2]['']", UNDEFINED),
    ("n[1].id", "string "),
    ("n[1].className", "string "),
    ("n[1].accessKey", "string "),
    ("n[4].value", UNDEFINED),
    ("n[5].type", UNDEFINED),
    ("n[5].data", UNDEFINED),
    # styles
    ("n[2].normalStyle.left", "string 10px"),
    ("n[2].focusStyle.left", "string 11px"),
    ("n[2].activeStyle.left", "string 10px"),
    ("n[2].normalStyle.zIndex", "string 3"),
    ("n[2].normalStyle.width", "string 0px"),
    ("n[2].normalStyle.fontSize", "string 24px"),
    ("n[2].normalStyle.navIndex", "string none"),
    ("n[2].normalStyle.visibility", "string visible"),
    ("n[2].normalStyle.usedKeyList", "string data-button numeric-tuning"),
    ("n[1].normalStyle.usedKeyList", "string basic data-button"),
    ("n[2].normalStyle.colorIndex", "string 4"),
    ("n[1].normalStyle.colorIndex", "string 4"),
    ("n[1].activeStyle.colorIndex", "string 5"),
    ("n[0].normalStyle.colorIndex", "string 7"),
    ("n[2].normalStyle['z-index']", UNDEFINED),
    ("n[2].normalStyle.LEFT", UNDEFINED),
    ("n[2].normalStyle.firstChild", UNDEFINED),
    # the document and the browser
    ("document.currentEvent", NULL),
    ("document.currentFocus", NULL),
    ("document.getElementById", UNDEFINED),
    ("document.firstChild", UNDEFINED),
    ("browser.Ureg", "object [object]"),
    ("browser.Areg", UNDEFINED),
]

# What is written, an expression, and what it is then.
WRITES = [
    ("n[3].data = 'new'", "n[3].data", "string new"),
    ("n[3].data = 'new'", "n[3].length", "number 3"),
    ("n[3].data = 'new'", "n[6].data", "string z"),
    ("n[6].data = 'new'", "n[6].data", "string new"),
    ("n[3].length = 'new'", "n[3].length", "number 2"),
    ("n[4].data = 'new'", "n[4].data", "string new"),
    ("n[4].data = 'new'", "n[4].type", "string image/jpeg"),
    ("n[4].type = 'new'", "n[4].type", "string image/jpeg"),
    ("n[4].value = 'new'", "n[4].value", UNDEFINED),
    ("n[5].value = 'new'", "n[5].value", "string new"),
    ("n[5].data = 'new'", "n[5].data", UNDEFINED),
    ("n[2].id = 'new'", "n[2].id", "string q"),
    ("n[2].tagName = 'new'", "n[2].tagName", "string p"),
    ("n[2].className = 'new'", "n[2].className", "string c d"),
    ("n[2].accessKey = 'new'", "n[2].accessKey", "string B"),
    ("n[2].data = 'new'", "n[2].data", UNDEFINED),
    ("n[2].firstChild = 'new'", "n[2].firstChild", "n3"),
    ("n[3].data = ''", "n[3].data", "string "),
    ("n[3].data = ''", "n[3].length", "number 0"),
    ("n[2].normalStyle.left = ' 12PX '", "n[2].normalStyle.left", "string 12px"),
    ("n[2].normalStyle.left = '12px'", "n[2].focusStyle.left", "string 12px"),
    ("n[2].normalStyle.left = '12px'", "n[2].activeStyle.left", "string 12px"),
    ("n[2].focusStyle.left = '13px'", "n[2].focusStyle.left", "string 13px"),
    ("n[2].focusStyle.left = '13px'", "n[2].normalStyle.left", "string 10px"),
    ("n[2].focusStyle.left = '13px'", "n[2].activeStyle.left", "string 10px"),
    ("n[2].activeStyle.left = '14px'", "n[2].activeStyle.left", "string 14px"),
    ("n[2].normalStyle.left = '12'", "n[2].normalStyle.left", "string 10px"),
    ("n[2].normalStyle.left = ''", "n[2].normalStyle.left", "string 10px"),
    ("n[2].normalStyle.zIndex = 'none'", "n[2].normalStyle.zIndex", "string 3"),
    ("n[2].normalStyle.navIndex = '7'", "n[2].normalStyle.navIndex", "string 7"),
    ("n[2].normalStyle.visibility = 'Hidden'", "n[2].normalStyle.visibility", "string hidden"),
    ("n[2].normalStyle.usedKeyList = 'numeric-tuning basic'", "n[2].normalStyle.usedKeyList", "string basic numeric-tuning"),
    ("n[2].normalStyle['z-index'] = '5'", "n[2].normalStyle['z-index']", UNDEFINED),
    # the last value that is written counts
    ("n[2].focusStyle.top = '1px'; n[2].focusStyle.top = '2px'", "n[2].focusStyle.top", "string 2px"),
    ("n[2].focusStyle.top = '1px'; n[2].focusStyle.top = 'red'", "n[2].focusStyle.top", "string 1px"),
]

# What a handler of the focus, where enter is pressed and released, reads of its event.
EVENTS = [
    ("onclick", "type", "string click"),
    ("onclick", "keyCode", UNDEFINED),
    ("onkeydown", "type", "string keydown"),
    ("onkeydown", "keyCode", "number 18"),
    ("onkeyup", "type", "string keyup"),
    ("onkeyup", "keyCode", "number 18"),
    ("onkeyup", "keycode", UNDEFINED),
    ("onfocus", "type", "string focus"),
    ("onfocus", "keyCode", UNDEFINED),
]

# Elements of which some can have the focus. The `div` names others in the normal state, and while it
# has the focus it is hidden, with what hangs in it.
FOCUS_SHEET = (
    "div { nav-index: 1; nav-up: 2; nav-down: 3; nav-left: 4; nav-right: 1 } div:focus { visibility: hidden; nav-index: 7; nav-up: 4 }"
)
FOCUS_ELEMENTS = (
    "<y id='e1' {1}><p id='e2' {2} style='nav-index: 1; visibility: hidden' accesskey='B'/>"
    "<div id='e3' {3} accesskey='R'><a id='e4' {4} style='nav-index: 2' accesskey='B'/></div>"
    "<span id='e5' {5} style='nav-index: 1' accesskey='B'/><a id='e6' {6} style='nav-index: 2' accesskey='RG'/>"
    "<input id='e7' {7} style='nav-index: 3; nav-up: 8; nav-left: none' accesskey='g'/>"
    "<object id='e8' {8} style='nav-index: 4' accesskey='G'/><b id='e9' {9} style='nav-index: 5' accesskey='Y'/>"
    "<p id='e10' {10} accesskey='Y'>text</p></y>"
)
# Whether each of them, from the first on, gets the focus: where nothing has it, and where the `div` has it.
FREE = "0011111100"
HELD = "0010111100"
FOCUS_LINE = "focus 0 0 0 0\n"

# The element that has the focus, keys, which elements are focused and clicked then, and whether the one
# that has the focus is shown. The `div` is active from enter on, and then it isn't hidden.
KEYS = [
    ("3", "1", "f6", True),
    ("3", "2", "f7", True),
    ("3", "3", "f8", True),
    ("3", "4", "", False),
    ("3", "18", "c3", True),
    ("3", "18 1", "c3 f4", True),
    ("3", "21", "f5 c5", True),
    ("3", "22", "c3", False),
    ("3", "23", "f8 c8", True),
    ("3", "24", "", False),
    ("3", "5", "", False),
    ("3", "14", "", False),
    ("3", "19", "", False),
    ("3", "20", "", False),
    ("7", "1", "", True),
    ("7", "2", "", True),
    ("7", "3", "", True),
    ("7", "18", "c7", True),
    ("7", "21", "f4 c4", True),
    (None, "1", "", False),
    (None, "4", "", False),
    (None, "18", "", False),
    (None, "21", "", False),
    (None, "23", "", False),
]

# Values of used-key-list, and which of all keys pass.
ALL_GROUPS = "basic data-button numeric-tuning"
PASSING = [
    ("basic", "1 2 3 4 18 19"),
    ("numeric-tuning", "5 6 7 8 9 10 11 12 13 14"),
    ("data-button", "20 21 22 23 24"),
    ("basic data-button", "1 2 3 4 18 19 20 21 22 23 24"),
    (ALL_GROUPS, "1 2 3 4 5 6 7 8 9 10 11 12 13 14 18 19 20 21 22 23 24"),
    ("none", ""),
]


def objects():
    """Returns the runs of scripts that read nodes, and of those that write them before."""
    rows = [("", read, told) for read, told in READS] + WRITES
    found = []
    for write, read, told in rows:
        text = f"{NAMES}{write};{WRITE} = told({read});"
        found.append(run_of(f"{write} {read}", f"<bml>{BODY}{NODES}{script(text)}</bml>", written(told)))
    return found


def events():
    """Returns the runs of handlers that read their event."""
    found = []
    for handler, name, told in EVENTS:
        text = f"function tell(value) {{ {WRITE} = typeof value + ' ' + value; }}"
        element = f"<a style='nav-index:0' {handler}='tell(document.currentEvent.{name});'/>"
        document = f"<bml>{BODY}{element}{script(text)}</bml>"
        found.append(run_of(f"{handler} {name}", document, written(told) + FOCUS_LINE, "all\nkey 18\nrelease 18\nshow\n"))
    return found


def focus_page(text, handlers=""):
    """Returns the document of elements that want the focus, each with these handlers, with its number for `N`."""
    elements = FOCUS_ELEMENTS.format(*(handlers.replace("N", str(number)) for number in range(11)))
    return f"<bml><style>{FOCUS_SHEET}</style>{BODY}{elements}{script(text)}</bml>"


def focuses():
    """Returns the runs that tell which elements can have the focus."""
    text = f"""
var told = "";
function get(number) {{ return document.getElementById("e" + number); }}
for (var i = 1; i <= 10; i++) {{
  START
  get(i).focus(); told += document.currentFocus == get(i) ? 1 : 0;
}}
{WRITE} = told;
"""
    free = "if (document.currentFocus != null) document.currentFocus.blur();"
    return [
        run_of("where nothing has the focus", focus_page(text.replace("START", free)), written(FREE)),
        run_of("where the div has it", focus_page(text.replace("START", "get(3).focus();")), written(HELD)),
    ]


def keys():
    """Returns the runs of keys that are pressed where an element has the focus."""
    found = []
    for holder, pressed, told, is_shown in KEYS:
        start = "" if holder is None else f"document.getElementById('e{holder}').focus();"
        text = f"var told = ''; function log(x) {{ told += ' ' + x; {WRITE} = told; }} {start}"
        document = focus_page(text, "onfocus='log(&quot;fN&quot;);' onclick='log(&quot;cN&quot;);'")
        words = ([] if holder is None else [f"f{holder}"]) + told.split()
        seen = "".join(f" {word}" for word in words) or "-"
        told_lines = written(seen) + (FOCUS_LINE if is_shown else "")
        record = "".join(f"key {key}\n" for key in pressed.split())
        found.append(run_of(f"{pressed} at {holder}", document, told_lines, f"all\n{record}show\n"))
    return found


def passing():
    """Returns the runs that tell which keys pass a used-key-list."""
    pressed = "".join(f"key {key}\n" for key in [*range(1, 15), *range(18, 25)])
    text = f"var told = ''; function log() {{ told += ' ' + document.currentEvent.keyCode; {WRITE} = told; }}"
    found = []
    for groups, keys_told in PASSING:
        body = BODY.replace(ALL_GROUPS, groups)
        document = f"<bml>{body}<a style='nav-index:0' onkeydown='log();'/>{script(text)}</bml>"
        seen = "".join(f" {key}" for key in keys_told.split()) or "-"
        found.append(run_of(groups, document, written(seen) + FOCUS_LINE, f"all\n{pressed}show\n"))
    return found


def runs():
    """Returns all these runs."""
    return [*objects(), *events(), *focuses(), *keys(), *passing()]
