"""Documents of a line or two: which are read, what stands in them, and which are refused.

A row here is a document, or a part of one, so these stand in Python and not in a table. Each is
module 0000 of a carousel. What has to come of it is from docs/FORMATS.md, "The start document".
"""

from sent_modules import BML, carousel_sections, run_of_sections

LOAD = "load /40/0000\n"

# A body whose text a script writes. No rule of a sheet moves it.
BODY = '<body id="t" style="left:0;top:0;used-key-list:basic data-button numeric-tuning">-</body>'
WRITE = 'document.getElementById("t").firstChild.data'


def run_of(name, document, told, record="all\nshow\n", resource=None):
    """Returns the run of a document, which prints `told` after the lines of the modules.

    A resource, in module 0001, comes before it; where it is empty it is announced and stays away.
    """
    modules = [(0, BML, document.encode("latin-1"))]
    if resource:
        modules.insert(0, (1, BML, resource.encode("latin-1")))
    away = [(1, BML, b"-")] if resource == "" else []
    lines = "".join(f"module 40 {number:04x} 01 {len(data)}\n" for number, _, data in modules)
    return run_of_sections(name, carousel_sections(modules, away), lines + told, record)


def escaped(text):
    """Returns a text as lines of a display list have it."""
    return "".join(f"%{ord(char):02X}" if char < " " or char in "%\x7f" else char for char in text)


def written(text):
    """Returns what is printed of a document whose script wrote a text into the body."""
    return f"{LOAD}show 0\nbox 0 0 0 0 8 0 7\ntext 0 0 0 0 7 24 {escaped(text)}\n"


def script(text):
    return f"<script><![CDATA[{text}]]></script>"


# Documents in which `@` stands for a body and a script that tells what stands in the root beside
# them: `[tag#id.class!accesskey` and what hangs in it and `]`, and texts in quotes.
TREES = [
    ('<?xml version="1.0"?>\r\n<!-- -- --><!DOCTYPE bml "a>\t<bml>@</bml> <??><!---->\n', ""),
    ("<bml>@<body><blink>x</blink></body></bml>", "[body[blink'x']]"),
    (
        "<bml> <head>\t</head>@<body>\n<div> </div><p> </p><bevent> </bevent></body></bml >",
        "[head][body[div][p' '][bevent]]",
    ),
    ("<bml>a &#32;@<body>&#10;<![CDATA[ ]]></body> b</bml>", "'a  '[body]' b'"),
    ("<bml>@<p>&lt;&#65;&amp;&nbsp;%&quot;&apos;&gt;</p></bml>", "[p'<A&&nbsp;%\"'>']"),
    (
        "<bml>@<p>&amp;lt;&l<!-- -->t;&<![CDATA[lt;]]>&&lt&#x41;&#x0041;&#X41;&LT;&#;&#0;&#128;&#127;&#065;&#xa;</p></bml>",
        "[p'&lt;&lt;&lt;&&ltAA&#X41;&LT;&#;&#0;&#128;\x7fA\n']",
    ),
    (
        "<bml>@<p>&#99999999999999999999;&#x;&#xg;&#65</p></bml>",
        "[p'&#99999999999999999999;&#x;&#xg;&#65']",
    ),
    ("<bml>@<p>\xa4<!-- -->\xa2</p><p>\xa4<br/>\xa2</p></bml>", "[p'\xa4\xa2'][p'\xa4'[br]'\xa2']"),
    (
        "<bml>@<p id = '1>\"' class=\"2'&gt;&#9;\"\naccesskey='\r\n' _b-.:9='' ID='x'/></bml>",
        "[p#1>\".2'>\t!\r\n]",
    ),
    ("<bml>@<x><![CDATA[a<b && c>]]]]><![CDATA[>]]></x></bml>", "[x'a<b && c>]]>']"),
    ("<bml>@<p><![CDATA[]]></p><p><![CDATA[ ]]></p></bml>", "[p][p' ']"),
    ("<bml>@<p>a]]>b>c\x00\x0b</p></bml>", "[p'a]]>b>c\x00\x0b']"),
    ("<bml>@<body>\x0b</body></bml>", "[body'\x0b']"),
    ("<bml>@<p>a<!-- x -- y --->b<? > ? ?>c</p></bml>", "[p'abc']"),
    ("<bml>@<a><b><c/></b>t</a>u<d/></bml>", "[a[b[c]]'t']'u'[d]"),
    ("<bml>@<title> </title><span>\r\n</span></bml>", "[title' '][span'\r\n']"),
    ("<bml>@<p id='&amp;amp;&' x=''/></bml>", "[p#&amp;&]"),
    ("<bml>@<p><?a?><!--b--></p></bml>", "[p]"),
    ("<bml >@<p\t></p\n></bml\r>", "[p]"),
    ("<bml>@<p>&#1;&#x7F;&#x7f;</p></bml>", "[p'\x01\x7f\x7f']"),
]
TELL = """
var told = "", own = document.getElementById("t");
function mark(sign, text) { told += text == "" ? "" : sign + text; }
function tell(node) {
  if (typeof node.tagName == "undefined") { told += "'" + node.data + "'"; return }
  told += "[" + node.tagName;
  mark("#", node.id); mark(".", node.className); mark("!", node.accessKey);
  each(node);
  told += "]";
}
function each(node) {
  for (var child = node.firstChild; child != null; child = child.nextSibling)
    if (child != own && child != own.nextSibling) tell(child);
}
each(own.parentNode);
own.firstChild.data = told;
"""

# Documents that are read: short ones, and others at their limits.
READ = [
    "<bml/>",
    "<bml></bml>",
    "<!DOCTYPE><bml />",
    f"<bml><body>{62 * '<div>'}{62 * '</div>'}</body></bml>",
    f"<bml><body>{16_382 * '<br/>'}</body></bml>",
    f"<bml><p>{100_000 * '&#'}</p></bml>",
    f"<bml a='{40_000 * '&amp;'}'/>",
]

# Documents that are refused, each with its fault, the first of those that it has.
MALFORMED = [
    "",
    " ",
    "<",
    "<bml",
    "<bml>",
    "<bml/",
    "</bml>",
    "bml",
    "<bml/><bml/>",
    "<bml/>x",
    "x<bml/>",
    "<bml><body><p></body></bml>",
    "<bml></html>",
    "<bml></bml></bml>",
    "< bml/>",
    "</ bml>",
    "<bml></ bml>",
    "<bml/ >",
    "<bml a='1'b='2'/>",
    "<bml a='1' a='2'/>",
    "<bml a=\"1\" b='' a='1'></bml>",
    "<bml a/>",
    "<bml a=1/>",
    "<bml a='1\"/>",
    "<bml a='<'/>",
    "<bml 1='1'/>",
    "<1/>",
    "<:a/>",
    "<-a/>",
    "<.a/>",
    "<\x80/>",
    "<b\x80/>",
    "<bml><!--></bml>",
    "<bml><!---></bml>",
    "<bml><?></bml>",
    "<bml><![CDATA[]></bml>",
    "<bml><![CDATA[</bml>",
    "<bml><!-- </bml>",
    "<bml><!- --></bml>",
    "<bml><![cdata[]]></bml>",
    "<!doctype bml><bml/>",
    "<!DOCTYPE bml [ ]><bml/>",
    "<!DOCTYPE <bml/>",
    "<!DOCTYPE bml><!DOCTYPE bml><bml/>",
    "<bml/><!DOCTYPE bml>",
    "<bml><!DOCTYPE bml></bml>",
    "<![CDATA[ ]]><bml/>",
    "<bml/><![CDATA[]]>",
    "&#32;<bml/>",
    "<bml/>\x00",
    "\xef\xbb\xbf<bml/>",
    "<bml></bml",
    "<bml></BML>",
    "<bml a='1' \x0b/>",
    "<bml><link href='a'></bml>",
    "<bml><link href='a' href='b'/></bml>",
    f"<bml><body>{20_000 * '<div>'}</body></bml>",
]
WRONG_ROOT = [
    "<html></html>",
    "<BML/>",
    "<bml.x/>",
    "<bm/>",
    "<link href='a'/>",
    f"<html>{17_000 * '<br/>'}</html>",
]
TOO_DEEP = [
    f"<bml><body>{63 * '<div>'}{63 * '</div>'}</body></bml>",
    f"<bml><body>{62 * '<div>'}<br/>{62 * '</div>'}</body></bml>",
    f"<bml><body>{20_000 * '<div>'}{20_000 * '</div>'}</body></bml>",
]
TOO_MANY_NODES = [f"<bml><body>{16_383 * '<br/>'}</body></bml>"]

# Documents over a module 0001 that is announced and doesn't come: those that need it, and wait, and
# those that don't.
WAITING = [
    "<bml><head><link href='/40/0001'/></head></bml>",
    "<bml><script src='/40/0001'/></bml>",
    "<bml><link href='arib-dc://host/40/0001'/></bml>",
    "<bml><script src='x'><link href='/40/0001'/></script></bml>",
    "<bml><body><p><link href='/40/0001'/></p></body></bml>",
    "<bml><link rel='r' href='/40/0001' src='s'/></bml>",
    "<bml><script type='t' src='/40/0001' href='h'/></bml>",
    "<bml><link href='a/b'/><link href=''/><link href='/40/0001'/><script src='/40'/></bml>",
    "<bml><link href='/40/0002'/><link href='/40/0001'/></bml>",
    "<bml><link href='&#47;40/0001'/></bml>",
]
NOT_WAITING = [
    "<bml><a href='/40/0001'/><img src='/40/0001'/><object href='/40/0001' src='/40/0001'/></bml>",
    "<bml><p>link href='/40/0001' &lt;link href='/40/0001'/&gt;</p><!-- <link href='/40/0001'/> --></bml>",
    "<bml><link src='/40/0001'/><script href='/40/0001'/><link rel='/40/0001'/><script/></bml>",
    "<bml><LINK href='/40/0001'/><link HREF='/40/0001'/><Script src='/40/0001'/></bml>",
    "<bml><script Src='/40/0001'/><links href='/40/0001'/></bml>",
    "<bml><link href=' /40/0001'/></bml>",
]

# Documents with sources of scripts, and the numbers of the bad ones.
SOURCES = [
    ("<bml onload=')'/>", [1]),
    # script elements and handlers in document order, each of them read by itself
    ("<bml><script>var a</script><script>)</script><p onclick='b'/><p onclick='1 2'/><p onload='c'/></bml>", [2, 4]),
    ("<bml><p onclick='var'/><p onclick='a'/><p onload='#'/><p onload='if'/></bml>", [1, 3, 4]),
    ("<bml><script>{</script><script>var a}</script><script>;</script></bml>", [1, 2]),
    # the eight names, on any element, and no others
    (
        "<bml onload=')' onunload=')'><p onkeydown=')' onkeyup=')' onclick=')'/><x onfocus=')'/><style onblur=')' onoccur=')'/></bml>",
        [1, 2, 3, 4, 5, 6, 7, 8],
    ),
    ("<bml><p onclick='a' id=')' onblur='c' class=')' onclic=')' onclick2=')' onchange=')' onload=')'/></bml>", [3]),
    # tags and names compare by case
    ("<bml onLoad=')' ONCLICK=')' onload='c'><SCRIPT>)</SCRIPT><Script>)</Script><script Src='x'>)</script></bml>", [2]),
    # the handlers of a script element come after its own source
    ("<bml><script onclick=')' onload='c'/><script onblur='e'>)</script></bml>", [2, 4]),
    # an empty script is a program
    ("<bml><script/><script></script><script> /* a */ </script><p onclick=''/><p onload=')'/></bml>", [5]),
    # the text in an element that stands in a script isn't that of the script
    ("<bml><script>var a<p onclick=')'>)</p>;</script></bml>", [2]),
    # a script in a script is a source of its own, after the outer one
    ("<bml><script>var a;<script>)</script></script></bml>", [2]),
    ("<bml><script>)<script>;</script></script></bml>", [1]),
    # comments, character data and references of the document
    ("<bml><p onclick='a&lt;b'/><script>1<!-- ) --><![CDATA[<2]]></script></bml>", []),
    # a resource that isn't resolved or that is missing is an empty script
    ("<bml><script src='a/b'>)</script><script src=''>)</script><script src='ok'>)</script></bml>", []),
    # a link and a style are no scripts
    ("<bml><link href='x'>)</link><style src='y'>)</style><p>)</p></bml>", []),
    # a script has at most 64 levels
    (f"<bml><script>{65 * '{'}{65 * '}'}</script><script>{64 * '{'}{64 * '}'}</script></bml>", [1]),
    # however deep it is, and whether or not it is closed; parentheses are no levels
    (f"<bml><script>{100_000 * '{'}</script><script>{100_000 * '{'}{100_000 * '}'}</script></bml>", [1, 2]),
    (f"<bml><script>{50_000 * '('}1{50_000 * ')'};</script><script>{50_000 * '('}1{49_999 * ')'};</script></bml>", [2]),
]


def trees():
    """Returns the runs of documents of which it is told what stands in them."""
    return [run_of(text, text.replace("@", BODY + script(TELL)), written(told)) for text, told in TREES]


def faults():
    """Returns the runs of documents that are read, and of those that are refused."""
    refused = {"Malformed": MALFORMED, "WrongRoot": WRONG_ROOT, "TooDeep": TOO_DEEP, "TooManyNodes": TOO_MANY_NODES}
    rows = [(text, f"refuse /40/0000 {fault}\n") for fault, texts in refused.items() for text in texts]
    rows += [(text, LOAD) for text in READ]
    return [run_of(repr(text[:60]), text, told, "all\n") for text, told in rows]


def needs():
    """Returns the runs of documents that wait for a module, and of those that don't."""
    rows = [(text, "") for text in WAITING] + [(text, LOAD) for text in NOT_WAITING]
    return [run_of(text, text, told, "all\n", resource="") for text, told in rows]


def sources():
    """Returns the runs of documents of whose scripts some are bad."""
    return [run_of(text[:60], text, LOAD + "".join(f"badscript /40/0000 {number}\n" for number in bad), "all\n") for text, bad in SOURCES]


def runs():
    """Returns all these runs."""
    return [*trees(), *faults(), *needs(), *sources()]
