"""What the styles of a page say of its whole display: `clut`, `resolution` and `display-aspect-ratio` of its elements body and bml
(ARIB STD-B24, volume 2).

These the program reads over. Documents, style texts and the cascade are those of docs/FORMATS.md, "The start document", "Style texts" and "The
cascade", for these two elements in their normal state and as the document came: what scripts write isn't known here.
"""

import re
from typing import NamedTuple

WHOLE = ("body", "bml")  # the elements that speak of the whole display; the first of them counts first
PROPERTIES = ("clut", "resolution", "display-aspect-ratio")
NAME = rb"[A-Za-z_][A-Za-z0-9_.:-]*"
START = re.compile(rb"<(" + NAME + rb")((?:[ \t\r\n]+" + NAME + rb"[ \t\r\n]*=[ \t\r\n]*(?:\"[^\"<]*\"|'[^'<]*'))*)[ \t\r\n]*(/?)>")
ATTRIBUTE = re.compile(rb"(" + NAME + rb")[ \t\r\n]*=[ \t\r\n]*(?:\"([^\"]*)\"|'([^']*)')")
WORD = "[A-Za-z_][A-Za-z0-9_-]*"
SELECTOR = re.compile(rf"(?=[*.#A-Za-z_])(?:\*|({WORD})?(?:([.#])({WORD}))?)(:(?:focus|active))?", re.IGNORECASE)
COMMENT = re.compile(r"/\*.*?(?:\*/|\Z)", re.DOTALL)
ADDRESS = re.compile(r"url\([ \t\r\n]*(?:\"([^\"]*)\"|'([^']*)'|([^\"'()]*?))[ \t\r\n]*\)", re.IGNORECASE)
WHITE = re.compile("[ \\t\\n\\r]*")
BRACES = re.compile("[;{}]")
MOST_ADDRESS = 1000  # characters
MARKS = {"lt": "<", "gt": ">", "amp": "&", "quot": '"', "apos": "'"}


class Element(NamedTuple):
    """An element that is of use here: its name, its attributes, and the text directly in it, where it is a style."""

    name: str
    attributes: dict[str, str]
    text: str


def text_of(data):
    """Returns bytes of a document as a text of as many characters, in which marks like `&amp;` are read."""
    return re.sub("&(lt|gt|amp|quot|apos);", lambda it: MARKS[it[1]], data.decode("latin-1"))


def attributes_of(data):
    found = {}
    for name, one, other in ATTRIBUTE.findall(data):
        found.setdefault(name.decode("ascii"), text_of(one or other))
    return found


def passed(document, at):
    """Returns the place after a mark `<..` that begins no element, and the text that it is, where it is CDATA."""
    for begin, end in ((b"<!--", b"-->"), (b"<?", b"?>"), (b"<![CDATA[", b"]]>")):
        if document.startswith(begin, at):
            close = document.find(end, at + len(begin))
            if close < 0:
                return len(document), ""
            text = document[at + len(begin) : close].decode("latin-1") if begin == b"<![CDATA[" else ""
            return close + len(end), text
    close = document.find(b">", at)
    return (len(document) if close < 0 else close + 1), ""


def elements_of(document):
    """Returns the elements of a document in which the styles are, in its order: body, bml, link and style."""
    found, at, style = [], 0, None  # (the attributes of a style that is open, and its texts)
    while at < len(document):
        mark = document.find(b"<", at)
        mark = len(document) if mark < 0 else mark
        if style:
            style[1].append(text_of(document[at:mark]))
        start = START.match(document, mark)
        if style and (start or document.startswith(b"</", mark)):
            found.append(Element("style", style[0], "".join(style[1])))
            style = None
        if start is None:
            at, text = passed(document, mark)
            if style:
                style[1].append(text)
            continue
        name, at = start[1].decode("ascii"), start.end()
        if name == "style" and not start[3]:
            style = attributes_of(start[2]), []
        elif name in (*WHOLE, "link"):
            found.append(Element(name, attributes_of(start[2]), ""))
    return found


def declarations_of(text):
    """Returns the declarations of a rule or of an inline text that are of use here, in their order."""
    found = []
    for declaration in COMMENT.sub(" ", text).split(";"):
        name, _, value = declaration.partition(":")
        if name.strip().lower() in PROPERTIES and value.strip():
            found.append((name.strip().lower(), value.strip()))
    return found


def rules_of(sheet):
    """Yields the selectors and the declarations of each rule of a style text."""
    sheet, at = COMMENT.sub(" ", sheet), 0
    while True:
        at = WHITE.match(sheet, at).end()
        if sheet.startswith("@", at):
            at = behind_at_rule(sheet, at)
            continue
        begin = sheet.find("{", at)
        if begin < 0:
            return
        end = sheet.find("}", begin)
        end = len(sheet) if end < 0 else end
        yield sheet[at:begin].split(","), declarations_of(sheet[begin + 1 : end])
        at = end + 1


def behind_at_rule(sheet, at):
    """Returns the place after a rule that begins with `@`."""
    depth = 0
    for found in BRACES.finditer(sheet, at):
        depth += {"{": 1, "}": -1, ";": 0}[found[0]]
        if depth <= 0 and found[0] != "{":
            return found.end()
    return len(sheet)


def weight_of(selector, element):
    """Returns how specific a selector is, where the element matches it in its normal state, and else None."""
    found = SELECTOR.fullmatch(selector.strip())
    if found[4] or found[1] not in (None, element.name):
        return None
    has = {".": element.attributes.get("class", "").split(), "#": [element.attributes.get("id")], None: [None]}
    if found[3] not in has[found[2]]:
        return None
    return found[2] == "#", found[2] == ".", found[1] == element.name


def sheet_of(element, resource):
    """Returns the style text of an element, which is empty where it has none."""
    if element.name == "link" and "href" in element.attributes:
        return resource(element.attributes["href"]).decode("latin-1")
    return element.text


def styles_of(document, resource):
    """Returns the values that the styles of a document give the properties of the whole display; resource gives the bytes that a text names."""
    elements = elements_of(document)
    rules = [rule for it in elements for rule in rules_of(sheet_of(it, resource))]
    values = {}
    for element in [next((it for it in elements if it.name == name), None) for name in reversed(WHOLE)]:
        if element:
            values |= values_of(element, rules)
    return values


def values_of(element, rules):
    """Returns the values of an element: its inline style counts first, then the most specific declaration, of equal ones the last."""
    weights, values = {}, {}
    for selectors, declarations in rules:
        if not all(SELECTOR.fullmatch(it.strip()) for it in selectors):
            continue
        matching = [weight for it in selectors if (weight := weight_of(it, element)) is not None]
        for name, value in declarations if matching else []:
            if max(matching) >= weights.get(name, (False, False, False)):
                weights[name], values[name] = max(matching), value
    return values | dict(declarations_of(element.attributes.get("style", "")))


def address_of(value):
    """Returns what `url(..)` names, or None where a value isn't of that form."""
    found = ADDRESS.fullmatch(value) if len(value) <= MOST_ADDRESS else None
    return next((it for it in found.groups() if it is not None), "") if found else None
