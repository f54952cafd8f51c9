"""The parts of the entities that modules hold (after ARIB STD-B24, volume 2, and MIME, RFC 2045 and 2046): docs/FORMATS.md, "Entities"."""

import re
from typing import NamedTuple

from transport import TYPE_DESCRIPTOR, descriptors

MULTIPART = b"multipart/mixed"
MOST_PARTS = 512
BLANKS = b" \t"
BOUNDARY = re.compile(rb'"([^"]*)"|([^"; \t\r\n][^; \t\r\n]*)')


class BadEntity(Exception):
    """Why an entity has no parts."""


class Part(NamedTuple):
    """A resource of a module: its name, which may be empty, its media type, and its bytes. Of two with one name the second isn't found."""

    name: bytes
    media_type: bytes
    data: bytes
    is_found: bool = True


def media_type_of(info):
    """Returns the media type of a module's info, or None where it has none."""
    types = [data for tag, data in descriptors(info) or [] if tag == TYPE_DESCRIPTOR]
    return types[0] if types else None


def holds_entity(info):
    """Whether a module with this info holds an entity."""
    media_type = media_type_of(info)
    return media_type is None or media_type.lower().startswith(MULTIPART)


def headers_and_body(data):
    """Returns the headers of an entity by their names in small letters, and its body."""
    headers, at = {}, 0
    while True:
        end = data.find(b"\r\n", at)
        if end < 0:
            raise BadEntity("no empty line ends its header")
        line, at = data[at:end], end + 2
        if not line:
            return headers, data[at:]
        name, colon, value = line.partition(b":")
        if not colon or not name:
            raise BadEntity("a line of its header isn't one")
        headers.setdefault(name.lower(), value.strip(BLANKS))


def boundary_of(content_type):
    """Returns the boundary that a Content-Type names."""
    found = BOUNDARY.match(content_type.partition(b"boundary=")[2])
    if not found or not (found[1] or found[2]):
        raise BadEntity("it has no boundary")
    return found[1] or found[2]


def pieces_of(body, boundary):
    """Returns what stands between the delimiter lines of a body."""
    delimiter = re.compile(rb"(?:(?<=\r\n)|\A)--" + re.escape(boundary) + rb"(--)?[ \t]*(?:\r\n|\Z)")
    pieces, begin = [], None
    for found in delimiter.finditer(body):
        if begin is not None:
            pieces.append(body[begin : max(begin, found.start() - 2)])
        if found[1]:
            return pieces
        begin = found.end()
    raise BadEntity("it has no last delimiter line")


def part_of(data):
    """Returns the part that bytes are, or None where they are none."""
    try:
        headers, body = headers_and_body(data)
    except BadEntity:
        return None
    if headers.get(b"content-transfer-encoding", b"binary").lower() != b"binary":
        return None
    name = headers.get(b"content-location", b"").rpartition(b"/")[2]
    return Part(name, headers.get(b"content-type", b""), body)


def entity_parts(data):
    """Returns the parts of an entity in their order, those with a name that another one has too."""
    headers, body = headers_and_body(data)
    content_type = headers.get(b"content-type", b"")
    pieces = [data]
    if content_type.lower().startswith(MULTIPART):
        pieces = pieces_of(body, boundary_of(content_type))
    if len(pieces) > MOST_PARTS:
        raise BadEntity(f"it has more than {MOST_PARTS} parts")
    names, parts = set(), []
    for part in filter(None, map(part_of, pieces)):
        parts.append(part._replace(is_found=part.name not in names))
        names.add(part.name)
    return parts


def resources_of(info, data):
    """Returns the resources of a module with this info and these bytes; raises BadEntity where it holds an entity without parts."""
    if holds_entity(info):
        return entity_parts(data)
    return [Part(b"", media_type_of(info), data)]
