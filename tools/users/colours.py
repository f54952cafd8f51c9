"""The colours of a page: the receivers' common fixed colours (ARIB TR-B14), and the colour table that a page names (ARIB STD-B24, volume 2).

A colour is red, green, blue and alpha, each 0 to 255; alpha 0 is clear, and 255 lets nothing through. A colour table in a stream is:

    clut_type (1): 0 for Y, Cb and Cr, 1 for red, green and blue; depth (2): 0, 1 and 2 for indexes of 4, 8 and 16 bits;
    region_flag (1); start_end_flag (1); reserved (3)
    where region_flag is 1: four numbers of 16 bits, the place that the table is for, which isn't used here
    where start_end_flag is 1: the first and the last index, of as many bits as depth says
    for each index three bytes of colour and one of alpha

Without start_end_flag the indexes begin with 0. Y, Cb and Cr become red, green and blue after ITU-R BT.709.
"""

MOST_COLOURS = 256
DEPTHS = {0: 4, 1: 8, 2: 16}  # the bits of an index


class BadColours(Exception):
    """Why bytes are no colour table."""


def fixed_colours():
    """Returns the 128 common fixed colours: 8 full ones, the clear one, 7 dark ones and 49 others, and then 63 of them half clear."""
    full = [(255 * (n & 1), 255 * (n >> 1 & 1), 255 * (n >> 2)) for n in range(8)]
    dark = [tuple(part * 2 // 3 for part in it) for it in full[1:]]
    steps = (0, 85, 170, 255)
    others = [(red, green, blue) for red in steps for green in steps for blue in steps]
    others = [it for it in others if it not in full and it not in dark]
    opaque = [(*it, 255) for it in full] + [(0, 0, 0, 0)] + [(*it, 255) for it in dark + others]
    return opaque + [(*it[:3], 128) for it in opaque if it[3]][:63]


# The colours where a page names no others: those without a place in the fixed table are None.
FIXED = tuple(fixed_colours() + [None] * (MOST_COLOURS - 128))


def bounded(value):
    return max(0, min(255, round(value)))


def of_luma(luma, blue, red):
    """Returns the red, green and blue of Y, Cb and Cr."""
    bright, blue, red = 255 / 219 * (luma - 16), 255 / 224 * (blue - 128), 255 / 224 * (red - 128)
    return bounded(bright + 1.5748 * red), bounded(bright - 0.1873 * blue - 0.4681 * red), bounded(bright + 1.8556 * blue)


def table_head(data):
    """Returns the first index and the last one of a colour table, and where its colours begin."""
    depth = DEPTHS.get(data[0] >> 5 & 3)
    if depth is None:
        raise BadColours("it has a depth that is reserved")
    at = 9 if data[0] & 0x10 else 1
    if not data[0] & 0x08:
        return 0, (1 << depth) - 1, at
    field = data[at : at + depth // 4]
    if len(field) < depth // 4:
        raise BadColours("it ends before its colours")
    both = int.from_bytes(field, "big")
    return both >> depth, both & (1 << depth) - 1, at + len(field)


def read_colours(data):
    """Returns the colours of a colour table by their indexes: as many as are whole in it, up to index 255."""
    if not data:
        raise BadColours("it is empty")
    first, last, at = table_head(data)
    if first > last:
        raise BadColours(f"its first index is {first}, and its last one {last}")
    found = {}
    for index in range(first, min(last + 1, MOST_COLOURS)):
        entry = data[at : at + 4]
        if len(entry) < 4:
            break
        found[index] = (*(entry[:3] if data[0] & 0x80 else of_luma(*entry[:3])), entry[3])
        at += 4
    if not found:
        raise BadColours("no colour of it is whole" if first < MOST_COLOURS else "its indexes are above 255")
    return found


def with_colours(table):
    """Returns all 256 colours of a page: those of its table, and the fixed ones where it has none."""
    return tuple(table.get(index, FIXED[index]) for index in range(MOST_COLOURS))
