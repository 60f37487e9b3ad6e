#!/usr/bin/env python3
"""Pictures of T2 frames, from a file of records (docs/FORMATS.md). It wants Pillow (Debian: python3-pil).

    picture.py frame RECORDS N OUT.png   the cells of record N, counted from 0: a pixel for each cell address, a colour for each PLP
    picture.py fill RECORDS OUT.png      how many blocks each PLP has in each frame, a panel for each PLP
"""
import struct
import sys
from array import array

try:
    from PIL import Image, ImageDraw
except ImportError:
    sys.exit("picture.py: it wants Pillow (Debian: python3-pil)")

HEAD = 24
PRE = 25
NO_CELL = 0xFFFFFFFF
CELLS_OF_BLOCK = 1 << 15  # a word is the number of its block times this, plus the number of its cell
CONF_BITS, CONF_PLP_BITS = 102, 89  # the configurable part of L1-post, and what it has for each PLP
DYN_BITS, DYN_PLP_BITS = 71, 48  # the dynamic part in front of its PLPs, and what it has for each
KINDS = {0: "common", 1: "type 1", 2: "type 2"}  # PLP_TYPE, EN 302 755, clause 7.2.3.1
GREY = (205, 205, 205)
COLOURS = [(31, 119, 180), (255, 127, 14), (44, 160, 44), (214, 39, 40), (148, 103, 189), (140, 86, 75), (227, 119, 194), (188, 189, 34), (23, 190, 207)]


def records(name):
    """The records of a file: each the seconds and subseconds of its emission, and its rest, or None if it is muted."""
    with open(name, "rb") as file:
        while head := file.read(HEAD):
            if len(head) < HEAD or head[:4] != b"T2FR":
                sys.exit(f"{name}: no record begins at byte {file.tell() - len(head)}")
            seconds, subseconds, length = struct.unpack(">QII", head[8:])
            yield seconds, subseconds, file.read(length) if head[4] == 1 else None


def field(data, at, width):
    """The number that so many bits spell, from a bit on."""
    end = (at + width + 7) // 8
    number = int.from_bytes(data[at // 8:end], "big")
    return number >> (8 * end - at - width) & ((1 << width) - 1)


class Frame:
    """What a record's rest has: its PLPs, the PLP of each block that is sent in it, and the words of its cells."""

    def __init__(self, rest):
        bits, = struct.unpack_from(">I", rest, PRE)
        post = rest[PRE + 4:]
        plps = field(post, 15, 8)
        dyn = CONF_BITS + CONF_PLP_BITS * plps
        self.interval = field(post, dyn + 8, 22)
        self.type_2_start = field(post, dyn + 30, 22)
        self.plps = []
        for place in range(plps):
            at = dyn + DYN_BITS + DYN_PLP_BITS * place
            kind = field(post, 70 + CONF_PLP_BITS * place + 8, 3)
            self.plps.append((field(post, at, 8), kind, field(post, at + 8, 22), field(post, at + 30, 10)))
        at = PRE + 4 + (bits + 7) // 8
        count, = struct.unpack_from(">H", rest, at)
        at += 2
        self.blocks = []
        for _ in range(count):
            self.blocks.append(rest[at])
            at += 4 + struct.unpack_from(">H", rest, at + 2)[0]
        self.words = array("I", rest[at + 4:])
        if sys.byteorder == "little":
            self.words.byteswap()


def colour_of(place):
    return COLOURS[place % len(COLOURS)]


def draw_frame(frame, number, out):
    """A pixel for each cell address, row by row, and a legend below."""
    width = max(1, min(1600, int((len(frame.words) * 2) ** 0.5)))
    rows = (len(frame.words) + width - 1) // width
    scale = max(1, 800 // width)
    of_block = bytes((place + 1) % 256 for place, plp in enumerate(frame.plps) for _ in range(plp[3]))
    pixels = bytearray(width * rows)
    for address, word in enumerate(frame.words):
        if word != NO_CELL and word // CELLS_OF_BLOCK < len(of_block):
            pixels[address] = of_block[word // CELLS_OF_BLOCK]
    cells = Image.frombytes("P", (width, rows), bytes(pixels))
    palette = list(GREY)
    for place in range(255):
        palette += colour_of(place)
    cells.putpalette(palette)
    lines = [f"record {number}: {len(frame.words)} cells, {width} in a row, {len(frame.blocks)} blocks"]
    for plp, kind, start, blocks in frame.plps:
        sub_slices = f", sub-slices every {frame.interval} cells" if kind == 2 else ""
        lines.append(f"PLP {plp}: {KINDS.get(kind, f'of kind {kind}')}, from cell {start}, {blocks} blocks{sub_slices}")
    cells = cells.convert("RGB").resize((width * scale, rows * scale), Image.NEAREST)
    width, rows = cells.size
    image = Image.new("RGB", (max(640, width), rows + 18 * (len(lines) + 1) + 10), "white")
    image.paste(cells, (0, 0))
    pen = ImageDraw.Draw(image)
    pen.text((24, rows + 6), lines[0], fill="black")
    for place, line in enumerate(lines[1:]):
        top = rows + 6 + 18 * (place + 1)
        pen.rectangle((6, top, 17, top + 11), fill=colour_of(place))
        pen.text((24, top), line, fill="black")
    top = rows + 6 + 18 * len(lines)
    pen.rectangle((6, top, 17, top + 11), fill=GREY)
    pen.text((24, top), "no cell of a PLP", fill="black")
    image.quantize(64).save(out, optimize=True)


def counts_of(name):
    """The number of records, the numbers of the muted ones, and for each PLP its blocks by the number of the record."""
    counts, muted, total = {}, [], 0
    for number, (_, _, rest) in enumerate(records(name)):
        total = number + 1
        if rest is None:
            muted.append(number)
            continue
        for plp, _, _, blocks in Frame(rest).plps:
            counts.setdefault(plp, {})[number] = blocks
    return total, muted, counts


def draw_panel(pen, box, colour, title, total, muted, series):
    """The blocks of one PLP: a bar in each column of pixels, from the fewest to the most of its frames, with a point at their mean."""
    left, top, right, low = box
    most = max([1] + list(series.values()))
    x = lambda number: left + (right - left) * number // max(1, total)
    y = lambda blocks: low - (low - top) * blocks / most
    columns = {}
    for number, blocks in series.items():
        columns.setdefault(x(number), []).append(blocks)
    wide = max(1, (right - left) // max(1, total) - 1)
    for column, blocks in columns.items():
        pen.rectangle((column, y(max(blocks)), column + wide - 1, low), fill=tuple((c + 510) // 3 for c in colour))
        pen.rectangle((column, y(max(blocks)), column + wide - 1, y(min(blocks))), fill=tuple((c + 255) // 2 for c in colour))
        mean = y(sum(blocks) / len(blocks))
        pen.rectangle((column, mean - 1, column + wide - 1, mean), fill=colour)
    for number in muted:
        pen.rectangle((x(number), low + 1, x(number) + wide, low + 4), fill="red")
    pen.line((left, top, left, low, right, low), fill="black")
    pen.text((left - 40, top - 6), str(most), fill="black")
    pen.text((left - 40, low - 6), "0", fill="black")
    pen.text((left, top - 16), title, fill="black")


def draw_fill(name, out):
    """A panel for each PLP, one below the other, with the frames along one axis; a muted frame has no bar, and a red mark."""
    total, muted, counts = counts_of(name)
    width, panel, left = 1000, 130, 60
    image = Image.new("RGB", (width, panel * max(1, len(counts)) + 40), "white")
    pen = ImageDraw.Draw(image)
    for place, (plp, series) in enumerate(counts.items()):
        box = left, panel * place + 30, width - 30, panel * (place + 1) - 10
        draw_panel(pen, box, colour_of(place), f"PLP {plp}: blocks in each frame", total, muted, series)
    below = panel * max(1, len(counts))
    pen.text((left, below), "frame 0", fill="black")
    pen.text((width - 110, below), f"frame {total - 1}", fill="black")
    pen.text((left, below + 16), f"{len(muted)} of {total} records are muted" + (" (red)" if muted else ""), fill="black")
    image.quantize(64).save(out, optimize=True)


def main(words):
    if len(words) == 4 and words[0] == "frame" and words[2].isdecimal():
        for number, (_, _, rest) in enumerate(records(words[1])):
            if number == int(words[2]):
                if rest is None:
                    sys.exit(f"{words[1]}: record {number} is muted")
                return draw_frame(Frame(rest), number, words[3])
        sys.exit(f"{words[1]}: there is no record {words[2]}")
    if len(words) == 3 and words[0] == "fill":
        return draw_fill(words[1], words[2])
    sys.exit(__doc__)


if __name__ == "__main__":
    try:
        main(sys.argv[1:])
    except OSError as error:
        sys.exit(f"{error.filename or 'picture.py'}: {error.strerror or error}")
