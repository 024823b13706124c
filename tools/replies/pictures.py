"""Pictures: the rows of a Form, each as the hexadecimal digits of its words, as text and as a PNG file."""

import itertools
import pathlib
import re
import struct
import zlib

from .ending import write_whole
from .image import integer, is_of_store, is_small

# The two pixels of a character, the upper one first, and the character.
BLOCKS = {"00": " ", "01": "▄", "10": "▀", "11": "█"}
SIGNATURE = b"\x89PNG\r\n\x1a\n"
KIND = (1, 0, 0, 0, 0)  # one bit a pixel, shades of grey, and what a PNG's head says of compression, filters and interlacing
LARGEST = 16383  # pixels of a Form's side
INVERTED = str.maketrans("01", "10")  # in a PNG file 0 is black


class Missing(Exception):
    """There is no picture, with the reason."""


def words_of(width):
    """How many words a row of so many pixels has."""
    return -(-width // 16)


def form_in(objects, pointer):
    """The width of the Form of that pointer, and its rows."""
    fields = objects.elements_of(pointer)[:3]
    if len(fields) < 3 or not all(map(is_small, fields[1:])) or min(map(integer, fields[1:])) < 0:
        raise Missing(f"object {pointer} is no Form: it has no bits, width and height")
    width, height = map(integer, fields[1:])
    across, bits = words_of(width), objects.get(fields[0])
    if not bits or bits.kind != "w" or len(bits.units) < across * height:
        raise Missing(f"the bits of Form {pointer} are no {across * height} words")
    digits = "".join("%04x" % word for word in bits.units[: across * height])
    return width, [digits[4 * across * k : 4 * across * (k + 1)] for k in range(height)]


def last_display(lines):
    """The width of the last display that was said, and its rows as numbers' hexadecimal digits."""
    found = None
    for at, line in enumerate(lines):
        said = re.fullmatch(r"display (\d+) (\d+)", line)
        if said:
            width, height = map(int, said.groups())
            rows = [row[4:] for row in lines[at + 1 : at + 1 + height] if row.startswith("row ")]
            if len(rows) < height:
                raise Missing("the last display is cut off")
            if not all(re.fullmatch("[0-9a-f]*", row) and len(row) == 4 * words_of(width) for row in rows):
                raise Missing("a row of the last display has other words than its width asks")
            found = width, rows
    if found is None:
        raise Missing("no line `display` with a width and a height was read")
    return found


def pixels(width, row):
    """The pixels of a row as a text of 0 and 1."""
    return f"{int(row or '0', 16):0{4 * len(row)}b}"[:width] if width else ""


def row_of(line):
    """The row whose pixels are a text of 0 and 1."""
    digits = 4 * words_of(len(line))
    return f"{int(line.ljust(4 * digits, '0'), 2):0{digits}x}"


def text_of(width, rows):
    lines = [pixels(width, row) for row in rows]
    if len(lines) % 2:
        lines.append("0" * width)
    pairs = zip(lines[::2], lines[1::2])
    return "".join("".join(BLOCKS[a + b] for a, b in zip(*pair)) + "\n" for pair in pairs)


def png_of(width, rows):
    """The bytes of a PNG file, one bit a pixel; in it 0 is black."""

    def chunk(kind, data):
        return struct.pack(">I", len(data)) + kind + data + struct.pack(">I", zlib.crc32(kind + data))

    across = (width + 7) // 8
    lines = []
    for row in rows:
        bits = pixels(width, row).translate(INVERTED).ljust(8 * across, "0")
        lines.append(b"\0" + int(bits, 2).to_bytes(across, "big"))
    head = struct.pack(">IIBBBBB", width, len(rows), *KIND)
    return SIGNATURE + chunk(b"IHDR", head) + chunk(b"IDAT", zlib.compress(b"".join(lines))) + chunk(b"IEND", b"")


def write_png(file, width, rows):
    if is_of_store(file):
        raise Missing(f"{file} is a file of a store, and stays")
    if not width or not rows:
        raise Missing("a PNG file has at least one pixel, and this Form has none")
    write_whole(file, png_of(width, rows))


def read_png(file):
    """The width and the rows of a PNG file, of the form that `write_png` writes."""
    data = pathlib.Path(file).read_bytes()
    if data[:8] != SIGNATURE or len(data) < 29:
        raise Missing(f"{file} is no PNG file")
    width, height, *kind = struct.unpack(">IIBBBBB", data[16:29])
    if tuple(kind) != KIND or not (0 < width <= LARGEST and 0 < height <= LARGEST):
        raise Missing(f"{file} has another form than one bit a pixel, without interlacing, and at most {LARGEST} pixels a side")
    across = (width + 7) // 8 + 1
    lines = data_of_png(file, data)
    if len(lines) != across * height or any(lines[::across]):
        raise Missing(f"{file} is cut off, or its rows are filtered")
    rows = [lines[at + 1 : at + across].hex() for at in range(0, len(lines), across)]
    return width, [row_of(pixels(width, row).translate(INVERTED)) for row in rows]


def data_of_png(file, data):
    """What the data chunks of a PNG file hold together: for each row a byte that names its filter, and its pixels."""
    packed, at = b"", len(SIGNATURE)
    while at < len(data):
        length = int.from_bytes(data[at : at + 4], "big")
        packed += data[at + 8 : at + 8 + length] if data[at + 4 : at + 8] == b"IDAT" else b""
        at += 12 + length
    try:
        return zlib.decompress(packed)
    except zlib.error:
        raise Missing(f"the data of {file} can't be read") from None


def difference(one, other):
    """The picture of the pixels in which two pictures differ, one of which may have none there, and how many these are."""
    pairs = itertools.zip_longest(*([pixels(width, row) for row in rows] for width, rows in (one, other)), fillvalue="")
    width = max(one[0], other[0])
    lines = ["".join("01"[a != b] for a, b in zip(*(it.ljust(width) for it in pair))) for pair in pairs]
    return (width, [row_of(it) for it in lines]), sum(it.count("1") for it in lines)
