"""PNG files of PPM files, with the standard library alone.

    python3 -I examples/png.py FILE.ppm OUT.png              writes the frame, or the picture that `haze view` makes
    python3 -I examples/png.py --same PICTURE.png FILE.ppm   status 1 when the picture's pixels are others than the file's
"""

import struct
import sys
import zlib

SIGNATURE = b"\x89PNG\r\n\x1a\n"
COLOUR, CHANNELS = 2, 3     # PNG's number for red, green and blue, and how many they are


def pixels(path):
    """Width, height and bytes of a PPM file whose header is as the tool writes it."""
    with open(path, "rb") as file:
        magic, size, maximum, data = file.read().split(b"\n", 3)
    if (magic, maximum) != (b"P6", b"255"):
        sys.exit(path + ": is not a frame")
    return *map(int, size.split()), data


# ---------------------------------------------------------------------------
# Filters: a byte less what its neighbours to the left (a), above (b) and above left (c) foretell
# ---------------------------------------------------------------------------

def paeth(a, b, c):
    left, above, corner = abs(b - c), abs(a - c), abs(a + b - 2 * c)
    return a if left <= above and left <= corner else b if above <= corner else c


FORETOLD = (
    lambda a, b, c: 0,
    lambda a, b, c: a,
    lambda a, b, c: b,
    lambda a, b, c: (a + b) // 2,
    paeth,
)


def filtered(row, above, kind):
    """The row by a filter, after the filter's number."""
    lefts, corners = bytes(CHANNELS) + row, bytes(CHANNELS) + above
    return bytes([kind]) + bytes((x - FORETOLD[kind](a, b, c)) % 256 for x, a, b, c in zip(row, lefts, above, corners))


def unfiltered(line, above):
    kind, row = line[0], bytearray(CHANNELS)
    corners = bytes(CHANNELS) + above
    for i, x in enumerate(line[1:]):
        row.append((x + FORETOLD[kind](row[i], above[i], corners[i])) % 256)
    return bytes(row[CHANNELS:])


def weight(line):
    """How far the bytes are from 0, either way round: the less, the better it packs, as a rule."""
    return sum(min(byte, 256 - byte) for byte in line[1:])


# ---------------------------------------------------------------------------
# Files
# ---------------------------------------------------------------------------

def chunk(name, data):
    return struct.pack(">I", len(data)) + name + data + struct.pack(">I", zlib.crc32(name + data))


def encoded(width, height, data):
    stride, above, lines = width * CHANNELS, bytes(width * CHANNELS), []
    for y in range(height):
        row = data[y * stride:(y + 1) * stride]
        lines.append(min((filtered(row, above, kind) for kind in range(5)), key=weight))
        above = row
    header = struct.pack(">IIBBBBB", width, height, 8, COLOUR, 0, 0, 0)
    packed = zlib.compress(b"".join(lines), 9)
    return SIGNATURE + chunk(b"IHDR", header) + chunk(b"IDAT", packed) + chunk(b"IEND", b"")


def decoded(png):
    """As pixels() gives it, of a PNG as encoded() makes it."""
    parts, at = {}, len(SIGNATURE)
    while at < len(png):
        length, name = struct.unpack(">I4s", png[at:at + 8])
        parts[name] = png[at + 8:at + 8 + length]
        at += 12 + length
    width, height = struct.unpack(">II", parts[b"IHDR"][:8])
    lines, stride, above, rows = zlib.decompress(parts[b"IDAT"]), width * CHANNELS, bytes(width * CHANNELS), []
    for y in range(height):
        above = unfiltered(lines[y * (stride + 1):(y + 1) * (stride + 1)], above)
        rows.append(above)
    return width, height, b"".join(rows)


def main(words):
    if len(words) == 3 and words[0] == "--same":
        with open(words[1], "rb") as file:
            if decoded(file.read()) != pixels(words[2]):
                sys.exit("%s and %s have different pixels" % (words[1], words[2]))
    elif len(words) == 2:
        with open(words[1], "wb") as file:
            file.write(encoded(*pixels(words[0])))
    else:
        sys.exit(__doc__)


main(sys.argv[1:])
