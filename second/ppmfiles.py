"""PPM files, good and bad: those written out by hand with their answers, and seeded ones.

ppmtest.py holds the two paths of ppm.py to the answers and to each other;
ppms.py gives the same files to the library.
"""

import cases
import ppm

# ---------------------------------------------------------------------------
# By hand: a file, and its W, H and pixels or its refusal
# ---------------------------------------------------------------------------

SIX = b"abcdef"

BY_HAND = (
    # The request's words.
    (b"P6\n2 1\n255\n" + SIX, (2, 1, SIX)),
    (b"P6 1 2 255 " + SIX, (1, 2, SIX)),
    (b"P6\t2\r1\n255\t" + SIX, (2, 1, SIX)),
    (b"P6 \t\r\n 2\n\n1\t\t255\r" + SIX, (2, 1, SIX)),
    (b"P6 02 000001 000255 " + SIX, (2, 1, SIX)),
    (b"P6 1 1 255 \x80\xff\x00", (1, 1, b"\x80\xff\x00")),
    (b"P6 # anywhere\n2 \t# in a\r\n1\n#gap\n255\n" + SIX, (2, 1, SIX)),
    (b"", 11), (b"P", 11), (b"P6", 11), (b"P6 ", 11), (b"P6 2", 11), (b"P6 2 ", 11), (b"P6 2 1 ", 11),
    (b"P62 1 255 " + SIX, 11), (b"P6 2,1 255 " + SIX, 11), (b"P6 x 1 255 " + SIX, 11),
    (b"P6 2 1 " + SIX, 11), (b"P6 2 1 255" + SIX, 11), (b"P6 +2 1 255 " + SIX, 11),
    (b"P6 -2 1 255 " + SIX, 11), (b"P6 2. 1 255 " + SIX, 11), (b"P6 0x2 1 255 " + SIX, 11),
    (b"P6 / 1 255 " + SIX, 11), (b"P6 : 1 255 " + SIX, 11), (b"P6 \xb2 1 255 " + SIX, 11),
    # 1.  The end of a comment is white of its gap; a comment without end.
    (b"P6#c\n2#c\n1 255 " + SIX, (2, 1, SIX)),
    (b"P6#c\r2#c\r1#c\r255 " + SIX, (2, 1, SIX)),
    (b"P6#\n2#\n1#\n255\n" + SIX, (2, 1, SIX)),
    (b"P6#a\n#b\r#c\r\n2 1 255 " + SIX, (2, 1, SIX)),
    (b"P6## # P6 9 9 9 \n2 1 255 " + SIX, (2, 1, SIX)),
    (b"P6 #\x00\x0b\x0c\x80\x8a\x8d\xff\n2 1 255 " + SIX, (2, 1, SIX)),
    (b"P6 2#1\n1 255 " + SIX, (2, 1, SIX)),
    (b"P6 2#\n\n1#\r\n255 " + SIX, (2, 1, SIX)),
    (b"P6#", 11), (b"P6#c", 11), (b"P6 # 2 1 255 " + SIX, 11), (b"P6 2#c 1 255 " + SIX, 11),
    (b"P6 2 1 #255 " + SIX, 11), (b"P6 2 1 #\x0b255 " + SIX, 11), (b"P6#\n", 11), (b"P6 2 1#\n", 11),
    (b"#c\nP6 2 1 255 " + SIX, 11), (b"P#c\n6 2 1 255 " + SIX, 11), (b"P6 1#c\n2 255 " + SIX, (1, 2, SIX)),
    # 2.  One white byte after the maximum, and no gap.
    (b"P6 2 1 255#\n" + SIX, 11), (b"P6 2 1 255#", 11), (b"P6 2 1 255#c\n" + SIX, 11),
    (b"P6 1 1 255\r\nab", (1, 1, b"\nab")), (b"P6 1 1 255\r\nabc", 13),
    (b"P6 1 1 255\n\nab", (1, 1, b"\nab")), (b"P6 1 1 255  \t ", (1, 1, b" \t ")),
    (b"P6 1 1 255 #\na", (1, 1, b"#\na")), (b"P6 1 1 255 #c\nabc", 13), (b"P6 1 1 255 012", (1, 1, b"012")),
    # 3.  White is four bytes.  The magic is at byte 0, upper case.
    (b"P6\x0b2 1 255 " + SIX, 11), (b"P6\x0c2 1 255 " + SIX, 11), (b"P6\x002 1 255 " + SIX, 11),
    (b"P6 2\x0b1 255 " + SIX, 11), (b"P6 2 \x0c1 255 " + SIX, 11), (b"P6 2 1\x00255 " + SIX, 11),
    (b"P6 2 1 255\x0b" + SIX, 11), (b"P6 2 1 255\x0c" + SIX, 11), (b"P6 2 1 255\x00" + SIX, 11),
    (b"P6 2 1 255\x85" + SIX, 11), (b"P6\xa02 1 255 " + SIX, 11), (b"P6 2\x1c1 255 " + SIX, 11),
    (b" P6 2 1 255 " + SIX, 11), (b"\nP6 2 1 255 " + SIX, 11), (b"\xef\xbb\xbfP6 2 1 255 " + SIX, 11),
    (b"p6 2 1 255 " + SIX, 11), (b"P5 2 1 255 " + SIX, 11), (b"P3 2 1 255 " + SIX, 11),
    (b"P7 2 1 255 " + SIX, 11), (b"P 6 2 1 255 " + SIX, 11), (b"6P 2 1 255 " + SIX, 11),
    # 4.  The white byte after the maximum belongs to the header.
    (b"P6 2 1 255", 11), (b"P6 0 1 255", 11), (b"P6 0 1 254", 11), (b"P6 2 1 255 ", 13), (b"P6 0 1 255 ", 1),
    # 5.  Seven digits; other maxima.
    (b"P6 0000002 1 255 " + SIX, 11), (b"P6 2 0000001 255 " + SIX, 11), (b"P6 2 1 0000255 " + SIX, 11),
    (b"P6 1000000 1 255 " + SIX, 11), (b"P6 2 1 2550000 " + SIX, 11), (b"P6 18446744073709551618 1 255 " + SIX, 11),
    (b"P6 000002 1 255 " + SIX, (2, 1, SIX)), (b"P6 999999 1 255 " + SIX, 1),
    (b"P6 2 1 65535 " + SIX + SIX, 12), (b"P6 2 1 0 " + SIX, 12), (b"P6 2 1 000000 " + SIX, 12),
    (b"P6 2 1 254 " + SIX, 12), (b"P6 2 1 256 " + SIX, 12), (b"P6 2 1 1 " + SIX, 12), (b"P6 2 1 25 5" + SIX, 12),
    (b"P6 2 1 511 " + SIX, 12), (b"P6 2 1 65791 " + SIX, 12), (b"P6 2 1 255255 " + SIX, 12),
    (b"P6 2 1 999999 " + SIX, 12),
    # 6.  A size outside; pixels short, or bytes left over.
    (b"P6 0 0 255 ", 1), (b"P6 1 0 255 ", 1), (b"P6 000000 1 255 ", 1), (b"P6 1025 1 255 ", 1), (b"P6 1 1025 255 ", 1),
    (b"P6 481 545 255 ", 1), (b"P6 1024 257 255 ", 1), (b"P6 65536 65536 255 ", 1), (b"P6 999999 999999 255 ", 1),
    (b"P6 65538 1 255 " + SIX, 1), (b"P6 2 65537 255 " + SIX, 1), (b"P6 258 1 255 " + SIX, 13),
    (b"P6 1024 256 255 ", 13), (b"P6 512 512 255 ", 13), (b"P6 256 1024 255 ", 13),
    (b"P6 2 1 255 abcde", 13), (b"P6 2 1 255 abcdefg", 13), (b"P6 2 1 255 abcdef\n", 13),
    (2 * (b"P6 2 1 255 " + SIX), 13), (b"P6 1 1 255 abc#c\n", 13),
)

# A header and its kind, and its W, H, maximum and start or 11.
HEADERS_BY_HAND = (
    (b"P5 2 1 255 ", b"5", (2, 1, 255, 11)),
    (b"P6 2 1 255 ", b"5", 11),
    (b"P5 2 1 255 ", b"6", 11),
    (b"P5#c\n0 0 0\rrest", b"5", (0, 0, 0, 11)),
    (b"P5 999999 999999 999999\n", b"5", (999999, 999999, 999999, 24)),
    (b"P5 2 1 65535 ", b"5", (2, 1, 65535, 13)),
    (b"P5 2 1 255", b"5", 11),
    (b"P5 2 1 255#\n", b"5", 11),
    (b"P5 1000000 1 255 ", b"5", 11),
    (b"P5 1 1 0000000 ", b"5", 11),
    (b"P4 2 1 255 ", b"4", (2, 1, 255, 11)),
    (b"P\n 2 1 255 ", b"\n", (2, 1, 255, 11)),
    (b"P\n2 1 255 ", b"\n", 11),
    (b"P# 2 1 255 ", b"#", (2, 1, 255, 11)),
    (b"P##\n2 1 255 ", b"#", (2, 1, 255, 12)),
    (b"P#\n2 1 255 ", b"#", (2, 1, 255, 11)),
    (b"P#2 1 255 ", b"#", 11),
    (b"P\x00 2 1 255 ", b"\x00", (2, 1, 255, 11)),
    (b"P\xff\r2 1 255 ", b"\xff", (2, 1, 255, 11)),
    (b"PP 2 1 255 ", b"P", (2, 1, 255, 11)),
    (b"", b"5", 11), (b"P", b"5", 11), (b"P5", b"5", 11),
)


# ---------------------------------------------------------------------------
# One good file, and the ways in which it can have each fault
# ---------------------------------------------------------------------------

READER_ORDER = (11, 1, 12, 13, 4)

# Changes of what lent() takes.  No two of different numbers want the same thing.
FAULTS = {
    11: ({"magic": b"P5"}, {"magic": b"p6"}, {"gap": b""}, {"gap": b"\v"}, {"gap": b" #"}, {"white": b""},
         {"white": b"#\n"}, {"zeros": b"000000"}),
    1: ({"size": (0, 1)}, {"size": (2, 0)}, {"size": (1025, 1)}, {"size": (1, 1025)}),
    12: ({"maximum": 0}, {"maximum": 254}, {"maximum": 256}, {"maximum": 65535}),
    13: ({"left": -6}, {"left": -1}, {"left": 1}, {"left": 6}),
    4: ({"over": -1}, {"over": 1}),
}


def lent(magic=b"P6", gap=b" ", zeros=b"", size=(2, 1), maximum=255, white=b"\n", left=0, over=0):
    """A file, and a lent frame for it; left and over count bytes too many."""
    W, H = size
    numbers = (zeros + b"%d" % number for number in (W, H, maximum))
    head = magic + b"".join(gap + number for number in numbers) + white
    pixels = bytes(k % 251 for k in range(max(0, 3 * W * H + left)))
    return head + pixels, b"\xa5" * max(0, 3 * W * H + over)


# ---------------------------------------------------------------------------
# By chance
# ---------------------------------------------------------------------------

WHITE = (b" ", b"\t", b"\r", b"\n")
NO_LINE_END = bytes(byte for byte in range(256) if byte not in b"\r\n")
INSIDE = (b"", b"#", b"##", b" 2 1 255 ", b"P6 1 1 255 abc", b"\0\v\f", b"\x8a\x8d", b"\xff" * 9)
# What a damaged file may have in a place: white and near it, digits and near them, the rest of a header.
TELLING = (b"\0", b"\t", b"\n", b"\v", b"\f", b"\r", b"\x1c", b" ", b"!", b"\"", b"#", b"$", b"+", b"-", b"/", b"0",
           b"1", b"2", b"9", b":", b"P", b"p", b"6", b"5", b"\x7f", b"\x80", b"\x85", b"\xa0", b"\xff", b"\r\n",
           b"#c\n", b"#\r", b"00", b"00000", b"000000", b"255", b" 255 ", b"P6", b"P6 1 1 255 ")


def any_comment(chance):
    inside = chance.choice(INSIDE + 2 * (bytes(chance.choices(NO_LINE_END, k=chance.randrange(12))),))
    return b"#" + inside + chance.choice((b"\r", b"\n", b"\r\n"))


def any_gap(chance):
    pieces = WHITE + (any_comment(chance), any_comment(chance))
    return b"".join(chance.choices(pieces, k=chance.randrange(1, 5)))


def any_numeral(chance, value):
    """At most six digits, zeros leading at times."""
    plain = b"%d" % value
    return b"0" * chance.choice((0, 0, 0, chance.randrange(7 - len(plain)))) + plain


def any_head(chance, magic, numbers):
    """A good header with any gaps."""
    parts = [magic]
    for number in numbers:
        parts += [any_gap(chance), any_numeral(chance, number)]
    return b"".join(parts) + chance.choice(WHITE)


def any_file(chance):
    """A good header; the size, the maximum or the pixels may be at fault."""
    W, H = cases.any_size(chance)
    maximum = chance.choice(50 * (255,) + (0, 1, 254, 256, 511, 65535, 999999))
    head = any_head(chance, b"P6", (W, H, maximum))
    left = chance.choice(50 * (0,) + (-3, -2, -1, 1, 2, 3))
    whole = min(3 * W * H, cases.MOST_LENT)
    return head + chance.randbytes(max(0, whole + left))


def damaged(chance, file):
    """A file with one edit, most often near its start."""
    at = chance.randrange(chance.choice((len(file), min(len(file), 24))) + 1)
    piece, few = chance.choice(TELLING), chance.randrange(1, 9)
    edits = (
        file[:at] + piece + file[at:],
        file[:at] + piece + file[at + 1:],
        file[:at] + file[at + few:],
        file[:at] + file[at:at + few] * 2 + file[at + few:],
        file[:at] + bytes(byte ^ 1 << few - 1 for byte in file[at:at + 1]) + file[at + 1:],
        file[:at],
        file[:-1],
        file + piece,
        file + file,
    )
    return chance.choice(edits)


def by_chance(chance, count):
    """One third as made, one third damaged once, one third twice."""
    for turn in range(count):
        file = any_file(chance)
        for _ in range(turn % 3):
            file = damaged(chance, file)
        yield file


def every_byte():
    """A good file with each byte in each place of its header, put in or put instead."""
    head = b"P6 2#c\n1\r255\n"
    for at in range(len(head) + 1):
        for byte in range(256):
            yield head[:at] + bytes([byte]) + head[at:] + SIX
            yield head[:at] + bytes([byte]) + head[at + 1:] + SIX


def long_files():
    """Headers of a million bytes, with their answers."""
    million = 10 ** 6
    yield b"P6#" + b"c" * million + b"\n2 1 255 " + SIX, (2, 1)
    yield b"P6" + b" " * million + b"2 1 255 " + SIX, (2, 1)
    yield b"P6 2 1" + b"#\r" * (million // 2) + b"255 " + SIX, (2, 1)
    yield b"P6 2 1 #" + b"c" * million, 11
    yield b"P6 " + b"0" * million + b"2 1 255 " + SIX, 11
    yield b"P6 2 1 255 " + bytes(million), 13


# ---------------------------------------------------------------------------
# What is lent
# ---------------------------------------------------------------------------

def frame_length(chance, file):
    """How long a frame is lent for a file."""
    number, found = ppm.header(file, ppm.PPM)
    W, H = found[:2] if number == 0 else (2, 1)
    return cases.slipped(chance, cases.lendable(chance, 3 * W * H))


def writer_buffers(chance, W, H):
    """A frame and an output for a size."""
    whole = cases.lendable(chance, 3 * W * H)
    file = 9 + len(str(W)) + len(str(H)) + whole
    return chance.randbytes(cases.slipped(chance, whole)), chance.randbytes(cases.slipped(chance, file))
