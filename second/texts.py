"""The runs of the program's text: what the program `runtexts` is given and must answer.

Run it as:
    python3 -I texts.py --check    makes both files anew and compares them with
                                   crates/runtexts/stdin and stdout; status 1
                                   and the first difference where they differ
    python3 -I texts.py --write    writes them

The texts come from a generator with a fixed seed, good ones and damaged ones.
What each must give comes from text.py.  In stdin every text is followed by one
byte 30, which stands in no text.  In stdout every answer is followed by a line
that holds `=` alone.
"""

import os
import random
import sys

sys.dont_write_bytecode = True
sys.path.insert(0, os.path.dirname(os.path.abspath(__file__)))

import kept
import rules
import text

PARTED_BY = b"\x1e"
MOST_INPUT = 524288
PLAIN = (0, 0, 9500, 59, 1000, 1)


def line(name, *numbers):
    """One record."""
    return text.TAB.join([name] + [b"%d" % number for number in numbers]) + text.LF


def text_of(size, settings, frame):
    """The lines of a good text."""
    return [line(b"size", *size), line(b"set", *settings),
            *(line(b"px", *pixel) for pixel in rules.pixels(frame))]


# ---------------------------------------------------------------------------
# Good texts
# ---------------------------------------------------------------------------

def any_settings(chance):
    one = chance.randint
    return (chance.choice((0, 1, one(0, 30))), chance.choice((0, 1, 2, one(0, 60))),
            chance.choice((1, 9500, 10000, one(1, 10000))), chance.choice((1, 59, 585225, one(1, 585225))),
            chance.choice((1, 1000, 10000, one(1, 10000))), chance.choice((1, 1000, one(1, 1000))))


def any_frame(chance, size):
    """Noise between two bytes."""
    low, high = sorted((chance.randrange(256), chance.randrange(256)))
    return [chance.randint(low, high) for _ in range(3 * size[0] * size[1])]


def any_text(chance, most):
    size = (chance.randint(1, most), chance.randint(1, most))
    return text_of(size, any_settings(chance), any_frame(chance, size))


def good(chance):
    """Sizes to 24 by 24, and each end of each range of the settings."""
    texts = [any_text(chance, most) for most in [1] * 10 + [3] * 60 + [6] * 20]
    for size in ((24, 24), (24, 1), (1, 24), (23, 5)):
        texts.append(text_of(size, rules.DEFAULTS, any_frame(chance, size)))
    for place, ends in enumerate(rules.SETTINGS):
        for end in ends:
            settings = PLAIN[:place] + (end,) + PLAIN[place + 1:]
            texts.append(text_of((2, 2), settings, any_frame(chance, (2, 2))))
    for level in (0, 1, 9, 10, 99, 100, 254, 255):
        texts.append(text_of((1, 2), PLAIN, [level] * 6))
    return texts


# ---------------------------------------------------------------------------
# Damaged texts
# ---------------------------------------------------------------------------

# What may stand in place of a number: none of it is a numeral of the text.
NO_NUMERALS = (b"", b"00", b"01", b"007", b"0000001", b"1000000", b"9999999", b"18446744073709551617", b"-1", b"+1",
               b"1.", b"1 ", b" 1", b"a", b"1a", b"a1", b"\xff", b"\x00", b"/", b":", b"1\r", b"\xc2\xb2", b"_", b"`", b"{")
NO_NAMES = (b"", b"Size", b"SIZE", b"siz", b"sizes", b"size ", b" size", b"set", b"px", b"p", b"pxx", b"sett", b"se", b"0")


def with_field(lines, row, place, field):
    """The lines with another field at a place; None takes the field away."""
    fields = lines[row][:-1].split(text.TAB)
    fields[place:place + 1] = [] if field is None else [field]
    return lines[:row] + [text.TAB.join(fields) + text.LF] + lines[row + 1:]


def with_line(lines, row, new):
    """The lines with another line at a place; None takes the line away."""
    return lines[:row] + ([] if new is None else [new]) + lines[row + 1:]


def damaged_by_hand():
    """Every field of every record in every way, and every line."""
    lines = text_of((2, 1), PLAIN, [200, 200, 200, 100, 150, 180])
    for row, count in enumerate((2, 6, 3, 3)):
        yield from (with_field(lines, row, 0, name) for name in NO_NAMES
                    if name != lines[row].split(text.TAB)[0])
        for place in range(1, count + 1):
            kinds = NO_NUMERALS if place in (1, count) else NO_NUMERALS[place::4]
            yield from (with_field(lines, row, place, field) for field in kinds)
            yield with_field(lines, row, place, None)
            yield with_field(lines, row, place, b"1\t1")
        for new in (None, text.LF, b"\t\n", b"\r\n", lines[row] * 2, lines[row][:-1], b"\t" + lines[row],
                    lines[row][:-1] + b"\t\n", lines[row][:-1] + b"\r\n", lines[row][:-1] + b" \n"):
            yield with_line(lines, row, new)
        # The text ends within or before this line.
        yield lines[:row]
        yield lines[:row] + [lines[row][:-1]]
        yield lines[:row] + [lines[row][:3]]
        # The next line in the place of this one, and this one in the place of the next.
        yield lines[:row] + lines[row + 1:row + 2] + lines[row:row + 1] + lines[row + 2:]
    for rest in (b"\n", b"x", b"\0", b"\t", b"px\t1\t2\t3\n", b"px\t1\t2\t3", b"\n\n", b" ", b"\xff"):
        yield lines + [rest]


def out_of_range():
    """Sizes and settings outside their range, and numbers that are too large; also with a fault further on."""
    for size in ((0, 0), (0, 1), (1, 0), (25, 1), (1, 25), (25, 25), (25, 0), (0, 25), (24, 25), (1024, 1), (1, 1024),
                 (1025, 1), (1, 1025), (513, 512), (512, 512), (1024, 256), (1000, 1000), (999999, 1), (999999, 999999)):
        yield [line(b"size", *size)]
        yield [line(b"size", *size)[:-1]]
        yield [line(b"size", *size), line(b"set", *PLAIN), b"px\t1\t2\t3\n"]
        yield [line(b"size", *size), b"set\t0\n"]
    for place, (least, greatest) in enumerate(rules.SETTINGS):
        for value in [greatest + 1, 999999] + ([least - 1] if least else []):
            settings = PLAIN[:place] + (value,) + PLAIN[place + 1:]
            yield [line(b"size", 1, 1), line(b"set", *settings), b"px\t1\t2\t3\n"]
            yield [line(b"size", 1, 1), line(b"set", *settings)[:-1]]
            yield [line(b"size", 25, 1), line(b"set", *settings)]
    for place in range(3):
        for value in (255, 256, 999, 999999, 1000000):
            pixel = (1, 2, 3)[:place] + (value,) + (1, 2, 3)[place + 1:]
            yield text_of((1, 1), PLAIN, pixel)
    yield []


BYTES = (b"0", b"1", b"9", b"00", b"\t", b"\n", b"\r", b" ", b"x", b"-", b"\xff", b"\0", b"/", b":", b"`", b"{", b"z", b"a")


def damaged_by_chance(chance):
    """One byte more, less or changed, or the end cut off."""
    for _ in range(200):
        data = b"".join(any_text(chance, 3))
        at, byte = chance.randrange(len(data)), chance.choice(BYTES)
        yield [chance.choice((data[:at] + byte + data[at:], data[:at] + data[at + 1:],
                              data[:at] + byte + data[at + 1:], data[:at]))]


def large_ones(chance):
    """A fault on the last line of the largest text, and a long rest."""
    lines = text_of((24, 24), (1, 2, 9500, 59, 1000, 5), any_frame(chance, (24, 24)))
    yield lines[:-1]
    yield with_field(lines, len(lines) - 1, 3, b"256")
    yield lines + [b"x" * 20000]


def made():
    """All texts and all answers, as the two files have them."""
    chance = random.Random(20240118)
    texts = [b"".join(lines) for part in (good(chance), damaged_by_hand(), out_of_range(), damaged_by_chance(chance),
                                          large_ones(chance)) for lines in part]
    assert not any(PARTED_BY in data for data in texts)
    given = b"".join(data + PARTED_BY for data in texts)
    assert len(given) <= MOST_INPUT
    answered = b"".join(text.clearframe(data) + b"=\n" for data in texts)
    return {"stdin": given, "stdout": answered}


if __name__ == "__main__":
    files = made()
    kept.settle(sys.argv[1:], __doc__, "runtexts", files)
    answers = files["stdout"].split(b"=\n")[:-1]
    print("texts: %d texts, %d of them refused" % (len(answers), sum(data.startswith(b"bad") for data in answers)))
