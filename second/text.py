"""The program's text `clearframe`, written a second time in plain Python.

This file holds the function clearframe(data), which takes the whole of
standard input as bytes and gives the whole of standard output as bytes.
It can be run as a program too, and then reads and writes just that.

It follows "The program's text" of document 01.  Lines are judged in order and
the first fault ends it.  Within one line 9 comes before 1, then 10, then 2.
"""

import os
import sys

if __name__ == "__main__":
    sys.dont_write_bytecode = True
    sys.path.insert(0, os.path.dirname(os.path.abspath(__file__)))

import rules

TAB = b"\t"
LF = b"\n"
DIGITS = b"0123456789"
LARGEST_SIDE = 24


class Refused(Exception):
    """A refusal: its number and the line number at fault."""

    def __init__(self, number, line):
        super().__init__(number, line)
        self.number = number
        self.line = line


def number_in(field):
    """The number a field holds, None where it breaks the layout.

    1 to 6 digits, no sign, no leading zero but 0 itself.
    """
    if not 1 <= len(field) <= 6:
        return None
    if any(byte not in DIGITS for byte in field):
        return None
    if field.startswith(b"0") and field != b"0":
        return None
    return int(field)


def record(lines, line, name, count):
    """The numbers of the record that must stand in a line.

    A line that is missing or not ended by LF is 9, and so is any other layout.
    """
    if line > len(lines):
        raise Refused(9, line)
    fields = lines[line - 1].split(TAB)
    numbers = [number_in(field) for field in fields[1:]]
    if fields[0] != name or len(numbers) != count or None in numbers:
        raise Refused(9, line)
    return tuple(numbers)


def size_record(lines):
    """Line 1: 9, then 1, then 10."""
    size = record(lines, 1, b"size", 2)
    if rules.size_is_outside(size):
        raise Refused(1, 1)
    if max(size) > LARGEST_SIDE:
        raise Refused(10, 1)
    return size


def set_record(lines):
    """Line 2: 9, then 2."""
    settings = record(lines, 2, b"set", 6)
    if rules.setting_is_outside(settings):
        raise Refused(2, 2)
    return settings


def px_record(lines, line):
    """Line 3 and on: 9 alone.  A number above 255 is layout too."""
    pixel = record(lines, line, b"px", 3)
    if max(pixel) > 255:
        raise Refused(9, line)
    return pixel


def read(data):
    """Size, settings and frame of a text, judged line by line in order."""
    # Only what is ended by LF is a line.  The rest stands after the last LF.
    *lines, rest = data.split(LF)
    size = size_record(lines)
    settings = set_record(lines)
    W, H = size
    frame = []
    for line in range(3, W * H + 3):
        frame.extend(px_record(lines, line))
    # A byte after the last record.
    if len(lines) > W * H + 2 or rest:
        raise Refused(9, W * H + 3)
    return size, settings, frame


def written(name, numbers):
    """One line of output."""
    return TAB.join([name] + [b"%d" % number for number in numbers]) + LF


def cleared(size, settings, frame):
    """The output for a text that is not refused.  The light is found, then used.

    Every text means an all-seen mask.
    """
    W, H = size
    work = rules.work_needed(size)
    mask = rules.all_seen(size)
    refusal, (light, comparisons) = rules.light(size, settings, mask, frame, work)
    assert refusal == 0
    refusal, (values, comparisons) = rules.clear(size, settings, light, mask, frame, W * H, 3 * W * H, work)
    assert refusal == 0
    map, picture = values
    output = [written(b"light", light)]
    for entry, pixel in zip(map, rules.pixels(picture)):
        output.append(written(b"out", (entry, *pixel)))
    return b"".join(output)


def clearframe(data):
    """The output of the program for its input."""
    try:
        size, settings, frame = read(data)
    except Refused as refused:
        return written(b"bad", (refused.number, refused.line))
    return cleared(size, settings, frame)


if __name__ == "__main__":
    sys.stdout.buffer.write(clearframe(sys.stdin.buffer.read()))
