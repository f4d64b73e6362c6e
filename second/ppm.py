"""PPM files, read and written: change request One in plain Python.

What is given:
    data       the bytes of a file
    kind       the byte after the P of the magic, 54 for PPM
    W, H       any whole numbers that are not negative
    frame      in read the lent frame, in write the frame to be written
    out        the lent output
What is answered:
    header     (number, (W, H, maximum, start)), start being the first pixel byte
    size       (number, (W, H))
    read       (number, (W, H), frame)
    length     the length of the written file, 0 for a size that is refused
    write      (number, out)
The number is 0 or that of the refusal.  On a refusal None stands for the
values, and a lent buffer comes back as it was.  Nothing given is changed.

One pattern reads the whole header.  The last part holds a plain path: the same
five, byte by byte with a table of states.  It shares no function with the first.
"""

import re

import rules

PPM = ord("6")

WHITE = rb"[ \t\r\n]"
# The CR or LF that ends a comment is white of the gap, so a comment alone is a gap.
GAP = rb"(?:" + WHITE + rb"|#[^\r\n]*[\r\n])+"
NUMBER = rb"([0-9]{1,6})"
HEADER = re.compile(rb"P(.)" + 3 * (GAP + NUMBER) + WHITE, re.DOTALL)


# ---------------------------------------------------------------------------
# The reader
# ---------------------------------------------------------------------------

def header(data, kind):
    """The numbers of a header and where the pixels begin, or 11."""
    found = HEADER.match(data)
    if not found or ord(found[1]) != kind:
        return 11, None
    return 0, (int(found[2]), int(found[3]), int(found[4]), found.end())


def size(data):
    """The size of the picture in a file: 11, then 1, 12, 13."""
    number, found = header(data, PPM)
    if number:
        return number, None
    W, H, maximum, start = found
    if rules.size_is_outside((W, H)):
        return 1, None
    if maximum != 255:
        return 12, None
    if rules.frame_is_not_whole((W, H), len(data) - start):
        return 13, None
    return 0, (W, H)


def read(data, frame):
    """The picture of a file in the lent frame: the refusals of size, then 4."""
    number, found = size(data)
    if number:
        return number, None, frame
    if rules.frame_is_not_whole(found, len(frame)):
        return 4, None, frame
    # Nothing stands after the pixels.
    return 0, found, data[-len(frame):]


# ---------------------------------------------------------------------------
# The writer
# ---------------------------------------------------------------------------

def head(W, H):
    """All that stands before the pixels."""
    return b"P6\n%d %d\n255\n" % (W, H)


def length(W, H):
    """The exact length of the file of a frame."""
    if rules.size_is_outside((W, H)):
        return 0
    return len(head(W, H)) + 3 * W * H


def write(W, H, frame, out):
    """The file of a frame in the lent output: 1, 3, then 4."""
    number = rules.lowest_that_applies({
        1: rules.size_is_outside((W, H)),
        3: rules.frame_is_not_whole((W, H), len(frame)),
        4: len(out) != length(W, H),
    })
    if number:
        return number, out
    return 0, head(W, H) + frame


# ---------------------------------------------------------------------------
# The plain path: the header by states, the file by its bytes.
# ---------------------------------------------------------------------------

# From a state, on a sort of byte, to the next state.  What is not here is bad.
PLAIN_STEPS = {
    ("magic", "blank"): "gap",
    ("magic", "line end"): "gap",
    ("magic", "hash"): "comment",
    ("gap", "blank"): "gap",
    ("gap", "line end"): "gap",
    ("gap", "hash"): "comment",
    ("gap", "digit"): "number",
    ("comment", "blank"): "comment",
    ("comment", "line end"): "gap",
    ("comment", "hash"): "comment",
    ("comment", "digit"): "comment",
    ("comment", "other"): "comment",
    ("number", "blank"): "gap",
    ("number", "line end"): "gap",
    ("number", "hash"): "comment",
    ("number", "digit"): "number",
    ("maximum", "blank"): "pixels",
    ("maximum", "line end"): "pixels",
    ("maximum", "digit"): "number",
}


def plain_sort(byte):
    """The sort of a byte: 32 and 9, 10 and 13, 35, 48 to 57, any other."""
    if byte == 32 or byte == 9:
        return "blank"
    if byte == 10 or byte == 13:
        return "line end"
    if byte == 35:
        return "hash"
    if 48 <= byte <= 57:
        return "digit"
    return "other"


def plain_header(data, kind):
    """header, byte by byte."""
    if len(data) < 2 or data[0] != 80 or data[1] != kind:
        return 11, None
    state, values, digits = "magic", [], 0
    for at in range(2, len(data)):
        before, state = state, PLAIN_STEPS.get((state, plain_sort(data[at])))
        if state == "pixels":
            return 0, (values[0], values[1], values[2], at + 1)
        if state == "number" and before == "gap":
            values.append(0)
            digits = 0
        if state == "number":
            values[-1] = 10 * values[-1] + data[at] - 48
            digits += 1
        if state is None or digits == 7:
            return 11, None
        if state == "number" and len(values) == 3:
            state = "maximum"
    return 11, None


def plain_size_is_good(W, H):
    return 0 < W < 1025 and 0 < H < 1025 and W * H < 262145


def plain_size(data):
    """size, from the plain header."""
    number, found = plain_header(data, 54)
    if number == 11:
        return 11, None
    W, H, maximum, start = found
    if not plain_size_is_good(W, H):
        return 1, None
    if maximum < 255 or maximum > 255:
        return 12, None
    if start + 3 * W * H != len(data):
        return 13, None
    return 0, (W, H)


def plain_read(data, frame):
    """read, from the plain header."""
    number, found = plain_size(data)
    if found is None:
        return number, None, frame
    W, H = found
    if len(frame) != 3 * W * H:
        return 4, None, frame
    start = plain_header(data, 54)[1][3]
    return 0, (W, H), bytes(data[start + k] for k in range(3 * W * H))


def plain_digits(value):
    """The digits of a number above 0, as bytes 48 to 57."""
    digits = []
    while value > 0:
        digits.insert(0, 48 + value % 10)
        value //= 10
    return digits


def plain_length(W, H):
    """length, as the readings of the request count it."""
    if not plain_size_is_good(W, H):
        return 0
    return 9 + len(plain_digits(W)) + len(plain_digits(H)) + 3 * W * H


def plain_write(W, H, frame, out):
    """write, number by number."""
    if not plain_size_is_good(W, H):
        return 1, out
    if len(frame) != 3 * W * H:
        return 3, out
    if len(out) != plain_length(W, H):
        return 4, out
    file = [80, 54, 10] + plain_digits(W) + [32] + plain_digits(H) + [10, 50, 53, 53, 10]
    file.extend(frame)
    return 0, bytes(file)
