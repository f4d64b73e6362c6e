"""Holds the library's PPM calls to the second program.

Run it as: python3 -I ppms.py COMMAND...
The command starts the host program.  It is given all calls as one stream, and
every answer, every result place and every lent byte is compared with what
ppm.py says.  Status 1 and the first difference where one differs.

A number is 8 bytes, the lowest first.  A call is its letter and its fields:
    s  n file[n]                   reply: answer w h
    r  n m file[n] frame[m]        reply: answer w h frame[m]
    w  w h n m frame[n] out[m]     reply: answer out[m]
    l  w h                         reply: length
    h  kind n file[n]              reply: answer w h maximum start
The answer and the kind are one byte, all else is numbers and buffers.  Every
result place holds UNTOUCHED before its call.
"""

import itertools
import os
import random
import sys

sys.dont_write_bytecode = True
sys.path.insert(0, os.path.dirname(os.path.abspath(__file__)))

import cases
import ppm
import ppmfiles
import stream
from stream import Call, packed

UNTOUCHED = 0x5555555555555555
# The buffers of the replies are bytes.
BUFFERS = {"frame": 1, "out": 1}

# What each call must have answered at least once.  A length of 0 counts as 1.
ANSWERS = {
    b"s": {0, 11, 1, 12, 13},
    b"r": {0, 11, 1, 12, 13, 4},
    b"w": {0, 1, 3, 4},
    b"l": {0, 1},
    b"h": {0, 11},
}


# ---------------------------------------------------------------------------
# The five calls
# ---------------------------------------------------------------------------

def places(names, values):
    """The result places after a call; no values on a refusal."""
    return [(name, packed(value)) for name, value in zip(names, values or itertools.repeat(UNTOUCHED))]


def start_of(data):
    """The first bytes of a file, in words."""
    return "%d bytes %r" % (len(data), data[:60])


def size_call(file):
    number, found = ppm.size(file)
    return Call("size of " + start_of(file), b"s" + packed(len(file)) + file, number,
                [("answer", bytes([number]))] + places("wh", found))


def read_call(file, frame):
    number, found, after = ppm.read(file, frame)
    return Call("read of %s into %d" % (start_of(file), len(frame)),
                b"r" + packed(len(file), len(frame)) + file + frame, number,
                [("answer", bytes([number]))] + places("wh", found) + [("frame", after)])


def write_call(W, H, frame, out):
    number, after = ppm.write(W, H, frame, out)
    return Call("write of %d by %d, %d bytes into %d" % (W, H, len(frame), len(out)),
                b"w" + packed(W, H, len(frame), len(out)) + frame + out, number,
                [("answer", bytes([number])), ("out", after)])


def length_call(W, H):
    length = ppm.length(W, H)
    return Call("length of %d by %d" % (W, H), b"l" + packed(W, H), int(length == 0), places(["length"], [length]))


def header_call(kind, file):
    number, found = ppm.header(file, kind)
    return Call("header of kind %d of %s" % (kind, start_of(file)),
                b"h" + bytes([kind]) + packed(len(file)) + file, number,
                [("answer", bytes([number]))] + places(("w", "h", "maximum", "start"), found))


# ---------------------------------------------------------------------------
# What is asked
# ---------------------------------------------------------------------------

def files_by_hand(chance):
    for file, answer in ppmfiles.BY_HAND:
        yield size_call(file)
        yield read_call(file, chance.randbytes(ppmfiles.frame_length(chance, file)))
        yield header_call(ppm.PPM, file)
    for file, kind, answer in ppmfiles.HEADERS_BY_HAND:
        yield header_call(kind[0], file)
    for number, changes in cases.fault_sets(ppmfiles.FAULTS, ppmfiles.READER_ORDER):
        file, frame = ppmfiles.lent(**changes)
        yield size_call(file)
        yield read_call(file, frame)


def files_by_chance(chance):
    for file in ppmfiles.every_byte():
        yield size_call(file)
    for file in ppmfiles.by_chance(chance, 3000):
        yield size_call(file)
        yield read_call(file, chance.randbytes(ppmfiles.frame_length(chance, file)))


def headers(chance):
    """Every kind, right and wrong by one bit, with any numbers."""
    for kind in range(256):
        for turn in range(4):
            numbers = [chance.choice((0, 255, 65536, 999999, chance.randrange(1000000))) for _ in range(3)]
            file = ppmfiles.any_head(chance, bytes([ord("P"), kind]), numbers) + chance.randbytes(turn)
            yield header_call(kind, file)
            yield header_call(kind, ppmfiles.damaged(chance, file))
        yield header_call(kind ^ 1 << kind % 8, file)


def frames(chance):
    """Sizes of every kind, those that wrap too; buffers right and wrong."""
    for W, H in cases.every_kind_of_size(chance, 1000):
        yield length_call(W, H)
        yield write_call(W, H, *ppmfiles.writer_buffers(chance, W, H))
    # The last size that is good and the first that is not, in every row.
    for side in range(1, 1026):
        yield length_call(side, 262144 // side)
        yield length_call(side, 262144 // side + 1)


def large(chance):
    """The greatest frames, whole and off by one, and long headers."""
    for W, H in ((1024, 256), (512, 512)):
        frame = chance.randbytes(3 * W * H)
        file = ppmfiles.any_head(chance, b"P6", (W, H, 255)) + frame
        out = chance.randbytes(ppm.length(W, H))
        yield read_call(file, bytes(len(frame)))
        yield read_call(file, bytes(len(frame) - 1))
        yield read_call(file[:-1], bytes(len(frame)))
        yield size_call(file + b"\n")
        yield write_call(W, H, frame, out)
        yield write_call(W, H, frame, out[1:])
        yield write_call(W, H, frame[1:], out)
    for file, answer in ppmfiles.long_files():
        yield size_call(file)


def all_calls(chance):
    return [call for part in (files_by_hand, files_by_chance, headers, frames, large) for call in part(chance)]


def main(command):
    if not command:
        raise SystemExit(__doc__)
    stream.hold("ppms", command, ANSWERS, BUFFERS, all_calls(random.Random(30105)))


if __name__ == "__main__":
    main(sys.argv[1:])
