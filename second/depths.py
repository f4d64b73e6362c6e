"""Holds the library's depths to the second program.

Run it as: python3 -I depths.py COMMAND...
The command starts the host program.  It is given all calls as one stream, and
every answer and every lent byte is compared with what depth.py says.  Status 1
and the first difference where one differs.

A number is 8 bytes, the lowest first, and an entry is 2 bytes, the lowest
first.  A call is its letter and its fields:
    d  w h n m map[n] depths[m]    reply: answer depths[m]
The answer is one byte.
"""

import os
import random
import struct
import sys

sys.dont_write_bytecode = True
sys.path.insert(0, os.path.dirname(os.path.abspath(__file__)))

import cases
import depth
import depthmaps
import stream

# The depths of a reply are entries of two bytes.
BUFFERS = {"depths": 2}

# What the call must have answered at least once.
ANSWERS = {b"d": {0, 1, 4, 8}}


def packed_entries(entries):
    return struct.pack("<%dH" % len(entries), *entries)


def depths_call(W, H, entries, lent):
    number, after = depth.depths(W, H, entries, lent)
    return stream.Call(
        "depths of %d by %d, %d entries %r into %d" % (W, H, len(entries), entries[:12], len(lent)),
        b"d" + stream.packed(W, H, len(entries), len(lent)) + packed_entries(entries) + packed_entries(lent), number,
        [("answer", bytes([number])), ("depths", packed_entries(after))])


# ---------------------------------------------------------------------------
# What is asked
# ---------------------------------------------------------------------------

def by_hand(chance):
    """The good call, and every refusal alone and in pairs."""
    yield depths_call(*depthmaps.lent())
    for number, changes in depthmaps.refused():
        yield depths_call(*depthmaps.lent(**changes))


def every_entry(chance):
    """Every number of 16 bits alone, then all that a map may have in one map: rising, falling and shuffled."""
    for t in range(65536):
        yield depths_call(1, 1, [t], depthmaps.any_lent(chance, 1))
    W, H = depthmaps.EVERY_SIZE
    rising = list(range(10001))
    lent = depthmaps.any_lent(chance, len(rising))
    yield depths_call(W, H, rising, lent)
    yield depths_call(H, W, rising[::-1], lent)
    yield depths_call(W, H, chance.sample(rising, len(rising)), lent)


def maps(chance):
    """Sizes of every kind, those that wrap too; buffers right and wrong."""
    for W, H in cases.every_kind_of_size(chance, 1000):
        yield depths_call(W, H, *depthmaps.buffers(chance, W, H))


def large(chance):
    """The greatest maps, whole and at fault in one entry; sizes just too large; lengths too large by 2**16."""
    for W, H in ((1024, 256), (512, 512)):
        entries = [chance.randrange(10001) for _ in range(W * H)]
        lent = depthmaps.unlike_depths(W * H)
        yield depths_call(W, H, entries, lent)
        for wrong in (entries[1:], entries + [0], [10001] + entries[1:], entries[:-1] + [10001]):
            yield depths_call(W, H, wrong, lent)
        for wrong in (lent[1:], lent + [0]):
            yield depths_call(W, H, entries, wrong)
    for size in ((513, 512), (481, 545)):
        yield depths_call(*depthmaps.lent(size=size))
    for wrong in ({"left": 2 ** 16}, {"over": 2 ** 16}, {"left": 2 ** 16, "over": 2 ** 16}):
        yield depths_call(*depthmaps.lent(**wrong))


def all_calls(chance):
    return [call for part in (by_hand, every_entry, maps, large) for call in part(chance)]


def main(command):
    if not command:
        raise SystemExit(__doc__)
    stream.hold("depths", command, ANSWERS, BUFFERS, all_calls(random.Random(30402)))


if __name__ == "__main__":
    main(sys.argv[1:])
