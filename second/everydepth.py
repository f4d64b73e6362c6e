"""The depth of every 16-bit number: what the program `rundepth` must answer.

Run it as:
    python3 -I everydepth.py --check    makes both files anew and compares them
                                        with crates/rundepth/stdin and stdout;
                                        status 1 and the first difference where
                                        they differ
    python3 -I everydepth.py --write    writes them

stdin is empty.  stdout has a line `t d` for t = 0, and then for every t to
65,535, in turn, whose depth d is not that of t - 1.
"""

import os
import sys

sys.dont_write_bytecode = True
sys.path.insert(0, os.path.dirname(os.path.abspath(__file__)))

import depth
import kept


def lines():
    """Each t whose depth is new, with that depth."""
    before = None
    for t in range(65536):
        d = depth.depth(t)
        if d != before:
            yield b"%d %d\n" % (t, d)
        before = d


def made():
    """The two files."""
    return {"stdin": b"", "stdout": b"".join(lines())}


if __name__ == "__main__":
    files = made()
    kept.settle(sys.argv[1:], __doc__, "rundepth", files)
    print("everydepth: 65536 entries, %d lines" % files["stdout"].count(b"\n"))
