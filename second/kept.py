"""The files that are kept beside a program of the repository: its stdin and stdout.

settle() writes them or compares them with what the second program makes anew.
"""

import itertools
import os

HERE = os.path.dirname(os.path.abspath(__file__))


def first_difference(name, held, made):
    """The first line in which a file differs, in words."""
    lines = itertools.zip_longest(held.split(b"\n"), made.split(b"\n"))
    for number, (one, other) in enumerate(lines, 1):
        if one != other:
            return "%s, line %d\n  file:           %r\n  second program: %r" % (name, number, one, other)


def settle(words, usage, crate, files):
    """--write writes the files of a crate; --check ends with status 1 where one differs."""
    if words not in (["--check"], ["--write"]):
        raise SystemExit(usage)
    for name, made in files.items():
        path = os.path.join(HERE, os.pardir, "crates", crate, name)
        if words == ["--write"]:
            with open(path, "wb") as out:
                out.write(made)
            continue
        with open(path, "rb") as file:
            held = file.read()
        if held != made:
            raise SystemExit("differs: crates/%s/%s" % (crate, first_difference(name, held, made)))
