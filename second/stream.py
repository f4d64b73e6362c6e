"""A stream of calls for a host program of the library for C, and what it must reply.

hold() gives the host program all calls at once and compares every part of
every reply with what the second program says.  Status 1 and the first
difference where one differs.
"""

import collections
import struct
import subprocess

# The reply is a list of parts, each with its name.
Call = collections.namedtuple("Call", "words request answer reply")

# What one place of a buffer is called, by how many bytes it takes.
UNITS = {1: "byte", 2: "entry"}


def packed(*numbers):
    """Numbers of 8 bytes, the lowest first."""
    return struct.pack("<%dQ" % len(numbers), *numbers)


def unpacked(data):
    return int.from_bytes(data, "little")


# ---------------------------------------------------------------------------
# What is answered
# ---------------------------------------------------------------------------

def part_difference(buffers, name, got, want):
    """How one part of a reply differs, in words; buffers says how wide a place of each is."""
    if name not in buffers:
        return "%s is %d, the second program says %d" % (name, unpacked(got), unpacked(want))
    width = buffers[name]
    at = next(k for k in range(len(want)) if got[k] != want[k]) // width
    place = slice(at * width, (at + 1) * width)
    return "%s %d of %s is %d, the second program says %d" % (
        UNITS[width], at, name, unpacked(got[place]), unpacked(want[place]))


def first_difference(buffers, calls, output):
    """The first part of a reply that differs, in words; nothing where none does."""
    at = 0
    for call, (name, want) in ((call, part) for call in calls for part in call.reply):
        got = output[at:at + len(want)]
        at += len(want)
        if len(got) < len(want):
            return "%s: the output ends before %s" % (call.words, name)
        if got != want:
            return "%s: %s" % (call.words, part_difference(buffers, name, got, want))
    return "%d bytes more than all replies" % (len(output) - at) if len(output) > at else ""


def never_met(answers, calls):
    """The answers that no call had; answers says which ones each letter must have had."""
    met = {(call.request[:1], call.answer) for call in calls}
    wanted = {(letter, answer) for letter, numbers in answers.items() for answer in numbers}
    return sorted(wanted - met)


def hold(name, command, answers, buffers, calls):
    """Holds the host program that a command starts to the calls."""
    if never_met(answers, calls):
        raise SystemExit("%s: never answered: %s" % (name, never_met(answers, calls)))
    run = subprocess.run(command, input=b"".join(call.request for call in calls), stdout=subprocess.PIPE, check=False)
    difference = first_difference(buffers, calls, run.stdout)
    if difference:
        raise SystemExit("%s: status %d; %s" % (name, run.returncode, difference))
    if run.returncode:
        raise SystemExit("%s: all replies as they should be, but status %d" % (name, run.returncode))
    refused = sum(call.answer != 0 for call in calls)
    print("%s: %d calls, %d of them refused, all as the second program answers" % (name, len(calls), refused))
