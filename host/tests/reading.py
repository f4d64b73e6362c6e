"""How far the tool reads: no farther than it takes to judge a file, of whatever kind it is, and with the number of the whole file."""

import os
import random
import re
import resource
import subprocess
import threading
from pathlib import Path

import common
import ppm as second
import ppmfiles
from common import X86, check, cleared, done, haze, hazy, pgm, ppm, put, refused

MORE = "{0}: refused 13: the pixels are short or bytes are left over; the header announces {1} bytes of them, and more follow; " \
       "the first of several pictures: pampick 0 <{0} >OUT"
NONE = "refused 11: the header is bad; it does not begin with P6"


def at_most(count, limit=resource.RLIMIT_FSIZE):
    """Files can grow to so many bytes, as on a full disk, or memory can."""
    return {"preexec_fn": lambda: resource.setrlimit(limit, (count, count)), "restore_signals": False}


def endless():
    """A file of 10 GB and devices that never end: refused at once, in 16 MB, where the program itself takes some. Under an emulator or a sanitizer nothing
    would start with so little."""
    little = at_most(2**24, resource.RLIMIT_AS) if X86 and not common.sanitized else {}
    put("large.ppm", b"P6\n600 400\n255\n")
    os.truncate("large.ppm", 10**10)
    put("map.pgm", b"P5\n600 400\n10000\n")
    os.truncate("map.pgm", 10**10)
    put("mask.pgm", b"P5\n600 400\n255\n")
    os.truncate("mask.pgm", 10**10)
    put("small.ppm", ppm((3, 2), range(18)))
    for words, why in ((["clear", "large.ppm", "x"], MORE.format("large.ppm", 720000)), (["clear", "/dev/zero", "x"], "/dev/zero: " + NONE),
                       (["view", "map.pgm", "x"], MORE.format("map.pgm", 480000)), (["light", "/dev/zero"], "/dev/zero: " + NONE),
                       (["light", "small.ppm", "mask=mask.pgm"], MORE.format("mask.pgm", 240000)),
                       (["light", "small.ppm", "mask=/dev/zero"], "/dev/zero: " + NONE.replace("P6", "P5"))):
        run = haze(*words, timeout=60, **little)
        check((run.returncode, run.stderr) == (1, f"haze: {why}\n"), words, run)
    for name in ("large.ppm", "map.pgm", "mask.pgm"):
        Path(name).unlink()


def long_header(length):
    begin, end = b"P6 #", b"\n4 3 255\n"
    return begin + b"c" * (length - len(begin) - len(end)) + end


def header_limit():
    """A header that ends within 1 MiB is good; a longer one is an error in words, with no number; and a bad one is 11 wherever it is seen to be bad."""
    size, pixels = (4, 3), bytes(hazy((4, 3), "long"))
    picture = ppm(size, cleared(size, list(pixels))[1])
    for length in (1000, 2**19, 2**20 - 1, 2**20):
        put("in.ppm", long_header(length) + pixels)
        done(["clear", "in.ppm", "out.ppm"], ("out.ppm", picture))
    for data in (long_header(2**20 + 1) + pixels, b"P6 #" + b"c" * 2**21, b"P6" + b" " * 2**21, b"P6" + b"#\n" * 2**20):
        put("in.ppm", data)
        refused(["clear", "in.ppm", "fresh"], "in.ppm: its header has not ended after 1048576 bytes: a shorter comment helps")
    put("in.ppm", b"P6 #" + b"c" * 2**19 + b"\n4 3x255\n" + b"\0" * 2**21)
    refused(["clear", "in.ppm", "fresh"], "in.ppm: refused 11: .*")


def as_whole():
    """The number is that of the second program for the whole file; also with much behind it."""
    chance = random.Random(22)
    files = [file for file, _ in ppmfiles.BY_HAND] + list(ppmfiles.by_chance(chance, 500))
    tail = bytes(chance.randrange(256) for _ in range(5000)) + b"\0" * 200000
    for file in files:
        for data in (file, file + tail):
            number, _ = second.size(data)
            run = haze("light", "-", input=data, text=False)
            said = re.match(rb"haze: standard input: refused (\d+): ", run.stderr)
            if number:
                check(run.returncode == 1 and said and int(said[1]) == number, file, number, run)
            else:
                check(run.returncode == 0 and run.stderr == b"", file, run)


def no_farther():
    """How much of an open file was taken: the header twice at most, the pixels and one byte."""
    for size, comment in (((600, 400), b""), ((1, 1), b""), ((30, 20), b"#" + b"c" * 3000 + b"\n")):
        head = b"P6\n" + comment + b"%d %d\n255\n" % size
        put("in.ppm", head + b"\0" * (3 * size[0] * size[1] + 10**6))
        with open("in.ppm", "rb", buffering=0) as file:
            run = subprocess.run([*common.tool, "clear", "-", "fresh"], stdin=file, capture_output=True, text=True)
            check(run.returncode == 1 and "refused 13" in run.stderr, run)
            check(file.tell() <= max(len(head) + 3 * size[0] * size[1] + 1, 2 * len(head), 12), "read", file.tell(), "bytes of", size)


def masks_no_farther():
    """Of a mask too: the samples and one byte more."""
    put("in.ppm", ppm((30, 20), hazy((30, 20), "farther")))
    put("mask.pgm", b"P5\n30 20\n255\n" + b"\1" * 10**6)
    with open("mask.pgm", "rb", buffering=0) as file:
        run = subprocess.run([*common.tool, "light", "in.ppm", "mask=-"], stdin=file, capture_output=True, text=True)
        check(run.returncode == 1 and "refused 13" in run.stderr, run)
        check(file.tell() <= len(b"P5\n30 20\n255\n") + 601, "read", file.tell(), "bytes of a mask")


def pipes():
    """A pipe with a name, and one that gives a byte at a time; one that is cut; one that stays open after a byte too many."""
    size = (16, 12)
    frame = hazy(size, "pipe")
    data, picture = ppm(size, frame), ppm(size, cleared(size, frame)[1])
    os.mkfifo("pipe")
    for file, status in ((data, 0), (data[:-1], 1), (b"", 1)):
        writer = threading.Thread(target=lambda: Path("pipe").write_bytes(file))
        writer.start()
        run = haze("clear", "pipe", "out.ppm")
        writer.join()
        check(run.returncode == status, run)
        check(status or Path("out.ppm").read_bytes() == picture, "a pipe's picture")
    child = subprocess.Popen([*common.tool, "clear", "-", "out.ppm"], stdin=subprocess.PIPE, bufsize=0)
    for k in range(len(data)):
        child.stdin.write(data[k:k + 1])
    child.stdin.close()
    check(child.wait() == 0 and Path("out.ppm").read_bytes() == picture, "byte by byte")
    for file, number in ((data + b"x", 13), (b"P6\n#a camera\n2 2\n255\n" + bytes(13), 13), (b"P6\n" + b"#c\n" * 3000 + b"1 1\n255\n" + bytes(4), 13),
                         (b"P6\n9999 9999\n255\n", 1), (b"P6\n1 1\n65535\n", 12), (b"\x89PNG\r\n\x1a\n", 11), (b"P3\n1 1", 11), (b"X", 11), (b"P6 1x", 11)):
        child = subprocess.Popen([*common.tool, "clear", "-", "fresh"], stdin=subprocess.PIPE, stderr=subprocess.PIPE, bufsize=0)
        child.stdin.write(file)
        check(child.wait(60) == 1 and b"refused %d" % number in child.stderr.read(), "a pipe that stays open, after", file[:40])
        child.stdin.close()


def unreadable():
    Path("folder").mkdir()
    put("map.pgm", b"")
    put("frame.ppm", ppm((3, 2), range(18)))
    for words in (["clear", "none.ppm", "fresh"], ["add", "none.ppm", "map.pgm", "fresh"], ["add", "frame.ppm", "none.ppm", "fresh"], ["view", "none.ppm", "fresh"]):
        refused(words, "none.ppm: cannot be read: No such file or directory")
    refused(["map", "folder", "fresh"], "folder: cannot be read: Is a directory")
    refused(["map", "frame.ppm", "fresh", "mask=folder"], "folder: cannot be read: Is a directory")
    refused(["map", "", "fresh"], ": cannot be read: No such file or directory")


def little_memory():
    """16 MB, where the work area needs 17. Under an emulator or a sanitizer nothing would start."""
    if X86 and not common.sanitized:
        put("large.ppm", ppm((512, 512), bytes(3 * 512 * 512)))
        refused(["clear", "large.ppm", "fresh"], "there is not enough memory", **at_most(2**24, resource.RLIMIT_AS))
        Path("large.ppm").unlink()


def closed():
    """Standard files that are closed: messages never go into a picture."""
    put("frame.ppm", ppm((3, 2), range(100, 118)))
    data = ppm((3, 2), cleared((3, 2), list(range(100, 118)))[1])
    for shut in ((0,), (1,), (2,), (0, 1, 2)):
        child = os.fork()
        if not child:
            for file in shut:
                os.close(file)
            if 2 not in shut:
                os.dup2(os.open("said", os.O_WRONLY | os.O_CREAT), 2)
            os.execvp(common.tool[0], [*common.tool, "clear", "-v", "frame.ppm", "out.ppm"])
        check(os.waitpid(child, 0)[1] == 0 and Path("out.ppm").read_bytes() == data, "closed", shut)
    put("out.ppm.0.new", b"left")    # which is said while the map is open
    child = os.fork()
    if not child:
        os.close(1)
        os.close(2)
        os.execvp(common.tool[0], [*common.tool, "clear", "frame.ppm", "out.ppm", "map=map.pgm"])
    check(os.waitpid(child, 0)[1] == 0 and Path("map.pgm").read_bytes() == pgm((3, 2), cleared((3, 2), list(range(100, 118)))[0]), "a message went into the map")
    Path("out.ppm.0.new").unlink()
    child = os.fork()
    if not child:
        os.close(1)
        os.dup2(os.open("said", os.O_WRONLY | os.O_CREAT | os.O_TRUNC), 2)
        os.execvp(common.tool[0], [*common.tool, "clear", "frame.ppm", "-"])
    check(os.waitstatus_to_exitcode(os.waitpid(child, 0)[1]) == 1, "standard output is closed, and that is no error")
    check(Path("said").read_text() == "haze: standard output: cannot be written: Bad file descriptor\n", Path("said").read_text())


ALL = (endless, header_limit, as_whole, no_farther, masks_no_farther, pipes, unreadable, little_memory, closed)
