"""Runs the recipes of docs/FILES.md as they stand there.

    python3 -I host/tests/recipes.py HAZE_COMMAND..

Each block marked sh or python runs in a folder of its own, which has the files that the recipes begin with. It must end with status 0 and print what the
block marked text behind it has, or nothing where there is none. A block whose programs or Python modules are not here is skipped.
"""

import collections
import os
import re
import shlex
import shutil
import struct
import subprocess
import sys
import tempfile
import zlib
from pathlib import Path

ROOT = Path(__file__).resolve().parent.parent.parent
PAGE = "docs/FILES.md"
PYTHONS = ("/usr/bin/python3", "python3", sys.executable)
Block = collections.namedtuple("Block", "line kind text wanted")


# ---------------------------------------------------------------------------
# The page
# ---------------------------------------------------------------------------

def blocks(page):
    """The blocks that run, each with the text that it is to print."""
    found = []
    for fence in re.finditer(r"^```(.*)\n((?:.*\n)*?)```$", page, re.M):
        line, kind, text = page.count("\n", 0, fence.start()) + 1, fence[1], fence[2]
        if kind in ("sh", "python"):
            found.append(Block(line, kind, text, ""))
        elif kind == "text" and found and not found[-1].wanted:
            found[-1] = found[-1]._replace(wanted=text)
        else:
            sys.exit(f"recipes: {PAGE}:{line}: this block is neither sh nor python, nor the text of one")
    if not found:
        sys.exit(f"recipes: {PAGE} has no blocks")
    for block in found:
        if not block.wanted and not re.search(r"\bcmp\b", block.text):
            sys.exit(f"recipes: {PAGE}:{block.line}: this block says nothing that could be wrong")
    return found


# ---------------------------------------------------------------------------
# The files that the recipes begin with
# ---------------------------------------------------------------------------

def chunk(name, data):
    return struct.pack(">I", len(data)) + name + data + struct.pack(">I", zlib.crc32(name + data))


def png(path, size, bits, colour, rows):
    """Rows of bytes as they are: colour 0 is grey, 2 is red, green, blue."""
    header = struct.pack(">IIBBBBB", *size, bits, colour, 0, 0, 0)
    data = zlib.compress(b"".join(b"\0" + row for row in rows), 1)
    path.write_bytes(b"\x89PNG\r\n\x1a\n" + chunk(b"IHDR", header) + chunk(b"IDAT", data) + chunk(b"IEND", b""))


def run(*words, **how):
    return subprocess.run(words, check=True, stdin=subprocess.DEVNULL, stdout=subprocess.DEVNULL, **how)


def larger(path, size, frame):
    """The frame repeated to a picture of another size."""
    width, height = size
    rows = [(frame[y * 720:(y + 1) * 720] * (width // 240 + 1))[:3 * width] for y in range(160)]
    png(path, size, 8, 2, (rows[y % 160] for y in range(height)))


def begin(folder, haze):
    script = ROOT / "examples"
    run(sys.executable, "-I", script / "misleading.py", folder / "frame.ppm", "--snow")
    run(sys.executable, "-I", script / "png.py", folder / "frame.ppm", folder / "in.png")
    for command, name in (("clear", "clean.ppm"), ("map", "map.pgm"), ("depth", "depth.pgm")):
        run(haze, command, folder / "frame.ppm", folder / name)
    frame = (folder / "frame.ppm").read_bytes()[len("P6\n240 160\n255\n"):]
    png(folder / "grey.png", (240, 160), 16, 0, (b"".join(struct.pack(">H", 257 * g) for g in frame[y * 720 + 1:(y + 1) * 720:3]) for y in range(160)))
    larger(folder / "large.png", (1280, 720), frame)
    larger(folder / "wide.png", (2000, 131), frame)
    if here("pnmtojpeg"):
        with open(folder / "in.jpg", "wb") as file:
            subprocess.run(["pnmtojpeg", folder / "frame.ppm"], check=True, stdout=file)
    elif here("convert"):
        run("convert", folder / "frame.ppm", folder / "in.jpg")
    if here("ffmpeg"):
        run("ffmpeg", "-v", "error", "-framerate", "5", "-loop", "1", "-t", "1", "-i", folder / "frame.ppm", "-pix_fmt", "yuv420p", folder / "in.mp4")


# ---------------------------------------------------------------------------
# What a block needs, and whether it is here
# ---------------------------------------------------------------------------

BEFORE_COMMAND = {"do", "then", "else", "if", "while", "until", "!", "{", "("}
NO_COMMAND = {"for", "done", "fi", "}", ")", "cd", "echo", "printf", "exit", "set", "test", ":", "true", "false"}
SAYS = {"convert": "ImageMagick", "gimp": " 2."}    # what must stand in the version of a program, where another may have its name


def here(name, known={}):
    if name not in known:
        known[name] = bool(shutil.which(name))
        if known[name] and name in SAYS:
            known[name] = SAYS[name] in subprocess.run([name, "--version"], stdin=subprocess.DEVNULL, capture_output=True, text=True).stdout
    return known[name]


def programs(text):
    """The first word of each command."""
    lexer = shlex.shlex(text.replace("\\\n", ""), posix=True, punctuation_chars="|;&<>\n")
    lexer.whitespace, lexer.whitespace_split = " \t", True
    found, at_command = [], True
    for word in lexer:
        if set(word) <= set("|;&\n"):
            at_command = True
        elif at_command and word not in BEFORE_COMMAND:
            found += [word] * (word not in NO_COMMAND)
            at_command = False
    return found


def modules(text):
    return re.findall(r"^(?:import|from) (\w+)", text, re.M)


def has(python, module, known={}):
    if (python, module) not in known:
        tried = subprocess.run([python, "-c", "import " + module], stdin=subprocess.DEVNULL, stdout=subprocess.DEVNULL, stderr=subprocess.DEVNULL)
        known[python, module] = tried.returncode == 0
    return known[python, module]


def command_of(block):
    """What runs the block, or else the first thing that is missing."""
    if block.kind == "sh":
        missing = [name for name in programs(block.text) if not here(name)]
        return ["sh", "-e", "-c", block.text], missing[0] if missing else None
    wanted, pythons = modules(block.text), [python for python in PYTHONS if shutil.which(python)]
    for python in pythons:
        if all(has(python, module) for module in wanted):
            return [python, "-c", block.text], None
    return [], next(module for module in wanted if not any(has(python, module) for python in pythons))


# ---------------------------------------------------------------------------
# The run
# ---------------------------------------------------------------------------

def wrong(block, command, folder, home):
    """What is wrong with what the block did, or None. What a shell's programs keep at home goes into a folder of the test."""
    environment = {**os.environ, "HOME": str(home)} if block.kind == "sh" else None
    try:
        done = subprocess.run(command, cwd=folder, stdin=subprocess.DEVNULL, capture_output=True, timeout=300, env=environment)
    except subprocess.TimeoutExpired:
        return "it does not end"
    if done.returncode:
        return "status %d, and on standard error: %s" % (done.returncode, done.stderr.decode(errors="replace").strip())
    said = done.stdout.decode(errors="replace")
    return None if said == block.wanted else "it printed:\n" + said


def put_on_path(words, folder):
    """A `haze` that calls the command, before all else on the path."""
    haze = folder / "haze"
    haze.write_text('#!/bin/sh\nexec %s "$@"\n' % shlex.join(os.path.abspath(word) if os.path.exists(word) else word for word in words))
    haze.chmod(0o755)
    os.environ["PATH"] = str(folder) + os.pathsep + os.environ.get("PATH", os.defpath)
    return haze


def main(words):
    if not words:
        sys.exit(__doc__)
    ran, failed, skipped = 0, 0, collections.Counter()
    with tempfile.TemporaryDirectory() as place:
        start, own = Path(place, "start"), Path(place, "own")
        start.mkdir()
        own.mkdir()
        begin(start, put_on_path(words, own))
        for block in blocks((ROOT / PAGE).read_text()):
            command, missing = command_of(block)
            if missing:
                skipped[missing] += 1
                continue
            folder = Path(place, str(block.line))
            shutil.copytree(start, folder)
            why = wrong(block, command, folder, own)
            shutil.rmtree(folder)
            ran += 1
            if why:
                failed += 1
                print(f"recipes: {PAGE}:{block.line}: {why}")
    want = "; skipped for want of " + ", ".join(f"{name}: {count}" for name, count in skipped.items()) if skipped else ""
    if failed:
        print(f"recipes: {failed} of {ran} blocks of {PAGE} FAILED{want}")
        sys.exit(1)
    print(f"recipes: {ran} blocks of {PAGE} run as they stand{want}")


main(sys.argv[1:])
