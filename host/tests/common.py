"""What the tests of the tool share: running it, files, and checks that are counted.

The tool is the command in `tool`, which is run as it is; `checkout` is ./haze, which builds it where it has to.
"""

import os
import platform
import random
import re
import subprocess
import sys
from pathlib import Path

sys.dont_write_bytecode = True
ROOT = Path(__file__).resolve().parent.parent.parent
sys.path.insert(0, str(ROOT / "second"))
import rules

NAMES = ("s", "r", "omega", "e", "t0", "share")
BUILT = ROOT / "target/host/haze"
X86 = platform.machine() == "x86_64"
tool = [str(BUILT)] if Path(str(BUILT) + ".by-itself").exists() else [str(ROOT / "host/under"), str(BUILT)]
sanitized = False
checks = 0


def check(true, *what):
    """Counts, and ends the test with what was seen when it is not as wanted."""
    global checks
    checks += 1
    if not true:
        print("tool: DIFFERS:", *what)
        sys.exit(1)


def haze(*words, command=None, text=True, input=None, **how):
    how.setdefault("stdin", None if input is not None else subprocess.DEVNULL)
    if input is not None:
        del how["stdin"]
    return subprocess.run([*(command or tool), *words], capture_output=True, text=text, input=input, **how)


# ---------------------------------------------------------------------------
# Files
# ---------------------------------------------------------------------------

def ppm(size, frame, maximum=255):
    return b"P6\n%d %d\n%d\n" % (*size, maximum) + bytes(frame)


def pgm(size, map, maximum=10000):
    width = 1 if maximum < 256 else 2
    return b"P5\n%d %d\n%d\n" % (*size, maximum) + b"".join(entry.to_bytes(width, "big") for entry in map)


def put(name, data):
    Path(name).write_bytes(data)
    return name


def seen():
    """All that stands in the folder, links, folders and modes too."""
    return {path: (os.lstat(path).st_mode, os.readlink(path) if path.is_symlink() else path.is_file() and path.read_bytes())
            for path in sorted(Path(".").rglob("*"))}


def hazy(size, seed):
    """A frame of noise under haze that thins from the first row to the last."""
    W, H = size
    draw = random.Random(repr(seed))
    return [(draw.randrange(256) * (y + 1) + 220 * (H - y)) // (H + 1) for y in range(H) for _ in range(3 * W)]


# ---------------------------------------------------------------------------
# What the second program says
# ---------------------------------------------------------------------------

def all_seen(size):
    return [1] * (size[0] * size[1])


def light_of(size, frame, settings=rules.DEFAULTS, mask=None):
    number, values = rules.light(size, settings, mask or all_seen(size), frame, rules.work_needed(size))
    return values and values[0]


def cleared(size, frame, settings=rules.DEFAULTS, light=None, mask=None):
    """Map and picture."""
    mask = mask or all_seen(size)
    light = light or light_of(size, frame, settings, mask)
    number, ((map, picture), comparisons) = rules.clear(size, settings, light, mask, frame, size[0] * size[1], len(frame), rules.work_needed(size))
    check(number == 0, "the second program refuses", size, settings)
    return map, picture


def hazed(size, clean, map, light):
    number, frame = rules.haze(size, light, clean, map, len(clean))
    check(number == 0, "the second program refuses", size, light)
    return frame


# ---------------------------------------------------------------------------
# Runs
# ---------------------------------------------------------------------------

def done(words, *files, said="", **how):
    """A run that ends well and says nothing, or just this; and files, each with its bytes."""
    run = haze(*words, **how)
    check((run.returncode, run.stdout, run.stderr) == (0, "", said), words, run)
    for name, wanted in files:
        check(Path(name).read_bytes() == wanted, words, "wrote another file than the second program's:", name)


def printed(words, wanted, **how):
    run = haze(*words, **how)
    check((run.returncode, run.stdout, run.stderr) == (0, wanted, ""), words, run)


def usage_of(words):
    """The first lines of the command's page, or of the tool's, and where the rest is."""
    page = ROOT / "host/help" / f"{words[0] if words else ''}.txt"
    known = page.exists() and page.stem not in ("settings", "files", "haze")
    text = (page if known else ROOT / "host/help/haze.txt").read_text()
    return text.split("\n\n")[0] + "\n`haze help%s` says more.\n" % (" " + page.stem if known else "")


def refused(words, why, **how):
    """A run that ends with status 1, says why on standard error and leaves the folder as it was, file by file and byte by byte; with the output's name,
    `fresh`, free and taken. `why` is a pattern for the first line; more lines say how the command is used."""
    for old in (None, b"old"):
        if old and "fresh" in words:
            put("fresh", old)
        before = seen()
        run = haze(*words, **how)
        check(run.returncode == 1 and not run.stdout, words, run)
        first, _, rest = run.stderr.partition("\n")
        check(re.fullmatch("haze: " + why, first), words, run.stderr, "is not", why)
        check(rest in ("", usage_of(words)), words, run.stderr)
        check(seen() == before, words, "changed the folder")
    Path("fresh").unlink(missing_ok=True)
