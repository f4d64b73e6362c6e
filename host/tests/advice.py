"""What help and docs say about pictures, measured anew: how far depth misleads, and what the settings do against noise, halos and the machine's own hood."""

import random
import statistics
import subprocess
import sys
from pathlib import Path

from common import ROOT, check, done, ppm, put

TOOL, README = ((ROOT / name).read_text() for name in ("docs/TOOL.md", "README.md"))


def numbers(name):
    """Width and the numbers of a map or of depths, as the tool writes them."""
    _, size, _, data = Path(name).read_bytes().split(b"\n", 3)
    return int(size.split()[0]), [256 * high + low for high, low in zip(data[::2], data[1::2])]


def part(name, column, row, width, height):
    W, values = numbers(name)
    return [values[y * W + x] for y in range(row, row + height) for x in range(column, column + width)]


def misleading():
    """The post is nearer than the mountain and reads as farther off, and so does the snow. The figures are those of docs/TOOL.md."""
    script = [sys.executable, "-I", ROOT / "examples/misleading.py"]
    places = [line.split() for line in subprocess.run([*script, "--places"], capture_output=True, text=True, check=True).stdout.splitlines()]
    read = {}
    for words in ([], ["--snow"]):
        subprocess.run([*script, "in.ppm", *words], check=True)
        done(["depth", "in.ppm", "depth.pgm"])
        read[bool(words)] = {name: statistics.mean(part("depth.pgm", *map(int, place))) for name, *place, _ in places}
    metres = {name: float(place[-1]) for name, *place in places}
    check(metres["post"] < metres["mountain"] / 100 and metres["snow"] < metres["mountain"] / 90, metres)
    check(read[False]["grass"] < read[False]["mountain"] < read[False]["post"] and read[True]["snow"] > 3 * read[True]["mountain"], read)
    for wanted in ("a white post 4 metres off reads as %.0f, the mountain behind it, 480 metres off, as %.0f, the grass around the post as %.0f" %
                   tuple(read[False][name] for name in ("post", "mountain", "grass")), "near snow reads as %.0f, about as far as the sky (%.0f)" %
                   tuple(read[True][name] for name in ("snow", "sky"))):
        check(wanted in TOOL, "docs/TOOL.md does not say:", wanted)


SIZE = (480, 240)
SKY = ["light=216,221,226"]


def scene(name, thing=()):
    """A sky of thick fog with noise of up to two levels either way, and a thing before it: its columns are dark from row 80 on."""
    draw, pixels = random.Random(7), bytearray()
    for y in range(SIZE[1]):
        for x in range(SIZE[0]):
            dark = x in thing and y >= 80
            pixels += bytes(c + draw.randint(-2, 2) for c in ((40, 52, 38) if dark else (214, 219, 224)))
    put(name, ppm(SIZE, pixels))


def noise():
    """What clearing makes of the noise in a foggy sky: as much more as t0 lets it, which is 10000/t0."""
    scene("in.ppm")
    for t0 in (1000, 2000, 3000, 5000):
        done(["clear", "in.ppm", "out.ppm", f"t0={t0}", *SKY])
        spread = [statistics.pstdev(Path(name).read_bytes()[15::3]) for name in ("in.ppm", "out.ppm")]
        check(0.95 < spread[1] / spread[0] / (10000 / t0) < 1.05, t0, spread)


def off_by(words):
    """How far the sky's map is off beside a dark post, from what it is without the post: within 20 pixels of it, and from 40 to 60."""
    for name in ("post", "sky"):
        done(["map", name + ".ppm", name + ".pgm", *SKY, *words])
    return [statistics.mean(abs(a - b) for a, b in zip(part("post.pgm", *place), part("sky.pgm", *place))) for place in ((240, 100, 20, 120), (280, 100, 20, 120))]


def halos():
    """s=3 halves them, s=15 doubles them; r=60 lessens them beside the thing and makes them wider."""
    scene("sky.ppm")
    scene("post.ppm", range(200, 240))
    usual, wide, small, large = (off_by(words) for words in ((), ["r=60"], ["s=3"], ["s=15"]))
    check(0.4 * usual[0] < wide[0] < 0.9 * usual[0] and wide[1] > 1.5 * usual[1], "r=60", usual, wide)
    check(small[0] < 0.55 * usual[0] and small[1] < 0.55 * usual[1] and large[0] > 1.7 * usual[0], "s=3, s=15", usual, small, large)


def above(mask, rows):
    """The places up to so many rows above what a mask hides at the bottom of each column."""
    W, H = map(int, mask.split(b"\n")[1].split())
    seen = mask[-W * H:]
    for x in range(W):
        edge = next(y for y in range(H) if not seen[y * W + x])
        yield from (y * W + x for y in range(edge - rows, edge))


def hood():
    """The hood keeps haze on the field above it, and under its mask it does not. The figures are those of docs/TOOL.md and of the README."""
    for name, words in (("field.ppm", []), ("hood.ppm", ["--hood"]), ("mask.pgm", ["--mask"])):
        subprocess.run([sys.executable, "-I", ROOT / "examples/photo.py", name, *words], check=True)
    near = list(above(Path("mask.pgm").read_bytes(), 7))
    means = []
    for name, words in (("field.ppm", []), ("hood.ppm", []), ("hood.ppm", ["mask=mask.pgm"])):
        done(["map", name, "map.pgm", *words])
        entries = numbers("map.pgm")[1]
        means.append(statistics.mean(entries[p] for p in near))
    check(means[1] > means[0] + 1000 and abs(means[2] - means[0]) < 100, means)
    wanted = "in the seven rows above it the map is %.0f on average without a mask, %.0f with it" % tuple(means[1:])
    check(wanted in README and wanted + ", and %.0f where there is no hood" % means[0] in TOOL, "README.md or docs/TOOL.md does not say:", wanted, means)


ALL = (misleading, noise, halos, hood)
