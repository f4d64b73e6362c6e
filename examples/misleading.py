"""Makes a frame whose depths mislead: a white gate post in a meadow, a mountain in haze behind it; or the same with near snow.

    python3 -I examples/misleading.py OUT.ppm           the post in the meadow
    python3 -I examples/misleading.py OUT.ppm --snow    a bank of snow lies on the near meadow as well
    python3 -I examples/misleading.py --places          which rectangle shows what: name, column, row, width, height, metres

Depth is read from the haze, and what is white or grey by itself looks like haze: see docs/TOOL.md.
As in photo.py, each pixel's distance is kept and haze is laid on by distance; every machine makes the same bytes.
"""

import sys
from pathlib import Path

sys.dont_write_bytecode = True
sys.path.insert(0, str(Path(__file__).resolve().parent))
from painting import Noise, held, let_through, shaded, write

W, H = 240, 160
HORIZON = 62            # the row where endless ground would end
FOCAL = 240.0           # pixels for a metre at one metre's distance
HEIGHT = 1.6            # of the camera, metres
POST, MOUNTAIN, SKY = 4.4, 480.0, 2400.0        # metres
POST_LEFT, POST_RIGHT, POST_TOP = 144, 172, 44  # columns and row; its foot is where the ground is as far off
SNOW_LEFT, SNOW_RIGHT, SNOW_TOP = 0, 100, 106
THICKNESS = 0.0012      # what a metre of haze takes
LIGHT = (214.0, 219.0, 224.0)
FOOT = HORIZON + int(FOCAL * HEIGHT / POST)

# name, column, row, width, height, metres: well inside of each thing; the snow's is grass where there is no snow
PLACES = (
    ("sky", 10, 4, 220, 14, SKY),
    ("mountain", 84, 46, 56, 14, MOUNTAIN),
    ("post", POST_LEFT + 4, POST_TOP + 6, POST_RIGHT - POST_LEFT - 8, FOOT - POST_TOP - 12, POST),
    ("grass", POST_RIGHT + 8, 120, 48, 28, 5.4),
    ("snow", SNOW_LEFT + 12, 118, 64, 36, 5.3),
)


noise = Noise(64)


# ---------------------------------------------------------------------------
# What stands at a pixel: its colour and how far off it is
# ---------------------------------------------------------------------------

def sky(x, y):
    white = held(0.5 + 0.4 * noise(x / 60.0, y / 14.0))
    return tuple(c + (w - c) * white for c, w in zip((150.0, 180.0, 216.0), (222.0, 223.0, 225.0))), SKY


def ridge(x):
    """The row of the mountain's outline."""
    return 34.0 + abs(x - 118.0) * 0.14 + 5.0 * noise(x / 24.0, 3.0) + 1.5 * noise(x / 6.0, 9.0)


def mountain(x, y):
    """Woods and rock."""
    rock = held(0.5 + 0.9 * noise(x / 13.0, y / 7.0))
    light = 0.85 + 0.25 * noise(x / 3.0, y / 3.0)
    return shaded(tuple(a + (b - a) * rock for a, b in zip((52.0, 66.0, 44.0), (96.0, 88.0, 76.0))), light), MOUNTAIN


def meadow(x, y, snow):
    z = FOCAL * HEIGHT / (y + 0.5 - HORIZON)
    across = (x + 0.5 - W / 2) * z / FOCAL
    edge = SNOW_RIGHT - abs(y - 140.0) * 0.4 + 8.0 * noise(x / 9.0, y / 9.0)
    if snow and y > SNOW_TOP + 3.0 * noise(x / 8.0, 1.0) and x < edge:
        return shaded((236.0, 239.0, 243.0), 0.96 + 0.035 * noise(across * 3.0, z * 2.0)), z
    blade = noise(x / 1.5, y / 4.0)
    light = held(0.9 + 0.35 * blade + 0.2 * noise(across * 2.0, z), 0.3, 1.5)
    return shaded((92.0, 128.0, 48.0), light), z


def post(x, y):
    """Whitewashed, lit from the left."""
    across = (x + 0.5 - POST_LEFT) / (POST_RIGHT - POST_LEFT)
    return shaded((240.0, 239.0, 234.0), 1.0 - 0.12 * across + 0.02 * noise(x / 2.0, y / 5.0)), POST


def seen(x, y, snow):
    if POST_LEFT <= x < POST_RIGHT and POST_TOP <= y < FOOT:
        return post(x, y)
    if y > HORIZON:
        return meadow(x, y, snow)
    return mountain(x, y) if y > ridge(x) else sky(x, y)


def main(words):
    if words == ["--places"]:
        for place in PLACES:
            print("%s %d %d %d %d %.1f" % place)
        return
    if len(words) not in (1, 2) or words[1:] not in ([], ["--snow"]):
        sys.exit("usage: misleading.py OUT.ppm [--snow], or misleading.py --places")
    painted = (seen(x, y, bool(words[1:])) for y in range(H) for x in range(W))
    write(words[0], (W, H), ((colour, let_through(z, THICKNESS)) for colour, z in painted), LIGHT)


if __name__ == "__main__":
    main(sys.argv[1:])
