"""Prints examples/field.txt: a small frame of beet rows in morning haze, in the text that `clearframe` reads.

Two rows of green run toward a vanishing point at the top. Haze thickens with the distance, so the upper lines are nearly
the colour of the light. The same numbers come out each time.
"""

W, H = 24, 18
LIGHT = (214, 221, 228)
SETTINGS = (2, 6, 9500, 59, 1000, 10)
GREEN, SOIL, SKY = (52, 118, 38), (112, 84, 58), (200, 214, 232)


def clean(x, y):
    """The colour without haze: sky above the horizon, then rows of green on soil."""
    if y < 3:
        return SKY
    spread = (y - 2) * 0.55
    grain = (x * 7 + y * 13 + x * y) % 11 - 5
    for centre in (-1.0, 1.0):
        if abs((x - W / 2 + 0.5) - centre * spread) < 0.35 * spread:
            return tuple(c + grain for c in GREEN)
    return tuple(c + grain for c in SOIL)


def transmission(y):
    """In ten-thousandths: little at the horizon, most at the hoe."""
    return 900 if y < 3 else 1200 + (y - 3) * 500


def hazed(byte, light, t):
    return (byte * t + light * (10000 - t) + 5000) // 10000


print("size\t%d\t%d" % (W, H))
print("set\t" + "\t".join(map(str, SETTINGS)))
for row in range(H):
    for column in range(W):
        pixel = clean(column, row)
        print("px\t" + "\t".join(str(hazed(c, a, transmission(row))) for c, a in zip(pixel, LIGHT)))
