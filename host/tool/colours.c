/* The scale is a helix in Oklab, a space of colours in which equal distances look equally far (B. Ottosson, "A perceptual color space for image processing",
 * 2020). From level to level its lightness rises by one amount, and its hue and strength turn by one angle about an axis beside the greys. So all neighbours
 * are equally far from each other, up to the rounding to bytes.
 *
 * Only sums, products and quotients of doubles are used, which IEEE 754 fixes to the bit, so every machine works out the same bytes. No channel comes nearer
 * to the middle between two bytes than 0.0003 of a byte; so a compiler that rounds a product and a sum at once, instead of one by one, gets them too. */
#include "colours.h"

/* a goes from green to red, b from blue to yellow. */
typedef struct { double lightness, a, b; } oklab;

/* Amounts of light: 0 is none, 1 the most that a screen has. */
typedef struct { double red, green, blue; } light;

/* The helix. It lies wholly within the colours of a screen, and the distances of its levels by the older measures, CIE 1976 and CIEDE2000, are even within a
 * factor of 1.5. Among such helices it was chosen for the little that rounding to bytes does to its steps. */
#define DARKEST 0.295
#define BRIGHTEST 0.95
#define AXIS_A 0.11
#define AXIS_B 0.05
#define FIRST_A (-0.065) /* from the axis to the first level, which is a deep blue */
#define FIRST_B (-0.205)
#define TURN 0.0037 /* the tangent of half the angle from level to level: 108 degrees in all */

static double cube(double x) { return x * x * x; }

/* Clockwise, where a points right and b up: from blue over green to yellow. */
static oklab next(oklab c)
{
    const double cosine = (1 - TURN * TURN) / (1 + TURN * TURN), sine = 2 * TURN / (1 + TURN * TURN);
    double a = c.a - AXIS_A, b = c.b - AXIS_B;
    oklab turned = {c.lightness + (BRIGHTEST - DARKEST) / (LEVELS - 1), AXIS_A + cosine * a + sine * b, AXIS_B + cosine * b - sine * a};
    return turned;
}

/* As the paper has it: what the three kinds of cones in the eye answer, and from that the light. */
static light light_of(oklab c)
{
    double l = cube(c.lightness + 0.3963377774 * c.a + 0.2158037573 * c.b);
    double m = cube(c.lightness - 0.1055613458 * c.a - 0.0638541728 * c.b);
    double s = cube(c.lightness - 0.0894841775 * c.a - 1.2914855480 * c.b);
    light amounts = {4.0767416621 * l - 3.3077115913 * m + 0.2309699292 * s, -1.2684380046 * l + 2.6097574011 * m - 0.3413193965 * s,
                     -0.0041960863 * l - 0.7034186147 * m + 1.7076147010 * s};
    return amounts;
}

/* Whether an amount of light is at least that of a channel's value, of 0 to 1, by the sRGB standard (IEC 61966-2-1). The standard's power of 2.4 is the fifth
 * root of the twelfth power; so twelfth and fifth powers are compared, and no root is needed. */
static int reaches(double amount, double value)
{
    double bent = cube((value + 0.055) / 1.055);
    return value <= 0.04045 ? amount >= value / 12.92 : cube(amount) * amount * amount >= bent * bent * bent * bent;
}

/* The byte of a channel whose value is nearest: one more for each middle between two bytes that the light reaches. */
static uint8_t byte_of(double amount)
{
    uint8_t byte = 0;
    while (byte < UINT8_MAX && reaches(amount, (byte + 0.5) / UINT8_MAX)) byte++;
    return byte;
}

void colours(colour scale[LEVELS])
{
    oklab c = {DARKEST, AXIS_A + FIRST_A, AXIS_B + FIRST_B};
    int level;
    for (level = 0; level < LEVELS; level++) {
        light amounts = light_of(c);
        colour rounded = {byte_of(amounts.red), byte_of(amounts.green), byte_of(amounts.blue)};
        scale[level] = rounded;
        c = next(c);
    }
}
