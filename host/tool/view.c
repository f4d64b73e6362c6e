#include "view.h"
#include <stdio.h>
#include <string.h>
#include "colours.h"
#include "glyphs.h"

const view_kind view_map = {10000, 10000, LEVELS - 1, {0, 2500, 5000, 7500, 10000}, "transmission: 10000 lets all through"};

/* With the usual omega a coarse transmission is at least 500 of 10000, which is depth 299; so nine tenths of the scale are for the depths up to 300. */
const view_kind view_depth = {918, 300, (LEVELS - 1) * 9 / 10, {0, 100, 200, 300, 918}, "depth: 0 is nearest, 918 farthest"};

static const colour ground = {255, 255, 255}, ink = {0, 0, 0};

/* ---- where things stand in the legend */

#define MARGIN 8
#define EDGE 1 /* round the bar, without which its yellow would fade into the ground */
#define BAR_HEIGHT 16
#define TICK_HEIGHT 4
#define SIDE 18 /* beside the bar: half of the five digits under its last column, and some ground */

/* Rows from the legend's first on, and the columns of all. The bar has a column for each level. */
enum {
    TITLE_ROW = MARGIN,
    BAR_ROW = TITLE_ROW + GLYPH_HEIGHT + MARGIN / 2,
    TICK_ROW = BAR_ROW + BAR_HEIGHT + EDGE,
    NUMBER_ROW = TICK_ROW + TICK_HEIGHT + MARGIN / 4,
    LEGEND_HEIGHT = NUMBER_ROW + GLYPH_HEIGHT + MARGIN,
    LEGEND_WIDTH = SIDE + LEVELS + SIDE,
};

void view_size(uint64_t w, uint64_t h, uint64_t *width, uint64_t *height)
{
    *width = w > LEGEND_WIDTH ? w : LEGEND_WIDTH;
    *height = h + LEGEND_HEIGHT;
}

/* ---- drawing */

typedef struct { uint8_t *pixels; uint64_t width; } picture;

static void dot(const picture *p, uint64_t x, uint64_t y, colour c)
{
    uint8_t *at = p->pixels + 3 * (y * p->width + x);
    at[0] = c.red;
    at[1] = c.green;
    at[2] = c.blue;
}

static void rectangle(const picture *p, uint64_t x, uint64_t y, uint64_t w, uint64_t h, colour c)
{
    uint64_t i;
    for (i = 0; i < w * h; i++) dot(p, x + i % w, y + i / w, c);
}

static void letter(const picture *p, uint64_t x, uint64_t y, char which)
{
    uint64_t i;
    for (i = 0; i < GLYPH_WIDTH * GLYPH_HEIGHT; i++)
        if (glyph_dot(which, i % GLYPH_WIDTH, i / GLYPH_WIDTH)) dot(p, x + i % GLYPH_WIDTH, y + i / GLYPH_WIDTH, ink);
}

static void words(const picture *p, uint64_t x, uint64_t y, const char *text)
{
    for (; *text; text++, x += GLYPH_WIDTH) letter(p, x, y, *text);
}

/* With its middle at column x. The last letter's gap does not count. */
static void number(const picture *p, uint64_t x, uint64_t y, uint64_t n)
{
    char text[sizeof "65535"];
    snprintf(text, sizeof text, "%d", (int)n);
    words(p, x - (strlen(text) * GLYPH_WIDTH - 1) / 2, y, text);
}

/* ---- the scale */

/* So many levels for n of so many numbers, to the nearest. */
static uint64_t share(uint64_t n, uint64_t numbers, uint64_t levels) { return (n * levels + numbers / 2) / numbers; }

static uint64_t level(const view_kind *kind, uint64_t n)
{
    if (n <= kind->bend) return share(n, kind->bend, kind->bend_level);
    return kind->bend_level + share(n - kind->bend, (uint64_t)(kind->top - kind->bend), (uint64_t)(LEVELS - 1 - kind->bend_level));
}

static void bar(const picture *p, uint64_t y, const colour *scale)
{
    uint64_t n;
    rectangle(p, SIDE - EDGE, y - EDGE, LEVELS + 2 * EDGE, BAR_HEIGHT + 2 * EDGE, ink);
    for (n = 0; n < LEVELS; n++) rectangle(p, SIDE + n, y, 1, BAR_HEIGHT, scale[n]);
}

/* With its number. The legend is given by its first row. */
static void tick(const picture *p, uint64_t legend, const view_kind *kind, uint64_t n)
{
    uint64_t x = SIDE + level(kind, n);
    rectangle(p, x, legend + TICK_ROW, 1, TICK_HEIGHT, ink);
    number(p, x, legend + NUMBER_ROW, n);
}

static void ticks(const picture *p, uint64_t legend, const view_kind *kind)
{
    int k;
    for (k = 0; k < VIEW_TICKS; k++) tick(p, legend, kind, kind->ticks[k]);
}

static void map(const picture *p, const view_kind *kind, const uint16_t *entries, uint64_t w, uint64_t h, const colour *scale)
{
    uint64_t i;
    for (i = 0; i < w * h; i++) dot(p, i % w, i / w, scale[level(kind, entries[i])]);
}

void view_draw(const view_kind *kind, const uint16_t *entries, uint64_t w, uint64_t h, uint8_t *pixels)
{
    colour scale[LEVELS];
    picture p = {pixels, 0};
    uint64_t height;
    view_size(w, h, &p.width, &height);
    colours(scale);
    rectangle(&p, 0, 0, p.width, height, ground);
    map(&p, kind, entries, w, h, scale);
    words(&p, SIDE, h + TITLE_ROW, kind->title);
    bar(&p, h + BAR_ROW, scale);
    ticks(&p, h, kind);
}
