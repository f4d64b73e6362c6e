/* Pictures of maps and of depths: the numbers in colours, and a legend under them. The colour of a number is the same in every picture of its kind, so two
 * pictures can be held against each other. */
#ifndef VIEW_H
#define VIEW_H
#include <stdint.h>

#define VIEW_TICKS 5

/* What the numbers are. The scale runs evenly up to the bend, and evenly from there up to the top. */
typedef struct {
    uint16_t top;               /* the greatest number; it has the last colour of the scale */
    uint16_t bend, bend_level;  /* a number, and the level of its colour */
    uint16_t ticks[VIEW_TICKS]; /* for the legend: numbers that stand well apart under the bar */
    const char *title;          /* in letters that glyphs.h has, and no wider than the bar */
} view_kind;

extern const view_kind view_map;
extern const view_kind view_depth;

/* Width and height of the picture of a map of w by h: the map with a legend under it, wide enough for the legend. */
void view_size(uint64_t w, uint64_t h, uint64_t *width, uint64_t *height);

/* The picture's pixels, 3 bytes each, row after row, into 3 * width * height bytes. The map stands at the top left, one pixel for an entry.
 * Every entry is at most kind->top. */
void view_draw(const view_kind *kind, const uint16_t *entries, uint64_t w, uint64_t h, uint8_t *pixels);
#endif
