/* Letters made of dots, for legends: digits, small letters, colon, comma and blank. */
#ifndef GLYPHS_H
#define GLYPHS_H
#include <stdint.h>

/* A letter's cell. The last column is the gap to the next letter; the last two rows are for what goes below the line. */
#define GLYPH_WIDTH 6
#define GLYPH_HEIGHT 9

/* Whether a letter has a dot at column x and row y of its cell. Any other letter is as a blank. */
int glyph_dot(char letter, uint64_t x, uint64_t y);
#endif
