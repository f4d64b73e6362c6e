/* A scale of colours for numbers: from deep blue over teal and green to yellow, and evenly from dark to bright. The order can be read from the lightness
 * alone: by those who take some hues for one, and from a print in greys. */
#ifndef COLOURS_H
#define COLOURS_H
#include <stdint.h>

/* As many as have colours of their own. With more, the rounding to bytes would make some colours darker than the one before. */
#define LEVELS 256

typedef struct { uint8_t red, green, blue; } colour;

void colours(colour scale[LEVELS]);
#endif
