/* A frame, its mask, and what is worked out of them: light, map and cleared picture. */
#ifndef CLEARING_H
#define CLEARING_H
#include "frames.h"
#include "haze.h"
#include "words.h"

/* How a step went: done; failed, which was said; or refused for the words, so that it would be refused for every other frame too. */
enum { DONE, FAILED, WRONG_WORDS };

typedef struct {
    const char *path;
    frame in, picture;
    mask seen; /* of the frame's size */
    map through;
    struct haze_lights lights;
    uint64_t comparisons; /* of the frame, the same for finding the light and for clearing */
    int compared;         /* whether one of the two was done */
    double reading, finding, clearing, last; /* milliseconds; and when the last step ended */
} clearing;

/* The frame is read and its light found, or taken from the words; its mask is that of the words, or shows every pixel. What was made is to be
 * freed, however it went. */
int begin_clearing(clearing *c, const char *path, const words *w);

/* Then it is cleared. */
int clear_frame(clearing *c, const words *w);

void free_clearing(clearing *c);

/* That the light of the words is refused. */
int refuse_light(const words *w);

/* With -v: the light, the comparisons if there were any to make, and how long each step took; the last one is called by its name. */
void tell_times(clearing *c, const words *w, const char *step);
#endif
