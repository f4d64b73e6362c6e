/* Several frames in one run, each to a file of its own name in a folder. */
#ifndef MANY_H
#define MANY_H
#include "words.h"

/* Every frame in turn. One that fails is said and does not keep the others; one that is refused for the words ends the run. */
int for_many(const words *w, int (*one)(const words *w, const char *in, const char *out));
#endif
