#include "memory.h"
#include <stdlib.h>
#include "say.h"

void *resized(void *old, size_t n)
{
    void *room = realloc(old, n);
    if (!room) exit(say("there is not enough memory"));
    return room;
}

void *memory(size_t n) { return resized(NULL, n ? n : 1); }
