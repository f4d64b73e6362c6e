/* Memory, or the end of the program. */
#ifndef MEMORY_H
#define MEMORY_H
#include <stddef.h>

/* n bytes, at least one. */
void *memory(size_t n);

/* The same bytes with room for n. */
void *resized(void *old, size_t n);
#endif
