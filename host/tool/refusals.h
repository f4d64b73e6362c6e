/* Refusals: the number, what it means, what it is about, and what helps. Each answers 1, the status of a run that failed. */
#ifndef REFUSALS_H
#define REFUSALS_H
#include <stddef.h>
#include <stdint.h>
#include "frames.h"
#include "netpbm.h"

/* `WHAT: refused NUMBER: its meaning`, and what the format adds behind it. */
int refuse(const char *what, uint8_t number, const char *format, ...) __attribute__((format(printf, 3, 4)));

/* A file that should be a frame, of which the pixels take so many bytes. */
int refuse_frame(const netpbm *n, uint8_t number, size_t pixels);

/* A file that should be a mask. */
int refuse_mask(const netpbm *n, uint8_t number, size_t samples);

/* A mask or a map, as the word says, of another size than its frame. */
int refuse_shape(const char *word, const char *path, uint64_t w, uint64_t h, const char *of, const frame *f);

/* A file that should be a map, or depths, whose maximum should be this, or either where it is 0. */
int refuse_numbers(const netpbm *n, uint8_t number, taking how, uint64_t maximum, size_t samples);
#endif
