/* Frames, masks, maps and depths in memory; how they are read from files, and the bytes of the files that they are written to. What is refused is said,
 * with its number, the file, and what helps. */
#ifndef FRAMES_H
#define FRAMES_H
#include <stddef.h>
#include <stdint.h>

typedef struct {
    uint64_t w, h;
    uint8_t *bytes;
    size_t length;
} frame;

/* One byte a pixel: 0 hides it, any other shows it. */
typedef struct {
    uint64_t w, h;
    uint8_t *bytes;
    size_t length;
} mask;

/* A map, or depths. */
typedef struct {
    uint64_t w, h;
    uint16_t *entries;
    size_t count;
} map;

/* The bytes of a file. */
typedef struct {
    uint8_t *bytes;
    size_t length;
} content;

#define ALL_THROUGH 10000 /* the maximum of a file of a map */
#define BYTES_MOST 255    /* the maximum of a file of a mask */

/* How the numbers in a file of a map or of depths are taken: as they are with the maximum that they should have; whatever it is; or with it as that one. */
typedef enum { EXACT, RAW, SCALED } taking;

frame new_frame(uint64_t w, uint64_t h);
map new_map(uint64_t w, uint64_t h);

/* That shows every pixel. */
mask new_mask(uint64_t w, uint64_t h);

/* Each answers 0, or 1 when it has said why not; then there is nothing to free. */
int read_frame(const char *path, frame *f);
int read_mask(const char *path, mask *m);
int read_map(const char *path, taking how, map *m);

/* A map, or depths: top says which, ALL_THROUGH or HAZE_DEEPEST. With a top of 0 the file's own maximum does, which then has to be one of the two. */
int read_numbers(const char *path, taking how, uint64_t *top, map *m);

content frame_file(const frame *f);

/* Two bytes a number, so the maximum is at least 256. */
content map_file(const map *m, uint64_t maximum);
#endif
