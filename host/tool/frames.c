#include "frames.h"
#include <stdio.h>
#include <string.h>
#include "haze.h"
#include "memory.h"
#include "netpbm.h"
#include "refusals.h"

frame new_frame(uint64_t w, uint64_t h)
{
    size_t length = 3 * (size_t)w * (size_t)h;
    return (frame){w, h, memory(length), length};
}

map new_map(uint64_t w, uint64_t h)
{
    size_t count = (size_t)w * (size_t)h;
    return (map){w, h, memory(count * sizeof(uint16_t)), count};
}

mask new_mask(uint64_t w, uint64_t h)
{
    size_t length = (size_t)w * (size_t)h;
    return (mask){w, h, memset(memory(length), 1, length), length};
}

/* ---- frames */

/* The number for the whole file. Where header, size or maximum is refused, no byte behind the header can change it, and none is read. */
static int judge_frame(netpbm *n, uint8_t *number)
{
    uint64_t w, h;
    *number = haze_ppm_size(n->bytes, n->length, &w, &h);
    if (*number && *number != HAZE_BAD_LENGTH) return 0;
    if (read_samples(n, 3 * n->w * n->h)) return 1;
    *number = haze_ppm_size(n->bytes, n->length, &w, &h);
    return 0;
}

static int take_frame(netpbm *n, frame *f)
{
    uint64_t w, h;
    uint8_t number;
    if (judge_frame(n, &number)) return 1;
    if (number) return refuse_frame(n, number, 3 * n->w * n->h);
    *f = new_frame(n->w, n->h);
    haze_ppm_read(n->bytes, n->length, f->bytes, f->length, &w, &h); /* what haze_ppm_size took is taken, into a frame of its length */
    return 0;
}

int read_frame(const char *path, frame *f)
{
    netpbm n;
    int failed = open_netpbm(&n, path, '6') || take_frame(&n, f);
    close_netpbm(&n);
    return failed;
}

content frame_file(const frame *f)
{
    size_t length = haze_ppm_length(f->w, f->h);
    content file = {memory(length), length};
    haze_ppm_write(f->w, f->h, f->bytes, f->length, file.bytes, file.length); /* every frame here has a size that the library took, and its length */
    return file;
}

/* ---- masks, maps and depths */

/* A sample has two bytes, the high one first, from the maximum 256 on. */
static size_t sample_bytes(const netpbm *n) { return n->maximum < 256 ? 1 : 2; }

static size_t samples_length(const netpbm *n) { return sample_bytes(n) * n->w * n->h; }

/* Whether the maximum does, which in a PGM file is 1 to 65535. */
static int good_maximum(const netpbm *n, taking how, uint64_t *top)
{
    if (!*top && how == EXACT && n->maximum == HAZE_DEEPEST) *top = HAZE_DEEPEST;
    if (!*top && (how != EXACT || n->maximum == ALL_THROUGH)) *top = ALL_THROUGH;
    return how == EXACT ? *top && n->maximum == *top : n->maximum >= 1 && n->maximum <= UINT16_MAX;
}

/* As a PPM file is judged: 11, 1, 12, 13. */
static int judge_numbers(netpbm *n, int has_good_maximum, uint8_t *number)
{
    *number = n->number;
    if (!*number && !haze_ppm_length(n->w, n->h)) *number = HAZE_BAD_SIZE;
    if (!*number && !has_good_maximum) *number = HAZE_BAD_MAXIMUM;
    if (*number) return 0;
    if (read_samples(n, samples_length(n))) return 1;
    if (n->length - n->start != samples_length(n)) *number = HAZE_BAD_LENGTH;
    return 0;
}

/* To the nearest, halves up. What is above its maximum is no sample, and becomes what no map and no depth takes. */
static uint16_t scaled(uint64_t sample, uint64_t maximum, uint64_t top)
{
    return (uint16_t)(sample <= maximum ? (2 * sample * top + maximum) / (2 * maximum) : UINT16_MAX);
}

static void take_samples(const netpbm *n, taking how, uint64_t top, map *m)
{
    const uint8_t *at = n->bytes + n->start;
    size_t i, step = sample_bytes(n);
    for (i = 0; i < m->count; i++, at += step) {
        uint64_t sample = step == 1 ? at[0] : 256u * at[0] + at[1];
        m->entries[i] = how == SCALED ? scaled(sample, n->maximum, top) : (uint16_t)sample;
    }
}

static int take_numbers(netpbm *n, taking how, uint64_t *top, map *m)
{
    uint8_t number;
    uint64_t wanted = *top;
    if (judge_numbers(n, good_maximum(n, how, top), &number)) return 1;
    if (number) return refuse_numbers(n, number, how, wanted, samples_length(n));
    *m = new_map(n->w, n->h);
    take_samples(n, how, *top, m);
    return 0;
}

int read_numbers(const char *path, taking how, uint64_t *top, map *m)
{
    netpbm n;
    int failed = open_netpbm(&n, path, '5') || take_numbers(&n, how, top, m);
    close_netpbm(&n);
    return failed;
}

int read_map(const char *path, taking how, map *m)
{
    uint64_t top = ALL_THROUGH;
    return read_numbers(path, how, &top, m);
}

static int take_mask(netpbm *n, mask *m)
{
    uint8_t number;
    if (judge_numbers(n, n->maximum == BYTES_MOST, &number)) return 1;
    if (number) return refuse_mask(n, number, samples_length(n));
    *m = new_mask(n->w, n->h);
    memcpy(m->bytes, n->bytes + n->start, m->length);
    return 0;
}

int read_mask(const char *path, mask *m)
{
    netpbm n;
    int failed = open_netpbm(&n, path, '5') || take_mask(&n, m);
    close_netpbm(&n);
    return failed;
}

content map_file(const map *m, uint64_t maximum)
{
    char header[sizeof "P5\n1024 1024\n10000\n"];
    size_t i, start = (size_t)snprintf(header, sizeof header, "P5\n%d %d\n%d\n", (int)m->w, (int)m->h, (int)maximum);
    content file = {memory(start + 2 * m->count), start + 2 * m->count};
    uint8_t *at = file.bytes + start;
    memcpy(file.bytes, header, start);
    for (i = 0; i < m->count; i++) {
        *at++ = (uint8_t)(m->entries[i] / 256);
        *at++ = (uint8_t)(m->entries[i] % 256);
    }
    return file;
}
