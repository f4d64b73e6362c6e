/* The rules of document 01, under a mask, the comparisons of the block method, and relative depth, in C, written for speed and exact: what the library is held
 * against, in results by the stress program and in time by the bench. It is handed the library's structs. One thread, nothing allocated: the caller lends a
 * scratch of peer_scratch(W, H) bytes, which is no part of the rules and stays as it falls.
 * Each function answers 0 or the refusal number, and a refusal writes nothing. There is no work area, and so no refusal of one. */
#ifndef PEER_H
#define PEER_H
#include <stddef.h>
#include <stdint.h>
#include "haze.h"

size_t peer_scratch(uint32_t W, uint32_t H);

int peer_light(uint32_t W, uint32_t H, const struct haze_settings *st, const uint8_t *mask, size_t mask_len,
               const uint8_t *frame, size_t frame_len, struct haze_lights *lights, uint64_t *comparisons, void *scratch);
int peer_clear(uint32_t W, uint32_t H, const struct haze_settings *st, const struct haze_lights *lights,
               const uint8_t *mask, size_t mask_len, const uint8_t *frame, size_t frame_len,
               uint16_t *map, size_t map_len, uint8_t *pic, size_t pic_len, uint64_t *comparisons, void *scratch);
int peer_replace(uint32_t W, uint32_t H, const struct haze_settings *st, const struct haze_lights *lights,
                 const struct haze_rect *rect, const uint8_t *px, size_t px_len,
                 const uint8_t *mask, size_t mask_len, uint8_t *frame, size_t frame_len,
                 uint16_t *map, size_t map_len, uint8_t *pic, size_t pic_len, uint64_t *comparisons, void *scratch);

/* Of a whole frame; 0 for a size or a radius that is refused. */
uint64_t peer_comparisons(uint32_t W, uint32_t H, uint64_t s);

int peer_add(uint32_t W, uint32_t H, const struct haze_rgb *light, const uint8_t *clean, size_t clean_len,
             const uint16_t *map, size_t map_len, uint8_t *hazy, size_t hazy_len);
int peer_band(uint32_t W, uint32_t H, const uint16_t *map, size_t map_len,
              uint32_t from, uint32_t to, double *mean, double *least);
int peer_depths(uint32_t W, uint32_t H, const uint16_t *map, size_t map_len,
                uint16_t *depths, size_t depths_len);
#endif
