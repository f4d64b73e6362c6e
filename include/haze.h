/* Haze: the light of a hazy frame, the frame cleared of its haze, a part of it replaced, haze added, what a band of rows lets through, how many comparisons
 * a frame takes, relative depth, and frames read from PPM files and written to them.
 *
 * A frame is w columns by h rows, row after row from the top, each pixel red, green and blue, one byte each: 3*w*h bytes.
 * A map has one entry a pixel, in ten-thousandths: 10000 is transmission 1.
 * A mask has one byte a pixel, w*h bytes, row after row from the top: 0 hides the pixel, any other byte shows it. A hidden pixel enters nothing: no window, no
 * sum, no number of pixels, and it never gives the light. Its own map entry is 10000, and its colour in the picture is the frame's. Under a mask that shows
 * every pixel nothing is hidden. The mask is lent for reading; through a run of haze_clear and haze_replace it stays the same, as size and settings do.
 * Comparisons are those of the least value over windows of radius s, the dark channel, by the method of blocks: over all rows, then over all columns. A line is
 * cut into blocks of 2s + 1 samples from its first, the last perhaps shorter. A block of k takes 2*(k - 1), and each window, cut off at the line's ends, that
 * reaches into two blocks takes 1 more: at most 3 a sample, so at most 6 a pixel. A hidden pixel counts like any other; those among a pixel's three channels
 * are not in it. So the number depends on w, h and s alone, in haze_replace on r and the rectangle too.
 * The work area is lent by the caller: HAZE_WORK(w, h) entries or more. Nothing is allocated and nothing is kept between two calls.
 *
 * Every function is proved to end, on every input, with the answer and the buffers that are said here. It returns 0, or the first number
 * of those that it checks, in their order, that applies; haze_ppm_length and haze_comparisons alone return another number, and refuse nothing. When it returns
 * a number other than 0, all that it was lent holds what it held: buffers, work area and the places for results.
 * After a call that returns 0 the first HAZE_WORK(w, h) entries of the work area are 0, and the rest is untouched. What it held before means nothing.
 *
 * What the caller must keep, since no function can see it:
 * - A pointer with a length is valid for it: n bytes, or n entries of 2 or of 8 bytes. A length is a count of entries, not of bytes. A pointer to a struct or
 *   to a place for a result is valid for it whole. What is pointed to may be read, and written where it is not const. Every pointer is aligned to its type
 *   and is not null, for a length of 0 either.
 * - What is lent for writing overlaps nothing else that is lent to the same call, no struct either. The places for results are lent for writing, the struct
 *   that haze_light fills among them.
 * - No other thread writes what is lent while the call runs, nor reads what is lent for writing. Calls on buffers of their own may run side by side.
 */
#ifndef HAZE_H
#define HAZE_H

/* The version of tool, library and header; while its first number is 0, a change of the second may change the C interface. */
#define HAZE_VERSION "0.3.0"

#include <stddef.h>
#include <stdint.h>

#ifdef __cplusplus
extern "C" {
#endif

/* How many entries of the work area a call on w columns and h rows uses: a size_t, and a constant when w and h are. */
#define HAZE_WORK(w, h) (8 * (HAZE_COUNT(w) + 1) * (HAZE_COUNT(h) + 1))

/* For HAZE_WORK: a count of any integer type as a size_t. In C++ it goes by a type of its own: compilers warn there of a cast as C has it, and of a cast to the
 * type that the count already has. */
#ifndef __cplusplus
#define HAZE_COUNT(count) ((size_t)(count))
#else
#define HAZE_COUNT(count) static_cast<haze_count>(count)
#if __cplusplus >= 201103L
enum haze_count : size_t {};
#else
enum haze_count { HAZE_COUNT_MOST = ~static_cast<size_t>(0) };
#endif
#endif

/* No call takes more of the stack than so many bytes, whatever the frame: haze_light 150 KB, haze_clear and haze_replace 190 KB, haze_depths 24 KB, the others
 * less than 1 KB. */
#define HAZE_STACK 200000

enum haze_answer {
    HAZE_DONE = 0,
    HAZE_BAD_SIZE = 1,     /* w or h is not 1 to 1024, or w*h is above 262144 */
    HAZE_BAD_SETTING = 2,  /* a setting is outside its range */
    HAZE_BAD_FRAME = 3,    /* the frame that is read, or replaced in, is not 3*w*h bytes */
    HAZE_BAD_BUFFER = 4,   /* the picture or the hazy frame is not 3*w*h bytes, a mask, a map or the depths not w*h entries, or the work area is too small */
    HAZE_BAD_LIGHT = 5,    /* a channel of the light is 0 */
    HAZE_BAD_PLACE = 6,    /* the rectangle or the band is empty or reaches outside the frame */
    HAZE_BAD_PIXELS = 7,   /* the new pixels are not 3*width*height bytes */
    HAZE_BAD_ENTRY = 8,    /* an entry of a map that is read is above 10000, anywhere in it */
    HAZE_BAD_HEADER = 11,  /* the file has no good header (9 and 10 are numbers of a program's text) */
    HAZE_BAD_MAXIMUM = 12, /* the maximum is not 255 */
    HAZE_BAD_LENGTH = 13,  /* the pixels are short or bytes are left over, a second picture among them */
    HAZE_NOTHING_SEEN = 14 /* no pixel of the mask is seen, so none can give the light */
};

/* A function that a caller may leave unused. C89 has no word for it, but a compiler may. */
#if defined(__cplusplus) || (defined(__STDC_VERSION__) && __STDC_VERSION__ >= 199901L)
#define HAZE_INLINE static inline
#elif defined(__GNUC__)
#define HAZE_INLINE static __inline__
#else
#define HAZE_INLINE static
#endif

/* What a number that is returned means, in words. */
HAZE_INLINE const char *haze_words(uint8_t number)
{
    switch (number) {
    case HAZE_DONE: return "done";
    case HAZE_BAD_SIZE: return "width or height is not 1 to 1024, or there are more than 262144 pixels";
    case HAZE_BAD_SETTING: return "a setting is outside its range";
    case HAZE_BAD_FRAME: return "the frame is not 3*w*h bytes";
    case HAZE_BAD_BUFFER: return "a buffer to write to, a map or a mask is not of its length, or the work area is too small";
    case HAZE_BAD_LIGHT: return "a channel of the light is 0";
    case HAZE_BAD_PLACE: return "the rectangle or the band is empty or reaches outside the frame";
    case HAZE_BAD_PIXELS: return "the new pixels are not 3*width*height bytes";
    case HAZE_BAD_ENTRY: return "an entry of the map is above 10000";
    case HAZE_BAD_HEADER: return "the header is bad";
    case HAZE_BAD_MAXIMUM: return "the maximum is not 255";
    case HAZE_BAD_LENGTH: return "the pixels are short or bytes are left over";
    case HAZE_NOTHING_SEEN: return "no pixel of the mask is seen";
    default: return "no number that these functions return";
    }
}
#undef HAZE_INLINE

/* The settings; all six are judged, used or not. */
struct haze_settings {
    uint64_t s;     /* 0 to 30      radius of the dark value */
    uint64_t r;     /* 0 to 60      radius of the filter */
    uint64_t omega; /* 1 to 10000   how much of the haze goes, in ten-thousandths */
    uint64_t e;     /* 1 to 585225  regularisation, in squared guide units */
    uint64_t t0;    /* 1 to 10000   floor of the transmission */
    uint64_t share; /* 1 to 1000    pixels that may give the light, per thousand */
};

/* The usual settings: struct haze_settings settings = HAZE_SETTINGS_DEFAULT; */
#define HAZE_SETTINGS_DEFAULT {7, 30, 9500, 59, 1000, 1}

/* A colour. */
struct haze_rgb {
    uint8_t red, green, blue;
};

/* What haze_light finds and haze_clear and haze_replace are handed. */
struct haze_lights {
    struct haze_rgb light;
};

/* Width columns from column on, height rows from row on. */
struct haze_rect {
    uint64_t column, row, width, height;
};

/* The library takes each struct as an array of its members: there is nothing between them. One that is laid out in another way would give an array of a
 * length below 0, which a compiler refuses. */
#define HAZE_ARRAY(name, count, entry) typedef char haze_##name##_laid_out_as_an_array[sizeof(struct haze_##name) == (count) * sizeof(entry) ? 1 : -1]
HAZE_ARRAY(settings, 6, uint64_t);
HAZE_ARRAY(rgb, 3, uint8_t);
HAZE_ARRAY(lights, 3, uint8_t);
HAZE_ARRAY(rect, 4, uint64_t);
#undef HAZE_ARRAY

/* Light: finds the ambient light of a frame, among the pixels that the mask shows. Checks 1, 2, 3, 4 (of the mask's length too), 14. The light's channels,
 * each at least 1, go to lights->light, the comparisons of the frame to *comparisons. */
uint8_t haze_light(uint64_t w, uint64_t h, const struct haze_settings *settings, const uint8_t *mask, size_t mask_len,
                   const uint8_t *frame, size_t frame_len, int64_t *work, size_t work_len, struct haze_lights *lights, uint64_t *comparisons);

/* Clear: the transmission map and the cleared picture of a frame under a light and a mask. Checks 1 to 5 (4 of the mask's length too). A mask that shows
 * no pixel is taken: the map is then 10000 everywhere, and the picture a copy of the frame. The comparisons of the frame go to *comparisons; haze_light says
 * the same number. */
uint8_t haze_clear(uint64_t w, uint64_t h, const struct haze_settings *settings, const struct haze_lights *lights, const uint8_t *mask, size_t mask_len,
                   const uint8_t *frame, size_t frame_len, uint16_t *map, size_t map_len, uint8_t *picture, size_t picture_len,
                   int64_t *work, size_t work_len, uint64_t *comparisons);

/* Replace: the new pixels, row after row, go into the frame at the rectangle, at hidden places too. Map entries and picture pixels at most s + 2r rows and
 * columns from it become those that haze_clear gives for the new frame; all others stay, hidden ones too. Checks 1 to 7 (4 of the mask's length too).
 * After an accepted haze_clear and any calls of haze_replace, accepted and refused, with the same size, settings, light and mask, map and picture are those of
 * a haze_clear of the frame as it then is.
 * The comparisons that go to *comparisons are of the part of the frame at most 2s + 4r rows and columns from the rectangle, as of a frame of its own: blocks
 * begin at its first column and row, and windows are cut off at its edges. */
uint8_t haze_replace(uint64_t w, uint64_t h, const struct haze_settings *settings, const struct haze_lights *lights, const struct haze_rect *rect,
                     const uint8_t *pixels, size_t pixels_len, const uint8_t *mask, size_t mask_len, uint8_t *frame, size_t frame_len,
                     uint16_t *map, size_t map_len, uint8_t *picture, size_t picture_len, int64_t *work, size_t work_len, uint64_t *comparisons);

/* Comparisons: how many haze_light and haze_clear say for a frame of this size at radius s, known before there is one; 0 for a size or a radius that is
 * refused. One pixel takes none, and neither does radius 0. */
uint64_t haze_comparisons(uint64_t w, uint64_t h, uint64_t s);

/* Haze: the hazy frame that a clean one gives under a light at the transmissions of a map. Checks 1, 3, 4, 5, 8. */
uint8_t haze_add(uint64_t w, uint64_t h, const struct haze_rgb *light, const uint8_t *clean, size_t clean_len,
                 const uint16_t *map, size_t map_len, uint8_t *hazy, size_t hazy_len);

/* Band figure: of the rows from..to of a map, the last left out, the mean transmission goes to *mean and the least to *least. Each is one division of two
 * whole numbers in doubles, so it is fixed to the bit. Checks 1, 4, 6, 8. */
uint8_t haze_band(uint64_t w, uint64_t h, const uint16_t *map, size_t map_len, uint64_t from, uint64_t to, double *mean, double *least);

/* Depths: relative depth from a map, in steps of one hundredth. A table starts at 1000000000, each entry is 99/100 of the one before, rounded down, up to and
 * with the first that is at most 100000: 918 entries. The depth of a map entry t is the first place, from 0, whose table entry is at most 100000*t, and 918 for
 * t = 0; so 10000 is 0, 9999 and 9900 are 1, and more transmission never means more depth. The depth of every entry goes into depths. Checks 1, 4 for either
 * length, 8.
 * Depth is read off the haze, and bright or grey things look like haze: a white post in near grass can read as farther off than the hill behind it, and snow
 * reads as far. A planner must never clear a path by it alone. */
#define HAZE_DEEPEST 918 /* the depth of an entry of 0; no depth is more */
uint8_t haze_depths(uint64_t w, uint64_t h, const uint16_t *map, size_t map_len, uint16_t *depths, size_t depths_len);

/* Files. A PPM file is P6, then width, height and maximum, then one white byte and the pixels. White is blank, tab, CR and LF. Before each number stands a
 * gap of one or more white bytes; a # anywhere in a gap, its start too, opens a comment up to the next CR or LF. A number has 1 to 6 digits; zeros may lead. */

/* PPM size: width and height of the picture in a file go to *w and *h, so that a frame of the right length can be lent. Checks 11, 1, 12, 13. */
uint8_t haze_ppm_size(const uint8_t *file, size_t file_len, uint64_t *w, uint64_t *h);

/* PPM read: the pixels of a file go into the frame, 3*w*h bytes, width and height to *w and *h. Checks 11, 1, 12, 13, then 4 for the frame's length. */
uint8_t haze_ppm_read(const uint8_t *file, size_t file_len, uint8_t *frame, size_t frame_len, uint64_t *w, uint64_t *h);

/* PPM length: how many bytes haze_ppm_write writes for a frame, 9 + the digits of w and h + 3*w*h; 0 for a size that is refused. */
uint64_t haze_ppm_length(uint64_t w, uint64_t h);

/* PPM write: P6, LF, w, blank, h, LF, 255, LF and the pixels go into the file. haze_ppm_read gives the same frame back. Checks 1, 3, then 4 for a file that
 * is not of the exact length. */
uint8_t haze_ppm_write(uint64_t w, uint64_t h, const uint8_t *frame, size_t frame_len, uint8_t *file, size_t file_len);

/* Netpbm header: the same header with any byte as its kind behind the P, '6' for PPM, '5' for PGM. Its three numbers, judged by their layout alone, go to *w,
 * *h and *maximum, and the place of the first byte behind it to *start, which is at most file_len. Checks 11. */
uint8_t haze_pnm_header(const uint8_t *file, size_t file_len, uint8_t kind, uint64_t *w, uint64_t *h, uint64_t *maximum, uint64_t *start);

#ifdef __cplusplus
}
#endif

#endif
