/* Random numbers, frames and masks for the host programs. The same seed gives the same run on every machine. */
#ifndef FRAMES_H
#define FRAMES_H
#include <stddef.h>
#include <stdint.h>

#define MAX_PIXELS 262144

/* A number that depends on every bit of x. */
static inline uint64_t mixed(uint64_t x)
{
    x += 0x9e3779b97f4a7c15u;
    x = (x ^ (x >> 30)) * 0xbf58476d1ce4e5b9u;
    x = (x ^ (x >> 27)) * 0x94d049bb133111ebu;
    return x ^ (x >> 31);
}

static uint64_t drawn;

static inline uint64_t draw(void) { return mixed(drawn++); }

/* A number of lo..hi. */
static inline uint64_t from_to(uint64_t lo, uint64_t hi) { return lo + draw() % (hi - lo + 1); }

static inline int one_in(uint64_t n) { return draw() % n == 0; }

/* A number of lo..hi, an end of the range one time in four. */
static inline uint64_t with_ends(uint64_t lo, uint64_t hi)
{
    uint64_t d = draw() % 8;
    return d == 0 ? lo : d == 1 ? hi : from_to(lo, hi);
}

static inline uint8_t byte_held(int64_t v) { return (uint8_t)(v < 0 ? 0 : v > 255 ? 255 : v); }

/* A frame of w by h: noise, a haze that thickens upwards over blocks of colour, few colours, near black, near white, or black and white. */
enum { NOISE, HAZY, FEW, BLACK, WHITE, TWO };

static inline void paint_as(uint64_t kind, uint8_t *frame, uint64_t w, uint64_t h)
{
    uint64_t y, x, c, seed = draw(), block = from_to(1, 24);
    int64_t deep = (int64_t)from_to(0, 255);
    for (y = 0; y < h; y++)
        for (x = 0; x < w; x++)
            for (c = 0; c < 3; c++) {
                uint64_t fine = mixed(seed ^ ((y * 1024 + x) * 3 + c));
                uint64_t coarse = mixed(seed ^ ((y / block * 1024 + x / block) * 3 + c));
                int64_t v;
                if (kind == NOISE) v = (int64_t)(fine % 256);
                else if (kind == HAZY) v = (int64_t)(coarse % 256) + ((int64_t)(h - y) * deep) / (int64_t)h + (int64_t)(fine % 9) - 4;
                else if (kind == FEW) v = (int64_t)(coarse % 3) * 127;
                else if (kind == BLACK) v = (int64_t)(fine % 4);
                else if (kind == TWO) v = mixed(seed ^ (y * 1024 + x)) % 2 ? 255 : 0;
                else v = 255 - (int64_t)(fine % 4);
                *frame++ = byte_held(v);
            }
}

/* A mask of w by h: all seen, all hidden, stripes of rows or of columns, one to three seen pixels, a hidden border, a hood (the lower rows are hidden), or
 * each pixel hidden or seen by chance. */
enum { ALL_SEEN, ALL_HIDDEN, ROWS, COLUMNS, SINGLE, BORDER, HOOD, SPECKLED, MASKS };

/* A byte that shows a pixel: one of four, the same for the whole mask, or any. */
static inline uint8_t seen_byte(uint64_t which, uint64_t fine)
{
    static const uint8_t bytes[] = {1, 2, 128, 255};
    return which < sizeof bytes ? bytes[which] : (uint8_t)(1 + fine % 255);
}

static inline void mask_as(uint64_t kind, uint8_t *mask, uint64_t w, uint64_t h)
{
    static const uint64_t shares[] = {1, 10, 50, 90, 99}; /* how many of a hundred pixels are hidden */
    uint64_t x, y, k, seed = draw(), which = draw() % 5, wide = from_to(1, 9), gap = from_to(1, 9), hood = from_to(0, h - 1), share = shares[draw() % 5];
    for (y = 0; y < h; y++)
        for (x = 0; x < w; x++) {
            uint64_t fine = mixed(seed ^ (y * 1024 + x));
            int seen = kind == ALL_SEEN ? 1 : kind == ROWS ? y % (wide + gap) < wide : kind == COLUMNS ? x % (wide + gap) < wide
                : kind == BORDER ? x >= gap && x + gap < w && y >= gap && y + gap < h : kind == HOOD ? y < hood : kind == SPECKLED ? fine % 100 >= share : 0;
            mask[y * w + x] = seen ? seen_byte(which, fine / 100) : 0;
        }
    for (k = from_to(1, 3); kind == SINGLE && k > 0; k--) mask[draw() % (w * h)] = seen_byte(which, seed);
}
#endif
