/* How much of the stack each call takes, measured: a stretch of the stack below the caller is painted, the call is made, and what is no longer paint is counted.
 * Ends with status 1 where a call takes more than HAZE_STACK says, or more on a large frame or under a mask than on one pixel. */
#include <stdio.h>
#include <string.h>
#include "haze.h"
#include "frames.h"

#define PAINTED 1048576 /* bytes, far more than a call takes */
#define PAINT 0xa5

static uint64_t w, h;
static struct haze_settings k = HAZE_SETTINGS_DEFAULT;
static struct haze_lights a = {{200, 210, 220}};
static struct haze_rect rect = {0, 0, 1, 1};
static uint8_t mask[MAX_PIXELS], frame[3 * MAX_PIXELS], picture[3 * MAX_PIXELS], hazy[3 * MAX_PIXELS], pixels[3];
static uint16_t map[MAX_PIXELS], depths[MAX_PIXELS];
static int64_t work[8 * (MAX_PIXELS + 1024 + 256 + 1)];
static uint64_t comparisons;
static double mean, least;

static int nothing(void) { return 0; }
static int light(void) { return haze_light(w, h, &k, mask, w * h, frame, 3 * w * h, work, HAZE_WORK(w, h), &a, &comparisons); }
static int clear(void)
{
    return haze_clear(w, h, &k, &a, mask, w * h, frame, 3 * w * h, map, w * h, picture, 3 * w * h, work, HAZE_WORK(w, h), &comparisons);
}
static int replace(void)
{
    return haze_replace(w, h, &k, &a, &rect, pixels, sizeof pixels, mask, w * h, frame, 3 * w * h, map, w * h, picture, 3 * w * h, work, HAZE_WORK(w, h),
                        &comparisons);
}
static int budget(void) { return comparisons = haze_comparisons(w, h, k.s), w * h > 1 && !comparisons; }
static int add(void) { return haze_add(w, h, &a.light, frame, 3 * w * h, map, w * h, hazy, 3 * w * h); }
static int band(void) { return haze_band(w, h, map, w * h, 0, h, &mean, &least); }
static int depth(void) { return haze_depths(w, h, map, w * h, depths, w * h); }

static __attribute__((noinline)) void paint(void)
{
    volatile uint8_t stretch[PAINTED];
    uint64_t i;
    for (i = 0; i < PAINTED; i++) stretch[i] = PAINT;
}

/* The same stretch once more, as the call has left it: the stack grows down, so what it did not reach is at the front. */
static __attribute__((noinline)) uint64_t reached(void)
{
    volatile uint8_t stretch[PAINTED];
    uint64_t i = 0;
    __asm__ volatile("" : : "r"(stretch) : "memory");
    while (i < PAINTED && stretch[i] == PAINT) i++;
    return PAINTED - i;
}

static __attribute__((noinline)) uint64_t taken(int (*call)(void))
{
    paint();
    if (call()) return PAINTED; /* refused: counted as too much */
    return reached();
}

/* With something hidden or nothing; the first pixel is seen, so that there is a light. */
static void frame_of(uint64_t side, uint64_t kind)
{
    w = h = side;
    paint_as(HAZY, frame, w, h);
    mask_as(kind, mask, w, h);
    mask[0] = 1;
}

static int measure(const char *name, int (*call)(void))
{
    static const uint64_t sides[] = {1, 17, 512, 17, 512}, kinds[] = {ALL_SEEN, ALL_SEEN, ALL_SEEN, HOOD, SPECKLED};
    uint64_t i, most = 0, first = 0;
    for (i = 0; i < 5; i++) {
        uint64_t n, none;
        frame_of(sides[i], kinds[i]);
        none = taken(nothing);
        n = taken(call);
        n = n < none ? 0 : n - none;
        if (i == 0) first = n;
        if (n > most) most = n;
    }
    printf("%-8s %7llu bytes of stack\n", name, (unsigned long long)most);
    return most > HAZE_STACK || most > first + 64;
}

int main(void)
{
    int wrong = measure("light", light);
    wrong |= measure("clear", clear);
    wrong |= measure("replace", replace);
    wrong |= measure("budget", budget);
    wrong |= measure("add", add);
    wrong |= measure("band", band);
    wrong |= measure("depths", depth);
    printf("%s\n", wrong ? "stack: a call takes more than haze.h says, or more on a larger frame or under a mask"
                         : "stack: no call takes more than haze.h says, and none more on a larger frame or under a mask");
    return wrong;
}
