/* The comparisons that a call says against those that it makes: host/comparisons.awk has put a count before each comparison of two samples. Frames and masks of
 * every kind, lines shorter and longer than a window, Replace at corners, sides and in the middle. Ends with status 1 at the first call that says another number
 * than it made. */
#include <stdio.h>
#include "haze.h"
#include "frames.h"

#define SIDE 96 /* of the largest frame: longer than a window of radius 30 */
#define ROUNDS 400

uint64_t haze_compared;

static uint8_t mask[SIDE * SIDE], frame[3 * SIDE * SIDE], picture[3 * SIDE * SIDE], pixels[3 * SIDE * SIDE];
static uint16_t map[SIDE * SIDE];
static int64_t work[HAZE_WORK(SIDE, SIDE)];

static uint64_t calls, made;

/* How many of `end` columns are at most q from the n of them that begin at `from`; the same of rows. */
static uint64_t near(uint64_t from, uint64_t n, uint64_t q, uint64_t end)
{
    uint64_t first = from > q ? from - q : 0, behind = from + n + q < end ? from + n + q : end;
    return behind - first;
}

/* 0 where a call was accepted and says what it made, and what was to be expected. */
static int wrong(const char *call, int status, uint64_t said, uint64_t expected, uint64_t w, uint64_t h, uint64_t s)
{
    calls++;
    made += haze_compared;
    if (status == 0 && said == haze_compared && said == expected) return 0;
    printf("counted: %s of %llux%llu at s %llu answered %d and said %llu, made %llu, expected %llu\n", call, (unsigned long long)w, (unsigned long long)h,
           (unsigned long long)s, status, (unsigned long long)said, (unsigned long long)haze_compared, (unsigned long long)expected);
    return 1;
}

static int round_of(void)
{
    struct haze_settings k = HAZE_SETTINGS_DEFAULT;
    struct haze_lights a = {{200, 210, 220}};
    uint64_t w = with_ends(1, SIDE), h = with_ends(1, SIDE), n, m, q, said;
    struct haze_rect c = {draw() % w, draw() % h, 0, 0};
    int status;
    k.s = with_ends(0, 30);
    k.r = with_ends(0, 9);
    c.width = with_ends(1, w - c.column);
    c.height = with_ends(1, h - c.row);
    n = w * h;
    m = 3 * c.width * c.height;
    paint_as(draw() % 6, frame, w, h);
    paint_as(draw() % 6, pixels, c.width, c.height);
    mask_as(draw() % MASKS, mask, w, h);

    haze_compared = said = 0;
    status = haze_light(w, h, &k, mask, n, frame, 3 * n, work, HAZE_WORK(w, h), &a, &said);
    if (status != HAZE_NOTHING_SEEN && wrong("light", status, said, haze_comparisons(w, h, k.s), w, h, k.s)) return 1;
    haze_compared = said = 0;
    status = haze_clear(w, h, &k, &a, mask, n, frame, 3 * n, map, n, picture, 3 * n, work, HAZE_WORK(w, h), &said);
    if (wrong("clear", status, said, haze_comparisons(w, h, k.s), w, h, k.s)) return 1;
    haze_compared = said = 0;
    status = haze_replace(w, h, &k, &a, &c, pixels, m, mask, n, frame, 3 * n, map, n, picture, 3 * n, work, HAZE_WORK(w, h), &said);
    q = 2 * k.s + 4 * k.r;
    return wrong("replace", status, said, haze_comparisons(near(c.column, c.width, q, w), near(c.row, c.height, q, h), k.s), w, h, k.s);
}

int main(void)
{
    int i;
    for (i = 0; i < ROUNDS; i++)
        if (round_of()) return 1;
    printf("counted: %llu calls said how many comparisons they made, %llu in all\n", (unsigned long long)calls, (unsigned long long)made);
    return 0;
}
