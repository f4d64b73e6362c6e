/* The library beside the peer, in one process, turn about, best of many runs. Usage: bench [ROUNDS].
 * Built with DIVISIONS it counts in place of timing: host/divisions.awk has put a count before each division of both. */
#include <stdio.h>
#include <stdlib.h>
#include <string.h>
#include <time.h>
#include "haze.h"
#include "peer.h"
#include "frames.h"

#define MOST MAX_PIXELS
#define WORK_MOST (8 * (MOST + 1024 + 256 + 1))
#define SIDE 32     /* of the rectangle that is replaced */

static uint64_t w, h;
static struct haze_settings k;
static struct haze_rect rect = {0, 0, SIDE, SIDE};
static struct haze_lights a, peer_a;
static uint8_t mask[MOST], frame[3 * MOST], picture[3 * MOST], hazy[3 * MOST], pixels[3 * SIDE * SIDE];
static uint8_t peer_frame[3 * MOST], peer_picture[3 * MOST], peer_hazy[3 * MOST];
static uint16_t map[MOST], peer_map[MOST], depths[MOST], peer_depths_of[MOST];
static int64_t work[WORK_MOST];
static _Alignas(64) uint8_t scratch[16 * MOST];
static uint64_t comparisons, peer_taken;
static double mean, least, peer_mean, peer_least;

/* ---- the calls, each of the library and of the peer */

#define W32 (uint32_t)w, (uint32_t)h
#define FRAME 3 * w * h
#define MASK mask, w * h
#define WORK work, HAZE_WORK(w, h)

static int lib_light(void) { return haze_light(w, h, &k, MASK, frame, FRAME, WORK, &a, &comparisons); }
static int own_light(void) { return peer_light(W32, &k, MASK, peer_frame, FRAME, &peer_a, &peer_taken, scratch); }

static int lib_clear(void) { return haze_clear(w, h, &k, &a, MASK, frame, FRAME, map, w * h, picture, FRAME, WORK, &comparisons); }
static int own_clear(void) { return peer_clear(W32, &k, &peer_a, MASK, peer_frame, FRAME, peer_map, w * h, peer_picture, FRAME, &peer_taken, scratch); }

static int lib_replace(void)
{
    return haze_replace(w, h, &k, &a, &rect, pixels, sizeof pixels, MASK, frame, FRAME, map, w * h, picture, FRAME, WORK, &comparisons);
}
static int own_replace(void)
{
    return peer_replace(W32, &k, &peer_a, &rect, pixels, sizeof pixels, MASK, peer_frame, FRAME, peer_map, w * h, peer_picture, FRAME, &peer_taken, scratch);
}

static int lib_add(void) { return haze_add(w, h, &a.light, picture, FRAME, map, w * h, hazy, FRAME); }
static int own_add(void) { return peer_add(W32, &peer_a.light, peer_picture, FRAME, peer_map, w * h, peer_hazy, FRAME); }

static int lib_band(void) { return haze_band(w, h, map, w * h, 0, h, &mean, &least); }
static int own_band(void) { return peer_band(W32, peer_map, w * h, 0, (uint32_t)h, &peer_mean, &peer_least); }

static int lib_depths(void) { return haze_depths(w, h, map, w * h, depths, w * h); }
static int own_depths(void) { return peer_depths(W32, peer_map, w * h, peer_depths_of, w * h); }

#ifndef DIVISIONS
/* The same library with the wiping left out (host/dry.awk). */
__typeof__(haze_light) dry_haze_light;
__typeof__(haze_clear) dry_haze_clear;
__typeof__(haze_replace) dry_haze_replace;

static int dry_light(void) { return dry_haze_light(w, h, &k, MASK, frame, FRAME, WORK, &a, &comparisons); }
static int dry_clear(void) { return dry_haze_clear(w, h, &k, &a, MASK, frame, FRAME, map, w * h, picture, FRAME, WORK, &comparisons); }
static int dry_replace(void)
{
    return dry_haze_replace(w, h, &k, &a, &rect, pixels, sizeof pixels, MASK, frame, FRAME, map, w * h, picture, FRAME, WORK, &comparisons);
}
#endif

/* A PPM file of the frame, written and read; beside them the pixels copied, since no peer has files. */
static uint8_t file[3 * MOST + sizeof "P6\n1024 1024\n255\n"], loaded[3 * MOST], copied[3 * MOST];
static uint64_t loaded_w, loaded_h;

static int lib_write(void) { return haze_ppm_write(w, h, frame, FRAME, file, haze_ppm_length(w, h)); }
static int lib_read(void) { return haze_ppm_read(file, haze_ppm_length(w, h), loaded, FRAME, &loaded_w, &loaded_h); }
static int copy(void)
{
    memcpy(copied, peer_frame, FRAME);
    return 0;
}

/* ---- one figure */

static void stop(const char *why)
{
    printf("bench: %s\n", why);
    exit(1);
}

static void equal(void)
{
    if (memcmp(&a, &peer_a, sizeof a) || memcmp(frame, peer_frame, FRAME) || memcmp(map, peer_map, 2 * w * h) || memcmp(picture, peer_picture, FRAME)
        || memcmp(hazy, peer_hazy, FRAME) || memcmp(&mean, &peer_mean, 8) || memcmp(&least, &peer_least, 8)
        || memcmp(depths, peer_depths_of, 2 * w * h) || comparisons != peer_taken)
        stop("library and peer differ");
}

static void must(int answer) { if (answer) stop("a call was refused"); }

/* What the mask hides: nothing, the rows of the lower half, or each pixel with an even chance. */
static enum { NOTHING, LOWER_HALF, HALF_BY_CHANCE } hidden = NOTHING;

static void hide(void)
{
    uint64_t i;
    for (i = 0; i < w * h; i++) mask[i] = (uint8_t)(hidden == NOTHING || (hidden == LOWER_HALF ? i < w * h / 2 : mixed(i) % 2));
}

static void prepare(uint64_t side, uint64_t s, uint64_t r)
{
    const struct haze_settings usual = HAZE_SETTINGS_DEFAULT;
    k = usual;
    k.s = s;
    k.r = r;
    w = h = side;
    hide();
    drawn = 5;
    paint_as(HAZY, frame, w, h);
    paint_as(NOISE, pixels, SIDE, SIDE);
    memcpy(peer_frame, frame, FRAME);
    must(lib_light() | own_light());
    must(lib_clear() | own_clear());
    must(lib_add() | own_add());
    must(lib_band() | own_band());
    must(lib_depths() | own_depths());
    equal();
}

#ifdef DIVISIONS

uint64_t haze_divisions;

static double counted(int (*call)(void))
{
    haze_divisions = 0;
    must(call());
    return (double)haze_divisions / (double)(w * h);
}

static void line(const char *name, int (*lib)(void), int (*own)(void))
{
    double one = counted(lib), two = counted(own);
    printf("%-22s %9.3f %9.3f\n", name, one, two);
}

int main(void)
{
    printf("divisions by a number that is no constant, a pixel of the frame, at 512x512\n%-22s %9s %9s\n", "", "library", "peer");
    prepare(512, 7, 30);
    line("light", lib_light, own_light);
    line("clear", lib_clear, own_clear);
    line("haze", lib_add, own_add);
    line("band", lib_band, own_band);
    line("depths", lib_depths, own_depths);
    rect.column = rect.row = 240;
    line("replace 32x32, middle", lib_replace, own_replace);
    line("PPM written", lib_write, copy);
    line("PPM read", lib_read, copy);
    for (hidden = LOWER_HALF; hidden <= HALF_BY_CHANCE; hidden++) {
        prepare(512, 7, 30);
        line(hidden == LOWER_HALF ? "clear, lower half" : "clear, half by chance", lib_clear, own_clear);
    }
    return 0;
}

#else

static uint64_t rounds;

static double now(void)
{
    struct timespec t;
    clock_gettime(CLOCK_MONOTONIC, &t);
    return (double)t.tv_sec * 1e3 + (double)t.tv_nsec / 1e6;
}

static double once(int (*call)(void))
{
    double began = now();
    must(call());
    return now() - began;
}

static double lib_best, own_best;

static void measure(int (*lib)(void), int (*own)(void))
{
    uint64_t i;
    lib_best = own_best = 1e9;
    for (i = 0; i < rounds; i++) {
        double one = once(lib), two = once(own);
        lib_best = one < lib_best ? one : lib_best;
        own_best = two < own_best ? two : own_best;
    }
    equal();
}

static double line(const char *name, int (*lib)(void), int (*own)(void))
{
    measure(lib, own);
    printf("%-22s %9.3f %9.3f %7.2f %9.2f %9.2f\n", name, lib_best, own_best, lib_best / own_best, lib_best * 1e6 / (double)(w * h),
           own_best * 1e6 / (double)(w * h));
    return lib_best;
}

static void title(const char *what)
{
    printf("\n%-22s %9s %9s %7s %9s %9s\n%-22s %9s %9s %7s %9s %9s\n", what, "library", "peer", "ratio", "library", "peer", "", "ms", "ms", "", "ns/pixel",
           "ns/pixel");
}

static int wipe(void)
{
    memset(work, 0, 8 * HAZE_WORK(w, h));
    return 0;
}

static void calls(void)
{
    double clear, middle;
    title("512x512, s 7, r 30");
    prepare(512, 7, 30);
    line("light", lib_light, own_light);
    line("  no wipe", dry_light, own_light);
    clear = line("clear", lib_clear, own_clear);
    line("  no wipe", dry_clear, own_clear);
    line("haze", lib_add, own_add);
    line("band, all rows", lib_band, own_band);
    line("depths", lib_depths, own_depths);
    rect.column = rect.row = 240;
    middle = line("replace 32x32, middle", lib_replace, own_replace);
    line("  no wipe", dry_replace, own_replace);
    rect.column = rect.row = 0;
    line("replace 32x32, corner", lib_replace, own_replace);
    line("  no wipe", dry_replace, own_replace);
    measure(wipe, wipe);
    printf("replace in the middle is %.2f of a clear; wiping the work area, which the peer has not, is %.3f ms of each call that is lent one\n",
           middle / clear, lib_best);
}

/* The rectangle of Replace lies half under the lower half. */
static void hiding(const char *what)
{
    title(what);
    prepare(512, 7, 30);
    line("light", lib_light, own_light);
    line("clear", lib_clear, own_clear);
    rect.column = rect.row = 240;
    line("replace 32x32, middle", lib_replace, own_replace);
}

static void masks(void)
{
    hidden = LOWER_HALF;
    hiding("lower half hidden");
    hidden = HALF_BY_CHANCE;
    hiding("half hidden by chance");
    hidden = NOTHING;
}

static void files(void)
{
    title("512x512, beside memcpy");
    prepare(512, 7, 30);
    line("PPM written", lib_write, copy);
    line("PPM read", lib_read, copy);
    if (loaded_w != w || loaded_h != h || memcmp(loaded, copied, FRAME)) stop("the frame that was read is another");
}

static void at(const char *name, uint64_t v, uint64_t side, uint64_t s, uint64_t r, int (*lib)(void), int (*own)(void))
{
    char text[32];
    size_t n = 0;
    const char *c;
    char digits[4] = {(char)('0' + v / 100 % 10), (char)('0' + v / 10 % 10), (char)('0' + v % 10), 0};
    for (c = name; *c; c++) text[n++] = *c;
    for (c = v > 99 ? digits : v > 9 ? digits + 1 : digits + 2; *c; c++) text[n++] = *c;
    text[n] = 0;
    prepare(side, s, r);
    line(text, lib, own);
}

int main(int count, char **words)
{
    static const uint64_t sides[] = {128, 256, 512}, maps[] = {1, 128, 512}, filters[] = {5, 15, 30, 60}, darks[] = {0, 7, 15, 30};
    int i;
    rounds = count > 1 ? (uint64_t)atoi(words[1]) : 60;
    calls();
    masks();
    title("clear, s 7, r 30");
    for (i = 0; i < 3; i++) at("side ", sides[i], sides[i], 7, 30, lib_clear, own_clear);
    title("clear, 512x512, s 7");
    for (i = 0; i < 4; i++) at("r ", filters[i], 512, 7, filters[i], lib_clear, own_clear);
    title("clear, 512x512, r 30");
    for (i = 0; i < 4; i++) at("s ", darks[i], 512, darks[i], 30, lib_clear, own_clear);
    title("depths");
    for (i = 0; i < 3; i++) at("side ", maps[i], maps[i], 7, 30, lib_depths, own_depths);
    title("light, 512x512");
    for (i = 0; i < 4; i++) at("s ", darks[i], 512, darks[i], 30, lib_light, own_light);
    files();
    printf("\nbest of %llu runs, turn about\n", (unsigned long long)rounds);
    return 0;
}

#endif
