/* Random calls of the library, good and bad, against the peer, under masks of every kind. Every buffer is lent between guard bytes. Ends at the first
 * difference, with what differed and status 1. Usage: stress [TIMES [SEED]]; the counts of calls below are multiplied by TIMES. */
#include <stdio.h>
#include <stdlib.h>
#include <string.h>
#include "haze.h"
#include "peer.h"
#include "frames.h"
#include "loans.h"

/* ---- lent memory: what stands there is a function of a seed, so that "as it was" needs no copy */

#define WORK_MOST (8 * (MAX_PIXELS + 1024 + 256 + 1) + 16)

static _Alignas(64) uint8_t frame_room[ROOM(3 * MAX_PIXELS + 8)], map_room[ROOM(2 * MAX_PIXELS + 8)], picture_room[ROOM(3 * MAX_PIXELS + 8)],
    mask_room[ROOM(MAX_PIXELS + 8)], pixels_room[ROOM(3 * MAX_PIXELS + 8)], work_room[ROOM(8 * WORK_MOST)], light_room[ROOM(3)],
    comparisons_room[ROOM(8)], mean_room[ROOM(8)], least_room[ROOM(8)];

static loan frame_loan = {"frame", frame_room, 0, 1, 0, 0}, map_loan = {"map", map_room, 0, 2, 0, 0}, picture_loan = {"picture", picture_room, 0, 1, 0, 0},
    mask_loan = {"mask", mask_room, 0, 1, 0, 0}, pixels_loan = {"new pixels", pixels_room, 0, 1, 0, 0}, work_loan = {"work area", work_room, 0, 8, 0, 0},
    light_loan = {"light", light_room, 0, 1, 0, 0}, comparisons_loan = {"comparisons", comparisons_room, 0, 8, 0, 0},
    mean_loan = {"mean", mean_room, 0, 8, 0, 0}, least_loan = {"least", least_room, 0, 8, 0, 0};

static loan *const loans[] = {&frame_loan,  &map_loan,   &picture_loan,     &mask_loan, &pixels_loan,
                              &work_loan,   &light_loan, &comparisons_loan, &mean_loan, &least_loan};
#define LOANS (sizeof loans / sizeof *loans)

static void fill(uint8_t *at, size_t n, uint64_t seed)
{
    size_t i;
    for (i = 0; i + 8 <= n; i += 8) {
        uint64_t v = mixed(seed + i);
        memcpy(at + i, &v, 8);
    }
    for (; i < n; i++) at[i] = (uint8_t)mixed(seed + i);
}

/* The first byte from `start` on, a multiple of 8, that is not what fill left, or n. */
static size_t differs(const uint8_t *at, size_t start, size_t n, uint64_t seed)
{
    size_t i;
    for (i = start; i + 8 <= n; i += 8) {
        uint64_t v = mixed(seed + i);
        if (memcmp(at + i, &v, 8)) return i;
    }
    for (; i < n; i++) if (at[i] != (uint8_t)mixed(seed + i)) return i;
    return n;
}

/* n entries, with anything in them, between fresh guards. */
static void *lend(loan *l, size_t n)
{
    guard(l, n);
    l->seed = draw();
    fill(lent(l), l->bytes, l->seed);
    return lent(l);
}

/* ---- the arguments of a call, and what is said when it goes wrong */

static struct arguments {
    const char *call;
    uint64_t w, h;
    struct haze_settings k;
    struct haze_lights a;
    struct haze_rect rect;
    uint64_t from, to;
} now, handed; /* as they stand now, and as they were when the call was made */

static uint64_t seed, calls;

static void begin(const char *call)
{
    now.call = call;
    calls++;
    memcpy(&handed, &now, sizeof now);
}

static void differ(const char *what, uint64_t at, uint64_t got, uint64_t want)
{
    printf("DIFFERS: %s, call %llu of seed %llu: %s at %llu is %llu, not %llu\n", now.call, (unsigned long long)calls, (unsigned long long)seed, what,
           (unsigned long long)at, (unsigned long long)got, (unsigned long long)want);
    printf("  w %llu h %llu s %llu r %llu omega %llu e %llu t0 %llu share %llu light %d %d %d\n", (unsigned long long)now.w, (unsigned long long)now.h,
           (unsigned long long)now.k.s, (unsigned long long)now.k.r, (unsigned long long)now.k.omega, (unsigned long long)now.k.e,
           (unsigned long long)now.k.t0, (unsigned long long)now.k.share, now.a.light.red, now.a.light.green, now.a.light.blue);
    printf("  column %llu row %llu width %llu height %llu from %llu to %llu\n", (unsigned long long)now.rect.column, (unsigned long long)now.rect.row,
           (unsigned long long)now.rect.width, (unsigned long long)now.rect.height, (unsigned long long)now.from, (unsigned long long)now.to);
    exit(1);
}

static void same_number(uint64_t got, uint64_t want) { if (got != want) differ("the answer", 0, got, want); }

static void same_bytes(const loan *l, const uint8_t *want)
{
    const uint8_t *got = lent(l);
    size_t i;
    if (!memcmp(got, want, l->bytes)) return;
    for (i = 0; got[i] == want[i]; i++) {}
    differ(l->name, i / l->unit, got[i], want[i]);
}

static void as_it_was(const loan *l, size_t start)
{
    size_t i = differs(lent(l), start, l->bytes, l->seed);
    if (i != l->bytes) differ(l->name, i / l->unit, ((uint8_t *)lent(l))[i], (uint8_t)mixed(l->seed + i));
}

static void guards(void)
{
    size_t k;
    for (k = 0; k < LOANS; k++) {
        const uint8_t *byte = broken(loans[k]);
        if (byte) differ(byte < (uint8_t *)lent(loans[k]) ? "a guard before a buffer" : "a guard after a buffer", k, *byte, GUARD_BYTE);
    }
    if (memcmp(&handed, &now, sizeof now)) differ("a struct that is only read", 0, 0, 0);
}

/* After an accepted call: 0 to HAZE_WORK(w, h), the rest as it was. */
static void wiped(void)
{
    const int64_t *work = lent(&work_loan);
    size_t i, n = HAZE_WORK(now.w, now.h);
    for (i = 0; i < n; i++) if (work[i]) differ("work area", i, (uint64_t)work[i], 0);
    as_it_was(&work_loan, 8 * n);
}

/* ---- the refusals, straight from document 01's table and the request of the mask: numbers as wide as they come, and no product of numbers that are not judged */

static int bad_size(void) { return now.w < 1 || now.w > 1024 || now.h < 1 || now.h > 1024 || now.w * now.h > MAX_PIXELS; }

static int outside(uint64_t v, uint64_t lo, uint64_t hi) { return v < lo || v > hi; }

static int bad_settings(void)
{
    return outside(now.k.s, 0, 30) || outside(now.k.r, 0, 60) || outside(now.k.omega, 1, 10000) || outside(now.k.e, 1, 585225)
        || outside(now.k.t0, 1, 10000) || outside(now.k.share, 1, 1000);
}

static int bad_light(void) { return !now.a.light.red || !now.a.light.green || !now.a.light.blue; }

static int bad_rect(void)
{
    return !now.rect.width || !now.rect.height || now.rect.column >= now.w || now.rect.width > now.w - now.rect.column || now.rect.row >= now.h || now.rect.height > now.h - now.rect.row;
}

static int bad_entries(void)
{
    const uint16_t *map = lent(&map_loan);
    size_t i;
    for (i = 0; i < entries(&map_loan); i++) if (map[i] > 10000) return 1;
    return 0;
}

static int nothing_seen(void)
{
    const uint8_t *mask = lent(&mask_loan);
    size_t i = 0;
    while (i < mask_loan.bytes && !mask[i]) i++;
    return i == mask_loan.bytes;
}

/* What Light, Clear and Replace check alike, up to 4. */
static int refused_frame(void)
{
    if (bad_size()) return 1;
    if (bad_settings()) return 2;
    if (frame_loan.bytes != 3 * now.w * now.h) return 3;
    return mask_loan.bytes != now.w * now.h || entries(&work_loan) < HAZE_WORK(now.w, now.h) ? 4 : 0;
}

static int refused_light(void)
{
    int n = refused_frame();
    return n ? n : nothing_seen() ? 14 : 0;
}

static int refused_clear(void)
{
    int n = refused_frame();
    if (n && n != 4) return n;
    if (n || picture_loan.bytes != 3 * now.w * now.h || entries(&map_loan) != now.w * now.h) return 4;
    return bad_light() ? 5 : 0;
}

static int refused_replace(void)
{
    int n = refused_clear();
    if (n) return n;
    if (bad_rect()) return 6;
    return pixels_loan.bytes != 3 * now.rect.width * now.rect.height ? 7 : 0;
}

static int refused_add(void)     /* the clean frame is lent as frame, the hazy one as picture */
{
    if (bad_size()) return 1;
    if (frame_loan.bytes != 3 * now.w * now.h) return 3;
    if (picture_loan.bytes != 3 * now.w * now.h || entries(&map_loan) != now.w * now.h) return 4;
    if (bad_light()) return 5;
    return bad_entries() ? 8 : 0;
}

static int refused_band(void)
{
    if (bad_size()) return 1;
    if (entries(&map_loan) != now.w * now.h) return 4;
    if (now.from >= now.to || now.to > now.h) return 6;
    return bad_entries() ? 8 : 0;
}

/* ---- one call each: the library, then its answer and all that it was lent against refusals and peer */

static uint8_t mask_copy[MAX_PIXELS + 8], frame_copy[3 * MAX_PIXELS + 8], picture_copy[3 * MAX_PIXELS + 8], pixels_copy[3 * MAX_PIXELS + 8];
static uint16_t map_copy[MAX_PIXELS + 8];
static _Alignas(64) uint8_t scratch[16 * MAX_PIXELS];

#define SIZE now.w, now.h
#define SIZE32 (uint32_t)now.w, (uint32_t)now.h
#define WHOLE(l) lent(&l), entries(&l)

static void kept_copies(void)
{
    memcpy(mask_copy, lent(&mask_loan), mask_loan.bytes);
    memcpy(frame_copy, lent(&frame_loan), frame_loan.bytes);
    memcpy(map_copy, lent(&map_loan), map_loan.bytes);
    memcpy(picture_copy, lent(&picture_loan), picture_loan.bytes);
}

static uint8_t light(void)
{
    struct haze_lights want, *place = lend(&light_loan, sizeof *place);
    uint64_t count, *comparisons = lend(&comparisons_loan, 1);
    uint8_t got;
    begin("light");
    kept_copies();
    got = haze_light(SIZE, &now.k, WHOLE(mask_loan), WHOLE(frame_loan), WHOLE(work_loan), place, comparisons);
    same_number(got, (uint64_t)refused_light());
    if (got) {
        as_it_was(&light_loan, 0);
        as_it_was(&comparisons_loan, 0);
        as_it_was(&work_loan, 0);
    } else {
        same_number(0, (uint64_t)peer_light(SIZE32, &now.k, mask_copy, mask_loan.bytes, frame_copy, frame_loan.bytes, &want, &count, scratch));
        same_bytes(&light_loan, (uint8_t *)&want);
        same_bytes(&comparisons_loan, (uint8_t *)&count);
        wiped();
    }
    same_bytes(&mask_loan, mask_copy);
    same_bytes(&frame_loan, frame_copy);
    guards();
    return got;
}

static uint8_t clear(void)
{
    uint64_t count, *comparisons = lend(&comparisons_loan, 1);
    uint8_t got;
    begin("clear");
    kept_copies();
    got = haze_clear(SIZE, &now.k, &now.a, WHOLE(mask_loan), WHOLE(frame_loan), WHOLE(map_loan), WHOLE(picture_loan), WHOLE(work_loan), comparisons);
    same_number(got, (uint64_t)refused_clear());
    if (got) {
        as_it_was(&comparisons_loan, 0);
        as_it_was(&work_loan, 0);
    } else {
        same_number(0, (uint64_t)peer_clear(SIZE32, &now.k, &now.a, mask_copy, mask_loan.bytes, frame_copy, frame_loan.bytes, map_copy, entries(&map_loan),
                                            picture_copy, picture_loan.bytes, &count, scratch));
        same_bytes(&comparisons_loan, (uint8_t *)&count);
        wiped();
    }
    same_bytes(&mask_loan, mask_copy);
    same_bytes(&frame_loan, frame_copy);
    same_bytes(&map_loan, (uint8_t *)map_copy);
    same_bytes(&picture_loan, picture_copy);
    guards();
    return got;
}

static uint8_t replace(void)
{
    uint64_t count, *comparisons = lend(&comparisons_loan, 1);
    uint8_t got;
    begin("replace");
    kept_copies();
    memcpy(pixels_copy, lent(&pixels_loan), pixels_loan.bytes);
    got = haze_replace(SIZE, &now.k, &now.a, &now.rect, WHOLE(pixels_loan), WHOLE(mask_loan), WHOLE(frame_loan), WHOLE(map_loan), WHOLE(picture_loan),
                       WHOLE(work_loan), comparisons);
    same_number(got, (uint64_t)refused_replace());
    if (got) {
        as_it_was(&comparisons_loan, 0);
        as_it_was(&work_loan, 0);
    } else {
        same_number(0, (uint64_t)peer_replace(SIZE32, &now.k, &now.a, &now.rect, pixels_copy, pixels_loan.bytes, mask_copy, mask_loan.bytes, frame_copy,
                                              frame_loan.bytes, map_copy, entries(&map_loan), picture_copy, picture_loan.bytes, &count, scratch));
        same_bytes(&comparisons_loan, (uint8_t *)&count);
        wiped();
    }
    same_bytes(&pixels_loan, pixels_copy);
    same_bytes(&mask_loan, mask_copy);
    same_bytes(&frame_loan, frame_copy);
    same_bytes(&map_loan, (uint8_t *)map_copy);
    same_bytes(&picture_loan, picture_copy);
    guards();
    return got;
}

static uint8_t add(void)
{
    uint8_t got;
    begin("add");
    kept_copies();
    got = haze_add(SIZE, &now.a.light, WHOLE(frame_loan), WHOLE(map_loan), WHOLE(picture_loan));
    same_number(got, (uint64_t)refused_add());
    if (!got)
        same_number(0, (uint64_t)peer_add(SIZE32, &now.a.light, frame_copy, frame_loan.bytes, map_copy, entries(&map_loan), picture_copy, picture_loan.bytes));
    same_bytes(&frame_loan, frame_copy);
    same_bytes(&map_loan, (uint8_t *)map_copy);
    same_bytes(&picture_loan, picture_copy);
    guards();
    return got;
}

static uint8_t band(void)
{
    double want[2], *mean = lend(&mean_loan, 1), *least = lend(&least_loan, 1);
    uint8_t got;
    begin("band");
    memcpy(map_copy, lent(&map_loan), map_loan.bytes);
    got = haze_band(SIZE, WHOLE(map_loan), now.from, now.to, mean, least);
    same_number(got, (uint64_t)refused_band());
    if (got) {
        as_it_was(&mean_loan, 0);
        as_it_was(&least_loan, 0);
    } else {
        same_number(0, (uint64_t)peer_band(SIZE32, map_copy, entries(&map_loan), (uint32_t)now.from, (uint32_t)now.to, want,
                                           want + 1));
        same_bytes(&mean_loan, (uint8_t *)want);
        same_bytes(&least_loan, (uint8_t *)(want + 1));
    }
    same_bytes(&map_loan, (uint8_t *)map_copy);
    guards();
    return got;
}

/* The number of a size and a radius, good or bad. */
static uint64_t comparisons(void)
{
    uint64_t got, want = bad_size() || outside(now.k.s, 0, 30) ? 0 : peer_comparisons(SIZE32, now.k.s);
    begin("comparisons");
    got = haze_comparisons(SIZE, now.k.s);
    if (got != want) differ("the number", 0, got, want);
    guards();
    return got;
}

/* ---- a good call's arguments */

static void paint(uint8_t *frame, uint64_t w, uint64_t h) { paint_as(draw() % 6, frame, w, h); }

enum { SMALL, THIN, MIDDLE, LARGE };

static void good_size(int how)
{
    now.w = how == SMALL ? from_to(1, 24) : how == THIN ? from_to(1, 6) : how == MIDDLE ? from_to(60, 200) : from_to(300, 512);
    now.h = how == SMALL ? from_to(1, 24) : how == THIN ? from_to(100, 1024) : how == MIDDLE ? from_to(60, 200) : from_to(300, 512);
    if (how == LARGE && one_in(3)) {
        now.w = 1024; /* the longest rows, and the longest columns */
        now.h = from_to(200, 256);
    }
    if (one_in(2)) {
        uint64_t w = now.w;
        now.w = now.h;
        now.h = w;
    }
    if (how == LARGE && one_in(2)) now.w = now.h = 512;
}

static void good_settings(void)
{
    now.k.s = one_in(3) ? with_ends(0, 30) : from_to(0, 8);
    now.k.r = one_in(3) ? with_ends(0, 60) : from_to(0, 10);
    now.k.omega = one_in(2) ? 9500 : with_ends(1, 10000);
    now.k.e = one_in(2) ? from_to(1, 100) : with_ends(1, 585225);
    now.k.t0 = with_ends(1, 10000);
    now.k.share = one_in(2) ? from_to(1, 20) : with_ends(1, 1000);
}

static uint8_t good_channel(void) { return (uint8_t)(one_in(2) ? from_to(180, 255) : with_ends(1, 255)); }

static void good_light(void)
{
    now.a.light.red = good_channel();
    now.a.light.green = good_channel();
    now.a.light.blue = good_channel();
}

static void good_rect(void)
{
    now.rect.column = from_to(0, now.w - 1);
    now.rect.row = from_to(0, now.h - 1);
    now.rect.width = one_in(3) ? now.w - now.rect.column : from_to(1, now.w - now.rect.column);
    now.rect.height = one_in(3) ? now.h - now.rect.row : from_to(1, now.h - now.rect.row);
    if (one_in(4)) now.rect.width = now.rect.height = 1;
}

static void good_band(void)
{
    now.from = from_to(0, now.h - 1);
    now.to = from_to(now.from + 1, now.h);
}

/* Of every kind, all seen three times in ten. */
static void lend_mask(void)
{
    uint64_t kind = one_in(5) ? ALL_SEEN : draw() % MASKS;
    mask_as(kind, lend(&mask_loan, now.w * now.h), now.w, now.h);
}

/* The first row of those at the bottom that are hidden whole, or h. */
static uint64_t hood_row(void)
{
    const uint8_t *mask = lent(&mask_loan);
    uint64_t i = now.w * now.h;
    while (i > 0 && !mask[i - 1]) i--;
    return (i + now.w - 1) / now.w;
}

/* Now and then the rectangle lies under the hood whole. */
static void rect_under_hood(void)
{
    uint64_t row = hood_row();
    if (row == now.h || one_in(2)) return;
    now.rect.row = from_to(row, now.h - 1);
    now.rect.height = from_to(1, now.h - now.rect.row);
}

static void lend_rect(void)
{
    good_rect();
    rect_under_hood();
    paint(lend(&pixels_loan, 3 * now.rect.width * now.rect.height), now.rect.width, now.rect.height);
}

/* Everything that any of the calls takes. The map is one that may be read; room is the least work area. */
static size_t room;

static void good(int how)
{
    uint16_t *map;
    size_t i;
    good_size(how);
    good_settings();
    good_light();
    good_band();
    paint(lend(&frame_loan, 3 * now.w * now.h), now.w, now.h);
    lend_mask();
    lend_rect();
    map = lend(&map_loan, now.w * now.h);
    for (i = 0; i < now.w * now.h; i++) map[i] = (uint16_t)(map[i] % 10001);
    lend(&picture_loan, 3 * now.w * now.h);
    room = HAZE_WORK(now.w, now.h);
    lend(&work_loan, room + (one_in(2) ? 0 : from_to(1, 16)));
}

/* Where the map is only written, it may hold anything. */
static void good_to_write(int how)
{
    good(how);
    lend(&map_loan, now.w * now.h);
}

/* ---- bad calls: a good one with one to three things spoilt */

/* Another number than v: an end of a range, one that is v again in fewer bits, or a vast one. */
static uint64_t other(uint64_t v)
{
    const uint64_t numbers[] = {0, 513, 1025, v + 256, v + 65536, v + 4294967296u, v + 9223372036854775808u, 4294967296u, 18446744073709551615u};
    return numbers[draw() % (sizeof numbers / sizeof *numbers)];
}

/* Not n. */
static size_t about(size_t n) { return n && one_in(4) ? 0 : n && one_in(2) ? n - 1 : n + 1; }

static void spoil(void)
{
    switch (draw() % 26) {
    case 0: now.w = other(now.w); break;
    case 1: now.h = other(now.h); break;
    case 2: now.w = now.h = 4294967296u; break;
    case 3: now.w = 513; now.h = 512; break;
    case 4: now.k.s = one_in(2) ? 31 : other(now.k.s); break;
    case 5: now.k.r = one_in(2) ? 61 : other(now.k.r); break;
    case 6: now.k.omega = one_in(2) ? 10001 : other(now.k.omega); break;
    case 7: now.k.e = one_in(2) ? 585226 : other(now.k.e); break;
    case 8: now.k.t0 = one_in(2) ? 10001 : other(now.k.t0); break;
    case 9: now.k.share = one_in(2) ? 1001 : other(now.k.share); break;
    case 10: lend(&frame_loan, about(entries(&frame_loan))); break;
    case 11: lend(&map_loan, about(entries(&map_loan))); break;
    case 12: lend(&picture_loan, about(entries(&picture_loan))); break;
    case 13: lend(&work_loan, one_in(2) ? room - 1 : 0); break;
    case 14: lend(&pixels_loan, about(entries(&pixels_loan))); break;
    case 15: ((uint8_t *)&now.a.light)[draw() % 3] = 0; break;
    case 16: now.rect.width = one_in(2) ? now.w - now.rect.column + 1 : other(now.rect.width); break;
    case 17: now.rect.height = one_in(2) ? now.h - now.rect.row + 1 : other(now.rect.height); break;
    case 18: now.rect.column = one_in(2) ? now.w : other(now.rect.column); break;
    case 19: now.rect.row = one_in(2) ? now.h : other(now.rect.row); break;
    case 20: now.from = one_in(2) ? now.to : other(now.from); break;
    case 21: now.to = one_in(2) ? now.h + 1 : other(now.to); break;
    case 22: lend(&mask_loan, about(entries(&mask_loan))); break;
    case 23: memset(lent(&mask_loan), 0, mask_loan.bytes); break;
    default:
        if (map_loan.bytes) ((uint16_t *)lent(&map_loan))[draw() % entries(&map_loan)] = one_in(2) ? 10001 : 65535;
    }
}

#define ANSWERS 15
static uint64_t refusals[ANSWERS];

static void bad(int how)
{
    uint64_t k, n = from_to(1, 3);
    good(how);
    for (k = 0; k < n; k++) spoil();
    switch (draw() % 5) {
    case 0: refusals[light()]++; break;
    case 1: refusals[clear()]++; break;
    case 2: refusals[replace()]++; break;
    case 3: refusals[add()]++; break;
    default: refusals[band()]++; break;
    }
}

/* ---- a clear, then replacements, good and bad, under one mask; then a fresh clear gives the same map and picture */

static uint8_t run_picture[3 * MAX_PIXELS];
static uint16_t run_map[MAX_PIXELS];

static void run(int how)
{
    uint64_t k, n = from_to(1, how == SMALL ? 8 : 3), w, h;
    good_to_write(how);
    same_number(clear(), 0);
    w = now.w;
    h = now.h;
    for (k = 0; k < n; k++) {
        lend_rect();
        lend(&work_loan, HAZE_WORK(w, h));
        if (one_in(4)) now.rect.column = one_in(2) ? now.w : now.rect.column + now.w;
        if (one_in(8)) lend(&pixels_loan, about(entries(&pixels_loan)));
        replace();
    }
    memcpy(run_map, lent(&map_loan), map_loan.bytes);
    memcpy(run_picture, lent(&picture_loan), picture_loan.bytes);
    lend(&map_loan, w * h);
    lend(&picture_loan, 3 * w * h);
    lend(&work_loan, HAZE_WORK(w, h));
    same_number(clear(), 0);
    now.call = "a fresh clear after replacements";
    same_bytes(&map_loan, (uint8_t *)run_map);
    same_bytes(&picture_loan, run_picture);
}

/* ---- every two bytes under three lights: of two channels one is the column, one the row; with no radius and omega 10,000 an entry shows the least ratio */

static void every_pair(int how)
{
    uint64_t third = draw() % 3, x, y;
    uint8_t *frame;
    good(how);
    now.w = now.h = 256;
    now.k.s = now.k.r = 0;
    now.k.omega = 10000;
    frame = lend(&frame_loan, 3 * 256 * 256);
    mask_as(one_in(2) ? ALL_SEEN : SPECKLED, lend(&mask_loan, 256 * 256), 256, 256);
    for (y = 0; y < 256; y++)
        for (x = 0; x < 256; x++) {
            uint8_t *pixel = frame + 3 * (256 * y + x);
            pixel[(third + 1) % 3] = (uint8_t)x;
            pixel[(third + 2) % 3] = (uint8_t)y;
            pixel[third] = (uint8_t)(one_in(2) ? 255 : draw());
        }
    lend(&map_loan, 256 * 256);
    lend(&picture_loan, 3 * 256 * 256);
    lend(&work_loan, HAZE_WORK(256, 256));
    same_number(clear(), 0);
}

/* ---- document 01's figures that are run only */

static void defaults(uint64_t w, uint64_t h)
{
    const struct haze_settings k = HAZE_SETTINGS_DEFAULT;
    good(SMALL);
    now.k = k;
    now.w = w;
    now.h = h;
    paint(lend(&frame_loan, 3 * w * h), w, h);
    mask_as(ALL_SEEN, lend(&mask_loan, w * h), w, h);
    lend(&map_loan, w * h);
    lend(&picture_loan, 3 * w * h);
    lend(&work_loan, HAZE_WORK(w, h));
}

static void rect_at(uint64_t column, uint64_t row, uint64_t width, uint64_t height)
{
    const struct haze_rect c = {column, row, width, height};
    now.rect = c;
    lend(&pixels_loan, 3 * width * height);
}

static void figures(void)
{
    defaults(512, 512);
    same_number(light(), 0);
    lend(&work_loan, HAZE_WORK(512, 512));
    same_number(clear(), 0);
    rect_at(512 - 32, 100, 32, 32);
    lend(&work_loan, HAZE_WORK(512, 512));
    same_number(replace(), 0);
    lend(&work_loan, HAZE_WORK(512, 512));
    rect_at(512 - 32 + 1, 100, 32, 32);
    same_number(replace(), 6);
    now.w = 513;
    same_number(clear(), 1);
    same_number(light(), 1);
    defaults(16, 16);
    now.k.omega = 0;
    same_number(clear(), 2);
    same_number(light(), 2);
}

/* ---- comparisons that are known: 512 samples are 34 blocks of 15 and 2 samples, so 2*(512 - 35) within the blocks, and 33*14 + 9 windows across a border */

static void comparisons_at(uint64_t w, uint64_t h, uint64_t s, uint64_t want)
{
    now.w = w;
    now.h = h;
    now.k.s = s;
    if (comparisons() != want) differ("a known number", 0, comparisons(), want);
}

static void comparison_figures(void)
{
    comparisons_at(512, 512, 7, 1024 * (2 * (512 - 35) + 33 * 14 + 9));
    comparisons_at(2, 1, 1, 2);
    comparisons_at(4, 1, 1, 6);
    comparisons_at(1, 6, 2, 11);
    comparisons_at(1, 1, 30, 0);
    comparisons_at(1024, 256, 0, 0);
    comparisons_at(0, 7, 7, 0);
    comparisons_at(7, 0, 7, 0);
    comparisons_at(1025, 1, 7, 0);
    comparisons_at(1, 1025, 7, 0);
    comparisons_at(513, 512, 7, 0);
    comparisons_at(4294967296u, 4294967296u, 7, 0);
    comparisons_at(512, 512, 31, 0);
    comparisons_at(512, 512, 18446744073709551615u, 0);
}

/* ---- the mask's refusals, one by one: a length that is wrong is 4 in each of the three; with nothing seen Light is 14, after 4, and the others are taken */

static void mask_figures(void)
{
    static const size_t lengths[] = {0, 255, 257};
    int k;
    for (k = 0; k < 3; k++) {
        defaults(16, 16);
        rect_at(0, 0, 16, 16);
        lend(&mask_loan, lengths[k]);
        memset(lent(&mask_loan), k % 2, mask_loan.bytes);
        same_number(light(), 4);
        same_number(clear(), 4);
        same_number(replace(), 4);
    }
    defaults(16, 16);
    rect_at(0, 0, 16, 16);
    mask_as(ALL_HIDDEN, lend(&mask_loan, 256), 16, 16);
    same_number(light(), 14);
    same_number(clear(), 0);
    lend(&work_loan, HAZE_WORK(16, 16));
    same_number(replace(), 0);
    lend(&work_loan, HAZE_WORK(16, 16) - 1);
    same_number(light(), 4);
}

/* ---- groups */

static void group(const char *name, void (*one)(int), int small, int thin, int middle, int large)
{
    uint64_t before = calls;
    int i;
    for (i = 0; i < small; i++) one(SMALL);
    for (i = 0; i < thin; i++) one(THIN);
    for (i = 0; i < middle; i++) one(MIDDLE);
    for (i = 0; i < large; i++) one(LARGE);
    printf("%-8s %7llu calls agree\n", name, (unsigned long long)(calls - before));
}

static void lights(int how) { good(how); same_number(light(), nothing_seen() ? 14 : 0); }
static void clears(int how) { good_to_write(how); same_number(clear(), 0); }
static void replaces(int how) { good_to_write(how); same_number(replace(), 0); }
static void adds(int how) { good(how); same_number(add(), 0); }
static void bands(int how) { good(how); same_number(band(), 0); }

static void budgets(int how)
{
    good_size(how);
    good_settings();
    if (one_in(6)) now.w = other(now.w);
    if (one_in(6)) now.h = other(now.h);
    if (one_in(6)) now.k.s = one_in(2) ? 31 : other(now.k.s);
    comparisons();
}

int main(int count, char **words)
{
    int t = count > 1 ? atoi(words[1]) : 1, k;
    seed = count > 2 ? (uint64_t)atoi(words[2]) : 1;
    drawn = mixed(seed);
    figures();
    mask_figures();
    comparison_figures();
    printf("%-8s %7llu calls agree\n", "figures", (unsigned long long)calls);
    group("light", lights, 300 * t, 20 * t, 10 * t, 4 * t);
    group("clear", clears, 300 * t, 20 * t, 10 * t, 4 * t);
    group("pairs", every_pair, 4 * t, 0, 0, 0);
    group("replace", replaces, 600 * t, 40 * t, 20 * t, 8 * t);
    group("add", adds, 300 * t, 20 * t, 10 * t, 4 * t);
    group("band", bands, 300 * t, 20 * t, 10 * t, 4 * t);
    group("budget", budgets, 600 * t, 300 * t, 300 * t, 300 * t);
    group("runs", run, 100 * t, 10 * t, 6 * t, 2 * t);
    group("bad", bad, 4000 * t, 40 * t, 20 * t, 8 * t);
    printf("answers ");
    for (k = 0; k < ANSWERS; k++) if (refusals[k]) printf(" %d:%llu", k, (unsigned long long)refusals[k]);
    printf("\nstress: %llu calls of seed %llu agree with the peer\n", (unsigned long long)calls, (unsigned long long)seed);
    return 0;
}
