/* Answers the requests of second/ppms.py and second/depths.py: reads them from standard input, makes each call with every buffer and place between guard
 * bytes, and writes what came of it to standard output. A number is 8 bytes, the lowest first. A request is one byte, then its fields:
 *   s n file[n]                  size of a PPM file     answer w h
 *   r n m file[n] frame[m]       its pixels             answer w h frame[m]
 *   w w h n m frame[n] out[m]    the file of a frame    answer out[m]
 *   l w h                        its length             length
 *   h kind n file[n]             a Netpbm header        answer w h maximum start
 *   d w h n m map[n] depths[m]   depths of a map        answer depths[m]
 * kind and answer are one byte, entries of map and depths two, the lowest first. Ends with status 0 where a request would begin; with 1 at a request that is
 * cut or unknown, a guard or an input that was written, or answers that cannot be. */
#include <stdio.h>
#include <stdlib.h>
#include <string.h>
#include "haze.h"
#include "loans.h"

_Noreturn static void stop(const char *what, const char *name)
{
    fprintf(stderr, "calls: %s%s\n", what, name);
    exit(1);
}

/* ---- requests */

static void get(void *to, size_t n) { if (fread(to, 1, n, stdin) != n) stop("a request is cut", ""); }

static uint64_t get_number(void)
{
    uint64_t v;
    get(&v, sizeof v);
    return v;
}

/* ---- loans: one file, frame, output, map and depths, and the places for results */

static loan file = {"file", NULL, 0, 1, 0, 0}, frame = {"frame", NULL, 0, 1, 0, 0}, out = {"output", NULL, 0, 1, 0, 0},
    map = {"map", NULL, 0, 2, 0, 0}, depths = {"depths", NULL, 0, 2, 0, 0},
    places[4] = {{"w", NULL, 0, 8, 0, 0}, {"h", NULL, 0, 8, 0, 0}, {"maximum", NULL, 0, 8, 0, 0}, {"start", NULL, 0, 8, 0, 0}};

static loan *const loans[] = {&file, &frame, &out, &map, &depths, &places[0], &places[1], &places[2], &places[3]};
#define LOANS (sizeof loans / sizeof *loans)

static void *memory(size_t n)
{
    void *room = malloc(n);
    if (!room) stop("there is not enough memory", "");
    return room;
}

/* n entries, with anything in them. */
static void lend(loan *l, uint64_t n)
{
    if (n > (SIZE_MAX - ROOM(0)) / l->unit) stop("there is not enough memory", "");
    free(l->room);
    l->room = memory(ROOM(n * l->unit));
    guard(l, n);
}

static void lend_filled(loan *l, uint64_t n)
{
    lend(l, n);
    get(lent(l), l->bytes);
}

static void lend_places(void)
{
    const uint64_t untouched = 0x5555555555555555;
    int k;
    for (k = 0; k < 4; k++) {
        lend(&places[k], 1);
        memcpy(lent(&places[k]), &untouched, sizeof untouched);
    }
}

#define WHOLE(l) lent(&l), entries(&l)
#define PLACE(k) lent(&places[k])

/* ---- what is only read */

static uint8_t *was;

static void keep(const loan *l)
{
    free(was);
    was = memory(ROOM(l->bytes));
    memcpy(was, l->room, ROOM(l->bytes));
}

static void judge(const loan *input)
{
    size_t k;
    for (k = 0; k < LOANS; k++) if (broken(loans[k])) stop("a guard was written beside the ", loans[k]->name);
    if (memcmp(was, input->room, ROOM(input->bytes))) stop("an input was written: the ", input->name);
}

/* ---- replies */

static void put(const void *from, size_t n) { if (fwrite(from, 1, n, stdout) != n) stop("an answer cannot be written", ""); }

static void put_loan(const loan *l) { put(lent(l), l->bytes); }

static void put_places(int count)
{
    int k;
    for (k = 0; k < count; k++) put_loan(&places[k]);
}

/* ---- one request each */

static void size(void)
{
    uint8_t answer;
    lend_filled(&file, get_number());
    lend_places();
    keep(&file);
    answer = haze_ppm_size(WHOLE(file), PLACE(0), PLACE(1));
    judge(&file);
    put(&answer, 1);
    put_places(2);
}

static void read(void)
{
    uint64_t n = get_number(), m = get_number();
    uint8_t answer;
    lend_filled(&file, n);
    lend_filled(&frame, m);
    lend_places();
    keep(&file);
    answer = haze_ppm_read(WHOLE(file), WHOLE(frame), PLACE(0), PLACE(1));
    judge(&file);
    put(&answer, 1);
    put_places(2);
    put_loan(&frame);
}

static void write(void)
{
    uint64_t w = get_number(), h = get_number(), n = get_number(), m = get_number();
    uint8_t answer;
    lend_filled(&frame, n);
    lend_filled(&out, m);
    keep(&frame);
    answer = haze_ppm_write(w, h, WHOLE(frame), WHOLE(out));
    judge(&frame);
    put(&answer, 1);
    put_loan(&out);
}

static void length(void)
{
    uint64_t w = get_number(), h = get_number(), answer = haze_ppm_length(w, h);
    put(&answer, sizeof answer);
}

static void header(void)
{
    uint8_t kind, answer;
    get(&kind, 1);
    lend_filled(&file, get_number());
    lend_places();
    keep(&file);
    answer = haze_pnm_header(WHOLE(file), kind, PLACE(0), PLACE(1), PLACE(2), PLACE(3));
    judge(&file);
    put(&answer, 1);
    put_places(4);
}

static void deepen(void)
{
    uint64_t w = get_number(), h = get_number(), n = get_number(), m = get_number();
    uint8_t answer;
    lend_filled(&map, n);
    lend_filled(&depths, m);
    keep(&map);
    answer = haze_depths(w, h, WHOLE(map), WHOLE(depths));
    judge(&map);
    put(&answer, 1);
    put_loan(&depths);
}

static void serve(int request)
{
    switch (request) {
    case 's': size(); break;
    case 'r': read(); break;
    case 'w': write(); break;
    case 'l': length(); break;
    case 'h': header(); break;
    case 'd': deepen(); break;
    default: stop("a request is unknown", "");
    }
    if (fflush(stdout)) stop("an answer cannot be written", "");
}

int main(void)
{
    int request;
    while ((request = getc(stdin)) != EOF) serve(request);
    if (ferror(stdin)) stop("the requests cannot be read", "");
    return 0;
}
