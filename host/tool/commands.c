#include "commands.h"
#include <stdio.h>
#include <stdlib.h>
#include <string.h>
#include "clearing.h"
#include "many.h"
#include "memory.h"
#include "outputs.h"
#include "refusals.h"
#include "say.h"
#include "view.h"

/* ---- depths */

/* The number of a map that depths are asked of, and the depths. */
static uint8_t depths_of(const map *m, map *depths)
{
    *depths = new_map(m->w, m->h);
    return haze_depths(m->w, m->h, m->entries, m->count, depths->entries, depths->count);
}

/* Of a map that the library made, so there is nothing to refuse. */
static content depth_file(const map *m)
{
    map depths;
    content file;
    depths_of(m, &depths);
    file = map_file(&depths, HAZE_DEEPEST);
    free(depths.entries);
    return file;
}

/* ---- clear, map, depth */

/* What is asked for of a cleared frame. The picture is the last to take its name: where a new one stands, map and depths are new too. */
static int write_cleared(const clearing *c, const char *picture, const char *through, const char *depth)
{
    output outputs[OUTPUTS_MOST];
    int count = 0;
    if (through) outputs[count++] = new_output(through, map_file(&c->through, ALL_THROUGH));
    if (depth) outputs[count++] = new_output(depth, depth_file(&c->through));
    if (picture) outputs[count++] = new_output(picture, frame_file(&c->picture));
    return write_outputs(outputs, count);
}

/* An output of another kind than the input would take its place for ever. Where there is no input or no output, nothing can be lost. */
static int lost(const char *in, const char *out)
{
    if (!in || !out || !is_same_file(in, out)) return DONE;
    return say("%s: would be lost, since it is read and something else is written to it", in);
}

static int clear_one(const words *w, const char *in, const char *picture, const char *through, const char *depth)
{
    clearing c;
    int how;
    if (lost(in, through) || lost(in, depth) || lost(w->mask, picture) || lost(w->mask, through) || lost(w->mask, depth)) return FAILED;
    how = begin_clearing(&c, in, w);
    if (!how) how = clear_frame(&c, w);
    if (!how) how = write_cleared(&c, picture, through, depth);
    if (!how) tell_times(&c, w, "write");
    free_clearing(&c);
    return how;
}

static int clear_into(const words *w, const char *in, const char *out) { return clear_one(w, in, out, NULL, NULL); }

static int clear(const words *w)
{
    if (!w->folder) return clear_one(w, w->files[0], w->files[1], w->map, w->depth);
    if (w->map || w->depth) return wrong_use("clear", "with -o there is no ", w->map ? "map=" : "depth=");
    return for_many(w, clear_into);
}

static int map_of(const words *w) { return clear_one(w, w->files[0], NULL, w->files[1], NULL); }

static int depth_of(const words *w) { return clear_one(w, w->files[0], NULL, NULL, w->files[1]); }

/* ---- light, band */

static int light_of(const words *w)
{
    clearing c;
    int how = begin_clearing(&c, w->files[0], w);
    if (!how) printf("%d,%d,%d\n", c.lights.light.red, c.lights.light.green, c.lights.light.blue);
    if (!how) tell_times(&c, w, "print");
    free_clearing(&c);
    return how ? how : printed();
}

/* The fewest digits that say which double it is. */
static void print_double(const char *name, double value)
{
    char text[sizeof "-1.2345678901234567e-308"];
    int digits = 1;
    do snprintf(text, sizeof text, "%.*g", digits++, value);
    while (strtod(text, NULL) != value);
    printf("%s %s\n", name, text);
}

static int print_band(const clearing *c, uint64_t from, uint64_t to)
{
    double mean, least;
    uint8_t number = haze_band(c->through.w, c->through.h, c->through.entries, c->through.count, from, to, &mean, &least);
    if (number)
        return say("rows %lu to %lu: refused %d: the band is empty or reaches outside the frame; %s has rows 0 to %d, and TO is left out", (unsigned long)from,
                   (unsigned long)to, number, input_name(c->path), (int)c->in.h - 1);
    print_double("mean", mean);
    print_double("least", least);
    return printed();
}

static int band(const words *w)
{
    clearing c;
    uint64_t from, to;
    int how;
    if (!number_in(w->files[1], &from)) return wrong_use("band", "this is no number of a row: ", w->files[1]);
    if (!number_in(w->files[2], &to)) return wrong_use("band", "this is no number of a row: ", w->files[2]);
    how = begin_clearing(&c, w->files[0], w);
    if (!how) how = clear_frame(&c, w);
    if (!how) how = print_band(&c, from, to);
    if (!how) tell_times(&c, w, "print");
    free_clearing(&c);
    return how;
}

/* ---- add */

static taking taken(const words *w) { return w->given[IS_RAW] ? RAW : w->given[IS_SCALED] ? SCALED : EXACT; }

/* One transmission everywhere. What 16 bits do not hold is refused as what they hold most. */
static map even_map(const frame *f, uint64_t t)
{
    map m = new_map(f->w, f->h);
    size_t i;
    for (i = 0; i < m.count; i++) m.entries[i] = t < UINT16_MAX ? (uint16_t)t : UINT16_MAX;
    return m;
}

static size_t first_above(const map *m, uint64_t top)
{
    size_t i = 0;
    while (i < m->count && m->entries[i] <= top) i++;
    return i;
}

static int refuse_entry(const char *path, const map *m)
{
    size_t i = first_above(m, ALL_THROUGH);
    return refuse(input_name(path), HAZE_BAD_ENTRY, "; it is taken as %d in column %d of row %d", m->entries[i], (int)(i % m->w), (int)(i / m->w));
}

/* What the library refuses: 5 and 8; the lengths are as they have to be. */
static int refuse_add(const words *w, uint8_t number, const map *m)
{
    if (number == HAZE_BAD_LIGHT) return refuse_light(w);
    if (w->given[T]) return say("t=%lu: refused %d: a transmission is 0 to 10000", (unsigned long)w->t, number);
    return refuse_entry(w->files[1], m);
}

static int add_haze(const words *w, const clearing *c, const map *m)
{
    frame hazy = new_frame(c->in.w, c->in.h);
    uint8_t number = haze_add(c->in.w, c->in.h, &c->lights.light, c->in.bytes, c->in.length, m->entries, m->count, hazy.bytes, hazy.length);
    int how = number ? refuse_add(w, number, m) : DONE;
    if (!how) {
        output out = new_output(w->files[w->count - 1], frame_file(&hazy));
        how = write_outputs(&out, 1);
    }
    free(hazy.bytes);
    return how;
}

static int same_shape(const words *w, const frame *f, const map *m)
{
    return (m->w == f->w && m->h == f->h) || !refuse_shape("map", w->files[1], m->w, m->h, w->files[0], f);
}

/* The map of the words. It is to be freed, however it goes. */
static int map_for(const words *w, const frame *clean, map *m)
{
    *m = (map){0};
    if (w->given[T]) return *m = even_map(clean, w->t), DONE;
    return read_map(w->files[1], taken(w), m) || !same_shape(w, clean, m) ? FAILED : DONE;
}

static int wrong_map_words(const words *w)
{
    if (w->given[IS_RAW] && w->given[IS_SCALED]) return wrong_use("add", "a map is either raw or ", "scaled");
    if (w->given[T] && taken(w) != EXACT) return wrong_use("add", "with t= there is no map that could be ", w->given[IS_RAW] ? "raw" : "scaled");
    if (!w->given[T] && is_standard(w->files[0]) && is_standard(w->files[1])) return wrong_use("add", "standard input can be read once, not ", "twice");
    return 0;
}

static int add(const words *w)
{
    clearing c;
    map m = {0, 0, NULL, 0};
    int how;
    if (wrong_map_words(w) || (!w->given[T] && lost(w->files[1], w->files[2]))) return FAILED;
    how = begin_clearing(&c, w->files[0], w);
    if (!how) how = map_for(w, &c.in, &m);
    if (!how) how = add_haze(w, &c, &m);
    if (!how) tell_times(&c, w, "add and write");
    free(m.entries);
    free_clearing(&c);
    return how;
}

/* ---- view */

static uint8_t map_number(const map *m)
{
    map depths;
    uint8_t number = depths_of(m, &depths);
    free(depths.entries);
    return number;
}

/* A map is judged as one that depths are asked of. For a depth that is too high there is no number. */
static int wrong_numbers(const char *path, const map *m, uint64_t top)
{
    size_t i = first_above(m, top);
    if (top == ALL_THROUGH) return map_number(m) ? refuse_entry(path, m) : DONE;
    if (i == m->count) return DONE;
    return say("%s: a depth is above %d; it is taken as %d in column %d of row %d", input_name(path), (int)top, m->entries[i], (int)(i % m->w), (int)(i / m->w));
}

/* The legend stands under the map, so the picture may have more pixels than the library takes. */
static content view_file(const map *m, uint64_t top)
{
    char header[sizeof "P6\n18446744073709551615 18446744073709551615\n255\n"];
    uint64_t w, h;
    size_t start;
    content file;
    view_size(m->w, m->h, &w, &h);
    start = (size_t)snprintf(header, sizeof header, "P6\n%lu %lu\n255\n", (unsigned long)w, (unsigned long)h);
    file.length = start + 3 * (size_t)w * (size_t)h;
    file.bytes = memory(file.length);
    memcpy(file.bytes, header, start);
    view_draw(top == ALL_THROUGH ? &view_map : &view_depth, m->entries, m->w, m->h, file.bytes + start);
    return file;
}

static int view(const words *w)
{
    uint64_t top = w->given[IS_DEPTH] ? HAZE_DEEPEST : 0;
    map m;
    int how;
    if (w->given[IS_RAW] && w->given[IS_SCALED]) return wrong_use("view", "the numbers are either raw or ", "scaled");
    if (lost(w->files[0], w->files[1]) || read_numbers(w->files[0], taken(w), &top, &m)) return FAILED;
    how = wrong_numbers(w->files[0], &m, top);
    if (!how) {
        output out = new_output(w->files[1], view_file(&m, top));
        how = write_outputs(&out, 1);
    }
    free(m.entries);
    return how;
}

/* ---- all of them */

static const command commands[] = {
    {"clear", {"IN.ppm", "OUT.ppm"}, TAKES_SETTINGS | TAKES(MAP) | TAKES(DEPTH) | TAKES(FOLDER), clear},
    {"map", {"IN.ppm", "MAP.pgm"}, TAKES_SETTINGS, map_of},
    {"depth", {"IN.ppm", "DEPTH.pgm"}, TAKES_SETTINGS, depth_of},
    {"light", {"IN.ppm"}, TAKES_SETTINGS & ~TAKES(LIGHT), light_of},
    {"band", {"IN.ppm", "FROM", "TO"}, TAKES_SETTINGS, band},
    {"add", {"CLEAN.ppm", "MAP.pgm", "OUT.ppm"}, TAKES(LIGHT) | TAKES(T) | TAKES(IS_RAW) | TAKES(IS_SCALED) | TAKES(TIMES), add},
    {"view", {"MAP-OR-DEPTH.pgm", "OUT.ppm"}, TAKES(IS_RAW) | TAKES(IS_SCALED) | TAKES(IS_DEPTH), view},
};

#define COMMANDS (sizeof commands / sizeof *commands)

const command *command_of(const char *name)
{
    size_t k = 0;
    while (k < COMMANDS && strcmp(name, commands[k].name)) k++;
    return k < COMMANDS ? commands + k : NULL;
}
