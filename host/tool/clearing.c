#include "clearing.h"
#include <stdio.h>
#include <stdlib.h>
#include <string.h>
#include <time.h>
#include "memory.h"
#include "refusals.h"
#include "say.h"

static double now(void)
{
    struct timespec at;
    clock_gettime(CLOCK_MONOTONIC, &at);
    return 1e3 * (double)at.tv_sec + 1e-6 * (double)at.tv_nsec;
}

/* How long the step took that ends now. */
static double step(clearing *c)
{
    double before = c->last;
    c->last = now();
    return c->last - before;
}

int refuse_light(const words *w)
{
    char what[sizeof "light=255,255,255"];
    snprintf(what, sizeof what, "light=%d,%d,%d", w->light.red, w->light.green, w->light.blue);
    return refuse(what, HAZE_BAD_LIGHT, "%s", "");
}

/* A number of the library about what the words gave. The frame and all that is lent are as they have to be, so there is no other than these three. */
static int refuse_words(const words *w, uint8_t number)
{
    if (number == HAZE_BAD_SETTING) refuse_settings(w);
    else if (number == HAZE_NOTHING_SEEN) refuse(input_name(w->mask), number, "; 0 hides a pixel, any other byte shows it; without mask= all is seen");
    else refuse_light(w);
    return WRONG_WORDS;
}

/* The mask of the run, read once: with -o it is that of all frames. */
static mask of_run;

/* One that is refused for itself would be so for every other frame too. */
static int find_mask(clearing *c, const words *w)
{
    c->seen = new_mask(c->in.w, c->in.h);
    if (!w->mask) return DONE;
    if (!of_run.bytes && read_mask(w->mask, &of_run)) return WRONG_WORDS;
    if (of_run.w != c->in.w || of_run.h != c->in.h) return refuse_shape("mask", w->mask, of_run.w, of_run.h, c->path, &c->in);
    memcpy(c->seen.bytes, of_run.bytes, of_run.length);
    return DONE;
}

static int find_light(clearing *c, const words *w)
{
    size_t room = HAZE_WORK(c->in.w, c->in.h);
    int64_t *work;
    uint8_t number;
    c->lights.light = w->light;
    if (w->given[LIGHT]) return DONE;
    work = memory(room * sizeof *work);
    number = haze_light(c->in.w, c->in.h, &w->settings, c->seen.bytes, c->seen.length, c->in.bytes, c->in.length, work, room, &c->lights,
                        &c->comparisons);
    free(work);
    c->compared = !number;
    return number ? refuse_words(w, number) : DONE;
}

int begin_clearing(clearing *c, const char *path, const words *w)
{
    int how;
    *c = (clearing){.path = path, .last = now()};
    if (w->mask && is_standard(w->mask) && is_standard(path)) return say("standard input can be read once, not twice");
    if (read_frame(path, &c->in)) return FAILED;
    how = find_mask(c, w);
    c->reading = step(c);
    if (!how) how = find_light(c, w);
    c->finding = step(c);
    return how;
}

int clear_frame(clearing *c, const words *w)
{
    size_t room = HAZE_WORK(c->in.w, c->in.h);
    int64_t *work = memory(room * sizeof *work);
    uint8_t number;
    c->picture = new_frame(c->in.w, c->in.h);
    c->through = new_map(c->in.w, c->in.h);
    number = haze_clear(c->in.w, c->in.h, &w->settings, &c->lights, c->seen.bytes, c->seen.length, c->in.bytes, c->in.length, c->through.entries,
                        c->through.count, c->picture.bytes, c->picture.length, work, room, &c->comparisons);
    free(work);
    c->compared = !number;
    c->clearing = step(c);
    return number ? refuse_words(w, number) : DONE;
}

void free_clearing(clearing *c)
{
    free(c->in.bytes);
    free(c->seen.bytes);
    free(c->picture.bytes);
    free(c->through.entries);
}

void tell_times(clearing *c, const words *w, const char *last)
{
    const struct haze_rgb *light = &c->lights.light;
    char cleared[40] = "", compared[40] = "";
    if (!w->times) return;
    if (c->compared) snprintf(compared, sizeof compared, ", comparisons %lu", (unsigned long)c->comparisons);
    if (c->picture.bytes) snprintf(cleared, sizeof cleared, "clear %.1f ms, ", c->clearing);
    say("%s: %d by %d, light=%d,%d,%d%s; read %.1f ms, light %.1f ms, %s%s %.1f ms", input_name(c->path), (int)c->in.w, (int)c->in.h, light->red,
        light->green, light->blue, compared, c->reading, c->finding, cleared, last, step(c));
}
