#include "words.h"
#include <stdio.h>
#include <stdlib.h>
#include <string.h>
#include "pages.h"
#include "refusals.h"
#include "say.h"

static const char *const kinds[KINDS] = {"s=", "r=", "omega=", "e=", "t0=", "share=", "light=", "mask=", "map=", "depth=", "t=", "raw", "scaled", "depth"};

int wrong_use(const char *name, const char *what, const char *word)
{
    say("%s%s", what, word);
    usage_of(name, stderr);
    return 1;
}

/* ---- numbers */

/* A decimal number of 1 to 20 digits, at most `most`, that text begins with: what follows it, or NULL. */
static const char *number(const char *text, uint64_t most, uint64_t *value)
{
    uint64_t v = 0;
    int n;
    for (n = 0; text[n] >= '0' && text[n] <= '9'; n++) {
        uint64_t digit = (uint64_t)(text[n] - '0');
        if (n == 20 || digit > most || v > (most - digit) / 10) return NULL;
        v = 10 * v + digit;
    }
    *value = v;
    return n ? text + n : NULL;
}

int number_in(const char *text, uint64_t *value)
{
    const char *rest = number(text, UINT64_MAX, value);
    return rest && !*rest;
}

static int light_in(const char *text, struct haze_rgb *light)
{
    static const char after[3] = {',', ',', 0};
    uint8_t *const channels[3] = {&light->red, &light->green, &light->blue};
    uint64_t value;
    int c;
    for (c = 0; c < 3; c++) {
        text = number(text, UINT8_MAX, &value);
        if (!text || *text != after[c]) return 0;
        *channels[c] = (uint8_t)value;
        text++;
    }
    return 1;
}

/* ---- settings */

/* Where the number of a setting goes. */
static uint64_t *place(struct haze_settings *k, int kind)
{
    uint64_t *const places[SETTINGS] = {&k->s, &k->r, &k->omega, &k->e, &k->t0, &k->share};
    return places[kind];
}

/* What a word takes, for messages. Whether a value is refused is asked of the library. */
static const char *const ranges[BARE] = {"0 to 30", "0 to 60", "1 to 10000", "1 to 585225", "1 to 10000", "1 to 1000", "three whole numbers, 1 to 255, parted by commas",
                                         "the name of a file", "the name of a file", "the name of a file", "a whole number, 0 to 10000"};

/* Whether it is this setting that is refused: by itself, among the usual ones. */
static int is_refused(int kind, uint64_t value)
{
    struct haze_settings k = HAZE_SETTINGS_DEFAULT;
    const uint8_t black[3] = {0, 0, 0}, seen[1] = {1};
    int64_t work[HAZE_WORK(1, 1)];
    struct haze_lights lights;
    uint64_t comparisons;
    *place(&k, kind) = value;
    return haze_light(1, 1, &k, seen, sizeof seen, black, sizeof black, work, HAZE_WORK(1, 1), &lights, &comparisons) == HAZE_BAD_SETTING;
}

int refuse_settings(const words *w)
{
    struct haze_settings settings = w->settings;
    char what[sizeof "omega=18446744073709551615"];
    int k;
    for (k = 0; k < SETTINGS; k++) {
        uint64_t value = *place(&settings, k);
        snprintf(what, sizeof what, "%s%lu", kinds[k], (unsigned long)value);
        if (is_refused(k, value)) refuse(what, HAZE_BAD_SETTING, "; %.*s goes from %s", (int)strlen(kinds[k]) - 1, kinds[k], ranges[k]);
    }
    return 1;
}

/* ---- one word */

/* Letters or digits and a `=`, whether there is such a setting or not. */
static int looks_like_setting(const char *word)
{
    int n = 0;
    while ((word[n] >= 'a' && word[n] <= 'z') || (word[n] >= 'A' && word[n] <= 'Z') || (word[n] >= '0' && word[n] <= '9')) n++;
    return n && word[n] == '=';
}

/* A word with a value begins with its kind; one without is it. */
static int is_kind(const char *word, int k) { return k < BARE ? !strncmp(word, kinds[k], strlen(kinds[k])) : !strcmp(word, kinds[k]); }

/* The kind of a word that the command takes, or KINDS. */
static int kind_of(const command *c, const char *word)
{
    int k = 0;
    while (k < KINDS && !(c->takes & TAKES(k) && is_kind(word, k))) k++;
    return k;
}

static int take_value(words *w, int kind, const char *text)
{
    if (kind < SETTINGS) return number_in(text, place(&w->settings, kind));
    if (kind == LIGHT) return light_in(text, &w->light);
    if (kind == T) return number_in(text, &w->t);
    if (kind == MASK) w->mask = text;
    if (kind == MAP) w->map = text;
    if (kind == DEPTH) w->depth = text;
    return kind >= BARE || *text;
}

/* A value that is not of its kind. */
static int wrong_value(const command *c, int k, const char *word)
{
    say("%s: %.*s takes %s%s", word, (int)strlen(kinds[k]) - 1, kinds[k], k < SETTINGS ? "a whole number, " : "", ranges[k]);
    usage_of(c->name, stderr);
    return 1;
}

static int take_setting(const command *c, words *w, const char *word)
{
    int k = kind_of(c, word);
    if (k == KINDS && !looks_like_setting(word)) return wrong_use(c->name, "this is a word more than it takes: ", word);
    if (k == KINDS) return wrong_use(c->name, "this is no setting here (a file of that name is written with ./ before it): ", word);
    if (w->given[k]++) return wrong_use(c->name, "this setting stands twice: ", word);
    return take_value(w, k, word + strlen(kinds[k])) ? 0 : wrong_value(c, k, word);
}

/* ---- options: they may stand anywhere before `--` */

/* An option; -o takes the next word too, which is NULL behind the last. Answers 1 when it has said what is wrong. */
static int take_option(const command *c, words *w, char *word, char *next)
{
    if (!strcmp(word, "-h") || !strcmp(word, "--help")) exit(print_page(c->name));
    if (!strcmp(word, "-v") && c->takes & TAKES(TIMES)) return w->times = 1, 0;
    if (strcmp(word, "-o") || !(c->takes & TAKES(FOLDER))) return wrong_use(c->name, "this is no option here (behind -- it is a word as any other): ", word);
    if (w->folder) return wrong_use(c->name, "this option stands twice: ", word);
    w->folder = next;
    return next ? 0 : wrong_use(c->name, "the name of a folder is missing behind ", word);
}

static int is_option(const char *word) { return word[0] == '-' && word[1]; }

/* The words that are no options go to the beginning of the words, and are counted. */
static int take_options(const command *c, words *w, char **given, int count)
{
    int k, ended = 0;
    for (k = 0; k < count; k++) {
        if (ended || !is_option(given[k])) w->files[w->count++] = given[k];
        else if (!strcmp(given[k], "--")) ended = 1;
        else if (take_option(c, w, given[k], k + 1 < count ? given[k + 1] : NULL)) return 1;
        else if (!strcmp(given[k], "-o")) k++;
    }
    return 0;
}

/* ---- files, and settings behind them */

/* Whether one transmission is given for all pixels, so that there is no map among the files. */
static int is_even(const command *c, const words *w)
{
    int k = 0;
    while (k < w->count && !is_kind(w->files[k], T)) k++;
    return k < w->count && c->takes & TAKES(T);
}

/* What the k-th file is called, or NULL behind the last. */
static const char *place_name(const command *c, const words *w, int k)
{
    if (k > 0 && is_even(c, w)) k++;
    return k < PLACES_MOST ? c->places[k] : NULL;
}

static int places_of(const command *c, const words *w)
{
    int n = 0;
    while (place_name(c, w, n)) n++;
    return n;
}

/* How many words there are before the first that looks like a setting. */
static int leading(const words *w)
{
    int n = 0;
    while (n < w->count && !looks_like_setting(w->files[n])) n++;
    return n;
}

/* A place without a file. A setting there is most likely one for which a file was forgotten. */
static int missing(const command *c, const words *w, int files)
{
    const char *wanted = place_name(c, w, files);
    if (files == w->count) return wrong_use(c->name, "a word is missing: ", wanted);
    if (!strchr(wanted, '.')) say("%s stands where %s, a number, is wanted; settings come behind it", w->files[files], wanted);
    else say("%s stands where %s is wanted; settings come behind the files, and a file of that name is written ./%s", w->files[files], wanted, w->files[files]);
    usage_of(c->name, stderr);
    return 1;
}

int take_words(const command *c, char **given, int count, words *w)
{
    int k, files, all;
    *w = (words){.files = given, .settings = HAZE_SETTINGS_DEFAULT};
    if (take_options(c, w, given, count)) return 1;
    files = leading(w);
    if (files < (w->folder ? 1 : places_of(c, w))) return missing(c, w, files);
    if (files > 2 && is_even(c, w)) return wrong_use(c->name, "with t= there is no map: ", w->files[1]);
    if (!w->folder) files = places_of(c, w);
    all = w->count;
    w->count = files;
    for (k = files; k < all; k++)
        if (take_setting(c, w, given[k])) return 1;
    return 0;
}
