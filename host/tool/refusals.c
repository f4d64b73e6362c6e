#include "refusals.h"
#include <stdarg.h>
#include <stdio.h>
#include <string.h>
#include "frames.h"
#include "haze.h"
#include "say.h"

#define MORE_ROOM 6000 /* a name of the system twice would not fit, so commands show a name once */

int refuse(const char *what, uint8_t number, const char *format, ...)
{
    char more[MORE_ROOM];
    va_list values;
    va_start(values, format);
    vsnprintf(more, sizeof more, format, values);
    va_end(values);
    return say("%s: refused %d: %s%s", what, number, haze_words(number), more);
}

/* ---- names in commands */

/* The name as it can be typed in a command, or a word for it where a shell or another program would take it apart. */
static const char *typed(const netpbm *n)
{
    const char *c = n->path;
    while ((*c >= 'a' && *c <= 'z') || (*c >= 'A' && *c <= 'Z') || (*c >= '0' && *c <= '9') || (*c && strchr("._/", *c)) || (*c == '-' && c > n->path)) c++;
    return *c || !*n->path ? "IN" : n->path;
}

/* ---- what a file looks like instead */

/* Four bytes at most from the first on, and four from another place on. */
static const struct {
    const char *begin;
    size_t length, place;
    const char *there, *name;
} formats[] = {
    {"\x89PNG", 4, 0, NULL, "a PNG file"}, {"\xff\xd8\xff", 3, 0, NULL, "a JPEG file"}, {"GIF8", 4, 0, NULL, "a GIF file"},
    {"BM", 2, 6, "\0\0\0\0", "a BMP file"}, {"II*\0", 4, 0, NULL, "a TIFF file"}, {"MM\0*", 4, 0, NULL, "a TIFF file"},
    {"RIFF", 4, 8, "WEBP", "a WebP file"}, {"P1", 2, 0, NULL, "a plain PBM file (P1)"}, {"P2", 2, 0, NULL, "a plain PGM file (P2)"},
    {"P3", 2, 0, NULL, "a plain PPM file (P3)"}, {"P4", 2, 0, NULL, "a PBM file (P4)"}, {"P5", 2, 0, NULL, "a PGM file (P5)"},
    {"P6", 2, 0, NULL, "a PPM file (P6)"}, {"P7", 2, 0, NULL, "a PAM file (P7)"},
};

#define FORMATS (sizeof formats / sizeof *formats)

static int is_format(const netpbm *n, size_t k)
{
    if (n->length < formats[k].length || memcmp(n->bytes, formats[k].begin, formats[k].length)) return 0;
    return !formats[k].there || (n->length >= formats[k].place + 4 && !memcmp(n->bytes + formats[k].place, formats[k].there, 4));
}

static const char *format_of(const netpbm *n)
{
    size_t k = 0;
    while (k < FORMATS && !is_format(n, k)) k++;
    return k < FORMATS ? formats[k].name : NULL;
}

/* The kind is that of the file that was wanted. */
static int bad_header(const netpbm *n, char kind, const char *convert)
{
    const char *what = input_name(n->path), *format = format_of(n);
    if (!n->length) return refuse(what, HAZE_BAD_HEADER, "; the file is empty");
    if (!format) return refuse(what, HAZE_BAD_HEADER, "; it does not begin with P%c", kind);
    if (n->bytes[0] == 'P' && n->bytes[1] == kind)
        return refuse(what, HAZE_BAD_HEADER, "; behind P%c stand width, height and maximum, 1 to 6 digits each, then one white byte", kind);
    if (kind == '5' && n->bytes[0] == 'P' && n->bytes[1] == '6') return refuse(what, HAZE_BAD_HEADER, "; it looks like %s, a frame", format);
    return refuse(what, HAZE_BAD_HEADER, "; it looks like %s; to convert it: %s", format, convert);
}

/* ---- sizes and lengths */

#define PIXELS_MOST (uint64_t)262144

/* The side that `pamscale -pixels 262144` makes of a side. It rounds, in floats; what is near the middle is taken as rounded up. */
static uint64_t scaled_side(uint64_t side, uint64_t other)
{
    uint64_t k = 0;
    while ((100 * k + 49) * (100 * k + 49) * other <= PIXELS_MOST * 10000 * side) k++; /* k + 1 less 0.51 */
    return k;
}

/* Where one side is more than four times the other, it is the sides that keep a frame from fitting. Elsewhere what is rounded up twice may be some pixels too
 * many, which 261500 leaves room for. */
static const char *scaling(const netpbm *n)
{
    if (n->w > 4 * n->h || n->h > 4 * n->w) return "-xyfit 1024 1024";
    return scaled_side(n->w, n->h) * scaled_side(n->h, n->w) <= PIXELS_MOST ? "-pixels 262144" : "-pixels 261500";
}

static int bad_size(const netpbm *n)
{
    const char *what = input_name(n->path);
    int w = (int)n->w, h = (int)n->h; /* six digits at most */
    if (!w || !h) return refuse(what, HAZE_BAD_SIZE, "; it is %d by %d", w, h);
    return refuse(what, HAZE_BAD_SIZE, "; it is %d by %d; to scale it: pamscale %s %s >OUT", w, h, scaling(n), typed(n));
}

static int bad_length(const netpbm *n, size_t samples)
{
    const char *what = input_name(n->path);
    size_t there = n->length - (size_t)n->start;
    if (there > samples)
        return refuse(what, HAZE_BAD_LENGTH, "; the header announces %d bytes of them, and more follow; the first of several pictures: pampick 0 <%s >OUT", (int)samples, typed(n));
    return refuse(what, HAZE_BAD_LENGTH, "; the header announces %d bytes of them, and %d are there", (int)samples, (int)there);
}

/* ---- frames, masks and maps */

/* A file with a byte a sample, of this kind and with this ending. */
static int refuse_bytes(const netpbm *n, char kind, const char *ending, uint8_t number, size_t samples)
{
    char convert[MORE_ROOM];
    snprintf(convert, sizeof convert, "convert '%s[0]' -depth 8 %s:OUT.%s", typed(n), ending, ending);
    if (number == HAZE_BAD_HEADER) return bad_header(n, kind, convert);
    if (number == HAZE_BAD_SIZE) return bad_size(n);
    if (number == HAZE_BAD_LENGTH) return bad_length(n, samples);
    if (n->maximum < 1 || n->maximum > UINT16_MAX) return refuse(input_name(n->path), number, "; it is %d", (int)n->maximum);
    return refuse(input_name(n->path), number, "; it is %d; to convert it: %s", (int)n->maximum, convert);
}

int refuse_frame(const netpbm *n, uint8_t number, size_t pixels) { return refuse_bytes(n, '6', "ppm", number, pixels); }

int refuse_mask(const netpbm *n, uint8_t number, size_t samples) { return refuse_bytes(n, '5', "pgm", number, samples); }

int refuse_shape(const char *word, const char *path, uint64_t w, uint64_t h, const char *of, const frame *f)
{
    return say("%s: refused %d: the %s is %d by %d, the frame %s is %d by %d", input_name(path), HAZE_BAD_BUFFER, word, (int)w, (int)h, input_name(of), (int)f->w,
               (int)f->h);
}

/* Which maximum is wanted, of maps or of depths, or either where it is 0. */
static int bad_maximum(const netpbm *n, uint64_t wanted)
{
    const char *what = input_name(n->path), *help = "`raw` takes the numbers as they stand, `scaled` takes the maximum as";
    int is = (int)n->maximum;
    if (wanted == HAZE_DEEPEST) return say("%s: refused 12: the maximum of depths is not 918; it is %d; %s 918", what, is, help);
    if (wanted && is == HAZE_DEEPEST) return say("%s: refused 12: the maximum of a map is not 10000; it is 918, so these are depths", what);
    if (wanted) return say("%s: refused 12: the maximum of a map is not 10000; it is %d; %s 10000", what, is, help);
    return say("%s: refused 12: the maximum is neither that of a map, 10000, nor that of depths, 918; it is %d; %s 10000, or 918 with the word `depth`", what, is,
               help);
}

int refuse_numbers(const netpbm *n, uint8_t number, taking how, uint64_t maximum, size_t samples)
{
    char convert[MORE_ROOM];
    snprintf(convert, sizeof convert, "convert '%s[0]' -depth 16 pgm:OUT.pgm, then `raw` or `scaled`, whichever it holds", typed(n));
    if (number == HAZE_BAD_HEADER) return bad_header(n, '5', convert);
    if (number == HAZE_BAD_SIZE) return bad_size(n);
    if (number == HAZE_BAD_LENGTH) return bad_length(n, samples);
    if (how == EXACT) return bad_maximum(n, maximum);
    return say("%s: refused 12: the maximum of a PGM file is 1 to 65535; it is %d", input_name(n->path), (int)n->maximum);
}
