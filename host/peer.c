/* See peer.h. Minimum by doubling along rows and by van Herk's blocks down columns (a whole
 * row at a time), window sums by running sums (columns a whole row at a time, then along the row), stage by
 * stage over just the part of the frame that the asked-for part of the map depends on.
 * The mask of that part is looked through first. Where it hides nothing, it is NULL from there on and no pixel is
 * asked for it; else hidden samples are made such that no minimum and no sum feels them, n is a running sum too,
 * and rows that are hidden whole are passed over. */
#include "peer.h"
#include <string.h>

#define MAXSIDE 1024

typedef struct { int x0, x1, y0, y1; } part;            /* columns x0..x1, rows y0..y1, ends left out */

typedef struct {
    uint16_t *mn;       /* ratio or dark value per pixel, then its window minimum, then the coarse value */
    uint16_t *tmp;      /* prefix minima of the column pass */
    uint16_t *g;        /* guide */
    int32_t *a, *b;     /* slopes and offsets */
} planes;

static int imin(int a, int b) { return a < b ? a : b; }
static int imax(int a, int b) { return a > b ? a : b; }

size_t peer_scratch(uint32_t W, uint32_t H)
{
    return (size_t)W * H * (3 * sizeof(uint16_t) + 2 * sizeof(int32_t)) + 64;
}

static planes cut(void *scratch, size_t n)
{
    planes p;
    p.a = (int32_t *)scratch;
    p.b = p.a + n;
    p.mn = (uint16_t *)(p.b + n);
    p.tmp = p.mn + n;
    p.g = p.tmp + n;
    return p;
}

static part grown(part p, int by, int W, int H)
{
    part q;
    q.x0 = imax(0, p.x0 - by); q.x1 = imin(W, p.x1 + by);
    q.y0 = imax(0, p.y0 - by); q.y1 = imin(H, p.y1 + by);
    return q;
}

static int bad_size(uint32_t W, uint32_t H)
{
    return W < 1 || W > 1024 || H < 1 || H > 1024 || W * H > 262144;
}

static int bad_light(const struct haze_rgb *a) { return !a->red || !a->green || !a->blue; }

static int bad_settings(const struct haze_settings *t)
{
    return t->s > 30 || t->r > 60 || t->omega < 1 || t->omega > 10000 || t->e < 1
        || t->e > 585225 || t->t0 < 1 || t->t0 > 10000 || t->share < 1 || t->share > 1000;
}

/* ------------------------------------------------------------------ mask */

#define NEVER_LEAST 65535 /* above every dark value and every ratio */

/* The mask, or NULL where it hides nothing of the part. */
static const uint8_t *hiding(const uint8_t *mask, int W, part p)
{
    int y;
    for (y = p.y0; y < p.y1; y++)
        if (memchr(mask + (size_t)y * W + p.x0, 0, (size_t)(p.x1 - p.x0))) return mask;
    return NULL;
}

static size_t seen_of(const uint8_t *mask, size_t n)
{
    size_t i, seen = 0;
    for (i = 0; i < n; i++) seen += mask[i] != 0;
    return seen;
}

/* value in place of what is hidden, without a branch. */
static void put_where_hidden(uint16_t *restrict row, const uint8_t *restrict mask, int n, uint16_t value)
{
    int i;
    for (i = 0; i < n; i++) {
        uint16_t keep = (uint16_t)-(mask[i] != 0);
        row[i] = (uint16_t)((row[i] & keep) | (value & ~keep));
    }
}

static int row_is_hidden(const uint8_t *mask, int n)
{
    int i = 0;
    while (i < n && !mask[i]) i++;
    return i == n;
}

/* ------------------------------------------------------------------ minimum */

static void step_min(uint16_t *restrict o, const uint16_t *a, const uint16_t *b, int n)
{
    int i;
    for (i = 0; i < n; i++) o[i] = a[i] < b[i] ? a[i] : b[i];
}

/* out[i] = least of in[max(0,i-s) .. min(n-1,i+s)]. Doubling: minima over 2, 4, 8 .. samples, then
 * two overlapping ones make 2s+1. No carried dependency, so the compiler makes vectors of it (the
 * block method of van Herk is kept for the columns, where a whole row is one step). */
static void line_min(const uint16_t *restrict in, uint16_t *restrict out, int n, int s)
{
    uint16_t u[MAXSIDE + 64], v[MAXSIDE + 64], *from = u, *to = v, *swap;
    int k = 2 * s + 1, len = n + 2 * s, p, i;
    for (i = 0; i < s; i++) u[i] = u[len - 1 - i] = 65535;
    memcpy(u + s, in, (size_t)n * sizeof *in);
    for (p = 1; 2 * p <= k; p *= 2) {
        len -= p;
        step_min(to, from, from + p, len);
        swap = from; from = to; to = swap;
    }
    step_min(out, from, from + (k - p), n);
}

static void row_min2(uint16_t *restrict o, const uint16_t *restrict a, const uint16_t *restrict b, int n)
{
    int i;
    for (i = 0; i < n; i++) o[i] = a[i] < b[i] ? a[i] : b[i];
}

static void row_min_in(uint16_t *restrict o, const uint16_t *restrict b, int n)
{
    int i;
    for (i = 0; i < n; i++) o[i] = b[i] < o[i] ? b[i] : o[i];
}

/* Window minimum of plane v (stride W) over part p, in place; the values in p alone enter.
 * Rows first, then columns with suffix minima in v, prefix minima in t, a row at a time. */
static void part_min(uint16_t *v, uint16_t *t, int W, part p, int s)
{
    int w = p.x1 - p.x0, h = p.y1 - p.y0, k = 2 * s + 1, y, b;
    if (s == 0) return;
    for (y = p.y0; y < p.y1; y++) {
        uint16_t line[MAXSIDE];
        uint16_t *row = v + (size_t)y * W + p.x0;
        line_min(row, line, w, s);
        memcpy(row, line, (size_t)w * sizeof *row);
    }
#define V(y) (v + (size_t)(p.y0 + (y)) * W + p.x0)
#define T(y) (t + (size_t)(p.y0 + (y)) * W + p.x0)
    for (b = 0; b < h; b += k) {
        int e = imin(b + k, h);
        memcpy(T(b), V(b), (size_t)w * sizeof *v);
        for (y = b + 1; y < e; y++) row_min2(T(y), T(y - 1), V(y), w);
        for (y = e - 2; y >= b; y--) row_min_in(V(y), V(y + 1), w);
    }
    /* v has the suffix minima, t the prefix minima. Output row y reads v[y-s] and t[y+s]; written
       into t[y], whose own prefix is read by output row y-s only, which is done before. */
    for (y = 0; y < h; y++) {
        int lo = y - s, hi = imin(y + s, h - 1);
        if (lo <= 0) { if (hi != y) memcpy(T(y), T(hi), (size_t)w * sizeof *v); }   /* all in block 0 */
        else if (lo / k == hi / k && hi == h - 1) memcpy(T(y), V(lo), (size_t)w * sizeof *v);
        else if (hi == y) row_min_in(T(y), V(lo), w);
        else row_min2(T(y), V(lo), T(hi), w);
    }
    for (y = 0; y < h; y++) memcpy(V(y), T(y), (size_t)w * sizeof *v);
#undef V
#undef T
}

/* ------------------------------------------------------------------ comparisons */

/* What the block method takes for a line of n, border by border. With no border it is 2 for each sample but the first. At a border a sample
 * becomes the first of its block, and the windows across it, from s before it to s behind it or to the line's end, take 1 each. */
static uint64_t line_comparisons(int n, int s)
{
    int count = 2 * (n - 1), border;
    for (border = 2 * s + 1; border < n; border += 2 * s + 1) count += imin(n, border + s) - (border - s) - 2;
    return (uint64_t)count;
}

/* The rows above here go by doubling; what is counted is the block method, in both directions. */
static uint64_t part_comparisons(part p, int s)
{
    int w = p.x1 - p.x0, h = p.y1 - p.y0;
    return (uint64_t)h * line_comparisons(w, s) + (uint64_t)w * line_comparisons(h, s);
}

static part whole(uint32_t W, uint32_t H)
{
    part all;
    all.x0 = all.y0 = 0; all.x1 = (int)W; all.y1 = (int)H;
    return all;
}

uint64_t peer_comparisons(uint32_t W, uint32_t H, uint64_t s)
{
    return bad_size(W, H) || s > 30 ? 0 : part_comparisons(whole(W, H), (int)s);
}

/* ------------------------------------------------------------------ light */

/* The least channel of each pixel. */
static void least_channels(uint16_t *restrict mn, const uint8_t *restrict frame, size_t n)
{
    size_t i;
    for (i = 0; i < n; i++) {
        uint8_t r = frame[3 * i], g = frame[3 * i + 1], b = frame[3 * i + 2];
        uint8_t x = r < g ? r : g;
        mn[i] = x < b ? x : b;
    }
}

/* How many pixels have each dark value. */
static void count_darks(const uint16_t *mn, size_t n, uint32_t count[256])
{
    uint32_t part_count[4][256];                        /* four, so that equal neighbours don't wait */
    size_t i;
    int v;
    memset(part_count, 0, sizeof part_count);
    for (i = 0; i + 4 <= n; i += 4) {
        part_count[0][mn[i]]++; part_count[1][mn[i + 1]]++;
        part_count[2][mn[i + 2]]++; part_count[3][mn[i + 3]]++;
    }
    for (; i < n; i++) part_count[0][mn[i]]++;
    for (v = 0; v < 256; v++)
        count[v] = part_count[0][v] + part_count[1][v] + part_count[2][v] + part_count[3][v];
}

/* The pixel of the greatest sum among the m candidates; m is at most the number of seen pixels. A hidden pixel stands at dark
 * value 0, where the cutoff ends at the latest; there alone the mask is asked. */
static size_t brightest(const uint16_t *mn, const uint8_t *mask, const uint8_t *frame, size_t n, size_t m)
{
    uint32_t count[256];
    size_t i, left = m, best = 0;               /* left, below: how many of the cutoff's own value are taken */
    int cutoff = 255, best_sum = -1;
    count_darks(mn, n, count);
    for (; count[cutoff] < left; cutoff--) left -= count[cutoff];
    for (i = 0; i < n; i++) {
        int sum, d = mn[i];
        if (d < cutoff) continue;
        if (d == cutoff) { if (left == 0 || (mask && !mask[i])) continue; left--; }
        sum = frame[3 * i] + frame[3 * i + 1] + frame[3 * i + 2];
        if (sum > best_sum) { best_sum = sum; best = i; }
    }
    return best;
}

int peer_light(uint32_t W, uint32_t H, const struct haze_settings *st, const uint8_t *mask, size_t mask_len,
               const uint8_t *frame, size_t frame_len, struct haze_lights *lights, uint64_t *comparisons, void *scratch)
{
    size_t n, m, seen;
    planes p;
    part all = whole(W, H);
    if (bad_size(W, H)) return 1;
    if (bad_settings(st)) return 2;
    n = (size_t)W * H;
    if (frame_len != 3 * n) return 3;
    if (mask_len != n) return 4;
    mask = hiding(mask, (int)W, all);
    seen = mask ? seen_of(mask, n) : n;
    if (!seen) return 14;
    p = cut(scratch, n);
    least_channels(p.mn, frame, n);
    if (mask) put_where_hidden(p.mn, mask, (int)n, NEVER_LEAST);
    part_min(p.mn, p.tmp, (int)W, all, (int)st->s);
    if (mask) put_where_hidden(p.mn, mask, (int)n, 0);
    m = seen * st->share / 1000;
    frame += 3 * brightest(p.mn, mask, frame, n, m < 1 ? 1 : m);
    lights->light.red = (uint8_t)imax(frame[0], 1);
    lights->light.green = (uint8_t)imax(frame[1], 1);
    lights->light.blue = (uint8_t)imax(frame[2], 1);
    *comparisons = part_comparisons(all, (int)st->s);
    return 0;
}

/* ------------------------------------------------------------------ clear */

/* floor(num / den), |quotient| below 2^40, den > 0: a double's guess, then set right. */
static inline int64_t floor_fix(int64_t q, int64_t num, int64_t den)
{
    int64_t rest = num - q * den;
    return q + (rest >= den) - (rest < 0);
}
static inline int64_t floor_div(int64_t num, int64_t den)
{
    return floor_fix((int64_t)((double)num / (double)den), num, den);
}

/* Window sums along a row: out[x - x0] = sum of c[max(0,x-r) - c0 .. min(W-1,x+r) - c0]. */
#define RUNNING(name, in_t, sum_t)                                                              \
    static void name(const in_t *restrict c, sum_t *restrict out, int c0, int x0, int x1, int r, int W) \
    {                                                                                           \
        int x, e = imin(W, x0 + r + 1), k;                                                      \
        sum_t S = 0;                                                                            \
        for (k = imax(0, x0 - r); k < e; k++) S += c[k - c0];                                   \
        out[0] = S;                                                                             \
        for (x = x0 + 1; x < imin(x1, r + 1); x++) {      /* nothing leaves yet */               \
            if (x + r < W) S += c[x + r - c0];                                                  \
            out[x - x0] = S;                                                                    \
        }                                                                                       \
        for (; x < imin(x1, W - r); x++) {                                                      \
            S += (sum_t)c[x + r - c0] - (sum_t)c[x - r - 1 - c0];                               \
            out[x - x0] = S;                                                                    \
        }                                                                                       \
        for (; x < x1; x++) {                             /* nothing enters any more */          \
            if (x - r - 1 >= 0) S -= c[x - r - 1 - c0];                                         \
            out[x - x0] = S;                                                                    \
        }                                                                                       \
    }
RUNNING(run_u32, uint32_t, uint32_t)
RUNNING(run_u64, uint32_t, uint64_t)
RUNNING(run_a, int32_t, int64_t)
RUNNING(run_b, int64_t, int64_t)

/* How many pixels the windows about a row have: how many of the rows that are in the sums are seen, column by column, and
 * from that n. Where nothing is hidden, mask is NULL and the columns are not used. */
typedef struct { const uint8_t *mask; uint32_t col[MAXSIDE]; } sizes;

static void sizes_row(sizes *c, int W, int y, part in, int add)
{
    const uint8_t *mask = c->mask + (size_t)y * W + in.x0;
    int i, w = in.x1 - in.x0;
    if (add) for (i = 0; i < w; i++) c->col[i] += mask[i] != 0;
    else     for (i = 0; i < w; i++) c->col[i] -= mask[i] != 0;
}

/* n for each column of o; 1 where it would be 0, about a hidden pixel, so that it can be divided by. */
static void sizes_of_row(const sizes *c, uint32_t *restrict n, int rows, part o, part in, int r, int W)
{
    int x, w = o.x1 - o.x0;
    if (!c->mask) {
        for (x = o.x0; x < o.x1; x++) n[x - o.x0] = (uint32_t)(rows * (imin(W, x + r + 1) - imax(0, x - r)));
        return;
    }
    run_u32(c->col, n, in.x0, o.x0, o.x1, r, W);
    for (x = 0; x < w; x++) n[x] = n[x] ? n[x] : 1;
}

/* Column sums over the window's rows for guide, coarse value and products. */
typedef struct { uint32_t g[MAXSIDE], t[MAXSIDE], gg[MAXSIDE], gt[MAXSIDE]; } cols4;

static void cols4_row(cols4 *c, const uint16_t *restrict g, const uint16_t *restrict t, int n, int add)
{
    int i;
    if (add)
        for (i = 0; i < n; i++) {
            uint32_t x = g[i], y = t[i];
            c->g[i] += x; c->t[i] += y; c->gg[i] += x * x; c->gt[i] += x * y;
        }
    else
        for (i = 0; i < n; i++) {
            uint32_t x = g[i], y = t[i];
            c->g[i] -= x; c->t[i] -= y; c->gg[i] -= x * x; c->gt[i] -= x * y;
        }
}

/* Slope and offset of each column of one row, from its window sums. */
static void slopes_row(const cols4 *c, const uint32_t *sizes, int32_t *pa, int32_t *pb, part o, part in, int r, int W, int64_t E)
{
    uint32_t Sg[MAXSIDE], St[MAXSIDE];
    uint64_t Sgg[MAXSIDE], Sgt[MAXSIDE];
    int64_t n = 0;
    double inv = 0;
    int k;
    run_u32(c->g, Sg, in.x0, o.x0, o.x1, r, W);
    run_u32(c->t, St, in.x0, o.x0, o.x1, r, W);
    run_u64(c->gg, Sgg, in.x0, o.x0, o.x1, r, W);
    run_u64(c->gt, Sgt, in.x0, o.x0, o.x1, r, W);
    for (k = 0; k < o.x1 - o.x0; k++) {
        int64_t g = Sg[k], t = St[k], P, Q, a, num;
        if (sizes[k] != n) { n = sizes[k]; inv = 1.0 / (double)n; }
        P = n * (int64_t)Sgt[k] - g * t;
        Q = n * (int64_t)Sgg[k] - g * g + n * n * E;
        a = floor_div(1024 * P, Q);
        num = 1024 * t - a * g;
        pa[k] = (int32_t)a;
        pb[k] = (int32_t)floor_fix((int64_t)((double)num * inv), num, n);
    }
}

/* The line of a hidden pixel is in no sum. */
static void no_lines_where_hidden(int32_t *restrict pa, int32_t *restrict pb, const uint8_t *restrict mask, int n)
{
    int i;
    for (i = 0; i < n; i++) {
        int32_t keep = -(mask[i] != 0);
        pa[i] &= keep;
        pb[i] &= keep;
    }
}

/* Slopes and offsets over part o; the coarse values and guides they need lie in part in. */
static void slopes(const planes *p, const uint8_t *mask, int W, int H, part o, part in, int r, int64_t E)
{
    cols4 c;
    sizes counts;
    uint32_t n[MAXSIDE];
    int y, top = imax(0, o.y0 - r), bottom = top;       /* rows top..bottom are in the column sums */
    int w = in.x1 - in.x0;
    memset(&c, 0, sizeof c);
    memset(&counts, 0, sizeof counts);
    counts.mask = mask;
    for (y = o.y0; y < o.y1; y++) {
        int want_top = imax(0, y - r), want_bottom = imin(H, y + r + 1);
        size_t at = (size_t)y * W + o.x0;
        if (mask && row_is_hidden(mask + at, o.x1 - o.x0)) {
            memset(p->a + at, 0, (size_t)(o.x1 - o.x0) * sizeof *p->a);
            memset(p->b + at, 0, (size_t)(o.x1 - o.x0) * sizeof *p->b);
            continue;
        }
        for (; bottom < want_bottom; bottom++) {
            cols4_row(&c, p->g + (size_t)bottom * W + in.x0, p->mn + (size_t)bottom * W + in.x0, w, 1);
            if (mask) sizes_row(&counts, W, bottom, in, 1);
        }
        for (; top < want_top; top++) {
            cols4_row(&c, p->g + (size_t)top * W + in.x0, p->mn + (size_t)top * W + in.x0, w, 0);
            if (mask) sizes_row(&counts, W, top, in, 0);
        }
        sizes_of_row(&counts, n, want_bottom - want_top, o, in, r, W);
        slopes_row(&c, n, p->a + at, p->b + at, o, in, r, W, E);
        if (mask) no_lines_where_hidden(p->a + at, p->b + at, mask + at, o.x1 - o.x0);
    }
}

typedef struct { int32_t a[MAXSIDE]; int64_t b[MAXSIDE]; } cols2;

static void cols2_row(cols2 *c, const int32_t *restrict a, const int32_t *restrict b, int n, int add)
{
    int i;
    if (add) for (i = 0; i < n; i++) { c->a[i] += a[i]; c->b[i] += b[i]; }
    else     for (i = 0; i < n; i++) { c->a[i] -= a[i]; c->b[i] -= b[i]; }
}

/* The recovery of one row with one division a pixel, exact in single precision: the quotient N/T to the
 * nearest, halves away from zero, is floor((N + floor(T/2)) / T), with N = |I-A|*10000, at most 2,540,000.
 * M = N + floor(T/2) is below 2^22, so M + 1/2 is a float, and (M + 1/2)/T lies at least 1/(2T) from any
 * whole number, while two roundings move it by less than (M + 1/2)/T * 2^-23 * (1 + 2^-24), below 0.31/T. */
static inline uint8_t recovered(int I, int A, float inv, float half)
{
    int d = I - A, m = d < 0 ? -d : d, q = (int)(((float)(m * 10000) + half) * inv);
    int v = d < 0 ? A - q : A + q;
    v = v < 0 ? 0 : v;
    return (uint8_t)(v > 255 ? 255 : v);
}

static void recover_row(const uint8_t *restrict in, uint8_t *restrict out, const uint16_t *restrict map,
                        int n, const struct haze_rgb *light, int t0)
{
    float inv[MAXSIDE], half[MAXSIDE];
    int i, A0 = light->red, A1 = light->green, A2 = light->blue;
    for (i = 0; i < n; i++) {
        int T = map[i] > t0 ? map[i] : t0;
        inv[i] = 1.0f / (float)T;
        half[i] = (float)(T / 2) + 0.5f;
    }
    for (i = 0; i < n; i++) {
        out[3 * i] = recovered(in[3 * i], A0, inv[i], half[i]);
        out[3 * i + 1] = recovered(in[3 * i + 1], A1, inv[i], half[i]);
        out[3 * i + 2] = recovered(in[3 * i + 2], A2, inv[i], half[i]);
    }
}

/* Map entries of one row, from its window sums. Where sizes differ from column to column, a double's guess takes the place
 * of the exact reciprocal. */
static void entries_row(uint16_t *map, const int64_t *Sa, const int64_t *Sb, const uint16_t *g, const uint32_t *sizes, int w, int uneven)
{
    int64_t n = 0;
    uint64_t inv = 0;
    int k;
    for (k = 0; k < w; k++) {
        int64_t v = (Sa[k] * g[k] + Sb[k]) >> 10;                     /* floor; the next floor by n is exact */
        if (!uneven && sizes[k] != n) inv = ((uint64_t)1 << 44) / sizes[k] + 1;
        n = sizes[k];
        v = v < 0 ? 0 : v;
        v = v > 10000 * n ? 10000 * n : v;
        map[k] = (uint16_t)(uneven ? (uint64_t)floor_div(v, n) : ((uint64_t)v * inv) >> 44); /* v*n is below 2^44, so exact */
    }
}

/* Map and picture over part o; the slopes and offsets they need lie in part in. With an entry of 10000 the recovery copies. */
static void refine(const planes *p, const uint8_t *mask, int W, int H, part o, part in, int r,
                   const uint8_t *frame, const struct haze_rgb *light, int t0, uint16_t *map, uint8_t *pic)
{
    cols2 c;
    sizes counts;
    int64_t Sa[MAXSIDE], Sb[MAXSIDE];
    uint32_t n[MAXSIDE];
    int y, top = imax(0, o.y0 - r), bottom = top, w = in.x1 - in.x0, wide = o.x1 - o.x0;
    memset(&c, 0, sizeof c);
    memset(&counts, 0, sizeof counts);
    counts.mask = mask;
    for (y = o.y0; y < o.y1; y++) {
        int want_top = imax(0, y - r), want_bottom = imin(H, y + r + 1);
        size_t at = (size_t)y * W + o.x0;
        if (mask && row_is_hidden(mask + at, wide)) {
            put_where_hidden(map + at, mask + at, wide, 10000);
            memcpy(pic + 3 * at, frame + 3 * at, 3 * (size_t)wide);
            continue;
        }
        for (; bottom < want_bottom; bottom++) {
            cols2_row(&c, p->a + (size_t)bottom * W + in.x0, p->b + (size_t)bottom * W + in.x0, w, 1);
            if (mask) sizes_row(&counts, W, bottom, in, 1);
        }
        for (; top < want_top; top++) {
            cols2_row(&c, p->a + (size_t)top * W + in.x0, p->b + (size_t)top * W + in.x0, w, 0);
            if (mask) sizes_row(&counts, W, top, in, 0);
        }
        run_a(c.a, Sa, in.x0, o.x0, o.x1, r, W);
        run_b(c.b, Sb, in.x0, o.x0, o.x1, r, W);
        sizes_of_row(&counts, n, want_bottom - want_top, o, in, r, W);
        entries_row(map + at, Sa, Sb, p->g + at, n, wide, mask != NULL);
        if (mask) put_where_hidden(map + at, mask + at, wide, 10000);
        recover_row(frame + 3 * at, pic + 3 * at, map + at, wide, light, t0);
    }
}

/* Capped ratio of every byte of a channel to its light. */
static void ratios(uint16_t table[256], int a)
{
    int i;
    for (i = 0; i < 256; i++) table[i] = (uint16_t)imin(10000 * i / a, 10000);
}

/* Answers the comparisons of the part that the ratios' minimum goes over. */
static uint64_t clear_part(int W, int H, const struct haze_settings *st, const uint8_t *mask, const uint8_t *frame,
                           const struct haze_rgb *light, part out, uint16_t *map, uint8_t *pic, void *scratch)
{
    planes p = cut(scratch, (size_t)W * H);
    int s = (int)st->s, r = (int)st->r, x, y;
    uint32_t omega = (uint32_t)st->omega;
    part slope = grown(out, r, W, H), coarse = grown(slope, r, W, H), ratio = grown(coarse, s, W, H);
    uint16_t table[3][256];
    ratios(table[0], light->red);
    ratios(table[1], light->green);
    ratios(table[2], light->blue);
    mask = hiding(mask, W, ratio);
    for (y = ratio.y0; y < ratio.y1; y++) {
        size_t at = (size_t)y * W + ratio.x0;
        for (x = ratio.x0; x < ratio.x1; x++) {
            size_t k = (size_t)y * W + x;
            const uint8_t *f = frame + 3 * k;
            uint16_t q = table[0][f[0]], u = table[1][f[1]], v = table[2][f[2]];
            q = u < q ? u : q;
            p.mn[k] = v < q ? v : q;
            p.g[k] = (uint16_t)(f[0] + f[1] + f[2]);
        }
        if (mask) put_where_hidden(p.mn + at, mask + at, ratio.x1 - ratio.x0, NEVER_LEAST);
        if (mask) put_where_hidden(p.g + at, mask + at, ratio.x1 - ratio.x0, 0);
    }
    part_min(p.mn, p.tmp, W, ratio, s);
    for (y = coarse.y0; y < coarse.y1; y++) {
        uint16_t *row = p.mn + (size_t)y * W;
        for (x = coarse.x0; x < coarse.x1; x++)
            row[x] = (uint16_t)(10000 - omega * row[x] / 10000);
        if (mask) put_where_hidden(row + coarse.x0, mask + (size_t)y * W + coarse.x0, coarse.x1 - coarse.x0, 0);
    }
    slopes(&p, mask, W, H, slope, coarse, r, (int64_t)st->e);
    refine(&p, mask, W, H, out, slope, r, frame, light, (int)st->t0, map, pic);
    return part_comparisons(ratio, s);
}

static int clear_refused(uint32_t W, uint32_t H, const struct haze_settings *st, size_t mask_len, size_t frame_len,
                         const struct haze_rgb *light, size_t map_len, size_t pic_len)
{
    size_t n;
    if (bad_size(W, H)) return 1;
    if (bad_settings(st)) return 2;
    n = (size_t)W * H;
    if (frame_len != 3 * n) return 3;
    if (mask_len != n || pic_len != 3 * n || map_len != n) return 4;
    if (bad_light(light)) return 5;
    return 0;
}

int peer_clear(uint32_t W, uint32_t H, const struct haze_settings *st, const struct haze_lights *lights,
               const uint8_t *mask, size_t mask_len, const uint8_t *frame, size_t frame_len,
               uint16_t *map, size_t map_len, uint8_t *pic, size_t pic_len, uint64_t *comparisons, void *scratch)
{
    int no = clear_refused(W, H, st, mask_len, frame_len, &lights->light, map_len, pic_len);
    if (no) return no;
    *comparisons = clear_part((int)W, (int)H, st, mask, frame, &lights->light, whole(W, H), map, pic, scratch);
    return 0;
}

int peer_replace(uint32_t W, uint32_t H, const struct haze_settings *st, const struct haze_lights *lights,
                 const struct haze_rect *rect, const uint8_t *px, size_t px_len,
                 const uint8_t *mask, size_t mask_len, uint8_t *frame, size_t frame_len,
                 uint16_t *map, size_t map_len, uint8_t *pic, size_t pic_len, uint64_t *comparisons, void *scratch)
{
    uint64_t x = rect->column, y = rect->row, w = rect->width, h = rect->height, j;
    part c;
    int no = clear_refused(W, H, st, mask_len, frame_len, &lights->light, map_len, pic_len);
    if (no) return no;
    if (w < 1 || h < 1 || x >= W || y >= H || w > W - x || h > H - y) return 6;
    if (px_len != 3 * w * h) return 7;
    for (j = 0; j < h; j++) memcpy(frame + 3 * ((y + j) * W + x), px + 3 * j * w, 3 * w);
    c.x0 = (int)x; c.x1 = (int)(x + w); c.y0 = (int)y; c.y1 = (int)(y + h);
    *comparisons = clear_part((int)W, (int)H, st, mask, frame, &lights->light,
                              grown(c, (int)(st->s + 2 * st->r), (int)W, (int)H), map, pic, scratch);
    return 0;
}

/* ------------------------------------------------------------------ haze and band figure */

int peer_add(uint32_t W, uint32_t H, const struct haze_rgb *light, const uint8_t *clean, size_t clean_len,
             const uint16_t *map, size_t map_len, uint8_t *hazy, size_t hazy_len)
{
    size_t n, i;
    uint16_t top = 0;
    uint32_t A0, A1, A2;
    if (bad_size(W, H)) return 1;
    n = (size_t)W * H;
    if (clean_len != 3 * n) return 3;
    if (hazy_len != 3 * n || map_len != n) return 4;
    if (bad_light(light)) return 5;
    for (i = 0; i < n; i++) top = map[i] > top ? map[i] : top;
    if (top > 10000) return 8;
    A0 = light->red; A1 = light->green; A2 = light->blue;
    for (i = 0; i < n; i++) {
        uint32_t t = map[i], u = 10000 - t;
        hazy[3 * i] = (uint8_t)((clean[3 * i] * t + A0 * u + 5000) / 10000);
        hazy[3 * i + 1] = (uint8_t)((clean[3 * i + 1] * t + A1 * u + 5000) / 10000);
        hazy[3 * i + 2] = (uint8_t)((clean[3 * i + 2] * t + A2 * u + 5000) / 10000);
    }
    return 0;
}

int peer_band(uint32_t W, uint32_t H, const uint16_t *map, size_t map_len,
              uint32_t from, uint32_t to, double *mean, double *least)
{
    size_t n, i;
    uint64_t sum = 0;
    uint16_t top = 0, low = 65535;
    if (bad_size(W, H)) return 1;
    n = (size_t)W * H;
    if (map_len != n) return 4;
    if (from >= to || to > H) return 6;
    for (i = 0; i < n; i++) top = map[i] > top ? map[i] : top;
    if (top > 10000) return 8;
    for (i = (size_t)from * W; i < (size_t)to * W; i++) {
        sum += map[i];
        low = map[i] < low ? map[i] : low;
    }
    *mean = (double)sum / (double)(10000 * (uint64_t)(to - from) * W);
    *least = (double)low / 10000.0;
    return 0;
}

/* ------------------------------------------------------------------ relative depth */

#define STEPS 918

/* The depth of each entry a map may have: with more transmission the depth only falls, so the table of steps is walked once, from its end. */
static void fill_depths(uint16_t depth_of[10001])
{
    uint32_t table[STEPS], x = 1000000000, d = STEPS, t;
    int k;
    for (k = 0; k < STEPS; k++) {
        table[k] = x;
        x = (uint32_t)((uint64_t)x * 99 / 100);
    }
    for (t = 0; t <= 10000; t++) {
        while (d > 0 && table[d - 1] <= 100000 * t) d--;
        depth_of[t] = (uint16_t)d;
    }
}

int peer_depths(uint32_t W, uint32_t H, const uint16_t *map, size_t map_len,
                uint16_t *depths, size_t depths_len)
{
    uint16_t depth_of[10001], top = 0;
    size_t n, i;
    if (bad_size(W, H)) return 1;
    n = (size_t)W * H;
    if (map_len != n || depths_len != n) return 4;
    for (i = 0; i < n; i++) top = map[i] > top ? map[i] : top;
    if (top > 10000) return 8;
    fill_depths(depth_of);
    for (i = 0; i < n; i++) depths[i] = depth_of[map[i]];
    return 0;
}
