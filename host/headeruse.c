/* A caller's program for host/header_test, C89 and C++98 at once. It uses all that haze.h has, so that a warning that the header causes in a caller's code
 * shows. It is compiled, not run. */
#include "haze.h"

#define W 2
#define H 1

#ifdef __cplusplus
extern "C" {
#endif

/* Every function by its address, under the type that a caller may count on. */
struct functions {
    uint8_t (*light)(uint64_t, uint64_t, const struct haze_settings *, const uint8_t *, size_t, const uint8_t *, size_t, int64_t *, size_t,
                     struct haze_lights *, uint64_t *);
    uint8_t (*clear)(uint64_t, uint64_t, const struct haze_settings *, const struct haze_lights *, const uint8_t *, size_t, const uint8_t *, size_t, uint16_t *,
                     size_t, uint8_t *, size_t, int64_t *, size_t, uint64_t *);
    uint8_t (*replace)(uint64_t, uint64_t, const struct haze_settings *, const struct haze_lights *, const struct haze_rect *, const uint8_t *, size_t,
                       const uint8_t *, size_t, uint8_t *, size_t, uint16_t *, size_t, uint8_t *, size_t, int64_t *, size_t, uint64_t *);
    uint64_t (*comparisons)(uint64_t, uint64_t, uint64_t);
    uint8_t (*add)(uint64_t, uint64_t, const struct haze_rgb *, const uint8_t *, size_t, const uint16_t *, size_t, uint8_t *, size_t);
    uint8_t (*band)(uint64_t, uint64_t, const uint16_t *, size_t, uint64_t, uint64_t, double *, double *);
    uint8_t (*depths)(uint64_t, uint64_t, const uint16_t *, size_t, uint16_t *, size_t);
    uint8_t (*ppm_size)(const uint8_t *, size_t, uint64_t *, uint64_t *);
    uint8_t (*ppm_read)(const uint8_t *, size_t, uint8_t *, size_t, uint64_t *, uint64_t *);
    uint64_t (*ppm_length)(uint64_t, uint64_t);
    uint8_t (*ppm_write)(uint64_t, uint64_t, const uint8_t *, size_t, uint8_t *, size_t);
    uint8_t (*pnm_header)(const uint8_t *, size_t, uint8_t, uint64_t *, uint64_t *, uint64_t *, uint64_t *);
    const char *(*words)(uint8_t);
};
extern const struct functions functions;
const struct functions functions = {haze_light,  haze_clear,    haze_replace,  haze_comparisons, haze_add,       haze_band,
                                    haze_depths, haze_ppm_size, haze_ppm_read, haze_ppm_length,  haze_ppm_write, haze_pnm_header,
                                    haze_words};

#ifdef __cplusplus
}
#endif

/* HAZE_WORK is a constant, of the value and the type that the header says. */
typedef char work_has_its_value[HAZE_WORK(W, H) == 48 && HAZE_WORK(512u, 512) == 2105352 ? 1 : -1];
typedef char work_has_its_type[sizeof HAZE_WORK(W, H) == sizeof(size_t) ? 1 : -1];
enum { WORK = HAZE_WORK(W, H) };

static size_t of_int(int w, int h) { return HAZE_WORK(w, h); }
static size_t of_unsigned(unsigned w, unsigned h) { return HAZE_WORK(w, h); }
static size_t of_uint16(uint16_t w, uint16_t h) { return HAZE_WORK(w, h); }
static size_t of_uint64(uint64_t w, uint64_t h) { return HAZE_WORK(w, h); }
static size_t of_size(size_t w, size_t h) { return HAZE_WORK(w, h); }
static size_t of_sums(int w, uint64_t h) { return HAZE_WORK(w + 1, h - 1); }

static int works_agree(void)
{
    return of_int(W, H) == WORK && of_unsigned(W, H) == WORK && of_uint16(W, H) == WORK && of_uint64(W, H) == WORK && of_size(W, H) == WORK &&
           of_sums(1, 2) == WORK;
}

static uint8_t picture_cleared(uint8_t *frame, uint8_t *picture)
{
    static const uint8_t pixels[3 * W * H] = {0}, mask[W * H] = {1, 255};
    static int64_t work[HAZE_WORK(W, H)];
    struct haze_settings settings = HAZE_SETTINGS_DEFAULT;
    struct haze_rgb grey = {200, 200, 200};
    struct haze_lights lights = {{0, 0, 0}};
    struct haze_rect rect = {0, 0, W, H};
    uint16_t map[W * H] = {0, 0}, depths[W * H] = {0, 0};
    uint64_t comparisons = 0;
    uint8_t answer = haze_light(W, H, &settings, mask, W * H, frame, 3 * W * H, work, HAZE_WORK(W, H), &lights, &comparisons);
    if (answer == HAZE_DONE) {
        lights.light = grey;
        answer = haze_replace(W, H, &settings, &lights, &rect, pixels, 3 * W * H, mask, W * H, frame, 3 * W * H, map, W * H, picture, 3 * W * H, work,
                              sizeof work / sizeof work[0], &comparisons);
    }
    if (comparisons != haze_comparisons(W, H, settings.s)) answer = HAZE_BAD_SETTING;
    if (answer == HAZE_DONE) answer = haze_depths(W, H, map, W * H, depths, W * H);
    if (depths[0] > HAZE_DEEPEST) answer = HAZE_BAD_ENTRY;
    if (answer == HAZE_NOTHING_SEEN) answer = HAZE_BAD_BUFFER;
    return answer;
}

int main(void)
{
    const char *version = HAZE_VERSION, *words = haze_words(HAZE_BAD_SIZE);
    uint8_t frame[3 * W * H] = {200, 200, 200, 100, 150, 180}, picture[3 * W * H] = {0, 0, 0, 0, 0, 0};
    uint8_t answer = picture_cleared(frame, picture);
    return works_agree() && *version == '0' && *words == 'w' && *haze_words(answer) == 'd' ? 0 : 1;
}
