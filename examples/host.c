/* A row of two pixels, cleared: the light is found, the frame cleared under it, one pixel replaced, the map's figure and depths read off, and the picture
 * written as a PPM file and read back. Then one pixel is hidden, and both. Last, how many comparisons a frame takes. */
#include <stdio.h>
#include "haze.h"

#define W 2
#define H 1

int main(void)
{
    struct haze_settings settings = HAZE_SETTINGS_DEFAULT;
    struct haze_lights lights = {{0, 0, 0}};
    const struct haze_rect second = {1, 0, 1, 1};
    const uint8_t new_pixel[3] = {190, 180, 170};
    uint8_t mask[W * H] = {1, 1};
    uint8_t frame[3 * W * H] = {200, 200, 200, 100, 150, 180}, picture[3 * W * H] = {0}, answer;
    uint16_t map[W * H] = {0}, depths[W * H] = {0};
    int64_t work[HAZE_WORK(W, H)] = {0};
    double mean = 0, least = 0;
    uint8_t file[sizeof "P6\n2 1\n255\n" - 1 + sizeof picture];
    uint64_t w = 0, h = 0, comparisons = 0;

    settings.s = 0;
    settings.r = 1;
    answer = haze_light(W, H, &settings, mask, sizeof mask, frame, sizeof frame, work, HAZE_WORK(W, H), &lights, &comparisons);
    printf("light %d: %d %d %d\n", answer, lights.light.red, lights.light.green, lights.light.blue);

    answer = haze_clear(W, H, &settings, &lights, mask, sizeof mask, frame, sizeof frame, map, W * H, picture, sizeof picture, work, HAZE_WORK(W, H),
                        &comparisons);
    printf("clear %d: %d %d, second pixel %d %d %d\n", answer, map[0], map[1], picture[3], picture[4], picture[5]);

    answer = haze_replace(W, H, &settings, &lights, &second, new_pixel, sizeof new_pixel, mask, sizeof mask, frame, sizeof frame, map, W * H, picture,
                          sizeof picture, work, HAZE_WORK(W, H), &comparisons);
    printf("replace %d: %d %d, second pixel %d %d %d\n", answer, map[0], map[1], picture[3], picture[4], picture[5]);

    answer = haze_band(W, H, map, W * H, 0, 1, &mean, &least);
    printf("band %d: mean %.4f least %.4f\n", answer, mean, least);

    answer = haze_depths(W, H, map, W * H, depths, W * H);
    printf("depths %d: %d %d\n", answer, depths[0], depths[1]);

    answer = haze_ppm_write(W, H, picture, sizeof picture, file, haze_ppm_length(W, H));
    printf("write %d: %d bytes\n", answer, (int)haze_ppm_length(W, H));

    answer = haze_ppm_size(file, sizeof file, &w, &h);
    printf("size %d: %d by %d\n", answer, (int)w, (int)h);

    answer = haze_ppm_read(file, sizeof file, picture, sizeof picture, &w, &h);
    printf("read %d: second pixel %d %d %d\n", answer, picture[3], picture[4], picture[5]);

    answer = haze_ppm_read(file, sizeof file - 1, picture, sizeof picture, &w, &h);
    printf("a file that is short is refused %d: %s\n", answer, haze_words(answer));

    answer = haze_add(W, H, &lights.light, picture, sizeof picture, map, W * H, frame, sizeof frame);
    printf("add %d: %d %d %d\n", answer, frame[3], frame[4], frame[5]);

    mask[1] = 0;
    answer = haze_clear(W, H, &settings, &lights, mask, sizeof mask, frame, sizeof frame, map, W * H, picture, sizeof picture, work, HAZE_WORK(W, H),
                        &comparisons);
    printf("clear with the second pixel hidden %d: %d %d, second pixel %d %d %d\n", answer, map[0], map[1], picture[3], picture[4], picture[5]);

    settings.s = 1;
    answer = haze_clear(W, H, &settings, &lights, mask, sizeof mask, frame, sizeof frame, map, W * H, picture, sizeof picture, work, HAZE_WORK(W, H),
                        &comparisons);
    printf("clear with s 1 %d: %d comparisons\n", answer, (int)comparisons);

    mask[0] = 0;
    answer = haze_light(W, H, &settings, mask, sizeof mask, frame, sizeof frame, work, HAZE_WORK(W, H), &lights, &comparisons);
    printf("light with nothing seen is refused %d: %s\n", answer, haze_words(answer));

    settings.s = 31;
    answer = haze_clear(W, H, &settings, &lights, mask, sizeof mask, frame, sizeof frame, map, W * H, picture, sizeof picture, work, HAZE_WORK(W, H),
                        &comparisons);
    printf("clear with s 31 is refused %d: %s\n", answer, haze_words(answer));

    printf("640 by 360 with s 7: %d comparisons\n", (int)haze_comparisons(640, 360, 7));
    return answer != HAZE_BAD_SETTING;
}
