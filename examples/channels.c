/* A trace of two fuel trims: taken up where fuel trims are expected, refused where load is, or one of them alone, or none; and a text of before there
 * were codes, which is read as one with zeros.
 *   gcc -std=c99 -Wall -Wextra -Iinclude examples/channels.c target/lib/libveerycouch.a -o channels && ./channels */
#include "veerycouch.h"
#include <stdio.h>
#include <string.h>

#define D 2
#define K 1

/* The caller's own numbers for its channels. */
enum { LOAD = 4, SHORT_TRIM = 6, LONG_TRIM = 7 };

static uint64_t head[VEERYCOUCH_HEAD_WORDS];
static double statistics[VEERYCOUCH_STATISTICS(D)];
static float inputs[D * K], point[D * K], initial[1];
static uint64_t times[K], initial_times[1];
static uint8_t text[4096], older[4096];

/* One person, who may do everything. */
#define ALL VEERYCOUCH_EVERY_RIGHT, VEERYCOUCH_TABLE_CELLS, 0
#define PARTS statistics, VEERYCOUCH_STATISTICS(D), inputs, D *K, point, D *K, times, K, initial, 0, initial_times, 0

static int take_up(const char *who, const uint8_t *from, uint64_t length, const uint16_t *codes, size_t n, uint64_t expected) {
    uint64_t line = 0;
    const uint64_t row = veerycouch_restore(ALL, from, length, codes, n, head, VEERYCOUCH_HEAD_WORDS, PARTS, &line);
    printf("%s: row %llu\n", who, (unsigned long long)row);
    return row != expected;
}

int main(void) {
    const float weights[D] = {1.0f, 1.0f};
    const uint16_t trims[D] = {SHORT_TRIM, LONG_TRIM}, load[D] = {LOAD, LONG_TRIM}, zeros[D] = {0, 0};
    uint16_t codes[D] = {0, 0};
    uint64_t length = 0;
    int bad = 0;
    uint64_t row = veerycouch_build(VEERYCOUCH_STANDARD, VEERYCOUCH_NONE, D, K, 0, 1000, 0.01, 1.0f, weights, D, trims, D, head,
                                    VEERYCOUCH_HEAD_WORDS, PARTS);
    if (row == 0)
        row = veerycouch_save(ALL, head, VEERYCOUCH_HEAD_WORDS, PARTS, &length, text, sizeof text);
    if (row == 0)
        row = veerycouch_codes(ALL, head, VEERYCOUCH_HEAD_WORDS, codes, D);
    printf("built: row %llu, codes %u %u\n", (unsigned long long)row, codes[0], codes[1]);
    bad |= row != 0 || codes[0] != SHORT_TRIM || codes[1] != LONG_TRIM;
    bad |= take_up("fuel trims on a screen of fuel trims", text, length, trims, D, 0);
    bad |= take_up("fuel trims on a screen of load", text, length, load, D, 27);
    bad |= take_up("fuel trims on a screen of one channel", text, length, trims, 1, 27);
    /* the same text without its third line, as it was before there were codes */
    const uint8_t *third = (uint8_t *)memchr(text, '\n', length) + 1;
    third = (uint8_t *)memchr(third, '\n', length - (size_t)(third - text)) + 1;
    const uint8_t *fourth = (uint8_t *)memchr(third, '\n', length - (size_t)(third - text)) + 1;
    memcpy(older, text, (size_t)(third - text));
    memcpy(older + (third - text), fourth, length - (size_t)(fourth - text));
    const uint64_t shorter = length - (uint64_t)(fourth - third);
    bad |= take_up("an older text on a screen of fuel trims", older, shorter, trims, D, 27);
    bad |= take_up("an older text where zeros are expected", older, shorter, zeros, D, 0);
    return bad;
}
