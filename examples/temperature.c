/* One sensor, NORMALIZE, 4 readings a point: learns 20 readings, prints the last point and the text's first line, and takes the text up again in memory
 * that held something else; as a trace of another channel it is refused.
 *   gcc -std=c99 -Wall -Wextra -Iinclude examples/temperature.c target/lib/libveerycouch.a -o temperature && ./temperature */
#include "veerycouch.h"
#include <stdio.h>
#include <string.h>

#define D 1
#define K 4
#define START 10

/* The caller's own numbers for its channels. */
enum { TEMPERATURE = 5, LOAD = 4 };

static uint64_t head[VEERYCOUCH_HEAD_WORDS];
static double statistics[VEERYCOUCH_STATISTICS(D)];
static float inputs[D * K], point[D * K];
static uint64_t times[K], initial_times[START];
static float initial[START * D];
static uint8_t text[4096];

/* One person, who may do everything. */
#define ALL VEERYCOUCH_EVERY_RIGHT, VEERYCOUCH_TABLE_CELLS, 0
#define PARTS statistics, VEERYCOUCH_STATISTICS(D), inputs, D *K, point, D *K, times, K, initial, START *D, initial_times, START

int main(void) {
    const float weight = 1.0f;
    const uint16_t temperature = TEMPERATURE, load = LOAD;
    float output[D * K], deviations[D], past[D], expected[D], likelihood;
    uint64_t given = 0, written, anomaly, past_time, length;
    uint64_t row = veerycouch_build(VEERYCOUCH_STANDARD, VEERYCOUCH_NORMALIZE, D, K, START, 1000, 0.01, 1.0f, &weight, D,
                                    &temperature, D, head, VEERYCOUCH_HEAD_WORDS, PARTS);
    for (uint64_t t = 0; row == 0 && t < 20; t++) {
        const float reading = 20.0f + (float)(t % 5);
        row = veerycouch_shingled_point(ALL, head, VEERYCOUCH_HEAD_WORDS, PARTS, &reading, D, t, &given, output, D * K);
        if (row == 0) /* a forest would look at the point here; this one hands it straight back */
            row = veerycouch_post_process(ALL, head, VEERYCOUCH_HEAD_WORDS, PARTS, &reading, D, t, given, output, given ? D * K : 0, 0, output, 0, 0.0f, 0,
                                          deviations, D, past, D, expected, D, &written, &anomaly, &past_time, &likelihood);
    }
    if (row == 0)
        row = veerycouch_save(ALL, head, VEERYCOUCH_HEAD_WORDS, PARTS, &length, text, sizeof text);
    if (row != 0) {
        printf("refused by row %llu\n", (unsigned long long)row);
        return 1;
    }
    printf("point");
    for (size_t i = 0; i < D * K; i++)
        printf(" %.6f", (double)output[i]);
    printf("\n%llu bytes, the first line: %.*s", (unsigned long long)length, (int)((uint8_t *)memchr(text, '\n', length) - text + 1), (char *)text);
    memset(statistics, 0xff, sizeof statistics); /* the key was turned off, and on */
    memset(inputs, 0xff, sizeof inputs);
    uint64_t line = 0, seen = 0, again = 0;
    static uint8_t second[sizeof text];
    row = veerycouch_restore(ALL, text, length, &temperature, D, head, VEERYCOUCH_HEAD_WORDS, PARTS, &line);
    if (row == 0)
        row = veerycouch_values_seen(ALL, head, VEERYCOUCH_HEAD_WORDS, &seen);
    if (row == 0)
        row = veerycouch_save(ALL, head, VEERYCOUCH_HEAD_WORDS, PARTS, &again, second, sizeof second);
    printf("taken up: row %llu, %llu readings seen, the same text: %s\n", (unsigned long long)row, (unsigned long long)seen,
           again == length && memcmp(text, second, length) == 0 ? "yes" : "no");
    row = veerycouch_restore(ALL, text, length, &load, D, head, VEERYCOUCH_HEAD_WORDS, PARTS, &line);
    printf("on a screen of load: refused by row %llu\n", (unsigned long long)row);
    text[length - 2] = 'x'; /* a digit of the last line */
    row = veerycouch_restore(ALL, text, length, &temperature, D, head, VEERYCOUCH_HEAD_WORDS, PARTS, &line);
    printf("a damaged text: refused by row %llu, line %llu\n", (unsigned long long)row, (unsigned long long)line);
    head[3] = 65; /* a damaged head is refused as build would */
    row = veerycouch_drain(ALL, head, VEERYCOUCH_HEAD_WORDS, PARTS);
    printf("k 65: refused by row %llu\n", (unsigned long long)row);
    return row != 4;
}
