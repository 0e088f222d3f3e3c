/* The coolant's temperature on a handheld reader: learns 20 readings, puts its state away at key-off, takes it up again, and refuses a trace of load.
 *   make && cc -std=c99 -Iinclude examples/coolant.c target/lib/libveerycouch.a -o coolant && ./coolant */
#include "veerycouch.h"
#include <stdio.h>

enum { LOAD = 4, COOLANT = 5 };        /* the caller's own numbers for its channels */
VEERYCOUCH_DECLARE(coolant, 1, 4, 10); /* 1 channel, points of 4 readings, the statistics start with 10 */
static uint8_t text[VEERYCOUCH_TEXT_ROOM(1, 4, 10)];

static int refused(const char *what, uint64_t row) {
    if (row != 0)
        printf("%s: row %d, %s\n", what, (int)row, veerycouch_row_text(row));
    return row != 0;
}

int main(void) {
    const float weight = 1.0f;
    const uint16_t code = COOLANT, load = LOAD;
    struct veerycouch_learnt learnt;
    uint64_t given = 0, length = 0, line = 0, seen = 0;
    if (refused("build", veery_build(&coolant, VEERYCOUCH_STANDARD, VEERYCOUCH_NORMALIZE, 1000, 0.01, 1.0f, &weight, &code)))
        return 1;
    for (uint64_t t = 0; t < 20; t++) {
        const float reading = 90.0f + (float)(t % 5);
        if (refused("point", veery_shingled_point(&coolant, &reading, t, &given)))
            return 1;
        /* a forest would look at the point here; this one hands it straight back */
        if (refused("learn", veery_post_process(&coolant, &reading, t, given ? coolant.output : NULL, NULL, 0.0f, 0, &learnt)))
            return 1;
    }
    printf("point");
    for (size_t i = 0; i < coolant.dimension; i++)
        printf(" %.6f", (double)coolant.output[i]);
    if (refused("\nsave", veery_save(&coolant, text, sizeof text, &length)))
        return 1;
    printf("\nput away: %d of %d bytes\n", (int)length, (int)sizeof text);
    if (refused("restore", veery_restore(&coolant, text, (size_t)length, &code, &line)) || refused("seen", veery_values_seen(&coolant, &seen)))
        return 1;
    printf("taken up: %d readings seen\n", (int)seen);
    refused("on a screen of load", veery_restore(&coolant, text, (size_t)length, &load, &line));
    coolant_table[4 * 2 + VEERYCOUCH_LEARN] = 0; /* role 2 may not learn */
    coolant.role = 2;
    refused("drain by role 2", veery_drain(&coolant));
    return 0;
}
