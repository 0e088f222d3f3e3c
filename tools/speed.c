/* Work whose instructions tools/speed counts under callgrind. Each kind of work is prepared and made with N calls, then prepared anew and made with 2N: the
 * difference is N calls and nothing else. The function `mark` stands at each border, where callgrind writes down what it has counted since the one before
 * (--dump-before=mark): four counts a kind, of which the second and the fourth are the work. A line for each kind is printed: its name (the same as in
 * measure.rs, where the same work is timed), the unit of its figure, how many units a call has, and N. A refused call ends it with status 2. */
#include "veerycouch.h"
#include <stdio.h>
#include <stdlib.h>

#define D 16
#define K 64
#define START 1999
#define BLOCKS 2000
#define READINGS 400
#define CELLS 2000
#define PAIRED 4096

struct kind {
    uint64_t mode, method;
    size_t d, k, start, blocks, calls;
    int young;
};

VEERYCOUCH_DECLARE(one, D, K, START);
VEERYCOUCH_DECLARE(two, D, K, START);
static struct veerycouch *const both[2] = {&one, &two};

static float inputs[READINGS][D], forecasts[2][3][(D + 1) * BLOCKS], turned[3][D * BLOCKS], cells[CELLS], left[PAIRED * D], right[PAIRED * D];
static double turned_times[3][BLOCKS], numbers[READINGS];
static uint64_t times[PAIRED], left_out[PAIRED], right_out[PAIRED];
static uint8_t text[VEERYCOUCH_TEXT_MAX], marks[CELLS];
static uint64_t length, newest;
static const uint16_t codes[D];
static struct veerycouch_learnt learnt;
static volatile double kept;

static uint64_t state = 88172645463325252ULL;
static uint64_t below(uint64_t n) {
    state ^= state << 13;
    state ^= state >> 7;
    state ^= state << 17;
    return (state >> 11) % n;
}
static float any(void) {
    return (float)below(4000) / 16.0f;
}

/* Called through a pointer that the compiler cannot see through, so that it stays a function with this name. */
void mark(void);
void mark(void) {}
static void (*volatile border)(void) = mark;

static void done(uint64_t row) {
    if (row != 0) {
        fprintf(stderr, "speed: a call was refused: %s\n", veerycouch_row_text(row));
        exit(2);
    }
}

/* ---- What is there before the work. */

static void built(struct veerycouch *v, const struct kind *w) {
    static const float weights[D] = {1, 1, 1, 1, 1, 1, 1, 1, 1, 1, 1, 1, 1, 1, 1, 1};
    v->input_dimensions = w->d;
    v->shingle_size = w->k;
    v->start_normalization = w->start;
    v->statistics_len = VEERYCOUCH_STATISTICS(w->d);
    v->last_shingled_input_len = w->d * w->k;
    v->last_shingled_point_len = v->output_len = (w->d + 1) * w->k;
    v->previous_timestamps_len = w->k;
    v->initial_values_len = w->start * w->d;
    v->initial_timestamps_len = w->start;
    done(veery_build(v, w->mode, w->method, SIZE_MAX, 0.001, 1.0f, weights, codes));
}

static void reading(struct veerycouch *v, size_t n) {
    const float *input = inputs[n % READINGS];
    uint64_t given;
    newest += 10;
    done(veery_shingled_point(v, input, newest, &given));
    done(veery_post_process(v, input, newest, given ? v->output : NULL, NULL, 0.0f, 0, &learnt));
}

/* After 100 readings; past the table of factors too, where the kind is not young, by the three counters of the head. */
static void fed(const struct kind *w) {
    built(&one, w);
    newest = 0;
    for (size_t n = 0; n < 100; n++)
        reading(&one, n);
    for (size_t word = 8; word < 11 && !w->young; word++)
        one.head[word] += 1000000;
}

/* Two with all their initial values, not yet fed; and the text of the first. */
static void awaited(const struct kind *w) {
    for (size_t i = 0; i < 2; i++) {
        built(both[i], w);
        for (size_t n = 0; n < w->start; n++)
            done(veery_post_process(both[i], inputs[n % READINGS], 10 * n, NULL, NULL, 0.0f, 0, &learnt));
    }
    done(veery_save(&one, text, sizeof text, &length));
}

static void forecast(const struct kind *w) {
    fed(w);
    for (size_t i = 0; i < 2; i++)
        for (size_t n = 0; n < one.width * w->blocks; n++) {
            const float value = any();
            forecasts[i][0][n] = value;
            forecasts[i][1][n] = value + 1.0f;
            forecasts[i][2][n] = value - 1.0f;
        }
}

static void nothing(const struct kind *w) {
    (void)w;
}

/* ---- The work. */

static void readings(const struct kind *w, size_t calls) {
    (void)w;
    for (size_t n = 0; n < calls; n++)
        reading(&one, n + 100);
}
static void turn_back(const struct kind *w, size_t calls) {
    const size_t whole = w->mode == VEERYCOUCH_STANDARD ? 0 : 1;
    for (size_t n = 0; n < calls; n++)
        done(veery_invert_extrapolation(&one, forecasts[n][0], forecasts[n][1], forecasts[n][2], one.width * w->blocks, turned[0], turned[1], turned[2],
                                        whole * w->d * w->blocks, turned_times[0], turned_times[1], turned_times[2], whole * w->blocks));
}
static void drain(const struct kind *w, size_t calls) {
    (void)w;
    for (size_t n = 0; n < calls; n++)
        done(veery_drain(both[n]));
}
static void save(const struct kind *w, size_t calls) {
    (void)w;
    for (size_t n = 0; n < calls; n++)
        done(veery_save(&one, text, sizeof text, &length));
}
static void restore(const struct kind *w, size_t calls) {
    uint64_t line;
    (void)w;
    for (size_t n = 0; n < calls; n++)
        done(veery_restore(&two, text, length, codes, &line));
}
static void build(const struct kind *w, size_t calls) {
    for (size_t n = 0; n < calls; n++)
        built(&one, w);
}
static void all_numbers(const struct kind *w, size_t calls) {
    uint64_t ten[VEERYCOUCH_NUMBERS];
    (void)w;
    for (size_t n = 0; n < calls; n++)
        done(veery_numbers(&one, ten));
}
static void getter(const struct kind *w, size_t calls) {
    uint64_t panel;
    (void)w;
    for (size_t n = 0; n < calls; n++)
        done(veery_panel(&one, &panel));
}
static void transform(const struct kind *w, size_t calls) {
    (void)w;
    for (size_t n = 0; n < calls; n++)
        done(veery_transform(&one, inputs[n], newest));
}
static void scale(const struct kind *w, size_t calls) {
    (void)w;
    for (size_t n = 0; n < calls; n++)
        done(veery_scale(&one));
}
static void shift(const struct kind *w, size_t calls) {
    (void)w;
    for (size_t n = 0; n < calls; n++)
        done(veery_shift(&one));
}
static void difference_deviations(const struct kind *w, size_t calls) {
    (void)w;
    for (size_t n = 0; n < calls; n++)
        done(veery_difference_deviations(&one));
}
/* The rule's number stands in method; a cell in `blocks` is present. */
static void gaps(const struct kind *w) {
    for (size_t n = 0; n < CELLS; n++)
        marks[n] = n % w->blocks != 0;
}
static void impute(const struct kind *w, size_t calls) {
    static const float fixed[1] = {1.0f};
    for (size_t n = 0; n < calls; n++)
        done(veerycouch_impute(w->method, 1, cells, CELLS, marks, CELLS, fixed, 1));
}
static void align(const struct kind *w, size_t calls) {
    float largest[D];
    uint64_t pairs;
    for (size_t n = 0; n < calls; n++)
        done(veerycouch_align(w->d, left, PAIRED * w->d, times, PAIRED, right, PAIRED * w->d, times, PAIRED, 3, left_out, PAIRED, right_out, PAIRED, largest, D,
                              &pairs));
}
static void root(const struct kind *w, size_t calls) {
    (void)w;
    for (size_t n = 0; n < calls; n++)
        kept = veerycouch_sqrt(numbers[n]);
}
static void digits(const struct kind *w, size_t calls) {
    (void)w;
    for (size_t n = 0; n < calls; n++)
        kept = (double)veerycouch_sqrt_digits(numbers[n]);
}
static void narrow(const struct kind *w, size_t calls) {
    (void)w;
    for (size_t n = 0; n < calls; n++)
        kept = (double)veerycouch_to_f32(numbers[n]);
}

/* ---- The kinds. */

typedef void prepared(const struct kind *);
typedef void made(const struct kind *, size_t calls);

/* N calls and 2N calls, each between two marks. */
static void counted(prepared *prepare, made *work, const struct kind *w) {
    for (size_t calls = w->calls; calls <= 2 * w->calls; calls += w->calls) {
        prepare(w);
        border();
        work(w, calls);
        border();
    }
}

static void told(const char *name, const char *unit, size_t units, const struct kind *w) {
    printf("%s\t%s\t%lu\t%lu\n", name, unit, (unsigned long)units, (unsigned long)w->calls);
}

static void all_readings(void) {
    static const size_t sizes[][2] = {{1, 1}, {1, 2}, {1, 4}, {1, 8}, {1, 16}, {1, 32}, {1, 64}, {2, 8}, {4, 8}, {8, 8}, {16, 8}, {16, 64}};
    static const size_t young[][2] = {{1, 8}, {4, 8}, {16, 8}, {16, 64}};
    static const struct {
        uint64_t mode;
        const char *name;
    } others[] = {{VEERYCOUCH_TIME_AUGMENTED, "TIME_AUGMENTED"}, {VEERYCOUCH_GAP_AUGMENTED, "GAP_AUGMENTED"}};
    char name[80];
    for (size_t i = 0; i < sizeof sizes / sizeof sizes[0]; i++) {
        const struct kind w = {VEERYCOUCH_STANDARD, VEERYCOUCH_NORMALIZE, sizes[i][0], sizes[i][1], 10, 0, 100, 0};
        counted(fed, readings, &w);
        sprintf(name, "point and learn, d %lu, k %lu", (unsigned long)w.d, (unsigned long)w.k);
        told(name, "reading", 1, &w);
    }
    for (size_t i = 0; i < sizeof young / sizeof young[0]; i++) {
        const struct kind w = {VEERYCOUCH_STANDARD, VEERYCOUCH_NORMALIZE, young[i][0], young[i][1], 10, 0, 100, 1};
        counted(fed, readings, &w);
        sprintf(name, "point and learn, d %lu, k %lu, young", (unsigned long)w.d, (unsigned long)w.k);
        told(name, "reading", 1, &w);
    }
    for (size_t i = 0; i < sizeof others / sizeof others[0]; i++) {
        const struct kind w = {others[i].mode, VEERYCOUCH_NORMALIZE, 4, 8, 10, 0, 100, 0};
        counted(fed, readings, &w);
        sprintf(name, "point and learn, d 4, k 8, %s", others[i].name);
        told(name, "reading", 1, &w);
    }
}

static const char *const methods[] = {"NONE", "WEIGHTED", "DIFFERENCE", "SUBTRACT_MA", "NORMALIZE", "NORMALIZE_DIFFERENCE"};

static void turned_back(uint64_t mode, const char *in, uint64_t method, size_t d, size_t blocks) {
    const struct kind w = {mode, method, d, mode == VEERYCOUCH_STANDARD ? 8 : 1, 10, blocks, 1, 0};
    char name[96];
    counted(forecast, turn_back, &w);
    sprintf(name, "turn-back, %s, %lu by %lu%s", methods[method], (unsigned long)d, (unsigned long)blocks, in);
    told(name, "call", 1, &w);
}

static void all_turn_backs(void) {
    static const size_t blocks[] = {1, 100, 250, 500, 2000};
    for (uint64_t method = 0; method < 6; method++)
        turned_back(VEERYCOUCH_STANDARD, "", method, 16, 1000);
    for (size_t d = 1; d <= 4; d += 3)
        turned_back(VEERYCOUCH_STANDARD, "", VEERYCOUCH_NORMALIZE_DIFFERENCE, d, 1000);
    for (size_t i = 0; i < sizeof blocks / sizeof blocks[0]; i++)
        turned_back(VEERYCOUCH_STANDARD, "", VEERYCOUCH_NORMALIZE_DIFFERENCE, 16, blocks[i]);
    turned_back(VEERYCOUCH_TIME_AUGMENTED, ", TIME_AUGMENTED", VEERYCOUCH_NORMALIZE_DIFFERENCE, 16, 1000);
}

static void all_waiting(void) {
    static const size_t starts[] = {1, 10, 100, 500, 1000, 1999};
    char name[80];
    for (size_t i = 0; i < sizeof starts / sizeof starts[0]; i++) {
        const struct kind w = {VEERYCOUCH_STANDARD, VEERYCOUCH_NORMALIZE, 1, 8, starts[i], 0, 1, 0};
        const unsigned long start = (unsigned long)w.start;
        counted(awaited, drain, &w);
        sprintf(name, "drain, start %lu", start);
        told(name, "value", w.start, &w);
        counted(awaited, save, &w);
        sprintf(name, "save, start %lu", start);
        told(name, "byte", (size_t)length, &w);
        counted(awaited, restore, &w);
        sprintf(name, "restore, start %lu", start);
        told(name, "byte", (size_t)length, &w);
    }
    const struct kind full = {VEERYCOUCH_STANDARD, VEERYCOUCH_NORMALIZE, 16, 64, 1999, 0, 1, 0};
    counted(awaited, save, &full);
    told("save, full", "byte", (size_t)length, &full);
    counted(awaited, restore, &full);
    told("restore, full", "byte", (size_t)length, &full);
}

static void all_others(void) {
    static const struct {
        const char *name;
        made *work;
    } lists[] = {{"build, d 16, k 8", build},
                 {"transform, d 16, k 8", transform},
                 {"scale, d 16, k 8", scale},
                 {"shift, d 16, k 8", shift},
                 {"difference_deviations, d 16, k 8", difference_deviations},
                 {"numbers", all_numbers},
                 {"a getter", getter}},
      arithmetic[] = {{"sqrt, independent", root}, {"sqrt_digits, independent", digits}, {"to_f32, independent", narrow}};
    static const char *const rules[] = {"FIXED", "PREVIOUS", "NEXT", "LINEAR"};
    char name[80];
    for (size_t i = 0; i < sizeof lists / sizeof lists[0]; i++) {
        const struct kind w = {VEERYCOUCH_STANDARD, VEERYCOUCH_NORMALIZE, 16, 8, 10, 0, 50, 0};
        counted(fed, lists[i].work, &w);
        told(lists[i].name, "call", 1, &w);
    }
    for (uint64_t rule = 0; rule < 4; rule++)
        for (size_t every = 2; every < CELLS; every += CELLS - 3) {
            const struct kind w = {0, rule, 1, 1, 0, every, 1, 0};
            counted(gaps, impute, &w);
            sprintf(name, "impute, %s, %s", rules[rule], every == 2 ? "gaps of 1" : "one gap of 1998");
            told(name, "cell", CELLS, &w);
        }
    for (size_t d = 1; d <= D; d += D - 1) {
        const struct kind w = {0, 0, d, 1, 0, 0, 1, 0};
        counted(nothing, align, &w);
        sprintf(name, "align, 4096 by 4096, d %lu", (unsigned long)d);
        told(name, "reading", PAIRED, &w);
    }
    for (size_t i = 0; i < sizeof arithmetic / sizeof arithmetic[0]; i++) {
        const struct kind w = {0, 0, 1, 1, 0, 0, READINGS / 2, 0};
        counted(nothing, arithmetic[i].work, &w);
        told(arithmetic[i].name, "number", 1, &w);
    }
}

int main(void) {
    for (size_t n = 0; n < READINGS; n++) {
        for (size_t c = 0; c < D; c++)
            inputs[n][c] = any();
        numbers[n] = (double)(1 + below((uint64_t)1 << 40)) / 1024.0;
    }
    for (size_t n = 0; n < CELLS; n++)
        cells[n] = any();
    for (size_t n = 0; n < PAIRED * D; n++) {
        left[n] = any();
        right[n] = any();
    }
    for (size_t n = 0; n < PAIRED; n++)
        times[n] = 10 * n;
    all_readings();
    all_turn_backs();
    all_waiting();
    all_others();
    return 0;
}
