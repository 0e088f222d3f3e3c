/* The calls on the handle (include/veerycouch.h) beside the flat calls: random lists of calls on two preprocessors with the same memory, one through the
 * handle and one flat; rows, answers and memory must agree, and every row text must be there. `make test` runs it. */
#include "veerycouch.h"
#include <stdio.h>
#include <string.h>

#define D 2
#define K 3
#define START 4
#define ROOM VEERYCOUCH_TEXT_ROOM(D, K, START)
#define BLOCK ((D + 1) * K)

VEERYCOUCH_DECLARE(one, D, K, START);
VEERYCOUCH_DECLARE(two, D, K, START);
VEERYCOUCH_DECLARE(none, 1, 1, 0); /* no initial values: parts of no length */
VEERYCOUCH_DECLARE_PLAIN(plain, D, K, START); /* for methods 0 to 3 */

static uint64_t state = 88172645463325252ULL;
static uint64_t below(uint64_t n) {
    state ^= state << 13;
    state ^= state >> 7;
    state ^= state << 17;
    return (state >> 11) % n;
}
static uint64_t calls, refusals;
static int wrong;
static void same(const char *what, uint64_t row, uint64_t flat_row) {
    calls++;
    refusals += row != 0;
    if (row != flat_row) {
        printf("%s: row %d by the handle, %d flat\n", what, (int)row, (int)flat_row);
        wrong = 1;
    }
}
static void equal(const char *what, const void *a, const void *b, size_t n) {
    if (memcmp(a, b, n) != 0) {
        printf("%s: differs\n", what);
        wrong = 1;
    }
}
/* the bits of floats, as words: two answers of one call have the same not-a-numbers too */
#define EQUAL(what, a, b) equal(what, a, b, sizeof(a))

#define FLAT two.table, two.table_len, two.role, two.head, two.head_len
#define PARTS                                                                                                                                       \
    two.statistics, two.statistics_len, two.last_shingled_input, two.last_shingled_input_len, two.last_shingled_point, two.last_shingled_point_len, \
        two.previous_timestamps, two.previous_timestamps_len, two.initial_values, two.initial_values_len, two.initial_timestamps,                   \
        two.initial_timestamps_len

static void memory(void) {
    EQUAL("head", one_head, two_head);
    EQUAL("statistics", one_statistics, two_statistics);
    EQUAL("last_shingled_input", one_last_shingled_input, two_last_shingled_input);
    EQUAL("last_shingled_point", one_last_shingled_point, two_last_shingled_point);
    EQUAL("previous_timestamps", one_previous_timestamps, two_previous_timestamps);
    EQUAL("initial_values", one_initial_values, two_initial_values);
    EQUAL("initial_timestamps", one_initial_timestamps, two_initial_timestamps);
    EQUAL("output", one_output, two_output);
}

static const uint16_t codes[D] = {7, 9};
static uint64_t newest;
static size_t width;

static int build(void) {
    const float weights[D] = {1.0f, below(2) ? 2.0f : 1.0f};
    const uint64_t modes[] = {VEERYCOUCH_STANDARD, VEERYCOUCH_TIME_AUGMENTED, VEERYCOUCH_GAP_AUGMENTED}, mode = modes[below(3)], method = below(6);
    const size_t stop = START + below(9);
    const double decay = (double)below(64) / 64.0;
    const float weight_time = (float)(1 + below(3));
    const uint64_t flat = veerycouch_build(mode, method, D, K, START, stop, decay, weight_time, weights, D, codes, D, two.head, two.head_len, PARTS);
    same("build", veery_build(&one, mode, method, stop, decay, weight_time, weights, codes), flat);
    if (flat != (method == VEERYCOUCH_NONE && weights[1] != 1.0f ? 9 : 0))
        wrong = 1, printf("build: row %d\n", (int)flat);
    if (flat == 0)
        width = mode == VEERYCOUCH_STANDARD ? D : D + 1;
    newest = below(100);
    return flat == 0;
}

static void numbers(void) {
    uint64_t a = 1, b = 1, all[2][VEERYCOUCH_NUMBERS] = {{0}};
    uint16_t c[D] = {0}, e[D] = {0};
#define NUMBER(name)                                                                                                                                \
    a = b = 1;                                                                                                                                      \
    same(#name, veery_##name(&one, &a), veerycouch_##name(FLAT, &b));                                                                               \
    equal(#name, &a, &b, sizeof a)
    NUMBER(values_seen);
    NUMBER(panel);
    NUMBER(internal_timestamp);
    NUMBER(is_ready);
    NUMBER(get_dimension);
    NUMBER(input_dimensions);
    NUMBER(shingle_size);
    NUMBER(start_normalization);
    NUMBER(transformation_method);
    NUMBER(forest_mode);
    same("numbers", veery_numbers(&one, all[0]), veerycouch_numbers(FLAT, all[1], VEERYCOUCH_NUMBERS));
    EQUAL("numbers", all[0], all[1]);
    same("codes", veery_codes(&one, c), veerycouch_codes(FLAT, e, D));
    EQUAL("codes", c, e);
}

static void turn_back(void) {
    float in[2][3][2 * BLOCK], out[2][3][2 * D * K];
    double times[2][3][2];
    memset(in, 0, sizeof in), memset(out, 0, sizeof out), memset(times, 0, sizeof times);
    const size_t n = (width == D ? D : width * K) * (1 + below(2)), h = width == D ? 0 : 2;
    for (size_t i = 0; i < 3; i++)
        for (size_t j = 0; j < n; j++)
            in[0][i][j] = in[1][i][j] = (float)below(1000) / 8.0f + 100.0f * (float)i;
    same("invert_extrapolation",
         veery_invert_extrapolation(&one, in[0][0], in[0][1], in[0][2], n, out[0][0], out[0][1], out[0][2], h * D * K, times[0][0], times[0][1], times[0][2], h),
         veerycouch_invert_extrapolation(FLAT, two.statistics, two.statistics_len, two.last_shingled_input, two.last_shingled_input_len, two.previous_timestamps,
                                         two.previous_timestamps_len, in[1][0], n, in[1][1], n, in[1][2], n, out[1][0], h * D * K, out[1][1], h * D * K, out[1][2],
                                         h * D * K, times[1][0], h, times[1][1], h, times[1][2], h));
    EQUAL("turned back in place", in[0], in[1]);
    EQUAL("turned back", out[0], out[1]);
    EQUAL("turned back times", times[0], times[1]);
}

static void learn(const float *x, uint64_t t) {
    float y[BLOCK], expected[BLOCK];
    struct veerycouch_learnt a, b;
    memset(&a, 1, sizeof a), memset(&b, 1, sizeof b);
    for (size_t i = 0; i < BLOCK; i++) {
        y[i] = (float)below(100) / 4.0f;
        expected[i] = (float)below(100) / 2.0f;
    }
    const uint64_t has_y = below(4) ? 1 : 0, expects = below(2);
    const float grade = below(2) ? 1.0f : 0.0f;
    const int32_t index = -(int32_t)below(K + 1);
    const uint64_t flat = veerycouch_post_process(FLAT, PARTS, x, D, t, has_y, y, has_y ? width * K : 0, expects, expected, expects ? width * K : 0, grade, index,
                                                  b.deviations, 17, b.past, 16, b.expected, 16, &b.written, &b.has_anomaly, &b.past_timestamp, &b.likelihood);
    same("post_process", veery_post_process(&one, x, t, has_y ? y : NULL, expects ? expected : NULL, grade, index, &a), flat);
    equal("learnt", &a, &b, sizeof a);
    if (flat == 0)
        newest = t;
}

static void text(void) {
    static uint8_t a[ROOM], b[ROOM];
    uint64_t m = 0, n = 0, line = 0, flat_line = 0;
    memset(a, 0, sizeof a), memset(b, 0, sizeof b);
    const uint64_t row = veery_save(&one, a, sizeof a, &m);
    same("save", row, veerycouch_save(FLAT, PARTS, &n, b, sizeof b));
    EQUAL("text", a, b);
    equal("length", &m, &n, sizeof m);
    if (row != 0 || m == 0)
        return;
    if (below(3) == 0)
        a[below(m)] ^= 1;
    const uint16_t others[D] = {7, 8}, *expected = below(4) ? codes : others;
    uint64_t kept[VEERYCOUCH_HEAD_WORDS];
    memcpy(kept, one_head, sizeof kept);
    memset(one_head, 0, sizeof one_head), memset(two_head, 0, sizeof two_head); /* restore reads none of it */
    const size_t kept_width = one.width, kept_dimension = one.dimension;
    one.width = one.dimension = 77; /* and what is measured comes from the text */
    const uint64_t flat = veerycouch_restore(two.table, two.table_len, two.role, a, (size_t)m, expected, D, two.head, two.head_len, PARTS, &flat_line);
    same("restore", veery_restore(&one, a, (size_t)m, expected, &line), flat);
    equal("line", &line, &flat_line, sizeof line);
    if (flat == 0) { /* a damaged letter may have changed the mode */
        width = two.head[0] == VEERYCOUCH_STANDARD ? D : D + 1;
        if (one.width != width || one.dimension != width * two.head[3])
            wrong = 1, printf("restore: the handle measures %d and %d\n", (int)one.width, (int)one.dimension);
        return;
    }
    if (one.width != 77 || one.dimension != 77)
        wrong = 1, printf("restore: a refusal has changed the handle\n");
    one.width = kept_width, one.dimension = kept_dimension;
    memcpy(one_head, kept, sizeof kept), memcpy(two_head, kept, sizeof kept);
}

/* Under methods 0 to 3 the handle's initial lists may be empty: every call is done that a fresh preprocessor does; methods 4 and 5 are refused by 20. */
static void without_lists(void) {
    static uint8_t a[ROOM];
    const float weights[D] = {1.0f, 1.0f}, x[D] = {2.0f, 3.0f};
    struct veerycouch_learnt learnt;
    for (uint64_t mode = 0; mode < 4; mode++)
        for (uint64_t method = 0; method < 6; method++) {
            uint64_t given = 0, length = 0, line = 0, row = veery_build(&plain, mode, method, 10, 0.0, 1.0f, weights, codes);
            const uint64_t due = mode == VEERYCOUCH_STREAMING_IMPUTE ? VEERYCOUCH_ROW_STREAMING_IMPUTE : method < 4 ? VEERYCOUCH_ROW_DONE : VEERYCOUCH_ROW_TOO_SHORT;
            for (uint64_t t = 0; t < 2 * START && due == 0 && row == 0; t++) {
                row = veery_shingled_point(&plain, x, t, &given);
                if (row == 0 && given == 1)
                    row = veery_post_process(&plain, x, t, plain.output, NULL, 0.0f, 0, &learnt);
            }
            if (due == 0 && row == 0)
                row = veery_save(&plain, a, sizeof a, &length);
            if (due == 0 && row == 0)
                row = veery_restore(&plain, a, (size_t)length, codes, &line);
            if (row != due || (due == 0 && (given != 1 || plain.head[8] != 2 * START)))
                wrong = 1, printf("mode %d, method %d without initial lists: row %d\n", (int)mode, (int)method, (int)row);
        }
}

int main(void) {
    for (int list = 0; list < 400 && !wrong; list++) {
        memset(one_table, 1, sizeof one_table), memset(two_table, 1, sizeof two_table);
        one.role = two.role = below(4);
        if (!build())
            continue;
        for (int i = 0; i < 40 && !wrong; i++) {
            const float x[D] = {(float)below(100) / 4.0f, (float)below(100) / 4.0f};
            const uint64_t t = newest + below(4);
            uint64_t a = 3, b = 3;
            if (below(8) == 0) {
                const uint64_t cell = below(16);
                one_table[cell] = two_table[cell] = (uint8_t)below(2);
            }
            switch (below(10)) {
            case 0:
            case 1: same("shingled_point", veery_shingled_point(&one, x, t, &a), veerycouch_shingled_point(FLAT, PARTS, x, D, t, &b, two.output, two.output_len)), equal("given", &a, &b, sizeof a); break;
            case 2:
            case 3:
            case 4: learn(x, t); break;
            case 5: same("drain", veery_drain(&one), veerycouch_drain(FLAT, PARTS)); break;
            case 6: same("transform", veery_transform(&one, x, t), veerycouch_transform(FLAT, PARTS, x, D, t, two.output, two.output_len)); break;
            case 7:
                same("scale", veery_scale(&one), veerycouch_scale(FLAT, PARTS, two.output, two.output_len)), memory();
                same("shift", veery_shift(&one), veerycouch_shift(FLAT, PARTS, two.output, two.output_len)), memory();
                same("difference_deviations", veery_difference_deviations(&one), veerycouch_difference_deviations(FLAT, PARTS, two.output, two.output_len));
                break;
            case 8: turn_back(), numbers(); break;
            default: text(); break;
            }
            memory();
        }
    }
    const float weight = 1.0f, x = 2.0f;
    uint64_t given = 0;
    if (veery_build(&none, VEERYCOUCH_STANDARD, VEERYCOUCH_NONE, 10, 0.0, 1.0f, &weight, codes) != 0 || veery_shingled_point(&none, &x, 1, &given) != 0 || given != 1 || none.output[0] != x)
        wrong = 1, printf("a handle without initial values: refused or wrong\n");
    without_lists();
    if (sizeof(struct veerycouch) + sizeof one_table != 208 || sizeof one_head + sizeof one_statistics + sizeof one_last_shingled_input + sizeof one_last_shingled_point +
            sizeof one_previous_timestamps + sizeof one_initial_values + sizeof one_initial_timestamps != VEERYCOUCH_BYTES(D, K, START))
        wrong = 1, printf("the memory is not what the header says\n");
    char version[32];
    snprintf(version, sizeof version, "%d.%d", VEERYCOUCH_VERSION / 100, VEERYCOUCH_VERSION % 100);
    if (strcmp(version, VEERYCOUCH_VERSION_TEXT) != 0 || VEERYCOUCH_VERSION / 100 != VEERYCOUCH_HEADER)
        wrong = 1, printf("the version is %s and %s\n", version, VEERYCOUCH_VERSION_TEXT);
    for (uint64_t row = 0; row <= VEERYCOUCH_ROW_GAP_FALLS; row++)
        if (strlen(veerycouch_row_text(row)) < 4 || strlen(veerycouch_row_text(row)) > 100 || strcmp(veerycouch_row_text(row), "no such row") == 0)
            wrong = 1, printf("row %d has no text\n", (int)row);
    if (strcmp(veerycouch_row_text(VEERYCOUCH_ROW_GAP_FALLS + 1), "no such row") != 0 || strcmp(veerycouch_row_text(UINT64_MAX), "no such row") != 0)
        wrong = 1, printf("a row that is none has a text\n");
    printf("%s: %d calls by the handle and flat, %d refused\n", wrong ? "different" : "equal", (int)calls, (int)refusals);
    return wrong;
}
