/* Some calls of every kind on the library, from a seed, and a digest of every answer and of all memory after each: what one processor prints, another
 * must print. tools/cross-test compiles and runs it.     cross-test SEED CALLS
 *
 * Only include/veerycouch.h is used. All calls that take a preprocessor go through the section "The library's calls". The digest takes every not-a-number
 * as one, since which of their bits a processor makes is its own affair; everything else counts bit by bit. Random numbers are drawn in statements of
 * their own, for C leaves the order within one open, and the program computes no float but by exact steps. */
#include "veerycouch.h"
#include <stdio.h>
#include <stdlib.h>
#include <string.h>

/* ---- Random numbers and the digest */

static uint64_t state;
static uint64_t any(void) {
    state ^= state << 13;
    state ^= state >> 7;
    state ^= state << 17;
    return state * 0x2545F4914F6CDD1DULL;
}
static uint64_t below(uint64_t n) { return (any() >> 11) % n; }
static int one_in(uint64_t n) { return below(n) == 0; }

static uint64_t digest = 1469598103934665603ULL;
static void mix(uint64_t x) {
    digest = (digest ^ x) * 0x9E3779B97F4A7C15ULL;
    digest ^= digest >> 29;
}
static uint32_t float_bits(float x) {
    uint32_t u;
    memcpy(&u, &x, sizeof u);
    return x != x ? 0x7fc00000u : u;
}
static uint64_t double_bits(double x) {
    uint64_t u;
    memcpy(&u, &x, sizeof u);
    return x != x ? 0x7ff8000000000000ULL : u;
}
static void mix_bytes(const uint8_t *p, size_t n) {
    for (size_t i = 0; i < n; i++)
        mix(p[i]);
}
static void mix_codes(const uint16_t *p, size_t n) {
    for (size_t i = 0; i < n; i++)
        mix(p[i]);
}
static void mix_words(const uint64_t *p, size_t n) {
    for (size_t i = 0; i < n; i++)
        mix(p[i]);
}
static void mix_floats(const float *p, size_t n) {
    for (size_t i = 0; i < n; i++)
        mix(float_bits(p[i]));
}
static void mix_doubles(const double *p, size_t n) {
    for (size_t i = 0; i < n; i++)
        mix(double_bits(p[i]));
}

static float float_of(uint32_t u) {
    float x;
    memcpy(&x, &u, sizeof x);
    return x;
}
static double double_of(uint64_t u) {
    double x;
    memcpy(&x, &u, sizeof x);
    return x;
}
/* any float, specials often */
static float any_float(void) {
    static const uint32_t special[] = {0x00000000u, 0x80000000u, 0x00000001u, 0x807fffffu, 0x00800000u, 0x7f7fffffu, 0xff7fffffu, 0x3f800000u,
                                       0x7f800000u, 0xff800000u, 0x7fc00000u, 0x7f800001u, 0x4b000001u, 0x5f000000u, 0x3f7fffffu};
    const uint64_t kind = below(16);
    if (kind < 9)
        return (float)((int32_t)below(4001) - 2000) / 16.0f;
    if (kind < 13)
        return float_of((uint32_t)(any() >> 32));
    return float_of(special[below(sizeof special / sizeof special[0])]);
}
static int finite_float(float x) { return (float_bits(x) & 0x7f800000u) != 0x7f800000u; }
static float some_float(void) {
    for (;;) {
        const float x = any_float();
        if (finite_float(x))
            return x;
    }
}
static double any_double(void) {
    static const uint64_t special[] = {0, 0x8000000000000000ULL, 1, 0x800fffffffffffffULL, 0x0010000000000000ULL, 0x7fefffffffffffffULL,
                                       0xffefffffffffffffULL, 0x3ff0000000000000ULL, 0x7ff0000000000000ULL, 0xfff0000000000000ULL,
                                       0x7ff8000000000000ULL, 0x7ff0000000000001ULL, 0x47efffffe0000000ULL, 0x47effffff0000000ULL,
                                       0x36a0000000000000ULL, 0x3690000000000000ULL, 0x3690000000000001ULL, 0x380fffffffffffffULL,
                                       0x3ff0000010000000ULL, 0x3ff0000030000000ULL, 0x4002000000000000ULL, 0x4330000000000001ULL};
    const uint64_t kind = below(8);
    if (kind < 2)
        return double_of(special[below(sizeof special / sizeof special[0])]);
    if (kind < 4) { /* a square, or beside one */
        const uint64_t root = below(94906265);
        const uint64_t square = root * root + below(3);
        return (double)square;
    }
    if (kind < 6) { /* between two floats, or on one */
        const uint64_t float_part = any() & 0xffffffffe0000000ULL, low = below(4);
        return double_of(float_part | (low == 0 ? 0 : low == 1 ? 0x10000000u : low == 2 ? 0x0fffffffu : 0x10000001u));
    }
    return double_of(any());
}

/* ---- Memory: each part with two elements more than the most that is lent */

#define D_MAX 16
#define K_MAX 64
#define START_MAX 40
struct memory {
    uint64_t head[VEERYCOUCH_HEAD_WORDS + 2];
    double statistics[VEERYCOUCH_STATISTICS(D_MAX) + 2];
    float last_shingled_input[D_MAX * K_MAX + 2], last_shingled_point[(D_MAX + 1) * K_MAX + 2];
    uint64_t previous_timestamps[K_MAX + 2];
    float initial_values[START_MAX * D_MAX + 2];
    uint64_t initial_timestamps[START_MAX + 2];
    size_t length[7]; /* lent, in the order above */
    size_t d, k, w, start, dimension, waiting; /* waiting: how many readings the method lets wait */
    uint16_t codes[D_MAX];
};
static struct memory pair[2];
static struct memory *m = &pair[0], *other = &pair[1];

static void mix_memory(const struct memory *p) {
    mix_words(p->head, VEERYCOUCH_HEAD_WORDS + 2);
    mix_doubles(p->statistics, p->length[1] + 2);
    mix_floats(p->last_shingled_input, p->length[2] + 2);
    mix_floats(p->last_shingled_point, p->length[3] + 2);
    mix_words(p->previous_timestamps, p->length[4] + 2);
    mix_floats(p->initial_values, p->length[5] + 2);
    mix_words(p->initial_timestamps, p->length[6] + 2);
}
static void fill_memory(struct memory *p, int with) {
    const struct memory kept = *p;
    memset(p, with, sizeof *p);
    memcpy(p->length, kept.length, sizeof p->length);
    p->d = kept.d, p->k = kept.k, p->w = kept.w, p->start = kept.start, p->dimension = kept.dimension, p->waiting = kept.waiting;
    memcpy(p->codes, kept.codes, sizeof p->codes);
}
/* how long the parts are lent: as asked, or longer, and now and then one of them shorter */
static void lend(struct memory *p) {
    const size_t need[7] = {VEERYCOUCH_HEAD_WORDS, VEERYCOUCH_STATISTICS(p->d), p->d * p->k, p->w * p->k, p->k, p->waiting * p->d, p->waiting};
    for (size_t i = 0; i < 7; i++)
        p->length[i] = need[i] + (one_in(4) ? below(2) : 0);
    if (one_in(20)) {
        const size_t i = below(7);
        if (p->length[i] > 0)
            p->length[i] = need[i] > 0 ? need[i] - 1 : 0;
    }
}

/* ---- The library's calls. Every call on a preprocessor but build takes the table and the role first. */

static uint8_t table[18];
static size_t table_length = 16;
static uint64_t role;
#define ACCESS table, table_length, role,
#define HEAD(p) (p)->head, (p)->length[0]
#define PARTS(p)                                                                                                                                    \
    (p)->statistics, (p)->length[1], (p)->last_shingled_input, (p)->length[2], (p)->last_shingled_point, (p)->length[3], (p)->previous_timestamps,  \
        (p)->length[4], (p)->initial_values, (p)->length[5], (p)->initial_timestamps, (p)->length[6]

static void draw_role(void) {
    memset(table, 1, sizeof table);
    table_length = 16;
    role = below(4);
    if (one_in(12))
        table[below(16)] = 0;
    if (one_in(60))
        table[below(16)] = 2;
    if (one_in(60))
        table_length = 15 + below(2) * 2;
    if (one_in(60))
        role = one_in(2) ? 4 : 256;
}

enum { BUILD, POINT, LEARN, DRAIN, TRANSFORM, SCALES, TURN_BACK, TEXT, BAD_TEXT, NUMBERS, BAD_HEAD, FILL, COMPARE, COUNT, CORRECT, ARITHMETIC, KINDS };
static const char *const kind_name[KINDS] = {"build", "shingled_point", "post_process", "drain", "transform", "scale, shift, deviations", "invert_extrapolation",
                                             "save, restore", "damaged text", "the numbers", "damaged head", "impute", "align", "strandings",
                                             "corrected", "sqrt, digits, to_f32"};
static uint64_t calls_of[KINDS], row_met[64], calls, last_row;
static uint64_t told(int kind, uint64_t row) {
    calls++;
    calls_of[kind]++;
    row_met[row < 63 ? row : 63]++;
    mix(row);
    last_row = row;
    return row;
}

#define OUTPUT 4000
static float output[OUTPUT], second[OUTPUT], third[OUTPUT];
static uint64_t newest;

static void clear(float *p) {
    for (size_t i = 0; i < OUTPUT; i++)
        p[i] = -7.5f;
}
static size_t room(size_t need) { return one_in(25) && need > 0 ? need - 1 : need + below(3); }
static size_t reading(float *input) {
    for (size_t i = 0; i < D_MAX + 1; i++) {
        const int wild = one_in(60);
        input[i] = wild ? any_float() : some_float();
    }
    return one_in(40) ? m->d + 1 - 2 * below(2) : m->d;
}
static uint64_t any_width(void) {
    const uint64_t x = any();
    return x >> below(64);
}
static uint64_t time_of_call(void) {
    uint64_t t = newest + below(6);
    if (one_in(15) && t > 3)
        t -= 3;
    if (one_in(200))
        t = any_width();
    return t;
}

static int build(void) {
    static const uint64_t sizes[] = {1, 1, 2, 2, 3, 4, 5, 16}, shingles[] = {1, 2, 3, 4, 5, 8, 8, 64};
    uint64_t mode = below(4), method = below(6);
    size_t d = sizes[below(8)], k = shingles[below(8)], start = below(9), stop = start;
    if (mode == 2 && !one_in(20))
        mode = 1;
    stop += below(30);
    if (one_in(20))
        start = START_MAX - below(3), stop = start;
    double decay = one_in(3) ? 0.0 : (double)below(1024) / 1024.0;
    const int plain_time = one_in(2), plain = method == 0 ? !one_in(20) : one_in(2);
    const float weight_time = plain_time ? 1.0f : any_float();
    float weights[D_MAX + 1];
    uint16_t codes[D_MAX + 1];
    for (size_t i = 0; i < D_MAX + 1; i++) {
        const float x = any_float();
        weights[i] = plain ? 1.0f : x;
        codes[i] = (uint16_t)below(one_in(2) ? 3 : 65536);
    }
    size_t given_weights = d, given_codes = d;
    m->d = d, m->k = k, m->start = start, m->w = mode == 0 ? d : d + 1, m->dimension = m->w * k, m->waiting = method < 4 ? 0 : start;
    lend(m);
    if (one_in(6)) /* settings that a row refuses */
        switch (below(12)) {
        case 0: mode = 2; break;
        case 1: mode = one_in(2) ? 4 : 1ULL << 32; break;
        case 2: method = one_in(2) ? 6 : 0x100000004ULL; break;
        case 3: d = 0; break;
        case 4: k = 0; break;
        case 5: d = 17; break;
        case 6: k = one_in(2) ? 65 : (size_t)1 << 40; break;
        case 7: given_weights = d - 1; break;
        case 8: given_codes = d + 1 > D_MAX ? d - 1 : d + 1; break;
        case 9: decay = one_in(2) ? 1.0 : any_double(); break;
        case 10: stop = start, start = start + 1; break;
        default: start = 2000 - below(2), stop = 3000; break;
        }
    fill_memory(m, (int)below(256));
    const uint64_t row = told(BUILD, veerycouch_build(mode, method, d, k, start, stop, decay, weight_time, weights, given_weights, codes, given_codes,
                                                      HEAD(m), PARTS(m)));
    memcpy(m->codes, codes, sizeof m->codes);
    mix_memory(m);
    newest = below(1000);
    return row == 0;
}

static void point(void) {
    float input[D_MAX + 1];
    const size_t n = reading(input);
    const uint64_t t = time_of_call();
    uint64_t given = 7;
    const size_t space = room(m->dimension);
    clear(output);
    told(POINT, veerycouch_shingled_point(ACCESS HEAD(m), PARTS(m), input, n, t, &given, output, space));
    mix(given);
    mix_floats(output, m->dimension + 4);
}

static void learn(void) {
    static float y[OUTPUT], expected[OUTPUT];
    float input[D_MAX + 1], likelihood = 7.0f;
    uint64_t written = 7, has_anomaly = 7, past_timestamp = 7;
    const size_t n = reading(input);
    const uint64_t t = time_of_call();
    for (size_t i = 0; i < m->dimension + 1; i++) {
        y[i] = any_float();
        expected[i] = any_float();
    }
    const uint64_t has_y = one_in(5) ? 0 : 1 + below(2) * 0x100000000ULL, expects = below(2);
    const size_t y_n = m->dimension + (one_in(30) ? 1 : 0), expected_n = m->dimension + (one_in(30) ? 1 : 0);
    const int graded = one_in(2), wild = one_in(20);
    const float grade = wild ? any_float() : graded ? 1.0f : 0.0f;
    const uint64_t ahead = one_in(20) ? 1 : 0, too_far = one_in(10) ? 1 : 0, back = below(m->k + too_far);
    const int32_t relative = (int32_t)ahead - (int32_t)back;
    const size_t r1 = room(m->w), r2 = room(m->d), r3 = room(m->d);
    clear(output), clear(second), clear(third);
    const uint64_t row = told(LEARN, veerycouch_post_process(ACCESS HEAD(m), PARTS(m), input, n, t, has_y, y, y_n, expects, expected, expected_n, grade,
                                                             relative, output, r1, second, r2, third, r3, &written, &has_anomaly, &past_timestamp,
                                                             &likelihood));
    if (row == 0 && t > newest)
        newest = t;
    mix(written), mix(has_anomaly), mix(past_timestamp), mix(float_bits(likelihood));
    mix_floats(output, D_MAX + 4), mix_floats(second, D_MAX + 4), mix_floats(third, D_MAX + 4);
}

static void drain(void) { told(DRAIN, veerycouch_drain(ACCESS HEAD(m), PARTS(m))); }

static void transform(void) {
    float input[D_MAX + 1];
    const size_t n = reading(input);
    const uint64_t t = time_of_call();
    const size_t space = room(m->w);
    clear(output);
    told(TRANSFORM, veerycouch_transform(ACCESS HEAD(m), PARTS(m), input, n, t, output, space));
    mix_floats(output, D_MAX + 4);
}

static void scales(void) {
    const size_t r1 = room(m->w), r2 = room(m->w), r3 = room(m->w);
    clear(output), clear(second), clear(third);
    told(SCALES, veerycouch_scale(ACCESS HEAD(m), PARTS(m), output, r1));
    told(SCALES, veerycouch_shift(ACCESS HEAD(m), PARTS(m), second, r2));
    told(SCALES, veerycouch_difference_deviations(ACCESS HEAD(m), PARTS(m), third, r3));
    mix_floats(output, D_MAX + 4), mix_floats(second, D_MAX + 4), mix_floats(third, D_MAX + 4);
}

static void turn_back(void) {
    static float list[3][OUTPUT];
    static double times[3][8];
    const size_t block = m->w == m->d ? m->d : m->dimension;
    size_t n = block * (1 + below(3)), space = room(m->w == m->d ? 0 : n / m->dimension * m->d * m->k), horizon = room(n / block);
    if (one_in(20))
        n += 1;
    if (one_in(40))
        n = 0;
    for (size_t i = 0; i < 3; i++) {
        for (size_t j = 0; j < n + 2; j++)
            list[i][j] = any_float();
        for (size_t j = 0; j < 8; j++)
            times[i][j] = -7.5;
    }
    const size_t n2 = one_in(30) ? n + 1 : n;
    if (horizon > 8)
        horizon = 8;
    clear(output), clear(second), clear(third);
    told(TURN_BACK, veerycouch_invert_extrapolation(ACCESS HEAD(m), m->statistics, m->length[1], m->last_shingled_input, m->length[2],
                                                    m->previous_timestamps, m->length[4], list[0], n, list[1], n2, list[2], n, output, space, second,
                                                    space, third, space, times[0], horizon, times[1], horizon, times[2], horizon));
    for (size_t i = 0; i < 3; i++) {
        mix_floats(list[i], n + 2);
        mix_doubles(times[i], 8);
    }
    mix_floats(output, space + 2), mix_floats(second, space + 2), mix_floats(third, space + 2);
}

static uint8_t text[VEERYCOUCH_TEXT_MAX + 64], damaged[VEERYCOUCH_TEXT_MAX + 64];

/* Takes a text up in memory that held something else; where that is done, the list goes on there. */
static void take_up(int kind, const uint8_t *from, size_t length) {
    uint16_t codes[D_MAX + 1];
    uint64_t line = 7;
    memcpy(codes, m->codes, sizeof m->codes);
    codes[D_MAX] = 0;
    size_t n = m->d;
    if (one_in(12))
        n = one_in(2) ? n - 1 : n + 1;
    if (one_in(12))
        codes[below(m->d)] ^= 1;
    if (one_in(12))
        memset(codes, 0, sizeof codes);
    memcpy(other->codes, m->codes, sizeof m->codes);
    other->d = m->d, other->k = m->k, other->w = m->w, other->start = m->start, other->dimension = m->dimension, other->waiting = m->waiting;
    lend(other);
    fill_memory(other, (int)below(256));
    const uint64_t row = told(kind, veerycouch_restore(ACCESS from, length, codes, n, HEAD(other), PARTS(other), &line));
    mix(line);
    mix_memory(other);
    if (row == 0 && other->head[2] == m->d && other->head[3] == m->k && other->head[4] == m->start && (other->head[0] == 0) == (m->w == m->d)) {
        struct memory *const swapped = m;
        m = other, other = swapped;
        memcpy(m->codes, codes, sizeof m->codes);
        m->waiting = m->head[1] < 4 ? 0 : m->start;
        lend(m);
    }
}

static void put_away(int then_damage) {
    uint64_t length = 7;
    uint64_t row = told(TEXT, veerycouch_save(ACCESS HEAD(m), PARTS(m), &length, text, VEERYCOUCH_TEXT_MAX));
    mix(length);
    if (row != 0)
        return;
    mix_bytes(text, length);
    uint64_t again = 7;
    const uint64_t shorter = below(2);
    row = told(TEXT, veerycouch_save(ACCESS HEAD(m), PARTS(m), &again, damaged, length - shorter));
    mix(again);
    if (row == 0)
        mix_bytes(damaged, length);
    if (!then_damage) {
        take_up(TEXT, text, length);
        return;
    }
    memcpy(damaged, text, length);
    size_t n = length;
    const size_t at = below(length);
    switch (below(7)) {
    case 0: damaged[at] = (uint8_t)below(256); break;
    case 1: damaged[at] = (uint8_t)("0123456789abcdef\t\n-"[below(19)]); break;
    case 2: memmove(damaged + at, damaged + at + 1, length - at - 1), n -= 1; break;
    case 3: memmove(damaged + at + 1, damaged + at, length - at), n += 1; break;
    case 4: n = at; break;
    case 5: damaged[n] = '\n', n += 1; break;
    default: { /* its line of codes taken out: a text of before there were any */
        size_t lines = 0, begin = 0, end = 0;
        for (size_t i = 0; i < length; i++)
            if (damaged[i] == '\n') {
                lines++;
                if (lines == 2)
                    begin = i + 1;
                if (lines == 3)
                    end = i + 1;
            }
        memmove(damaged + begin, damaged + end, length - end);
        n = length - (end - begin);
        break;
    }
    }
    take_up(BAD_TEXT, damaged, n);
}

static void numbers(void) {
    uint64_t answer[10], all[VEERYCOUCH_NUMBERS + 2];
    uint16_t codes[D_MAX + 4];
    for (size_t i = 0; i < 10; i++)
        answer[i] = 7;
    for (size_t i = 0; i < VEERYCOUCH_NUMBERS + 2; i++)
        all[i] = 7;
    memset(codes, 7, sizeof codes);
    told(NUMBERS, veerycouch_values_seen(ACCESS HEAD(m), &answer[0]));
    told(NUMBERS, veerycouch_panel(ACCESS HEAD(m), &answer[1]));
    told(NUMBERS, veerycouch_internal_timestamp(ACCESS HEAD(m), &answer[2]));
    told(NUMBERS, veerycouch_is_ready(ACCESS HEAD(m), &answer[3]));
    told(NUMBERS, veerycouch_get_dimension(ACCESS HEAD(m), &answer[4]));
    told(NUMBERS, veerycouch_input_dimensions(ACCESS HEAD(m), &answer[5]));
    told(NUMBERS, veerycouch_shingle_size(ACCESS HEAD(m), &answer[6]));
    told(NUMBERS, veerycouch_start_normalization(ACCESS HEAD(m), &answer[7]));
    told(NUMBERS, veerycouch_transformation_method(ACCESS HEAD(m), &answer[8]));
    told(NUMBERS, veerycouch_forest_mode(ACCESS HEAD(m), &answer[9]));
    const size_t places = room(VEERYCOUCH_NUMBERS), space = room(m->d);
    told(NUMBERS, veerycouch_numbers(ACCESS HEAD(m), all, places));
    mix_words(all, VEERYCOUCH_NUMBERS + 2);
    told(NUMBERS, veerycouch_codes(ACCESS HEAD(m), codes, space));
    mix_words(answer, 10);
    mix_codes(codes, D_MAX + 4);
}

static void call_of(int kind) {
    switch (kind) {
    case POINT: point(); break;
    case LEARN: learn(); break;
    case DRAIN: drain(); break;
    case TRANSFORM: transform(); break;
    case SCALES: scales(); break;
    case TURN_BACK: turn_back(); break;
    case TEXT: put_away(0); break;
    case BAD_TEXT: put_away(1); break;
    default: numbers(); break;
    }
}

/* A word of the head, or some of the other parts, changed for one call; a counter that was not refused stays now and then. */
static void bad_head(void) {
    static const uint64_t edge[] = {0, 1, 2, 3, 5, 6, 16, 17, 64, 65, 1999, 2000, 65535, 65536, 9007199254740989ULL, 9007199254740990ULL,
                                    0x100000000ULL, 0x7ffffffffffffffeULL, 0x7fffffffffffffffULL, 0x8000000000000000ULL, 0xffffffffffffffffULL};
    const size_t at = one_in(2) ? 8 + below(4) : below(VEERYCOUCH_HEAD_WORDS);
    const uint64_t kept = m->head[at];
    const int random_word = one_in(4);
    const uint64_t word = edge[below(sizeof edge / sizeof edge[0])];
    m->head[at] = random_word ? any() : word;
    const uint64_t time = any();
    const float value = any_float();
    const double number = any_double();
    if (one_in(5) && m->length[4] > 0)
        m->previous_timestamps[below(m->length[4])] = time;
    if (one_in(5) && m->length[5] > 0)
        m->initial_values[below(m->length[5])] = value;
    if (one_in(5) && m->length[1] > 0)
        m->statistics[below(m->length[1])] = number;
    calls_of[BAD_HEAD]++;
    const uint64_t damaged_word = m->head[at];
    struct memory *const here = m;
    call_of((int)(POINT + below(9)));
    if (here->head[at] == damaged_word && !(at >= 8 && at < 12 && last_row == 0 && one_in(3)))
        here->head[at] = kept;
}

static void fill(void) {
    float cells[40], fixed[D_MAX + 1];
    uint8_t marks[40];
    uint64_t method = below(4), d = 1 + below(3);
    for (size_t i = 0; i < 40; i++) {
        const int wild = one_in(200);
        cells[i] = wild ? any_float() : some_float();
        marks[i] = (uint8_t)below(2);
        if (marks[i] != 0)
            cells[i] = any_float();
    }
    for (size_t i = 0; i < D_MAX + 1; i++)
        fixed[i] = some_float();
    size_t n = (size_t)d * below(13), marked = n, given = (size_t)d;
    if (one_in(5))
        switch (below(6)) {
        case 0: method = one_in(2) ? 4 : 0x100000000ULL; break;
        case 1: d = one_in(2) ? 0 : 17 + any_width() / 2; break;
        case 2: marked = n + 1; break;
        case 3: given = (size_t)d - 1; break;
        case 4: marks[below(40)] = 2; break;
        default: fixed[below(d)] = float_of(0x7f800000u); break;
        }
    told(FILL, veerycouch_impute(method, d, cells, n, marks, marked, fixed, given));
    mix_floats(cells, 40);
}

static void compare(void) {
    float left[40], right[40], gaps[D_MAX];
    uint64_t left_times[20], right_times[20], left_out[20], right_out[20], pairs = 7, t = below(4), u = below(4);
    uint64_t d = 1 + below(2);
    size_t n = below(13), n2 = below(13);
    for (size_t i = 0; i < 40; i++) {
        left[i] = any_float();
        right[i] = any_float();
    }
    for (size_t i = 0; i < 20; i++) {
        t += below(5);
        u += below(5);
        left_times[i] = one_in(80) ? any() : t;
        right_times[i] = one_in(80) ? any() : u;
        left_out[i] = right_out[i] = 7;
    }
    for (size_t i = 0; i < D_MAX; i++)
        gaps[i] = -7.5f;
    size_t cells = n * (size_t)d, space = one_in(12) ? below(3) : 20, channels = one_in(20) ? (size_t)d - 1 : (size_t)d + below(2);
    const uint64_t tolerance = one_in(10) ? any_width() : below(4);
    if (one_in(20))
        d = one_in(2) ? 0 : 17 + any() / 2;
    if (one_in(20))
        cells += 1;
    told(COMPARE, veerycouch_align(d, left, cells, left_times, n, right, (d > 2 || d == 0) ? 0 : n2 * (size_t)d, right_times, n2, tolerance, left_out, space, right_out, 20,
                                   gaps, channels, &pairs));
    mix(pairs);
    mix_words(left_out, 20), mix_words(right_out, 20);
    mix_floats(gaps, D_MAX);
}

static void count(void) {
    const uint64_t start = below(22), n = below(22);
    const int wide = one_in(20);
    uint64_t waiting = 7, drained = 7, stranded = 7;
    told(COUNT, veerycouch_strandings(wide ? start + 0x100000000ULL : start, n, &waiting, &drained, &stranded));
    mix(waiting), mix(drained), mix(stranded);
}

static void correct(void) {
    const int32_t wrong = (int32_t)below(131073) - 65536, right = (int32_t)below(131073) - 65536;
    const uint64_t n = 1 + below(one_in(2) ? 10 : 1048576);
    const int64_t sum = (int64_t)below(131072 * n + 1) - (int64_t)(65536 * n);
    const uint64_t squares = (any() >> 11) % (65536ULL * 65536ULL * n + 1);
    double discount = 0.0, weight = (double)n, exact_sum = (double)sum, exact_squares = (double)squares, got[4] = {-7.5, -7.5, -7.5, -7.5};
    float from = (float)wrong, to = (float)right;
    uint64_t given = n;
    if (one_in(4))
        switch (below(7)) {
        case 0: discount = one_in(2) ? -0.0 : any_double(); break;
        case 1: weight = any_double(); break;
        case 2: exact_sum = any_double(); break;
        case 3: exact_squares = any_double(); break;
        case 4: given = one_in(2) ? 0 : n + 0x100000000ULL; break;
        case 5: from = any_float(); break;
        default: to = any_float(); break;
        }
    const size_t space = one_in(20) ? 2 : 3 + below(2);
    told(CORRECT, veerycouch_corrected(discount, weight, exact_sum, exact_squares, given, from, to, got, space));
    mix_doubles(got, 4);
}

static void arithmetic(void) {
    for (int i = 0; i < 2; i++) {
        const double x = any_double();
        mix(double_bits(veerycouch_sqrt(x)));
        mix(veerycouch_sqrt_digits(x));
        mix(float_bits(veerycouch_to_f32(x)));
        calls += 3;
        calls_of[ARITHMETIC] += 3;
    }
}

int main(int n, char **words) {
    if (n != 3) {
        fprintf(stderr, "cross-test SEED CALLS\n");
        return 2;
    }
    const uint64_t seed = strtoull(words[1], NULL, 10), wanted = strtoull(words[2], NULL, 10);
    state = seed * 2654435761u + 88172645463325252ULL;
    while (calls < wanted) {
        draw_role();
        if (!build())
            continue;
        for (uint64_t left = 20 + below(40); left > 0; left--) {
            static const int often[] = {POINT, POINT, POINT, POINT, LEARN, LEARN, LEARN, LEARN, LEARN, LEARN, DRAIN, TRANSFORM, SCALES, TURN_BACK, TURN_BACK, TEXT, BAD_TEXT, BAD_TEXT, NUMBERS};
            draw_role();
            lend(m);
            if (one_in(8))
                bad_head();
            else
                call_of(often[below(sizeof often / sizeof often[0])]);
            mix_memory(m);
            switch (below(12)) {
            case 0: fill(); break;
            case 1: compare(); break;
            case 2: count(); break;
            case 3: correct(); break;
            case 4: arithmetic(); break;
            default: break;
            }
        }
    }
    printf("seed %llu: %llu calls, digest %016llx\n", (unsigned long long)seed, (unsigned long long)calls, (unsigned long long)digest);
    for (int i = 0; i < KINDS; i++)
        printf("%10llu %s\n", (unsigned long long)calls_of[i], kind_name[i]);
    printf("by row:");
    for (unsigned i = 0; i < 64; i++)
        if (row_met[i] != 0)
            printf(" %u:%llu", i, (unsigned long long)row_met[i]);
    printf("\n");
    return 0;
}
