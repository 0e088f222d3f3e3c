/* Damaged texts, damaged heads and damaged parts, in memory that lies between guard pages: nothing outside of what was lent is read or written, a refusal
 * changes nothing, and no call fails to return.      fuzz SEED SECONDS [FIRST [COUNT]]
 *
 * tools/fuzz/run compiles it with AddressSanitizer and UndefinedBehaviorSanitizer and runs it. Every lent list has pages of its own with an unreadable page
 * on each side, and lies against one of the two, so that one element too far is a fault; what is left of its pages is poisoned for the sanitizer,
 * and 64 bytes of it on each side are compared after each call. A list is just as long as the head or the text asks, and in one call of six one of them is one element shorter. Each round
 * comes from its own number (FIRST, FIRST + 1, ...), which is told where it fails, so that it can be run alone. */
#define _DEFAULT_SOURCE
#include "veerycouch.h"
#include <stdio.h>
#include <stdlib.h>
#include <string.h>
#include <sys/mman.h>
#include <time.h>
#include <unistd.h>
#if defined(__SANITIZE_ADDRESS__)
#include <sanitizer/asan_interface.h>
#else
#define ASAN_POISON_MEMORY_REGION(p, n) ((void)(p), (void)(n))
#define ASAN_UNPOISON_MEMORY_REGION(p, n) ((void)(p), (void)(n))
#endif

/* ---- Random numbers */

static uint64_t state, seed, round_number;
static uint64_t any(void) {
    state ^= state << 13;
    state ^= state >> 7;
    state ^= state << 17;
    return state * 0x2545F4914F6CDD1DULL;
}
static uint64_t below(uint64_t n) { return (any() >> 11) % n; }
static int one_in(uint64_t n) { return below(n) == 0; }
static float float_of(uint32_t u) {
    float x;
    memcpy(&x, &u, sizeof x);
    return x;
}
static double double_of(uint64_t u) {
    double x;
    memcpy(&x, &u, sizeof x);
    return x;
}
static float some_float(void) {
    const uint64_t kind = below(12);
    if (kind < 9)
        return (float)((int32_t)below(4001) - 2000) / 16.0f;
    return float_of(kind < 11 ? (uint32_t)any() & 0xbfffffffu : (uint32_t)any());
}
static uint64_t edge(void) {
    static const uint64_t at[] = {0, 1, 2, 3, 4, 5, 6, 7, 15, 16, 17, 63, 64, 65, 255, 256, 1998, 1999, 2000, 2001, 65535, 65536, 0x7fffffff, 0x80000000,
                                  0xffffffff, 0x100000000, 9007199254740989, 9007199254740990, 9007199254740991, 0x7ffffffffffffffe, 0x7fffffffffffffff,
                                  0x8000000000000000, 0xfffffffffffffffe, 0xffffffffffffffff, 0x7fc00000, 0x7f800000, 0x3ff0000000000000,
                                  0x7ff0000000000000, 0x7ff8000000000000, 0x3fefffffffffffff};
    return one_in(4) ? any() >> below(64) : at[below(sizeof at / sizeof at[0])];
}

/* ---- Lent lists, each in its own pages between two guard pages */

static size_t page;
struct lent {
    uint8_t *pages; /* behind the first guard page */
    size_t size;    /* of the pages between the guards */
    uint8_t *at;    /* the list */
    size_t bytes, length, element;
    uint8_t *copy; /* of the pages, before a call */
};
enum { TABLE, TEXT, CODES, HEAD, STATISTICS, INPUTS, POINT, TIMES, VALUES, INITIAL, READING, Y, EXPECTED, OUT1, OUT2, OUT3, OUT4, OUT5, OUT6, TIME1, TIME2, TIME3, ANSWERS, LISTS };
static struct lent lists[LISTS];

static void fail(const char *what) {
    fprintf(stderr, "fuzz: %s: seed %llu, round %llu\n", what, (unsigned long long)seed, (unsigned long long)round_number);
    abort();
}
#if defined(__SANITIZE_ADDRESS__)
void __asan_on_error(void);
void __asan_on_error(void) { fprintf(stderr, "fuzz: seed %llu, round %llu\n", (unsigned long long)seed, (unsigned long long)round_number); }
#endif

static void prepare(int which, size_t bytes) {
    struct lent *l = &lists[which];
    l->size = (bytes + page - 1) / page * page;
    uint8_t *all = mmap(NULL, l->size + 2 * page, PROT_NONE, MAP_PRIVATE | MAP_ANONYMOUS, -1, 0);
    if (all == MAP_FAILED || mprotect(all + page, l->size, PROT_READ | PROT_WRITE) != 0)
        fail("no memory");
    l->pages = all + page;
    l->copy = malloc(l->size);
    if (l->copy == NULL)
        fail("no memory");
    memset(l->pages, 0x5a, l->size);
    ASAN_POISON_MEMORY_REGION(l->pages, l->size);
}

/* Of the pages beside a list, as much is looked at as this on each side. */
#define MARGIN 64
static size_t margin_below(const struct lent *l) {
    const size_t n = (size_t)(l->at - l->pages);
    return n < MARGIN ? n : MARGIN;
}
static size_t margin_above(const struct lent *l) {
    const size_t n = l->size - (size_t)(l->at - l->pages) - l->bytes;
    return n < MARGIN ? n : MARGIN;
}
/* opens a list and its margins to the sanitizer, or the list alone */
static void open_margins(const struct lent *l) { ASAN_UNPOISON_MEMORY_REGION(l->at - margin_below(l), margin_below(l) + l->bytes + margin_above(l)); }
static void close_margins(const struct lent *l) {
    ASAN_POISON_MEMORY_REGION(l->at - margin_below(l), margin_below(l) + l->bytes + margin_above(l));
    ASAN_UNPOISON_MEMORY_REGION(l->at, l->bytes);
}

/* A list of so many elements, against the upper guard page or the lower; it holds one random byte over and over. Too long a list is cut to its pages. */
static void *lend(int which, size_t element, size_t length) {
    struct lent *l = &lists[which];
    if (l->at != NULL)
        ASAN_POISON_MEMORY_REGION(l->at, l->bytes);
    if (length > l->size / element)
        length = l->size / element;
    l->element = element, l->length = length, l->bytes = element * length;
    l->at = one_in(3) ? l->pages : l->pages + l->size - l->bytes;
    close_margins(l);
    memset(l->at, (int)below(256), l->bytes);
    return l->at;
}
/* The same list one element shorter, against the same guard page. */
static void shorten(int which) {
    struct lent *l = &lists[which];
    if (l->length == 0)
        return;
    const int upper = l->at + l->bytes == l->pages + l->size;
    uint8_t *const old = l->at;
    const size_t old_bytes = l->bytes;
    l->length -= 1, l->bytes -= l->element;
    if (upper) {
        memmove(old + l->element, old, l->bytes);
        l->at += l->element;
    }
    ASAN_POISON_MEMORY_REGION(old, old_bytes);
    ASAN_UNPOISON_MEMORY_REGION(l->at, l->bytes);
}
static void keep(void) {
    for (int i = 0; i < LISTS; i++) {
        const struct lent *l = &lists[i];
        open_margins(l);
        memcpy(l->copy, l->at - margin_below(l), margin_below(l) + l->bytes + margin_above(l));
        close_margins(l);
    }
}
/* Nothing beside the lists has changed; with `all`, nothing in them but the first `told` bytes of the answers. */
static void compare(int all, size_t told) {
    for (int i = 0; i < LISTS; i++) {
        const struct lent *l = &lists[i];
        open_margins(l);
        const size_t before = margin_below(l), from = i == ANSWERS ? told : 0;
        if (memcmp(l->at - before, l->copy, before) != 0 || memcmp(l->at + l->bytes, l->copy + before + l->bytes, margin_above(l)) != 0)
            fail("written beside a list");
        if (all && memcmp(l->at + from, l->copy + before + from, l->bytes - from) != 0)
            fail("a refusal has changed a list");
        close_margins(l);
    }
}

/* ---- The library's calls, each on the lists as they are lent. Every call on a preprocessor but build takes the table and the role first. */

static uint64_t role;
#define ACCESS (const uint8_t *)lists[TABLE].at, lists[TABLE].length, role,
#define LIST(type, i) (type *)(void *)lists[i].at, lists[i].length
#define WORDS LIST(uint64_t, HEAD)
#define PARTS LIST(double, STATISTICS), LIST(float, INPUTS), LIST(float, POINT), LIST(uint64_t, TIMES), LIST(float, VALUES), LIST(uint64_t, INITIAL)

enum { F_BUILD, F_POINT, F_LEARN, F_DRAIN, F_TRANSFORM, F_SCALE, F_SHIFT, F_DEVIATIONS, F_TURN_BACK, F_SAVE, F_RESTORE, F_NUMBERS, F_CODES, F_IMPUTE, F_ALIGN, F_CORRECTED, F_STRANDINGS, KINDS };
static const char *const name[KINDS] = {"build", "shingled_point", "post_process", "drain", "transform", "scale", "shift", "difference_deviations", "invert_extrapolation",
                                        "save", "restore", "the ten numbers", "codes", "impute", "align", "corrected", "strandings"};
static uint64_t made[KINDS], accepted[KINDS], row_met[64], executions;

static size_t d, k, w, start, waiting, dimension; /* of the head as it is, cut to the most that there can be; waiting: how many readings its method lets wait */
static uint64_t newest;

static size_t most(uint64_t n, size_t limit) { return n < limit ? (size_t)n : limit; }
static void measure(void) {
    const uint64_t *h = (const uint64_t *)(const void *)lists[HEAD].at;
    d = most(h[2], 17), k = most(h[3], 65), start = most(h[4], 2001);
    w = h[0] == 0 ? d : d + 1, waiting = h[1] < 4 ? 0 : start, dimension = w * k;
}
/* The parts as the head asks; what fits of their contents is kept. */
static void relend(int which, size_t element, size_t length) {
    static uint8_t old[1 << 20];
    const size_t n = lists[which].bytes;
    if (n > 0)
        memcpy(old, lists[which].at, n);
    uint8_t *at = lend(which, element, length);
    const size_t fits = lists[which].bytes < n ? lists[which].bytes : n;
    if (fits > 0)
        memcpy(at, old, fits);
}
static void lend_parts(int fresh) {
    if (fresh)
        for (int i = STATISTICS; i <= INITIAL; i++)
            lists[i].bytes = 0;
    relend(STATISTICS, 8, 3 * (5 * d + 5));
    relend(INPUTS, 4, d * k);
    relend(POINT, 4, w * k);
    relend(TIMES, 8, k);
    relend(VALUES, 4, waiting * d);
    relend(INITIAL, 8, waiting);
}
static void reading(void) {
    float *x = lend(READING, 4, d);
    for (size_t i = 0; i < lists[READING].length; i++)
        x[i] = some_float();
}
static uint64_t time_of_call(void) {
    if (one_in(40))
        return edge();
    return newest + below(4);
}
static void floats(int which, size_t n) {
    float *x = lend(which, 4, n);
    for (size_t i = 0; i < lists[which].length; i++)
        x[i] = some_float();
}

/* The header's getters give what `numbers` gave. */
static void getters(uint64_t row, const uint64_t *numbers) {
    uint64_t x = 0;
#define GETTER(getter, place)                                                     \
    if (veerycouch_##getter(ACCESS WORDS, &x) != row || (row == 0 && x != numbers[place])) \
    fail("a getter and the numbers differ")
    GETTER(values_seen, VEERYCOUCH_AT_VALUES_SEEN);
    GETTER(internal_timestamp, VEERYCOUCH_AT_INTERNAL_TIMESTAMP);
    GETTER(is_ready, VEERYCOUCH_AT_IS_READY);
    GETTER(input_dimensions, VEERYCOUCH_AT_INPUT_DIMENSIONS);
    GETTER(shingle_size, VEERYCOUCH_AT_SHINGLE_SIZE);
    GETTER(get_dimension, VEERYCOUCH_AT_GET_DIMENSION);
    GETTER(start_normalization, VEERYCOUCH_AT_START_NORMALIZATION);
    GETTER(transformation_method, VEERYCOUCH_AT_TRANSFORMATION_METHOD);
    GETTER(forest_mode, VEERYCOUCH_AT_FOREST_MODE);
    GETTER(panel, VEERYCOUCH_AT_PANEL);
    executions += VEERYCOUCH_NUMBERS;
}

static uint64_t call(int kind) {
    uint64_t row = 0, before = any();
    const uint64_t t = time_of_call();
    const int short_one = one_in(6);
    uint64_t *answer = lend(ANSWERS, 8, 10);
    uint64_t flags = below(4), whole = below(8), amount = 1 + below(3);
    for (size_t i = 0; i < 10; i++)
        answer[i] = before;
    switch (kind) {
    case F_POINT: reading(), floats(OUT1, dimension); break;
    case F_LEARN:
        reading(), floats(Y, flags & 1 ? dimension : 0), floats(EXPECTED, flags & 2 ? dimension : 0), floats(OUT1, w), floats(OUT2, d), floats(OUT3, d);
        break;
    case F_TRANSFORM: reading(), floats(OUT1, w); break;
    case F_SCALE:
    case F_SHIFT:
    case F_DEVIATIONS: floats(OUT1, w); break;
    case F_TURN_BACK:
        for (int i = OUT1; i <= OUT3; i++)
            floats(i, (w == d ? d : dimension) * amount + (whole == 0));
        for (int i = OUT4; i <= OUT6; i++)
            floats(i, w == d ? 0 : d * k * amount);
        for (int i = TIME1; i <= TIME3; i++)
            lend(i, 8, w == d ? 0 : amount);
        break;
    case F_CODES: lend(CODES, 2, d); break;
    default: break;
    }
    if (short_one) {
        static const int of_state[] = {HEAD, STATISTICS, INPUTS, POINT, TIMES, VALUES, INITIAL}, of_call[] = {READING, Y, EXPECTED, OUT1, OUT2, OUT3, OUT4, OUT5, OUT6, TIME1, TIME2, TIME3, CODES, TEXT, TABLE};
        if (kind == F_NUMBERS)
            shorten(ANSWERS);
        else if (one_in(2))
            shorten(of_state[below(7)]);
        else
            shorten(of_call[below(15)]);
    }
    const float grade = some_float();
    const int32_t relative = one_in(10) ? (int32_t)(uint32_t)any() : -(int32_t)below(k + 1);
    keep();
    size_t told = 0;
    switch (kind) {
    case F_POINT: row = veerycouch_shingled_point(ACCESS WORDS, PARTS, LIST(float, READING), t, &answer[0], LIST(float, OUT1)); break;
    case F_LEARN:
        row = veerycouch_post_process(ACCESS WORDS, PARTS, LIST(float, READING), t, flags & 1, LIST(float, Y), flags & 2, LIST(float, EXPECTED), grade, relative,
                                      LIST(float, OUT1), LIST(float, OUT2), LIST(float, OUT3), &answer[0], &answer[1], &answer[2], (float *)(void *)&answer[3]);
        if (row == 0 && t > newest)
            newest = t;
        break;
    case F_DRAIN: row = veerycouch_drain(ACCESS WORDS, PARTS); break;
    case F_TRANSFORM: row = veerycouch_transform(ACCESS WORDS, PARTS, LIST(float, READING), t, LIST(float, OUT1)); break;
    case F_SCALE: row = veerycouch_scale(ACCESS WORDS, PARTS, LIST(float, OUT1)); break;
    case F_SHIFT: row = veerycouch_shift(ACCESS WORDS, PARTS, LIST(float, OUT1)); break;
    case F_DEVIATIONS: row = veerycouch_difference_deviations(ACCESS WORDS, PARTS, LIST(float, OUT1)); break;
    case F_TURN_BACK:
        row = veerycouch_invert_extrapolation(ACCESS WORDS, LIST(double, STATISTICS), LIST(float, INPUTS), LIST(uint64_t, TIMES), LIST(float, OUT1), LIST(float, OUT2),
                                              LIST(float, OUT3), LIST(float, OUT4), LIST(float, OUT5), LIST(float, OUT6), LIST(double, TIME1), LIST(double, TIME2),
                                              LIST(double, TIME3));
        break;
    case F_SAVE: row = veerycouch_save(ACCESS WORDS, PARTS, &answer[0], LIST(uint8_t, TEXT)); break;
    case F_RESTORE: row = veerycouch_restore(ACCESS LIST(uint8_t, TEXT), LIST(uint16_t, CODES), WORDS, PARTS, &answer[0]); told = row == 19 ? 8 : 0; break;
    case F_NUMBERS:
        row = veerycouch_numbers(ACCESS LIST(const uint64_t, HEAD), LIST(uint64_t, ANSWERS));
        if (lists[ANSWERS].length == VEERYCOUCH_NUMBERS)
            getters(row, answer);
        break;
    default: row = veerycouch_codes(ACCESS WORDS, LIST(uint16_t, CODES)); break;
    }
    executions++;
    made[kind]++;
    accepted[kind] += row == 0;
    row_met[most(row, 63)]++;
    compare(row != 0, told);
    return row;
}

/* ---- Rounds */

static uint8_t *text_kept;
static size_t text_length;

static void draw_role(void) {
    uint8_t *table = lend(TABLE, 1, 16);
    memset(table, 1, 16);
    role = below(4);
    if (one_in(10))
        table[below(16)] = (uint8_t)below(3);
    if (one_in(50))
        role = edge();
}

static int build(void) {
    uint64_t mode = below(4), method = below(6);
    if (mode == 2)
        mode = 1;
    d = 1 + below(one_in(10) ? 16 : 3), k = 1 + below(one_in(10) ? 64 : 4), start = below(one_in(20) ? 2000 : 6);
    w = mode == 0 ? d : d + 1, waiting = method < 4 ? 0 : start, dimension = w * k;
    const size_t stop = start + below(20);
    float *weights = lend(READING, 4, d);
    for (size_t i = 0; i < d; i++)
        weights[i] = method == 0 ? 1.0f : some_float();
    uint16_t *codes = lend(CODES, 2, d);
    for (size_t i = 0; i < d; i++)
        codes[i] = (uint16_t)below(3);
    lend(HEAD, 8, VEERYCOUCH_HEAD_WORDS);
    lend(ANSWERS, 8, 10);
    lend_parts(1);
    const int short_one = one_in(20), wild = one_in(20);
    if (short_one) {
        const int which = (int)(HEAD + below(7));
        shorten(which);
    }
    if (wild)
        mode = edge(), method = edge();
    const uint64_t decay_bits = edge(), time_bits = any();
    const double decay = wild ? double_of(decay_bits) : (double)below(1000) / 1024.0;
    const float weight_time = one_in(4) ? float_of((uint32_t)time_bits) : 1.0f;
    keep();
    const uint64_t row = veerycouch_build(mode, method, wild ? (size_t)decay_bits : d, k, start, stop, decay, weight_time, LIST(float, READING), LIST(uint16_t, CODES), WORDS, PARTS);
    executions++;
    made[F_BUILD]++;
    accepted[F_BUILD] += row == 0;
    row_met[most(row, 63)]++;
    compare(row != 0, 0);
    newest = below(100);
    return row == 0;
}

/* The text of the state into text_kept. */
static int put_away(void) {
    measure();
    lend(TEXT, 1, VEERYCOUCH_TEXT_ROOM(d, k, start));
    if (call(F_SAVE) != 0)
        return 0;
    uint64_t length;
    memcpy(&length, lists[ANSWERS].at, 8);
    if (length > lists[TEXT].length)
        fail("a text longer than its list");
    text_length = (size_t)length;
    memcpy(text_kept, lists[TEXT].at, text_length);
    lend(TEXT, 1, text_length); /* again with no byte more */
    return 1;
}

static void damage_text(void) {
    for (uint64_t times = below(4); times > 0 && text_length > 0; times--) {
        const size_t at = below(text_length), to = below(text_length), n = 1 + below(40);
        char number[24];
        size_t a = at;
        switch (below(9)) {
        case 0: text_kept[at] ^= (uint8_t)(1u << below(8)); break;
        case 1: text_kept[at] = (uint8_t)("0123456789abcdef\t\n-+.STGx"[below(25)]); break;
        case 2: memmove(text_kept + at, text_kept + at + 1, text_length - at - 1), text_length -= 1; break;
        case 3: memmove(text_kept + at + 1, text_kept + at, text_length - at), text_length += 1; break;
        case 4: text_length = at; break;
        case 5: /* a stretch copied elsewhere */
            memmove(text_kept + to, text_kept + at, n < text_length - (at > to ? at : to) ? n : text_length - (at > to ? at : to));
            break;
        case 6: /* a field replaced by a number from an edge */
        case 7: {
            while (a > 0 && text_kept[a - 1] != '\t' && text_kept[a - 1] != '\n')
                a--;
            size_t end = a;
            while (end < text_length && text_kept[end] != '\t' && text_kept[end] != '\n')
                end++;
            const uint64_t x = edge();
            const size_t wide = (size_t)snprintf(number, sizeof number, one_in(3) ? "%llx" : "%llu", (unsigned long long)x);
            memmove(text_kept + a + wide, text_kept + end, text_length - end);
            memcpy(text_kept + a, number, wide);
            text_length = text_length - (end - a) + wide;
            break;
        }
        default: /* the third line out */
            for (size_t i = 0, lines = 0, begin = 0; i < text_length; i++)
                if (text_kept[i] == '\n' && ++lines == 2)
                    begin = i + 1;
                else if (text_kept[i] == '\n' && lines == 3) {
                    memmove(text_kept + begin, text_kept + i + 1, text_length - i - 1);
                    text_length -= i + 1 - begin;
                    break;
                }
            break;
        }
    }
}

/* What line 1 of the text says of d, k, start and the mode, as far as it can be read: that long are the lists that are lent. */
static void measure_text(void) {
    size_t field = 0;
    uint64_t value[10] = {0};
    uint8_t mode = 0;
    for (size_t i = 0; i < text_length && text_kept[i] != '\n' && field < 10; i++)
        if (text_kept[i] == '\t')
            field++;
        else if (field == 1)
            mode = text_kept[i];
        else if (text_kept[i] >= '0' && text_kept[i] <= '9')
            value[field] = value[field] * 10 + (uint64_t)(text_kept[i] - '0');
    d = most(value[3], 17), k = most(value[4], 65), start = most(value[5], 2001);
    w = mode == 'S' ? d : d + 1, waiting = value[2] < 4 ? 0 : start, dimension = w * k;
}

static void take_up(void) {
    uint16_t codes[17] = {0};
    const uint64_t *h = (const uint64_t *)(const void *)lists[HEAD].at;
    for (size_t i = 0; i < 16 && lists[HEAD].length == VEERYCOUCH_HEAD_WORDS; i++)
        codes[i] = (uint16_t)h[28 + i];
    measure_text();
    uint8_t *text = lend(TEXT, 1, text_length);
    memcpy(text, text_kept, lists[TEXT].length);
    uint16_t *expected = lend(CODES, 2, d);
    memcpy(expected, codes, lists[CODES].bytes < sizeof codes ? lists[CODES].bytes : sizeof codes);
    if (one_in(10) && lists[CODES].length > 0)
        expected[below(lists[CODES].length)] ^= 1;
    lend(HEAD, 8, VEERYCOUCH_HEAD_WORDS);
    lend_parts(1);
    if (call(F_RESTORE) == 0) {
        measure();
        lend_parts(0);
        if (!put_away())
            return;
        if (call(F_SAVE) == 0 && memcmp(lists[TEXT].at, text_kept, text_length) != 0)
            fail("two texts of one state");
    }
}

/* Some words of the head, and of the parts, replaced. */
static void damage_head(void) {
    uint64_t *h = (uint64_t *)(void *)lists[HEAD].at;
    for (uint64_t times = 1 + below(3); times > 0; times--) {
        const size_t at = one_in(3) ? 8 + below(4) : below(VEERYCOUCH_HEAD_WORDS);
        const uint64_t x = edge();
        h[at] = one_in(4) ? h[at] ^ (1ULL << below(64)) : one_in(4) ? h[at] + 1 - 2 * below(2) : x;
    }
    measure();
    lend_parts(0);
    for (int i = STATISTICS; i <= INITIAL; i++)
        if (one_in(4) && lists[i].bytes > 0) {
            const size_t at = below(lists[i].bytes);
            lists[i].at[at] = (uint8_t)any();
        }
}

static void without_preprocessor(void) {
    const uint64_t channels = one_in(12) ? edge() : 1 + below(3), rule = one_in(12) ? edge() : below(4);
    const size_t c = channels >= 1 && channels <= 3 ? (size_t)channels : 1, n = below(one_in(20) ? 700 : 9), n2 = below(one_in(20) ? 700 : 9);
    uint64_t *answer = lend(ANSWERS, 8, 10);
    memset(answer, 7, 80);
    floats(OUT1, n * c), floats(OUT2, n2 * c), floats(OUT3, c), floats(READING, c);
    uint8_t *marks = lend(TEXT, 1, n * c);
    for (size_t i = 0; i < n * c; i++)
        marks[i] = (uint8_t)below(one_in(100) ? 3 : 2);
    uint64_t t = 0, *left = lend(TIMES, 8, n), *right = lend(INITIAL, 8, n2);
    for (size_t i = 0; i < n; i++)
        left[i] = t += below(3);
    t = 0;
    for (size_t i = 0; i < n2; i++)
        right[i] = one_in(200) ? edge() : (t += below(3));
    lend(TIME1, 8, n < n2 ? n : n2), lend(TIME2, 8, n < n2 ? n : n2), lend(TIME3, 8, 3);
    if (one_in(4)) {
        static const int which[] = {OUT1, OUT2, OUT3, READING, TEXT, TIMES, INITIAL, TIME1, TIME2, TIME3};
        shorten(which[below(10)]);
    }
    const uint64_t tolerance = one_in(4) ? edge() : below(3), a = edge(), b = edge(), e = edge();
    const float wrong = some_float(), right_one = some_float();
    uint64_t row;
    keep();
    switch (below(4)) {
    case 0: row = veerycouch_impute(rule, channels, LIST(float, OUT1), LIST(uint8_t, TEXT), LIST(float, READING)); made[F_IMPUTE]++, accepted[F_IMPUTE] += row == 0; break;
    case 1:
        row = veerycouch_align(channels, LIST(float, OUT1), LIST(uint64_t, TIMES), LIST(float, OUT2), LIST(uint64_t, INITIAL), tolerance, LIST(uint64_t, TIME1), LIST(uint64_t, TIME2),
                               LIST(float, OUT3), &answer[0]);
        made[F_ALIGN]++, accepted[F_ALIGN] += row == 0;
        break;
    case 2:
        row = veerycouch_corrected(0.0, (double)(n + 1), (double)(int)n2, (double)(n2 * n2), n + 1, (float)(int)wrong, (float)(int)right_one, LIST(double, TIME3));
        made[F_CORRECTED]++, accepted[F_CORRECTED] += row == 0;
        break;
    default: row = veerycouch_strandings(a, b, &answer[0], &answer[1], &answer[2]); made[F_STRANDINGS]++, accepted[F_STRANDINGS] += row == 0; break;
    }
    executions++;
    row_met[most(row, 63)]++;
    compare(row != 0, 0);
    const double x = double_of(e);
    (void)veerycouch_sqrt(x), (void)veerycouch_sqrt_digits(x), (void)veerycouch_to_f32(x);
    executions += 3;
}

static void one_round(void) {
    static const int of_list[] = {F_POINT, F_POINT, F_LEARN, F_LEARN, F_LEARN, F_DRAIN, F_TRANSFORM, F_SCALE, F_SHIFT, F_DEVIATIONS, F_TURN_BACK, F_NUMBERS, F_CODES};
    draw_role();
    if (one_in(4)) {
        without_preprocessor();
        return;
    }
    if (!build())
        return;
    for (uint64_t n = below(8); n > 0; n--) {
        draw_role();
        measure();
        lend_parts(0);
        call(of_list[below(6)]);
        if (lists[HEAD].length < VEERYCOUCH_HEAD_WORDS) /* its last word was taken from it: the list ends here */
            return;
    }
    if (one_in(2)) {
        if (put_away()) {
            damage_text();
            take_up();
        }
        return;
    }
    damage_head();
    for (uint64_t n = 2 + below(14); n > 0; n--) {
        draw_role();
        if (one_in(8))
            damage_head();
        if (one_in(6))
            put_away();
        else
            call(of_list[below(13)]);
        if (lists[HEAD].length < VEERYCOUCH_HEAD_WORDS)
            return;
        measure();
        lend_parts(0);
    }
}

int main(int words, char **word) {
    if (words < 3) {
        fprintf(stderr, "fuzz SEED SECONDS [FIRST [COUNT]]\n");
        return 2;
    }
    seed = strtoull(word[1], NULL, 10);
    const uint64_t seconds = strtoull(word[2], NULL, 10), first = words > 3 ? strtoull(word[3], NULL, 10) : 0, count = words > 4 ? strtoull(word[4], NULL, 10) : UINT64_MAX;
    page = (size_t)sysconf(_SC_PAGESIZE);
    for (int i = 0; i < LISTS; i++)
        prepare(i, i == TEXT ? VEERYCOUCH_TEXT_MAX + 4096 : i == VALUES ? 2001 * 17 * 4 : i == INITIAL ? 2001 * 8 : i == HEAD || i == ANSWERS || i == CODES ? 1 : 17 * 65 * 4 * 4);
    for (int i = 0; i < LISTS; i++)
        lend(i, 1, 0);
    text_kept = malloc(VEERYCOUCH_TEXT_MAX + 4096);
    if (text_kept == NULL)
        return 2;
    const time_t begun = time(NULL);
    uint64_t rounds = 0;
    for (round_number = first; rounds < count && (uint64_t)(time(NULL) - begun) < seconds; round_number++, rounds++) {
        state = (seed * 2654435761u + round_number) * 0x9E3779B97F4A7C15ULL + 88172645463325252ULL;
        if (state == 0)
            state = 1;
        one_round();
    }
    printf("fuzz: seed %llu, %llu rounds, %llu executions in %llu s: nothing found\n", (unsigned long long)seed, (unsigned long long)rounds, (unsigned long long)executions,
           (unsigned long long)(time(NULL) - begun));
    for (int i = 0; i < KINDS; i++)
        printf("%12llu %s, %llu accepted\n", (unsigned long long)made[i], name[i], (unsigned long long)accepted[i]);
    printf("by row:");
    for (unsigned i = 0; i < 64; i++)
        if (row_met[i] != 0)
            printf(" %u:%llu", i, (unsigned long long)row_met[i]);
    printf("\n");
    return 0;
}
