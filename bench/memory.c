// Answers the eight questions of bench/tuned.c over a table in memory. A running `bw session` is compared with it.
// It reads the table file once, and stores all blocks of a column back to back. Each question is a loop with 128-bit operations
// (SSE2) over the blocks of the columns that it needs, and reads no more of their planes or slices than necessary. It validates
// nothing, so it is faster than any program that doesn't trust its table.
// It writes each result to a file of the question's name, and prints each question's minimum time of RUNS runs, in milliseconds.
// gcc -O3 -march=x86-64-v2 -o memory bench/memory.c && ./memory RUNS TABLE FOLDER
#include <time.h>

#include "tuned.h"

// Comparisons from the top bit or byte down. They end as soon as no row's code has the same leading bits as the other code.

// the planes of the other code's leading zeros are combined first, without testing whether to end
static rows_t planes_above_early(const struct column *c, const unsigned char *codes, uint64_t code) {
    int bit = c->width - 1, last = __builtin_ctzll(~code);
    rows_t found = filled(0);
    for (; bit >= last && !(code >> bit & 1); bit--, codes += PLANE) found = either(found, plane(codes));
    rows_t same = without(here, found);
    for (; bit >= last && any(same); bit--, codes += PLANE) {
        rows_t ones = plane(codes);
        if (code >> bit & 1) {
            same = both(same, ones);
        } else {
            found = either(found, both(same, ones));
            same = without(same, ones);
        }
    }
    return found;
}

// by two slices at once, and then by each further slice, for 16 rows as long as one of them has the other code's leading bytes
static rows_t bytes_above_early(const struct column *c, const unsigned char *codes, uint64_t code) {
    uint16_t found[ROWS / 16], same[ROWS / 16];
    int last = 8 * (c->slices - 1), any_same = 0;
    __m128i one = _mm_set1_epi8((char)(code >> last)), two = _mm_set1_epi8((char)(code >> (last - 8)));
    for (int i = 0; i < ROWS / 16; i++) {
        __m128i high = load(codes + 16 * i), low = load(codes + ROWS + 16 * i), equal = _mm_cmpeq_epi8(high, one);
        __m128i more = _mm_or_si128(_mm_subs_epu8(high, one), _mm_and_si128(equal, _mm_subs_epu8(low, two)));
        found[i] = (uint16_t)~zeros(more);
        same[i] = (uint16_t)_mm_movemask_epi8(_mm_and_si128(equal, _mm_cmpeq_epi8(low, two)));
        any_same |= same[i];
    }
    for (int s = 2; s < c->slices && any_same; s++) {
        __m128i byte = _mm_set1_epi8((char)(code >> (last - 8 * s)));
        for (int i = 0; i < ROWS / 16; i++) {
            if (!same[i]) continue;
            __m128i bytes = load(codes + ROWS * s + 16 * i);
            found[i] |= (uint16_t)(same[i] & ~zeros(_mm_subs_epu8(bytes, byte)));
            same[i] &= (uint16_t)_mm_movemask_epi8(_mm_cmpeq_epi8(bytes, byte));
        }
    }
    return plane((const unsigned char *)found);
}

static rows_t codes_above_early(const struct column *c, const unsigned char *codes, uint64_t code) {
    if (!in_slices) return planes_above_early(c, codes, code);
    return (c->slices > 1 ? bytes_above_early : codes_above)(c, codes, code);
}

static rows_t below(int which, int64_t value) {
    return without(present(which), at_least_by(codes_above_early, which, value));
}

// The questions, each over one segment.

static void count_a_below_8(void) {
    count += size_of(below(A, 8));
}

static void sum_d_a_below_8(void) {
    add_up(below(A, 8));
}

static void count_a_from_250(void) {
    count += size_of(both(present(A), at_least(A, 250)));
}

static void count_c_between(void) {
    rows_t rows = below(C, 901);
    if (any(rows)) count += size_of(both(rows, at_least_by(codes_above_early, C, 500)));
}

static void sum_d_c_below_5000(void) {
    rows_t rows = below(C, 5000);
    if (any(rows)) add_up(both(rows, present(B)));
}

// in five planes of numbers from -10: 1, 3 and 5 are the codes 01011, 01101 and 01111
static rows_t listed_by_planes(const unsigned char *codes) {
    rows_t some = either(plane(codes + 2 * PLANE), plane(codes + 3 * PLANE));
    return without(both(both(plane(codes + PLANE), plane(codes + 4 * PLANE)), some), plane(codes));
}

// in one slice, all three at once
static rows_t listed_by_bytes(const unsigned char *codes, int64_t lo) {
    uint16_t found[ROWS / 16];
    __m128i one = _mm_set1_epi8((char)(1 - lo)), three = _mm_set1_epi8((char)(3 - lo)), five = _mm_set1_epi8((char)(5 - lo));
    for (int i = 0; i < ROWS / 16; i++) {
        __m128i bytes = load(codes + 16 * i), is_one = _mm_cmpeq_epi8(bytes, one), is_three = _mm_cmpeq_epi8(bytes, three);
        found[i] = (uint16_t)_mm_movemask_epi8(_mm_or_si128(_mm_or_si128(is_one, is_three), _mm_cmpeq_epi8(bytes, five)));
    }
    return plane((const unsigned char *)found);
}

static rows_t listed(void) {
    const struct column *b = asked[B];
    int is_short = b->lo >= -250 && b->lo <= 1 && b->slices == 1;
    if (in_slices && is_short) return listed_by_bytes(codes(B), b->lo);
    if (!in_slices && b->lo == -10 && b->width == 5) return listed_by_planes(codes(B));
    return either(either(equal(B, 1), equal(B, 3)), equal(B, 5));
}

static void count_b_in_or_d_null(void) {
    count += size_of(either(both(present(B), listed()), nulls(D)));
}

// whether a row's code is below (-1) or above (1) another one, by its first bit or byte that differs
static int compared(const struct column *c, const unsigned char *codes, uint32_t row, uint64_t code) {
    int parts = in_slices ? c->slices : c->width;
    for (int k = 0; k < parts; k++) {
        int ours = in_slices ? codes[ROWS * k + (int)row] : codes[PLANE * k + (int)row / 8] >> row % 8 & 1;
        int other = in_slices ? (int)(code >> 8 * (parts - 1 - k) & 255) : (int)(code >> (parts - 1 - k) & 1);
        if (ours != other) return ours < other ? -1 : 1;
    }
    return 0;
}

INLINED void take_ends(uint32_t row) {
    const struct column *c = asked[C], *d = asked[D];
    if (has_number(C, row) && (!any_least || compared(c, codes(C), row, (uint64_t)least - (uint64_t)c->lo) < 0)) {
        least = number_in(C, row);
        any_least = 1;
    }
    if (has_number(D, row) && (!any_greatest || compared(d, codes(D), row, (uint64_t)greatest - (uint64_t)d->lo) > 0)) {
        greatest = number_in(D, row);
        any_greatest = 1;
    }
}

// prefetches the first codes of a column some segments ahead, since few rows will be compared with them
static inline void fetch_ahead(int which) {
    const unsigned char *next = codes(which) + 4 * asked[which]->size;
    for (int k = 0; k < 4; k++) _mm_prefetch((const char *)(next + PLANE * k), _MM_HINT_T0);
    if (asked[which]->nulls) _mm_prefetch((const char *)(next - PLANE), _MM_HINT_T0);
}

static void min_c_max_d_a_is_7(void) {
    fetch_ahead(C);
    fetch_ahead(D);
    each(both(present(A), equal(A, 7)), take_ends);
}

static void rows_c_below_1000(void) {
    each(below(C, 1000), take_record);
}

static const struct question QUESTION[] = {
    {"count_a_below_8", count_a_below_8, write_count},
    {"sum_d_a_below_8", sum_d_a_below_8, write_sum},
    {"count_a_from_250", count_a_from_250, write_count},
    {"count_c_between", count_c_between, write_count},
    {"sum_d_c_below_5000", sum_d_c_below_5000, write_sum},
    {"count_b_in_or_d_null", count_b_in_or_d_null, write_count},
    {"min_c_max_d_a_is_7", min_c_max_d_a_is_7, write_ends},
    {"rows_c_below_1000", rows_c_below_1000, write_records},
};

// The columns in memory.

static unsigned char *kept[ASKED];
static uint32_t segments;

// reads the file's segments, and stores the blocks of each column that the questions use back to back
static void read_columns(void) {
    segments = (row_count + ROWS - 1) / ROWS;
    for (int which = 0; which < ASKED; which++)
        if (!(kept[which] = aligned_alloc(PLANE, asked[which]->size * (segments + 1)))) give_up("out of memory");
    for (uint32_t i = 0; i < segments; i++, at += segment_size) {
        if (at_hand(segment_size) < segment_size) stop(305, passed + end);
        for (int which = 0; which < ASKED; which++)
            memcpy(kept[which] + i * asked[which]->size, buffer + at + place[which], asked[which]->size);
    }
}

static void scan(void (*ask)(void)) {
    count = total = 0;
    any_least = any_greatest = 0;
    filled_to = 0;
    for (int which = 0; which < ASKED; which++) blocks[which] = kept[which];
    here = filled(1);
    for (uint32_t i = 0; i < segments; i++) {
        if (i + 1 == segments && row_count % ROWS) here = first(row_count % ROWS);
        ask();
        for (int which = 0; which < ASKED; which++) blocks[which] += asked[which]->size;
    }
}

static double milliseconds(void) {
    struct timespec now;
    clock_gettime(CLOCK_MONOTONIC, &now);
    return (double)now.tv_sec * 1e3 + (double)now.tv_nsec / 1e6;
}

static double least_time(const struct question *question, int runs) {
    double found = 0;
    for (int run = 0; run < runs; run++) {
        double start = milliseconds();
        scan(question->ask);
        double taken = milliseconds() - start;
        if (run == 0 || taken < found) found = taken;
    }
    return found;
}

int main(int words, char **word) {
    char table[256];
    int runs = words == 4 ? atoi(word[1]) : 0;
    if (runs < 1) give_up("usage: memory RUNS TABLE FOLDER");
    file = open(word[2], O_RDONLY);
    if (file < 0) give_up("the file can't be opened");
    make_spread();
    take_header(table);
    if (by_columns) give_up("the file is by columns");
    find_columns(table);
    settle();
    read_columns();
    if (chdir(word[3])) give_up("the folder can't be used");
    for (size_t i = 0; i < sizeof QUESTION / sizeof *QUESTION; i++) {
        fprintf(stderr, "%s %.3f\n", QUESTION[i].name, least_time(&QUESTION[i], runs));
        if (!freopen(QUESTION[i].name, "w", stdout)) give_up("an answer can't be written");
        QUESTION[i].write();
        if (fflush(stdout)) give_up("an answer can't be written");
    }
    return 0;
}
