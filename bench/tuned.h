// The parts that bench/tuned.c and bench/memory.c share: the header of a table file or of one by columns, which is read in pieces;
// sets of 512 rows and comparisons by the 128-bit operations of SSE2; totals; and writing the results.
#include <ctype.h>
#include <emmintrin.h>
#include <fcntl.h>
#include <stdint.h>
#include <stdio.h>
#include <stdlib.h>
#include <string.h>
#include <strings.h>
#include <sys/stat.h>
#include <unistd.h>

enum { ROWS = 512, WORDS = ROWS / 64, PLANE = ROWS / 8, PARTS = PLANE / 16, MOST_COLUMNS = 64, MOST_ROWS = 1 << 24 };
enum { HEAD_PIECE = 1024, PIECE = 128 * 1024, LARGEST = MOST_COLUMNS * (PLANE + 8 * ROWS) };

struct column {
    char name[256];
    int64_t lo;
    // the maximum code
    uint64_t span;
    int width, slices;
    // whether no code that fits the block's bits is above the maximum
    int full;
    // bytes of the null plane, which the codes follow, and of the whole block
    size_t nulls, size;
};

static struct column column[MOST_COLUMNS];
static int columns, in_slices, by_columns;
static uint32_t row_count;
static size_t segment_size;

static _Noreturn void stop(int fault, uint64_t byte) {
    fprintf(stderr, "%d at byte %llu\n", fault, (unsigned long long)byte);
    exit(1);
}

static _Noreturn void give_up(const char *why) {
    fprintf(stderr, "tuned: %s\n", why);
    exit(2);
}

// The buffer: unread bytes are from `at` to `end`, and `passed` bytes of the file are before the buffer.

static unsigned char buffer[LARGEST + PIECE] __attribute__((aligned(64)));
static size_t at, end;
static uint64_t passed;
static int file;
// how much is read at once: less of the header, since a file by columns isn't read on from there
static size_t piece = HEAD_PIECE;

// moves the unread bytes to the buffer's front, where the blocks of a segment are at multiples of 64
static void settle(void) {
    memmove(buffer, buffer + at, end - at);
    passed += at;
    end -= at;
    at = 0;
}

// how many bytes are available, after reading until there are as many as wanted, or the file ends
static size_t at_hand(size_t wanted) {
    if (end - at >= wanted) return end - at;
    settle();
    while (end < wanted) {
        ssize_t count = read(file, buffer + end, piece);
        if (count < 0) give_up("the file can't be read");
        if (count == 0) break;
        end += (size_t)count;
    }
    return end;
}

// the next bytes of the header
static const unsigned char *take(size_t size) {
    if (at_hand(size) < size) stop(305, passed + end);
    at += size;
    return buffer + at - size;
}

// The header, field by field.

static uint64_t number(const unsigned char *bytes, int size) {
    uint64_t made = 0;
    while (size-- > 0) made = made << 8 | bytes[size];
    return made;
}

static int is_name(const char *text, size_t size) {
    static const char *const WORD[] = {"AND", "BETWEEN", "COUNT", "FALSE", "FROM", "IN", "IS", "MAX", "MIN", "NOT", "NULL", "OR",
                                       "SELECT", "SUM", "TRUE", "UNKNOWN", "WHERE"};
    if (size < 1 || size > 63 || isdigit((unsigned char)text[0])) return 0;
    for (size_t i = 0; i < size; i++)
        if (!isalnum((unsigned char)text[i]) && text[i] != '_') return 0;
    for (size_t i = 0; i < sizeof WORD / sizeof *WORD; i++)
        if (!strcasecmp(text, WORD[i])) return 0;
    return 1;
}

// a name after its length, which must differ from the names of the columns before it
static void take_name(char *text, int earlier) {
    uint64_t byte = passed + at;
    size_t size = *take(1);
    memcpy(text, take(size), size);
    text[size] = 0;
    int good = is_name(text, size);
    for (int i = 0; i < earlier; i++) good &= strcasecmp(text, column[i].name) != 0;
    if (!good) stop(304, byte);
}

static void take_column(struct column *c, int version) {
    take_name(c->name, (int)(c - column));
    uint64_t byte = passed + at;
    const unsigned char *bounds = take(16);
    c->lo = (int64_t)number(bounds, 8);
    int64_t hi = (int64_t)number(bounds + 8, 8);
    c->span = (uint64_t)hi - (uint64_t)c->lo;
    if (hi < c->lo || c->span >> (version == 1 ? 32 : 63)) stop(304, byte);
    byte = passed + at;
    unsigned char nullable = *take(1);
    if (nullable > 1) stop(304, byte);
    c->width = c->span ? 64 - __builtin_clzll(c->span) : 1;
    c->slices = (c->width + 7) / 8;
    int bits = in_slices ? 8 * c->slices : c->width;
    c->full = bits < 64 && c->span == ((uint64_t)1 << bits) - 1;
    c->nulls = nullable ? PLANE : 0;
    c->size = c->nulls + (size_t)(in_slices ? ROWS * c->slices : PLANE * c->width);
    segment_size += c->size;
}

static void take_header(char *table) {
    const unsigned char *magic = take(8);
    by_columns = !memcmp(magic, "BWBYCOLS", 8);
    if (!by_columns && memcmp(magic, "BWCOLUMN", 8)) stop(301, 0);
    int version = *take(1);
    if (version != 2 && (version != 1 || by_columns)) stop(302, 8);
    in_slices = *take(1);
    if (in_slices > 1) stop(303, 9);
    columns = (int)number(take(2), 2);
    if (columns < 1 || columns > MOST_COLUMNS) stop(304, 10);
    row_count = (uint32_t)number(take(4), 4);
    if (row_count > MOST_ROWS) stop(310, 12);
    take_name(table, 0);
    for (int i = 0; i < columns; i++) take_column(&column[i], version);
    piece = PIECE;
}

// Sets of rows, a bit each: four registers of 128 bits.

typedef struct { __m128i part[PARTS]; } rows_t;

static inline __m128i load(const unsigned char *bytes) {
    return _mm_loadu_si128((const __m128i *)bytes);
}

static inline rows_t plane(const unsigned char *bytes) {
    rows_t set;
    for (int i = 0; i < PARTS; i++) set.part[i] = load(bytes + 16 * i);
    return set;
}

static inline rows_t filled(int bit) {
    rows_t set;
    for (int i = 0; i < PARTS; i++) set.part[i] = _mm_set1_epi8((char)-bit);
    return set;
}

static inline rows_t both(rows_t x, rows_t y) {
    for (int i = 0; i < PARTS; i++) x.part[i] = _mm_and_si128(x.part[i], y.part[i]);
    return x;
}

static inline rows_t either(rows_t x, rows_t y) {
    for (int i = 0; i < PARTS; i++) x.part[i] = _mm_or_si128(x.part[i], y.part[i]);
    return x;
}

static inline rows_t without(rows_t x, rows_t y) {
    for (int i = 0; i < PARTS; i++) x.part[i] = _mm_andnot_si128(y.part[i], x.part[i]);
    return x;
}

static inline int any(rows_t x) {
    __m128i all = _mm_or_si128(_mm_or_si128(x.part[0], x.part[1]), _mm_or_si128(x.part[2], x.part[3]));
    return _mm_movemask_epi8(_mm_cmpeq_epi8(all, _mm_setzero_si128())) != 0xFFFF;
}

static inline uint64_t size_of(rows_t x) {
    uint64_t word[WORDS], size = 0;
    memcpy(word, &x, PLANE);
    for (int i = 0; i < WORDS; i++) size += (uint64_t)__builtin_popcountll(word[i]);
    return size;
}

static rows_t first(uint32_t count) {
    unsigned char bytes[PLANE] = {0};
    for (uint32_t row = 0; row < count; row++) bytes[row / 8] |= (unsigned char)(1 << row % 8);
    return plane(bytes);
}

// Comparisons of the codes with another one, from the lowest bit or byte up: the outcome of the lower ones remains if the next one
// is equal to that of the other code. Ones at the lower end of the other code change nothing, and are skipped. The other code
// isn't all ones, since no code can be above that.

// if the other code has 1, a row needs 1 too; if it has 0, a row with 1 is above it
static rows_t planes_above(const struct column *c, const unsigned char *codes, uint64_t code) {
    rows_t set = filled(0);
    for (int bit = __builtin_ctzll(~code); bit < c->width; bit++) {
        rows_t ones = plane(codes + PLANE * (c->width - 1 - bit));
        set = code >> bit & 1 ? both(set, ones) : either(set, ones);
    }
    return set;
}

static rows_t planes_equal(const struct column *c, const unsigned char *codes, uint64_t code) {
    rows_t set = filled(1);
    for (int bit = c->width - 1; bit >= 0; bit--, codes += PLANE)
        set = code >> bit & 1 ? both(set, plane(codes)) : without(set, plane(codes));
    return set;
}

// The work on 512 bytes of each of some slices. The lowest slice is given, and the others precede it. UNROLLED calls it with a
// number of slices that the compiler knows, so that there is no loop over them.
#define INLINED static inline __attribute__((always_inline))
#define UNROLLED(function, slices, ...) \
    ((slices) == 1 ? function(1, __VA_ARGS__) : (slices) == 2 ? function(2, __VA_ARGS__) \
        : (slices) == 3 ? function(3, __VA_ARGS__) : (slices) == 4 ? function(4, __VA_ARGS__) : function(slices, __VA_ARGS__))

// for each of 16 bits, whether that byte is 0
INLINED unsigned zeros(__m128i bytes) {
    return (unsigned)_mm_movemask_epi8(_mm_cmpeq_epi8(bytes, _mm_setzero_si128()));
}

// of 16 rows, bytes that aren't 0 if a row is above the code
INLINED __m128i above(int slices, const unsigned char *least, uint64_t code) {
    __m128i found = _mm_setzero_si128();
    for (int s = 0; s < slices; s++) {
        __m128i bytes = load(least - ROWS * s), byte = _mm_set1_epi8((char)(code >> 8 * s));
        found = _mm_or_si128(_mm_subs_epu8(bytes, byte), _mm_and_si128(_mm_cmpeq_epi8(bytes, byte), found));
    }
    return found;
}

INLINED rows_t bytes_above(int slices, const unsigned char *least, uint64_t code) {
    uint16_t found[ROWS / 16];
    for (int i = 0; i < ROWS / 16; i++) found[i] = (uint16_t)~zeros(above(slices, least + 16 * i, code));
    return plane((const unsigned char *)found);
}

INLINED rows_t bytes_equal(int slices, const unsigned char *least, uint64_t code) {
    uint16_t found[ROWS / 16];
    for (int i = 0; i < ROWS / 16; i++) {
        __m128i other = _mm_setzero_si128();
        for (int s = 0; s < slices; s++)
            other = _mm_or_si128(other, _mm_xor_si128(load(least - ROWS * s + 16 * i), _mm_set1_epi8((char)(code >> 8 * s))));
        found[i] = (uint16_t)zeros(other);
    }
    return plane((const unsigned char *)found);
}

static rows_t codes_above(const struct column *c, const unsigned char *codes, uint64_t code) {
    if (!in_slices) return planes_above(c, codes, code);
    int low = __builtin_ctzll(~code) / 8, slices = c->slices - low;
    return UNROLLED(bytes_above, slices, codes + ROWS * (slices - 1), code >> 8 * low);
}

static inline rows_t codes_equal(const struct column *c, const unsigned char *codes, uint64_t code) {
    if (!in_slices) return planes_equal(c, codes, code);
    return UNROLLED(bytes_equal, c->slices, codes + ROWS * (c->slices - 1), code);
}

// Totals of the codes in a set of rows. Nothing is read of 64 rows of which none is in the set.

static uint64_t planes_total(const struct column *c, const unsigned char *codes, rows_t rows) {
    uint64_t word[WORDS], total = 0;
    memcpy(word, &rows, PLANE);
    for (int i = 0; i < WORDS; i++) {
        uint64_t here = 0;
        if (!word[i]) continue;
#pragma GCC unroll 4
        for (int k = 0; k < c->width; k++) {
            uint64_t ones;
            memcpy(&ones, codes + PLANE * k + 8 * i, 8);
            here = 2 * here + (uint64_t)__builtin_popcountll(ones & word[i]);
        }
        total += here;
    }
    return total;
}

// for each byte, a word whose byte i is 255 if bit i is 1
static uint64_t spread[256];

static void make_spread(void) {
    for (int byte = 0; byte < 256; byte++)
        for (int i = 0; i < 8; i++) spread[byte] |= byte >> i & 1 ? (uint64_t)255 << 8 * i : 0;
}

// bytes are added up to words of 64 bits by _mm_sad_epu8, eight at a time
static uint64_t slices_total(const struct column *c, const unsigned char *codes, rows_t rows) {
    unsigned char bits[PLANE];
    uint64_t word[WORDS], half[2], total = 0;
    memcpy(bits, &rows, PLANE);
    memcpy(word, &rows, PLANE);
    for (int i = 0; i < WORDS; i++) {
        if (!word[i]) continue;
        uint64_t here = 0;
        for (int s = 0; s < c->slices; s++) {
            __m128i sums = _mm_setzero_si128();
            for (int k = 0; k < 8; k += 2) {
                __m128i mask = _mm_set_epi64x((int64_t)spread[bits[8 * i + k + 1]], (int64_t)spread[bits[8 * i + k]]);
                __m128i bytes = _mm_and_si128(load(codes + ROWS * s + 64 * i + 8 * k), mask);
                sums = _mm_add_epi64(sums, _mm_sad_epu8(bytes, _mm_setzero_si128()));
            }
            memcpy(half, &sums, 16);
            here = (here << 8) + half[0] + half[1];
        }
        total += here;
    }
    return total;
}

// A code of one row.

static uint64_t code_of(const struct column *c, const unsigned char *codes, uint32_t row) {
    uint64_t made = 0;
    if (in_slices)
        for (int s = 0; s < c->slices; s++) made = made << 8 | codes[ROWS * s + (int)row];
    else
        for (int k = 0; k < c->width; k++) made = made << 1 | (codes[PLANE * k + (int)row / 8] >> row % 8 & 1);
    return made;
}

// The columns of one segment, over which the questions are evaluated.

enum { A, B, C, D, ASKED };
// the columns that the question uses, the offsets of their blocks in a segment of the file, and the segment's blocks
static const struct column *asked[ASKED];
static size_t place[ASKED];
static const unsigned char *blocks[ASKED];
// the segment's rows
static rows_t here;
static uint64_t count, total;

static inline rows_t nulls(int which) {
    return asked[which]->nulls ? plane(blocks[which]) : filled(0);
}

static inline const unsigned char *codes(int which) {
    return blocks[which] + asked[which]->nulls;
}

// the rows that aren't null in the column
static inline rows_t present(int which) {
    return without(here, nulls(which));
}

// the rows whose code passes, by a function that finds the codes above one; a null's code is 0
INLINED rows_t at_least_by(rows_t (*above)(const struct column *, const unsigned char *, uint64_t), int which, int64_t value) {
    const struct column *c = asked[which];
    if (value <= c->lo) return filled(1);
    uint64_t code = (uint64_t)value - (uint64_t)c->lo;
    return code > c->span ? filled(0) : above(c, codes(which), code - 1);
}

static rows_t at_least(int which, int64_t value) {
    return at_least_by(codes_above, which, value);
}

static rows_t equal(int which, int64_t value) {
    const struct column *c = asked[which];
    uint64_t code = (uint64_t)value - (uint64_t)c->lo;
    return value < c->lo || code > c->span ? filled(0) : codes_equal(c, codes(which), code);
}

// counts the rows, and adds up d of them; those where d is null are left out
static void add_up(rows_t rows) {
    rows = both(rows, present(D));
    if (!any(rows)) return;
    uint64_t size = size_of(rows), codes_total = (in_slices ? slices_total : planes_total)(asked[D], codes(D), rows);
    count += size;
    total += codes_total + size * (uint64_t)asked[D]->lo;
}

// passes on each row of a set, in order; for sets of few rows
INLINED void each(rows_t rows, void (*take)(uint32_t)) {
    uint64_t word[WORDS];
    memcpy(word, &rows, PLANE);
    for (uint32_t i = 0; i < WORDS; i++)
        for (uint64_t left = word[i]; left; left &= left - 1) take(64 * i + (uint32_t)__builtin_ctzll(left));
}

static inline int has_number(int which, uint32_t row) {
    return !asked[which]->nulls || !(blocks[which][row / 8] >> row % 8 & 1);
}

static inline int64_t number_in(int which, uint32_t row) {
    return asked[which]->lo + (int64_t)code_of(asked[which], codes(which), row);
}

// the minimum c and the maximum d so far, if there is one
static int64_t least, greatest;
static int any_least, any_greatest;

// the records so far
static char *text;
static size_t filled_to, room;

static void put_number(int64_t value) {
    char digit[20];
    uint64_t left = value < 0 ? 0 - (uint64_t)value : (uint64_t)value;
    int first = 20;
    do digit[--first] = (char)('0' + left % 10);
    while (left /= 10);
    if (value < 0) text[filled_to++] = '-';
    memcpy(text + filled_to, digit + first, (size_t)(20 - first));
    filled_to += (size_t)(20 - first);
}

static void put_field(int which, uint32_t row, char after) {
    if (has_number(which, row)) {
        put_number(number_in(which, row));
    } else {
        memcpy(text + filled_to, "NULL", 4);
        filled_to += 4;
    }
    text[filled_to++] = after;
}

INLINED void take_record(uint32_t row) {
    if (room - filled_to < 64) {
        room = 2 * room + 4096;
        text = realloc(text, room);
        if (!text) give_up("out of memory");
    }
    put_field(C, row, ',');
    put_field(D, row, '\n');
}

// Writing the results.

static void write_count(void) {
    printf("COUNT(*)\n%llu\n", (unsigned long long)count);
}

static void write_sum(void) {
    printf("SUM(%s)\n", asked[D]->name);
    if (count) printf("%lld\n", (long long)total);
    else puts("NULL");
}

static void write_ends(void) {
    printf("MIN(%s),MAX(%s)\n", asked[C]->name, asked[D]->name);
    if (any_least) printf("%lld,", (long long)least);
    else printf("NULL,");
    if (any_greatest) printf("%lld\n", (long long)greatest);
    else puts("NULL");
}

static void write_records(void) {
    printf("%s,%s\n", asked[C]->name, asked[D]->name);
    fwrite(text, 1, filled_to, stdout);
}

struct question {
    const char *name;
    void (*ask)(void);
    void (*write)(void);
    // the names of the columns that it needs
    const char *needs;
};

static const char *const NAME[ASKED] = {"a", "b", "c", "d"};

static void find_columns(const char *table) {
    if (strcasecmp(table, "m")) give_up("the table isn't m");
    for (int which = 0; which < ASKED; which++) {
        size_t from = 0;
        for (int i = 0; i < columns; from += column[i++].size)
            if (!strcasecmp(column[i].name, NAME[which])) {
                asked[which] = &column[i];
                place[which] = from;
            }
        if (!asked[which]) give_up("a column is missing");
    }
    if (asked[D]->width > 32 || asked[D]->lo < INT32_MIN || asked[D]->lo > INT32_MAX) give_up("a sum of d might not fit");
}

