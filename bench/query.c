// Answers one of the questions of bench/bench.py compare over a table file of the columns a, b, c and d, in either layout. `bw query`
// is compared with it. It reads pieces of 64 KiB, validates every block as a reader of table files must, and works on 64 rows
// at a time, as the bits of a word. In slices it compares the bytes of 512 rows in one loop, and makes bits of the outcome. Its
// only vector code is what the compiler makes of its loops. It trusts the header, and needs a little-endian machine. The result
// is written once the whole file is valid. An error is its number and its byte, with status 1.
// gcc -O2 -o query bench/query.c && ./query count_a_below_8 TABLE
#include <fcntl.h>
#include <stdarg.h>
#include <stdint.h>
#include <stdio.h>
#include <stdlib.h>
#include <string.h>
#include <unistd.h>

enum { PIECE = 64 * 1024, ROWS = 512, WORDS = ROWS / 64, PLANE = 64, COLUMNS = 4, A = 0, B = 1, C = 2, D = 3 };
enum { LARGEST = COLUMNS * (PLANE + 8 * ROWS) };

typedef struct { uint64_t word[WORDS]; } rows_t;

struct column {
    int64_t lo;
    uint64_t span;
    int width, slices, nullable;
    size_t size;
};

static struct column column[COLUMNS];
static int in_slices;
static uint64_t row_count;
// for each byte, its bit i as byte i of a word, 255 for 1
static uint64_t spread[256];

// A piece of the file, after the rest of the piece before it.

static unsigned char piece[LARGEST + PIECE];
static size_t at, end;
static uint64_t passed;

static _Noreturn void stop(int fault, uint64_t byte) {
    fprintf(stderr, "%d at byte %llu\n", fault, (unsigned long long)byte);
    exit(1);
}

// reads until so many bytes are available, or the file ends
static void gather(int file, size_t size) {
    if (end - at >= size) return;
    memmove(piece, piece + at, end - at);
    passed += at;
    end -= at;
    at = 0;
    while (end < size) {
        ssize_t n = read(file, piece + end, PIECE);
        if (n < 0) exit(5);
        if (n == 0) break;
        end += (size_t)n;
    }
}

// the next bytes, which aren't moved while enough are available
static const unsigned char *take(int file, size_t size) {
    gather(file, size);
    if (end - at < size) stop(305, passed + end);
    at += size;
    return piece + at - size;
}

// Sets of rows.

static rows_t plane(const unsigned char *bytes) {
    rows_t set;
    memcpy(&set, bytes, PLANE);
    return set;
}

static rows_t both(rows_t x, rows_t y) {
    for (int i = 0; i < WORDS; i++) x.word[i] &= y.word[i];
    return x;
}

static rows_t either(rows_t x, rows_t y) {
    for (int i = 0; i < WORDS; i++) x.word[i] |= y.word[i];
    return x;
}

static rows_t without(rows_t x, rows_t y) {
    for (int i = 0; i < WORDS; i++) x.word[i] &= ~y.word[i];
    return x;
}

static int any(const rows_t *x) {
    uint64_t all = 0;
    for (int i = 0; i < WORDS; i++) all |= x->word[i];
    return all != 0;
}

static rows_t first(int count) {
    rows_t set;
    for (int i = 0; i < WORDS; i++) {
        int here = count - 64 * i;
        set.word[i] = here >= 64 ? UINT64_MAX : here > 0 ? ((uint64_t)1 << here) - 1 : 0;
    }
    return set;
}

// how many rows are in a set: counted in each byte, and the bytes added up once
static uint64_t size_of(const rows_t *x) {
#ifdef __POPCNT__
    uint64_t count = 0;
    for (int i = 0; i < WORDS; i++) count += (uint64_t)__builtin_popcountll(x->word[i]);
    return count;
#else
    uint64_t bytes = 0;
    for (int i = 0; i < WORDS; i++) {
        uint64_t w = x->word[i];
        w -= w >> 1 & 0x5555555555555555;
        w = (w & 0x3333333333333333) + (w >> 2 & 0x3333333333333333);
        bytes += (w + (w >> 4)) & 0x0F0F0F0F0F0F0F0F;
    }
    bytes = (bytes & 0x00FF00FF00FF00FF) + (bytes >> 8 & 0x00FF00FF00FF00FF);
    return bytes * 0x0001000100010001 >> 48;
#endif
}

// the rows whose byte of 512 isn't 0, where each is 0 or 1
static rows_t packed(const unsigned char *flags) {
    rows_t set;
    for (int i = 0; i < WORDS; i++) {
        uint64_t w = 0;
        for (int k = 0; k < 8; k++) {
            uint64_t eight;
            memcpy(&eight, flags + 64 * i + 8 * k, 8);
            w |= (eight * 0x0102040810204080 >> 56) << 8 * k;
        }
        set.word[i] = w;
    }
    return set;
}

// leaves 1 for the rows that have this byte, and returns whether there are any
static unsigned char keep_equal(unsigned char *equal, const unsigned char *bytes, unsigned char byte) {
    unsigned char some = 0;
    for (int row = 0; row < ROWS; row++) some |= equal[row] &= bytes[row] == byte;
    return some;
}

// Columns of a segment: the start of their codes, their null rows, and the code of one row.

static const unsigned char *codes(const struct column *c, const unsigned char *block) {
    return block + (c->nullable ? PLANE : 0);
}

static rows_t nulls(const struct column *c, const unsigned char *block) {
    return c->nullable ? plane(block) : (rows_t){{0}};
}

static uint64_t code(const struct column *c, const unsigned char *block, int row) {
    const unsigned char *p = codes(c, block);
    uint64_t made = 0;
    if (in_slices)
        for (int s = 0; s < c->slices; s++) made = made << 8 | p[ROWS * s + row];
    else
        for (int k = 0; k < c->width; k++) made = made << 1 | (p[PLANE * k + row / 8] >> row % 8 & 1);
    return made;
}

// Comparisons of codes, with nulls as 0, with a number of as many bits. Each goes from the top down, and ends as soon as no row
// is equal so far.

static rows_t planes_below(const struct column *c, const unsigned char *block, uint64_t bound) {
    const unsigned char *p = codes(c, block);
    rows_t below = {{0}}, equal;
    memset(&equal, 255, PLANE);
    // below the lowest 1 of the bound no code can turn out to be less
    for (int bit = c->width - 1; bit >= 0 && bound << (63 - bit); bit--, p += PLANE) {
        rows_t ones = plane(p);
        if (bound >> bit & 1) {
            below = either(below, without(equal, ones));
            equal = both(equal, ones);
        } else {
            equal = without(equal, ones);
        }
        if (!any(&equal)) break;
    }
    return below;
}

static rows_t planes_equal(const struct column *c, const unsigned char *block, uint64_t number) {
    const unsigned char *p = codes(c, block);
    rows_t equal;
    memset(&equal, 255, PLANE);
    for (int bit = c->width - 1; bit >= 0; bit--, p += PLANE) {
        equal = number >> bit & 1 ? both(equal, plane(p)) : without(equal, plane(p));
        if (!any(&equal)) break;
    }
    return equal;
}

// In slices a row is a byte, 0 or 1, until the end.

static rows_t slices_below(const struct column *c, const unsigned char *block, uint64_t bound) {
    const unsigned char *p = codes(c, block);
    unsigned char below[ROWS] = {0}, equal[ROWS], some = 1;
    memset(equal, 1, ROWS);
    for (int s = c->slices - 1; s >= 0 && some && bound << (56 - 8 * s); s--, p += ROWS) {
        unsigned char byte = (unsigned char)(bound >> 8 * s);
        for (int row = 0; row < ROWS; row++) below[row] |= equal[row] & (p[row] < byte);
        if (s > 0) some = keep_equal(equal, p, byte);
    }
    return packed(below);
}

static rows_t slices_equal(const struct column *c, const unsigned char *block, uint64_t number) {
    const unsigned char *p = codes(c, block);
    unsigned char equal[ROWS], some = 1;
    memset(equal, 1, ROWS);
    for (int s = c->slices - 1; s >= 0 && some; s--, p += ROWS)
        some = keep_equal(equal, p, (unsigned char)(number >> 8 * s));
    return packed(equal);
}

// the rows in which a column is less than a number, or equal to it; null is neither
static rows_t below(int which, const unsigned char *const *block, int64_t number) {
    const struct column *c = &column[which];
    uint64_t bound = (uint64_t)number - (uint64_t)c->lo;
    rows_t set = (in_slices ? slices_below : planes_below)(c, block[which], bound);
    return c->nullable ? without(set, plane(block[which])) : set;
}

static rows_t equal(int which, const unsigned char *const *block, int64_t number) {
    const struct column *c = &column[which];
    uint64_t wanted = (uint64_t)number - (uint64_t)c->lo;
    rows_t set = (in_slices ? slices_equal : planes_equal)(c, block[which], wanted);
    return c->nullable && wanted == 0 ? without(set, plane(block[which])) : set;
}

static rows_t between(int which, const unsigned char *const *block, int64_t least, int64_t greatest) {
    rows_t set = below(which, block, greatest + 1);
    return any(&set) ? without(set, below(which, block, least)) : set;
}

// Totals of the codes in some rows, none of which is null.

static uint64_t sum(const struct column *c, const unsigned char *block, const rows_t *rows) {
    const unsigned char *p = codes(c, block);
    uint64_t total = 0;
    if (in_slices) {
        for (int i = 0; i < WORDS; i++)
            for (uint64_t left = rows->word[i]; left; left &= left - 1)
                total += code(c, block, 64 * i + __builtin_ctzll(left));
        return total;
    }
    for (int bit = c->width - 1; bit >= 0; bit--, p += PLANE) {
        rows_t ones = both(*rows, plane(p));
        total += size_of(&ones) << bit;
    }
    return total;
}

// the maximum or the minimum code of some rows, at least one
static uint64_t extreme(const struct column *c, const unsigned char *block, rows_t rows, int greatest) {
    const unsigned char *p = codes(c, block);
    uint64_t found = greatest ? 0 : UINT64_MAX;
    if (in_slices) {
        for (int i = 0; i < WORDS; i++)
            for (uint64_t left = rows.word[i]; left; left &= left - 1) {
                uint64_t here = code(c, block, 64 * i + __builtin_ctzll(left));
                if (greatest ? here > found : here < found) found = here;
            }
        return found;
    }
    found = 0;
    for (int bit = c->width - 1; bit >= 0; bit--, p += PLANE) {
        rows_t better = greatest ? both(rows, plane(p)) : without(rows, plane(p));
        int some = any(&better);
        if (some) rows = better;
        if (some == greatest) found |= (uint64_t)1 << bit;
    }
    return found;
}

// Validation. An invalid block is searched again, row by row, for its first error.

static _Noreturn void stop_at(const struct column *c, const unsigned char *block, int rows, uint64_t byte) {
    size_t slices_from = in_slices ? (size_t)(codes(c, block) - block) : c->size;
    for (size_t i = 0; i < c->size; i++) {
        int wrong = 0;
        if (i >= slices_from) wrong = (int)((i - slices_from) % ROWS) >= rows && block[i];
        else
            for (int k = 0; k < 8; k++) wrong |= (int)(8 * (i % PLANE)) + k >= rows && block[i] >> k & 1;
        if (wrong) stop(308, byte + i);
    }
    for (int row = 0; row < rows; row++) {
        uint64_t here = code(c, block, row);
        if (c->nullable && block[row / 8] >> row % 8 & 1 && here) stop(307, byte);
        if (here > c->span) stop(306, byte);
    }
    abort();
}

static int planes_are_good(const struct column *c, const unsigned char *block, int rows) {
    const unsigned char *p = codes(c, block);
    if (rows < ROWS) {
        rows_t here = first(rows);
        for (size_t i = 0; i < c->size; i += PLANE) {
            rows_t padding = without(plane(block + i), here);
            if (any(&padding)) return 0;
        }
    }
    if (c->nullable) {
        rows_t null = plane(block), used = {{0}};
        if (any(&null)) {
            for (int k = 0; k < c->width; k++) used = either(used, plane(p + PLANE * k));
            used = both(used, null);
            if (any(&used)) return 0;
        }
    }
    if (c->span == ((uint64_t)1 << c->width) - 1) return 1;
    rows_t over = {{0}}, equal;
    memset(&equal, 255, PLANE);
    for (int bit = c->width - 1; bit >= 0; bit--, p += PLANE) {
        rows_t ones = plane(p);
        if (c->span >> bit & 1) {
            equal = both(equal, ones);
        } else {
            over = either(over, both(equal, ones));
            equal = without(equal, ones);
        }
        if (!any(&equal)) break;
    }
    return !any(&over);
}

static int slices_are_good(const struct column *c, const unsigned char *block, int rows) {
    const unsigned char *p = codes(c, block);
    if (rows < ROWS) {
        if (c->nullable) {
            rows_t padding = without(plane(block), first(rows));
            if (any(&padding)) return 0;
        }
        for (int s = 0; s < c->slices; s++)
            for (int row = rows; row < ROWS; row++)
                if (p[ROWS * s + row]) return 0;
    }
    if (c->nullable) {
        uint64_t wrong = 0;
        for (int i = 0; i < PLANE; i++)
            for (int s = 0; s < c->slices; s++) {
                uint64_t eight;
                memcpy(&eight, p + ROWS * s + 8 * i, 8);
                wrong |= eight & spread[block[i]];
            }
        if (wrong) return 0;
    }
    if (c->slices < 8 && c->span == ((uint64_t)1 << 8 * c->slices) - 1) return 1;
    unsigned char over = 0, equal[ROWS], some = 1;
    memset(equal, 1, ROWS);
    for (int s = c->slices - 1; s >= 0 && some && !over; s--, p += ROWS) {
        unsigned char byte = (unsigned char)(c->span >> 8 * s);
        for (int row = 0; row < ROWS; row++) over |= equal[row] & (p[row] > byte);
        if (s > 0) some = keep_equal(equal, p, byte);
    }
    return !over;
}

// The questions. Each is evaluated over a segment's valid blocks, and reported at the end.

static uint64_t count, total, least = UINT64_MAX, greatest;
static int summed, some_least, some_greatest;
static char *text;
static size_t text_size, text_room;

static void add_to_sum(int which, const unsigned char *const *block, rows_t rows) {
    const struct column *c = &column[which];
    rows = without(rows, nulls(c, block[which]));
    if (!any(&rows)) return;
    summed = 1;
    total += sum(c, block[which], &rows) + size_of(&rows) * (uint64_t)c->lo;
}

static void append(const char *form, ...) {
    va_list words;
    if (text_room - text_size < 64) {
        text_room = 2 * text_room + 4096;
        text = realloc(text, text_room);
        if (!text) exit(6);
    }
    va_start(words, form);
    text_size += (size_t)vsnprintf(text + text_size, 64, form, words);
    va_end(words);
}

static void append_value(int which, const unsigned char *const *block, int row, char after) {
    const struct column *c = &column[which];
    if (c->nullable && block[which][row / 8] >> row % 8 & 1) append("NULL%c", after);
    else append("%lld%c", (long long)((uint64_t)c->lo + code(c, block[which], row)), after);
}

static void count_rows(rows_t rows) {
    count += size_of(&rows);
}

static void count_a_below_8(const unsigned char *const *block, rows_t here) {
    count_rows(both(here, below(A, block, 8)));
}

static void sum_d_a_below_8(const unsigned char *const *block, rows_t here) {
    rows_t rows = both(here, below(A, block, 8));
    if (any(&rows)) add_to_sum(D, block, rows);
}

static void count_a_from_250(const unsigned char *const *block, rows_t here) {
    count_rows(without(here, below(A, block, 250)));
}

static void count_c_between(const unsigned char *const *block, rows_t here) {
    count_rows(both(here, between(C, block, 500, 900)));
}

static void sum_d_c_below_5000(const unsigned char *const *block, rows_t here) {
    rows_t rows = both(here, below(C, block, 5000));
    if (any(&rows)) add_to_sum(D, block, without(rows, nulls(&column[B], block[B])));
}

static void count_b_in_or_d_null(const unsigned char *const *block, rows_t here) {
    rows_t rows = either(either(equal(B, block, 1), equal(B, block, 3)), equal(B, block, 5));
    count_rows(both(here, either(rows, nulls(&column[D], block[D]))));
}

static void min_c_max_d(const unsigned char *const *block, rows_t here) {
    rows_t rows = both(here, between(A, block, 10, 20));
    if (!any(&rows)) return;
    uint64_t found = extreme(&column[C], block[C], rows, 0);
    if (!some_least || found < least) least = found;
    some_least = 1;
    rows = without(rows, nulls(&column[D], block[D]));
    if (!any(&rows)) return;
    found = extreme(&column[D], block[D], rows, 1);
    if (!some_greatest || found > greatest) greatest = found;
    some_greatest = 1;
}

static void rows_c_below_50(const unsigned char *const *block, rows_t here) {
    rows_t rows = both(here, below(C, block, 50));
    for (int i = 0; i < WORDS; i++)
        for (uint64_t left = rows.word[i]; left; left &= left - 1) {
            int row = 64 * i + __builtin_ctzll(left);
            append_value(C, block, row, ',');
            append_value(D, block, row, '\n');
        }
}

static void tell_count(void) {
    printf("COUNT(*)\n%llu\n", (unsigned long long)count);
}

static void tell_sum(void) {
    if (summed) printf("SUM(d)\n%lld\n", (long long)total);
    else printf("SUM(d)\nNULL\n");
}

static void tell_least_and_greatest(void) {
    printf("MIN(c),MAX(d)\n");
    if (some_least) printf("%lld,", (long long)(least + (uint64_t)column[C].lo));
    else printf("NULL,");
    if (some_greatest) printf("%lld\n", (long long)(greatest + (uint64_t)column[D].lo));
    else printf("NULL\n");
}

static void tell_rows(void) {
    printf("c,d\n");
    fwrite(text, 1, text_size, stdout);
}

static const struct question {
    const char *name;
    void (*ask)(const unsigned char *const *block, rows_t here);
    void (*tell)(void);
} QUESTIONS[] = {
    {"count_a_below_8", count_a_below_8, tell_count},
    {"sum_d_a_below_8", sum_d_a_below_8, tell_sum},
    {"count_a_from_250", count_a_from_250, tell_count},
    {"count_c_between", count_c_between, tell_count},
    {"sum_d_c_below_5000", sum_d_c_below_5000, tell_sum},
    {"count_b_in_or_d_null", count_b_in_or_d_null, tell_count},
    {"min_c_max_d", min_c_max_d, tell_least_and_greatest},
    {"rows_c_below_50", rows_c_below_50, tell_rows},
};

static uint64_t number(const unsigned char *bytes, int size) {
    uint64_t n = 0;
    while (size-- > 0) n = n << 8 | bytes[size];
    return n;
}

static void read_header(int file) {
    const unsigned char *field = take(file, 16);
    in_slices = field[9];
    row_count = number(field + 12, 4);
    if (number(field + 10, 2) != COLUMNS) exit(2);
    take(file, *take(file, 1));
    for (int i = 0; i < COLUMNS; i++) {
        take(file, *take(file, 1));
        field = take(file, 17);
        struct column *c = &column[i];
        c->lo = (int64_t)number(field, 8);
        c->span = number(field + 8, 8) - number(field, 8);
        c->nullable = field[16];
        c->width = 1;
        while (c->width < 63 && c->span >> c->width) c->width++;
        c->slices = (c->width + 7) / 8;
        c->size = (size_t)((c->nullable ? PLANE : 0) + (in_slices ? ROWS * c->slices : PLANE * c->width));
    }
}

int main(int words, char **word) {
    const struct question *question = NULL;
    for (size_t i = 0; words == 3 && i < sizeof QUESTIONS / sizeof *QUESTIONS; i++)
        if (!strcmp(word[1], QUESTIONS[i].name)) question = &QUESTIONS[i];
    int file = question ? open(word[2], O_RDONLY) : -1;
    if (file < 0) return 2;
    for (int byte = 0; byte < 256; byte++)
        for (int k = 0; k < 8; k++) spread[byte] |= (byte >> k & 1 ? (uint64_t)255 : 0) << 8 * k;
    read_header(file);
    size_t segment = 0;
    for (int i = 0; i < COLUMNS; i++) segment += column[i].size;
    for (uint64_t left = row_count; left > 0;) {
        int here = left < ROWS ? (int)left : ROWS;
        const unsigned char *block[COLUMNS];
        // a whole segment, if available, so that its blocks are contiguous
        gather(file, segment);
        for (int i = 0; i < COLUMNS; i++) {
            block[i] = take(file, column[i].size);
            if (!(in_slices ? slices_are_good : planes_are_good)(&column[i], block[i], here))
                stop_at(&column[i], block[i], here, passed + (uint64_t)(block[i] - piece));
        }
        question->ask(block, first(here));
        left -= (uint64_t)here;
    }
    gather(file, 1);
    if (end > at) stop(309, passed + at);
    question->tell();
    return fflush(stdout) == 0 ? 0 : 5;
}
