// Answers one of the eight questions of bench/bench.py compare over a table file or one by columns, in either layout. `bw query` is
// compared with it. It is tuned by hand, with the 128-bit operations of SSE2, and does the work that a reader of such files must do:
// it reads a table file once, in pieces into one buffer, validates the header and every block, and stops at the first error with
// its number and its byte and status 1. Of a file by columns it reads and validates the columns that the question needs, side by
// side, and the first error is that of the first column. The result is written once all that is read is valid.
// The header describes the columns: any table `m` with columns `a`, `b`, `c` and `d` of any widths will do, except a `d` whose sum
// might not fit 64 bits. It needs a little-endian machine.
// gcc -O3 -march=x86-64-v2 -o tuned bench/tuned.c && ./tuned count_a_below_8 TABLE
#include "tuned.h"

INLINED int any_bytes_above(int slices, const unsigned char *least, uint64_t code) {
    __m128i found = _mm_setzero_si128();
    for (int i = 0; i < ROWS / 16; i++) found = _mm_or_si128(found, above(slices, least + 16 * i, code));
    return zeros(found) != 0xFFFF;
}

static int any_codes_above(const struct column *c, const unsigned char *codes, uint64_t code) {
    if (!in_slices) return any(planes_above(c, codes, code));
    int low = __builtin_ctzll(~code) / 8, slices = c->slices - low;
    return UNROLLED(any_bytes_above, slices, codes + ROWS * (slices - 1), code >> 8 * low);
}

// Validation. A block of 512 rows is validated at once. One that is invalid, or has fewer rows, is validated again byte by byte
// and row by row, which finds its first error.

static int all_rows_are_good(const struct column *c, const unsigned char *block) {
    const unsigned char *codes = block + c->nulls;
    if (c->nulls && any(without(plane(block), codes_equal(c, codes, 0)))) return 0;
    return c->full || !any_codes_above(c, codes, c->span);
}

struct fault {
    int number;
    uint64_t byte;
};

static struct fault judge_by_rows(const struct column *c, const unsigned char *block, uint32_t rows, uint64_t byte) {
    const unsigned char *codes = block + c->nulls;
    for (size_t i = 0; i < c->size; i++) {
        int of_a_slice = in_slices && i >= c->nulls;
        size_t row = of_a_slice ? (i - c->nulls) % ROWS : 8 * (i % PLANE);
        // how many bits of the byte belong to the rows from this one on
        int there = row >= rows ? 0 : of_a_slice || rows - row >= 8 ? 8 : (int)(rows - row);
        if (block[i] >> there) return (struct fault){308, byte + i};
    }
    for (uint32_t row = 0; row < rows; row++) {
        uint64_t code = code_of(c, codes, row);
        if (c->nulls && block[row / 8] >> row % 8 & 1 && code) return (struct fault){307, byte};
        if (code > c->span) return (struct fault){306, byte};
    }
    return (struct fault){0, 0};
}

// a block's first error, whose number is 0 if there is none
static inline struct fault judge(const struct column *c, const unsigned char *block, uint32_t rows, uint64_t byte) {
    if (rows == ROWS && all_rows_are_good(c, block)) return (struct fault){0, 0};
    return judge_by_rows(c, block, rows, byte);
}

// The questions. Each is evaluated over a segment whose blocks are valid.

static void count_a_below_8(void) {
    count += size_of(without(present(A), at_least(A, 8)));
}

static void sum_d_a_below_8(void) {
    add_up(without(present(A), at_least(A, 8)));
}

static void count_a_from_250(void) {
    count += size_of(both(present(A), at_least(A, 250)));
}

static void count_c_between(void) {
    count += size_of(both(present(C), without(at_least(C, 500), at_least(C, 901))));
}

static void sum_d_c_below_5000(void) {
    add_up(both(without(present(C), at_least(C, 5000)), present(B)));
}

static void count_b_in_or_d_null(void) {
    rows_t listed = either(either(equal(B, 1), equal(B, 3)), equal(B, 5));
    count += size_of(either(both(present(B), listed), nulls(D)));
}

INLINED void take_ends(uint32_t row) {
    if (has_number(C, row)) {
        int64_t value = number_in(C, row);
        if (!any_least || value < least) least = value;
        any_least = 1;
    }
    if (has_number(D, row)) {
        int64_t value = number_in(D, row);
        if (!any_greatest || value > greatest) greatest = value;
        any_greatest = 1;
    }
}

static void min_c_max_d_a_is_7(void) {
    each(both(present(A), equal(A, 7)), take_ends);
}

static void rows_c_below_1000(void) {
    each(without(present(C), at_least(C, 1000)), take_record);
}

static const struct question QUESTION[] = {
    {"count_a_below_8", count_a_below_8, write_count, "a"},
    {"sum_d_a_below_8", sum_d_a_below_8, write_sum, "ad"},
    {"count_a_from_250", count_a_from_250, write_count, "a"},
    {"count_c_between", count_c_between, write_count, "c"},
    {"sum_d_c_below_5000", sum_d_c_below_5000, write_sum, "bcd"},
    {"count_b_in_or_d_null", count_b_in_or_d_null, write_count, "bd"},
    {"min_c_max_d_a_is_7", min_c_max_d_a_is_7, write_ends, "acd"},
    {"rows_c_below_1000", rows_c_below_1000, write_records, "cd"},
};

// reads the segments in order, and evaluates the question over each once its blocks are valid
static void scan(const struct question *question) {
    for (uint32_t left = row_count, rows; left > 0; left -= rows) {
        rows = left < ROWS ? left : ROWS;
        size_t there = at_hand(segment_size), from = 0;
        const unsigned char *segment = buffer + at;
        for (int i = 0; i < columns; from += column[i++].size) {
            if (there < from + column[i].size) stop(305, passed + end);
            struct fault found = judge(&column[i], segment + from, rows, passed + at + from);
            if (found.number) stop(found.number, found.byte);
        }
        for (int which = 0; which < ASKED; which++) blocks[which] = segment + place[which];
        here = rows < ROWS ? first(rows) : filled(1);
        question->ask();
        at += segment_size;
    }
    if (at_hand(1) > 0) stop(309, passed + at);
}

// A file by columns. Each column that the question needs has a part of the buffer for equally many segments.

enum { BUFFERS = 256 * 1024 };

struct stream {
    const struct column *column;
    int which;
    // where its blocks begin in the file, and those that were read in memory
    uint64_t begin;
    unsigned char *blocks;
};

// the columns that the question needs, in the file's order
static struct stream stream[ASKED];
static int streams;

static void find_streams(const struct question *question, uint64_t head, uint32_t segments) {
    for (int i = 0; i < columns; i++)
        for (int which = 0; which < ASKED; which++)
            if (asked[which] == &column[i] && strstr(question->needs, NAME[which]))
                stream[streams++] = (struct stream){&column[i], which, head + (uint64_t)segments * place[which], NULL};
}

static void read_at(unsigned char *into, size_t size, uint64_t from) {
    while (size > 0) {
        ssize_t count = pread(file, into, size, (off_t)from);
        if (count < 0) give_up("the file can't be read");
        if (count == 0) stop(305, from);
        into += count;
        from += (uint64_t)count;
        size -= (size_t)count;
    }
}

// validates the blocks of a segment, of which each column has read so many before, and evaluates the question. Returns the first
// error; then only the columns before its own are left.
static struct fault scan_segment(const struct question *question, uint32_t segment, uint32_t before, int *left, int is_good) {
    uint32_t rows = row_count - segment * ROWS < ROWS ? row_count - segment * ROWS : ROWS;
    struct fault first_fault = {0, 0};
    for (int i = 0; i < *left; i++) {
        const struct column *c = stream[i].column;
        const unsigned char *block = stream[i].blocks + before * c->size;
        struct fault found = judge(c, block, rows, stream[i].begin + (uint64_t)segment * c->size);
        blocks[stream[i].which] = block;
        if (found.number) {
            first_fault = found;
            *left = i;
        }
    }
    if (is_good && !first_fault.number) {
        here = rows < ROWS ? first(rows) : filled(1);
        question->ask();
    }
    return first_fault;
}

// after an error the columns before its own are read to their ends, since theirs come first
// As a session does, it stores the columns first, if it is to keep them.
static void scan_by_columns(const struct question *question, uint64_t head, int keeps) {
    uint32_t segments = (row_count + ROWS - 1) / ROWS, many;
    uint64_t whole = head + (uint64_t)segments * segment_size;
    struct stat now;
    if (fstat(file, &now)) give_up("the file has no length");
    if ((uint64_t)now.st_size < whole) stop(305, (uint64_t)now.st_size);
    if ((uint64_t)now.st_size > whole) stop(309, whole);
    find_streams(question, head, segments);
    size_t together = 0;
    for (int i = 0; i < streams; i++) together += stream[i].column->size;
    many = keeps ? segments : together > BUFFERS ? 1 : (uint32_t)(BUFFERS / together);
    unsigned char *into = keeps ? malloc(many * together) : buffer;
    if (!into) give_up("no memory");
    for (int i = 0; i < streams; into += many * stream[i++].column->size) stream[i].blocks = into;
    struct fault first_fault = {0, 0};
    int left = streams;
    for (uint32_t from = 0; from < segments && left > 0; from += many) {
        uint32_t count = segments - from < many ? segments - from : many;
        for (int i = 0; i < left; i++) {
            size_t size = stream[i].column->size;
            read_at(stream[i].blocks, count * size, stream[i].begin + (uint64_t)from * size);
        }
        for (uint32_t k = 0; k < count && left > 0; k++) {
            struct fault found = scan_segment(question, from + k, k, &left, !first_fault.number);
            if (found.number) first_fault = found;
        }
    }
    if (first_fault.number) stop(first_fault.number, first_fault.byte);
}

int main(int words, char **word) {
    const struct question *question = NULL;
    char table[256];
    int keeps = words == 4 && !strcmp(word[3], "--keep");
    for (size_t i = 0; words == 3 + keeps && i < sizeof QUESTION / sizeof *QUESTION; i++)
        if (!strcmp(word[1], QUESTION[i].name)) question = &QUESTION[i];
    if (!question) give_up("usage: tuned QUESTION TABLE [--keep]");
    file = open(word[2], O_RDONLY);
    if (file < 0) give_up("the file can't be opened");
    make_spread();
    take_header(table);
    find_columns(table);
    if (by_columns) {
        scan_by_columns(question, passed + at, keeps);
    } else {
        settle();
        scan(question);
    }
    question->write();
    return fflush(stdout) == 0 ? 0 : 2;
}
