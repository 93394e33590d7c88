/* Document 01's checkpoints P1 to P12, its row 'Run' and each of its reasons, through the C face.
 *
 * Every slice is lent with guard places before and after it. After each call the guard places and all memory that the call
 * must leave alone are compared with what they held before it. `tests-c/run` builds and runs this. */
#include "pylonfrith.h"

#include <math.h>
#include <stdio.h>
#include <stdlib.h>
#include <string.h>

/* ---- tests ---- */

static const char *test_name = "";
static unsigned checks, failures;

static void check(bool holds, const char *what, int line) {
    checks++;
    if (!holds) {
        failures++;
        printf("checkpoints.c:%d: %s: %s\n", line, test_name, what);
    }
}

#define CHECK(condition) check((condition), #condition, __LINE__)

/* ---- lent slices with guard places ---- */

enum { GUARD = 64, MOST_LENT = 16 };

struct lent {
    unsigned char *whole;  /* guard, slice, guard */
    unsigned char *before; /* a copy of whole, made before the call */
    size_t bytes;          /* of the slice */
};

static struct lent lent[MOST_LENT];
static size_t lent_count;

static void *claim(size_t bytes) {
    void *memory = malloc(bytes);
    if (memory == NULL) {
        puts("checkpoints: no memory");
        exit(2);
    }
    return memory;
}

/* A slice of so many bytes, filled with a pattern that no answer has. */
static void *lend(size_t bytes) {
    if (lent_count == MOST_LENT) {
        puts("checkpoints: too many slices");
        exit(2);
    }
    size_t whole = bytes + 2 * GUARD;
    struct lent *slice = &lent[lent_count];
    slice->whole = claim(whole);
    slice->before = claim(whole);
    slice->bytes = bytes;
    for (size_t at = 0; at < whole; at++) {
        slice->whole[at] = (unsigned char)(0xa5 ^ (at * 7) ^ (lent_count * 31));
    }
    lent_count++;
    return slice->whole + GUARD;
}

static double *lend_floats(size_t count) { return lend(count * sizeof(double)); }

static uint32_t *lend_words(size_t count) { return lend(count * sizeof(uint32_t)); }

static double *lend_copy(const double *values, size_t count) {
    double *slice = lend_floats(count);
    for (size_t at = 0; at < count; at++) {
        slice[at] = values[at];
    }
    return slice;
}

static void take_back_all(void) {
    for (size_t at = 0; at < lent_count; at++) {
        free(lent[at].whole);
        free(lent[at].before);
    }
    lent_count = 0;
}

/* Where the noted copy of this lent place stands. */
static void *noted(const void *place) {
    const unsigned char *here = place;
    for (size_t at = 0; at < lent_count; at++) {
        const unsigned char *start = lent[at].whole + GUARD;
        if (start <= here && here < start + lent[at].bytes) {
            return lent[at].before + GUARD + (here - start);
        }
    }
    puts("checkpoints: not a lent place");
    exit(2);
}

/* Takes this much from `place` out of the comparison with what was noted. */
static void let_change(const void *place, size_t bytes) {
    if (bytes > 0) {
        memcpy(noted(place), place, bytes);
    }
}

/* Notes what all lent slices hold. */
static void note(void) {
    for (size_t at = 0; at < lent_count; at++) {
        memcpy(lent[at].before, lent[at].whole, lent[at].bytes + 2 * GUARD);
    }
}

/* Whether all lent memory, guard places too, is as noted. */
static bool is_noted(void) {
    for (size_t at = 0; at < lent_count; at++) {
        if (memcmp(lent[at].whole, lent[at].before, lent[at].bytes + 2 * GUARD) != 0) {
            return false;
        }
    }
    return true;
}

static bool is_zero(const void *memory, size_t bytes) {
    const unsigned char *at = memory;
    for (size_t place = 0; place < bytes; place++) {
        if (at[place] != 0) {
            return false;
        }
    }
    return true;
}

static uint64_t accepted(uint32_t value) { return value; }

static uint64_t refused(enum pf_reason reason, uint32_t value) { return (uint64_t)reason << 32 | value; }

/* ---- the lines of the checkpoints ---- */

struct line {
    size_t count;
    double x[8], y[8];
};

static const struct line L = {5, {5, 3, 6, 7, 10}, {2, 8, 20, 25, 10}};
static const struct line M = {8, {10, 135, 94, 126, 280, 117, 300, 301}, {60, 68, 48, 31, 19, 48, 40, 10}};
static const struct line FLAT = {3, {0, 1, 2}, {0, 1, 2}};
static const struct line ZIGZAG = {5, {0, 1, 2, 3, 4}, {0, 1, 0, 1, 0}};
static const struct line SQUARE = {5, {0, 4, 4, 0, 0}, {0, 0, 4, 4, 0}};
static const struct line REPEATS = {4, {0, 0, 1, 0}, {0, 0, 0, 0}};
static const struct line NONE = {0, {0}, {0}};

/* ---- whole calls ---- */

typedef uint64_t thinning(const double *, size_t, const double *, size_t, double, uint32_t *, size_t, double *, size_t,
                          uint32_t *, size_t);
typedef uint64_t repeats(const double *, size_t, const double *, size_t, uint32_t *, size_t);

/* What a whole call is lent. `spare` places more than asked for stand at the end of the output and the scratch. */
struct loan {
    size_t count, out_len, floats_len, words_len;
    double *x, *y, *floats;
    uint32_t *out, *words;
};

static struct loan lend_for(const double *x, const double *y, size_t count, size_t spare) {
    struct loan loan = {.count = count,
                        .out_len = count + spare,
                        .floats_len = PF_SCRATCH_FLOATS_PER_POINT * count + spare,
                        .words_len = PF_SCRATCH_WORDS_PER_POINT * count + spare};
    loan.x = lend_copy(x, count);
    loan.y = lend_copy(y, count);
    loan.out = lend_words(loan.out_len);
    loan.floats = lend_floats(loan.floats_len);
    loan.words = lend_words(loan.words_len);
    return loan;
}

static uint64_t thin(thinning *call, struct loan loan, double tolerance) {
    return call(loan.x, loan.count, loan.y, loan.count, tolerance, loan.out, loan.out_len, loan.floats, loan.floats_len,
                loan.words, loan.words_len);
}

/* Whether the scratch is zeroed up to the table's size. That much is taken out of the comparison with what was noted. */
static bool scratch_is_zeroed(struct loan loan) {
    size_t floats = PF_SCRATCH_FLOATS_PER_POINT * loan.count * sizeof(double);
    size_t words = PF_SCRATCH_WORDS_PER_POINT * loan.count * sizeof(uint32_t);
    let_change(loan.floats, floats);
    let_change(loan.words, words);
    return is_zero(loan.floats, floats) && is_zero(loan.words, words);
}

/* An accepted call: the list from the start of the output, nothing past it, the scratch zeroed, nothing else changed. */
static void expect_thinned(thinning *call, const struct line *line, double tolerance, const uint32_t *list, uint32_t count) {
    for (size_t spare = 0; spare <= 3; spare += 3) {
        struct loan loan = lend_for(line->x, line->y, line->count, spare);
        note();
        CHECK(thin(call, loan, tolerance) == accepted(count));
        CHECK(memcmp(loan.out, list, count * sizeof *list) == 0);
        CHECK(scratch_is_zeroed(loan));
        let_change(loan.out, count * sizeof *list);
        CHECK(is_noted());
        take_back_all();
    }
}

/* A refused call leaves every lent slice as it was. */
static void expect_refused(thinning *call, struct loan loan, double tolerance, uint64_t answer) {
    note();
    CHECK(thin(call, loan, tolerance) == answer);
    CHECK(is_noted());
}

static void expect_firsts(repeats *call, const struct line *line, const uint32_t *list, uint32_t count) {
    double *x = lend_copy(line->x, line->count), *y = lend_copy(line->y, line->count);
    uint32_t *out = lend_words(line->count);
    note();
    CHECK(call(x, line->count, y, line->count, out, line->count) == accepted(count));
    CHECK(memcmp(out, list, count * sizeof *list) == 0);
    let_change(out, count * sizeof *list);
    CHECK(is_noted());
    take_back_all();
}

#define LIST(...) (const uint32_t[]){__VA_ARGS__}, sizeof((const uint32_t[]){__VA_ARGS__}) / sizeof(uint32_t)

static void test_plain(void) {
    test_name = "P1";
    expect_thinned(pf_simplify_vw_idx, &L, 30, LIST(0, 3, 4));
    test_name = "P2";
    expect_thinned(pf_simplify_vw_idx, &L, 29, LIST(0, 3, 4));
    test_name = "P3";
    expect_thinned(pf_simplify_vw_idx, &L, 28.5, LIST(0, 1, 3, 4));
    test_name = "P4";
    expect_thinned(pf_simplify_vw_idx, &FLAT, 0, LIST(0, 2));
    test_name = "P5";
    expect_thinned(pf_simplify_vw, &FLAT, 0, LIST(0, 1, 2));
    test_name = "P6";
    expect_thinned(pf_simplify_vw_idx, &ZIGZAG, 1, LIST(0, 3, 4));
    test_name = "P7";
    expect_thinned(pf_simplify_vw_idx, &M, 668.6, LIST(0, 1, 3, 4, 5, 6, 7));
    expect_thinned(pf_simplify_vw, &M, 668.6, LIST(0, 1, 3, 4, 5, 6, 7));
    test_name = "P9";
    expect_thinned(pf_simplify_vw_idx, &M, 668, LIST(0, 1, 2, 3, 4, 5, 6, 7));
}

static void test_preserving(void) {
    test_name = "P8";
    expect_thinned(pf_simplify_vw_preserve, &M, 668.6, LIST(0, 3, 4, 5, 6, 7));
    test_name = "P9";
    expect_thinned(pf_simplify_vw_preserve, &M, 668, LIST(0, 1, 2, 3, 4, 5, 6, 7));
}

/* What the polygon call is lent beside the rest: one ring, or what the test says. */
static uint64_t thin_polygon(struct loan loan, double tolerance, const uint32_t *rings, size_t rings_len,
                             uint32_t *ring_out, size_t ring_out_len) {
    return pf_simplify_vw_preserve_polygon(loan.x, loan.count, loan.y, loan.count, tolerance, rings, rings_len, loan.out,
                                           loan.out_len, ring_out, ring_out_len, loan.floats, loan.floats_len,
                                           loan.words, loan.words_len);
}

static void test_polygon(void) {
    test_name = "P10";
    struct loan loan = lend_for(SQUARE.x, SQUARE.y, SQUARE.count, 0);
    uint32_t *rings = lend_words(2), *ring_out = lend_words(2);
    rings[0] = 5;
    rings[1] = 5;

    note();
    CHECK(thin_polygon(loan, 100, rings, 0, ring_out, 2) == refused(PF_RING_TABLE, 0));
    CHECK(thin_polygon(loan, 100, rings, 2, ring_out, 1) == refused(PF_OUTPUT_SHORT, 0));
    CHECK(is_noted());
    rings[0] = 4;
    note();
    CHECK(thin_polygon(loan, 100, rings, 1, ring_out, 2) == refused(PF_RING_TABLE, 0));
    CHECK(thin_polygon(loan, 100, rings, 2, ring_out, 2) == refused(PF_RING_NOT_CLOSED, 0));
    CHECK(is_noted());

    rings[0] = 5;
    note();
    CHECK(thin_polygon(loan, 100, rings, 1, ring_out, 2) == accepted(4));
    CHECK(memcmp(loan.out, (const uint32_t[]){0, 2, 3, 4}, 4 * sizeof(uint32_t)) == 0);
    CHECK(ring_out[0] == 4);
    CHECK(scratch_is_zeroed(loan));
    let_change(ring_out, sizeof *ring_out);
    let_change(loan.out, 4 * sizeof *loan.out);
    CHECK(is_noted());
    take_back_all();
}

static void test_repeats(void) {
    test_name = "P11";
    expect_firsts(pf_remove_repeated_points, &REPEATS, LIST(0, 2, 3));
    expect_firsts(pf_remove_repeated_points_anywhere, &REPEATS, LIST(0, 2));
    const struct line signs = {3, {0.0, -0.0, 1}, {-0.0, 0.0, 0}};
    expect_firsts(pf_remove_repeated_points, &signs, LIST(0, 2));
    expect_firsts(pf_remove_repeated_points_anywhere, &signs, LIST(0, 2));
}

static void test_no_points(void) {
    test_name = "P12";
    static const uint32_t nothing[1];
    expect_thinned(pf_simplify_vw_idx, &NONE, 1, nothing, 0);
    expect_thinned(pf_simplify_vw, &NONE, 1, nothing, 0);
    expect_thinned(pf_simplify_vw_preserve, &NONE, 1, nothing, 0);
    expect_firsts(pf_remove_repeated_points, &NONE, nothing, 0);
    expect_firsts(pf_remove_repeated_points_anywhere, &NONE, nothing, 0);
}

/* ---- the row 'Run', and the reasons ---- */

static void test_grid_ends(void) {
    test_name = "Run: ends of the grid";
    const double x[3] = {16777216, -16777216, -0.0}, y[3] = {-16777216, 16777216, 0.0};
    struct loan loan = lend_for(x, y, 3, 0);
    note();
    CHECK(thin(pf_simplify_vw_idx, loan, -1) == accepted(3));
    take_back_all();

    const double off[6] = {16777217, -16777217, 0.5, NAN, INFINITY, 5e-324};
    for (size_t at = 0; at < 6; at++) {
        loan = lend_for(x, y, 3, 0);
        loan.y[2] = off[at];
        expect_refused(pf_simplify_vw_idx, loan, 1, refused(PF_OFF_GRID, 2));
        loan.x[1] = off[at];
        expect_refused(pf_simplify_vw_preserve, loan, 1, refused(PF_OFF_GRID, 1));
        take_back_all();
    }
}

static void test_most_points(void) {
    test_name = "Run: 4,096 and 4,097 points";
    static double x[PF_POINTS + 1], y[PF_POINTS + 1];
    for (size_t at = 0; at <= PF_POINTS; at++) {
        x[at] = (double)at;
        y[at] = (double)(at % 2);
    }
    struct loan loan = lend_for(x, y, PF_POINTS, 0);
    CHECK(thin(pf_simplify_vw_idx, loan, 1e18) == accepted(2));
    CHECK(loan.out[0] == 0 && loan.out[1] == PF_POINTS - 1);
    take_back_all();

    loan = lend_for(x, y, PF_POINTS + 1, 0);
    expect_refused(pf_simplify_vw_idx, loan, 1e18, refused(PF_TOO_MANY_POINTS, 0));
    take_back_all();
}

static void test_reasons(void) {
    thinning *const calls[3] = {pf_simplify_vw_idx, pf_simplify_vw, pf_simplify_vw_preserve};
    test_name = "reasons of a whole call";
    for (size_t at = 0; at < 3; at++) {
        struct loan loan = lend_for(L.x, L.y, L.count, 0), less = loan;
        note();
        CHECK(calls[at](loan.x, 5, loan.y, 4, 30, loan.out, 5, loan.floats, 15, loan.words, 60) ==
              refused(PF_LENGTHS_DIFFER, 0));
        CHECK(is_noted());
        expect_refused(calls[at], loan, NAN, refused(PF_TOLERANCE_NOT_FINITE, 0));
        expect_refused(calls[at], loan, -INFINITY, refused(PF_TOLERANCE_NOT_FINITE, 0));
        less.floats_len--;
        expect_refused(calls[at], less, 30, refused(PF_MEMORY_SHORT, 0));
        less = loan;
        less.words_len--;
        expect_refused(calls[at], less, 30, refused(PF_MEMORY_SHORT, 0));
        less.out_len--;
        expect_refused(calls[at], less, 30, refused(PF_OUTPUT_SHORT, 0));
        less.x[1] = 0.5;
        expect_refused(calls[at], less, 30, refused(PF_OFF_GRID, 1));
        expect_refused(calls[at], less, NAN, refused(PF_TOLERANCE_NOT_FINITE, 0));
        take_back_all();
    }
}

/* ---- slots ---- */

/* A work area, with a spare place at the end of both slices. */
struct area {
    double *floats;
    uint32_t *words;
    double *x, *y; /* L */
    double *area;
    uint32_t *out;
};

enum { FLOATS = PF_WORK_FLOATS + 1, WORDS = PF_WORK_WORDS + 1 };

static struct area lend_area(void) {
    struct area area = {.floats = lend_floats(FLOATS), .words = lend_words(WORDS)};
    area.x = lend_copy(L.x, L.count);
    area.y = lend_copy(L.y, L.count);
    area.area = lend_floats(1);
    area.out = lend_words(L.count);
    CHECK(pf_clear(area.floats, FLOATS, area.words, WORDS) == accepted(0));
    CHECK(is_zero(area.floats, PF_WORK_FLOATS * sizeof(double)) && area.floats[PF_WORK_FLOATS] != 0);
    CHECK(is_zero(area.words, PF_WORK_WORDS * sizeof(uint32_t)) && area.words[PF_WORK_WORDS] != 0);
    return area;
}

static uint64_t open_L(struct area area, uint32_t slot, double tolerance) {
    return pf_open(area.floats, FLOATS, area.words, WORDS, slot, area.x, L.count, area.y, L.count, tolerance);
}

static uint64_t step(struct area area, uint32_t slot) {
    return pf_step(area.floats, FLOATS, area.words, WORDS, slot, area.area);
}

static uint64_t read_slot(struct area area, uint32_t slot, size_t out_len) {
    return pf_read(area.floats, FLOATS, area.words, WORDS, slot, area.out, out_len);
}

static uint64_t close_slot(struct area area, uint32_t slot) {
    return pf_close(area.floats, FLOATS, area.words, WORDS, slot);
}

/* Whether nothing but this slot's part, and so many bytes of a step's area, has changed. */
static bool only_slot_changed(struct area area, uint32_t slot, size_t area_bytes) {
    let_change(area.floats + slot * PF_SLOT_FLOATS, PF_SLOT_FLOATS * sizeof(double));
    let_change(area.words + slot * PF_SLOT_WORDS, PF_SLOT_WORDS * sizeof(uint32_t));
    let_change(area.area, area_bytes);
    return is_noted();
}

static void expect_removal(struct area area, uint32_t slot, uint32_t index, double size) {
    note();
    CHECK(step(area, slot) == accepted(index));
    CHECK(*area.area == size && !signbit(*area.area));
    CHECK(only_slot_changed(area, slot, sizeof *area.area));
}

static void expect_finished(struct area area, uint32_t slot) {
    note();
    uint64_t answer = step(area, slot);
    CHECK(pf_is_finished(answer) && pf_value(answer) == 0 && !pf_is_refused(answer));
    CHECK(only_slot_changed(area, slot, 0));
}

static void expect_listed(struct area area, uint32_t slot, const uint32_t *list, uint32_t count) {
    note();
    CHECK(read_slot(area, slot, count) == accepted(count));
    CHECK(memcmp(area.out, list, count * sizeof *list) == 0);
    let_change(area.out, count * sizeof *list);
    CHECK(is_noted());
    note();
    CHECK(read_slot(area, slot, count - 1) == refused(PF_OUTPUT_SHORT, 0));
    CHECK(is_noted());
}

static void test_turns(void) {
    test_name = "Run: L in slots 0 and 1, stepped by turns";
    struct area area = lend_area();
    for (uint32_t slot = 0; slot < 2; slot++) {
        note();
        CHECK(open_L(area, slot, 30) == accepted(0));
        CHECK(only_slot_changed(area, slot, 0));
        note();
        CHECK(open_L(area, slot, NAN) == refused(PF_SLOT_IS_OPEN, 0));
        CHECK(is_noted());
    }
    for (uint32_t slot = 0; slot < 2; slot++) {
        expect_removal(area, slot, 2, 1.5);
        expect_listed(area, slot, LIST(0, 1, 3, 4));
    }
    for (uint32_t slot = 0; slot < 2; slot++) {
        expect_removal(area, slot, 1, 29);
    }
    for (uint32_t slot = 0; slot < 2; slot++) {
        expect_finished(area, slot);
        expect_finished(area, slot);
        expect_listed(area, slot, LIST(0, 3, 4));
    }
    note();
    CHECK(close_slot(area, 0) == accepted(0));
    CHECK(is_zero(area.floats, PF_SLOT_FLOATS * sizeof(double)) && is_zero(area.words, PF_SLOT_WORDS * sizeof(uint32_t)));
    CHECK(only_slot_changed(area, 0, 0));
    expect_listed(area, 1, LIST(0, 3, 4));
    CHECK(open_L(area, 0, -1) == accepted(0));
    expect_finished(area, 0);
    take_back_all();
}

static void test_slot_numbers(void) {
    test_name = "Run: slots 7 and 8";
    struct area area = lend_area();
    const uint32_t none[3] = {8, 9, UINT32_MAX};
    for (size_t at = 0; at < 3; at++) {
        note();
        CHECK(open_L(area, none[at], 30) == refused(PF_NO_SUCH_SLOT, 0));
        CHECK(step(area, none[at]) == refused(PF_NO_SUCH_SLOT, 0));
        CHECK(read_slot(area, none[at], L.count) == refused(PF_NO_SUCH_SLOT, 0));
        CHECK(close_slot(area, none[at]) == refused(PF_NO_SUCH_SLOT, 0));
        CHECK(is_noted());
    }
    note();
    CHECK(step(area, 7) == refused(PF_SLOT_NOT_OPEN, 0));
    CHECK(read_slot(area, 7, L.count) == refused(PF_SLOT_NOT_OPEN, 0));
    CHECK(close_slot(area, 7) == refused(PF_SLOT_NOT_OPEN, 0));
    CHECK(open_L(area, 7, INFINITY) == refused(PF_TOLERANCE_NOT_FINITE, 0));
    CHECK(is_noted());
    note();
    CHECK(open_L(area, 7, 28.5) == accepted(0));
    CHECK(only_slot_changed(area, 7, 0));
    expect_removal(area, 7, 2, 1.5);
    expect_finished(area, 7);
    expect_listed(area, 7, LIST(0, 1, 3, 4));
    take_back_all();
}

static void test_short_area(void) {
    test_name = "reason 8 of a work area";
    struct area area = lend_area();
    const size_t floats[2] = {PF_WORK_FLOATS - 1, PF_WORK_FLOATS}, words[2] = {PF_WORK_WORDS, PF_WORK_WORDS - 1};
    for (size_t at = 0; at < 2; at++) {
        uint64_t answer = refused(PF_MEMORY_SHORT, 0);
        note();
        CHECK(pf_clear(area.floats, floats[at], area.words, words[at]) == answer);
        CHECK(pf_open(area.floats, floats[at], area.words, words[at], 8, area.x, 5, area.y, 4, NAN) == answer);
        CHECK(pf_step(area.floats, floats[at], area.words, words[at], 8, area.area) == answer);
        CHECK(pf_read(area.floats, floats[at], area.words, words[at], 8, area.out, 0) == answer);
        CHECK(pf_close(area.floats, floats[at], area.words, words[at], 8) == answer);
        CHECK(is_noted());
    }
    take_back_all();
}

static void test_empty_slot(void) {
    test_name = "P12: a slot without points";
    struct area area = lend_area();
    CHECK(pf_open(area.floats, FLOATS, area.words, WORDS, 3, area.x, 0, area.y, 0, 30) == accepted(0));
    expect_finished(area, 3);
    note();
    CHECK(read_slot(area, 3, 0) == accepted(0));
    CHECK(is_noted());
    take_back_all();
}

static void test_flat_area(void) {
    test_name = "P4: a zero area is +0.0";
    struct area area = lend_area();
    for (size_t at = 0; at < FLAT.count; at++) {
        area.x[at] = -FLAT.x[at];
        area.y[at] = FLAT.y[at];
    }
    CHECK(pf_open(area.floats, FLOATS, area.words, WORDS, 5, area.x, FLAT.count, area.y, FLAT.count, 0) == accepted(0));
    expect_removal(area, 5, 1, 0.0);
    expect_finished(area, 5);
    take_back_all();
}

int main(void) {
    test_plain();
    test_preserving();
    test_polygon();
    test_repeats();
    test_no_points();
    test_grid_ends();
    test_most_points();
    test_reasons();
    test_turns();
    test_slot_numbers();
    test_short_area();
    test_empty_slot();
    test_flat_area();
    printf("checkpoints from C: %u checks, %u failed\n", checks, failures);
    return failures == 0 ? EXIT_SUCCESS : EXIT_FAILURE;
}
