/* Makes random calls of all eleven functions, refused ones and scribbled work areas among them, and prints a digest of every answer and of all lent
 * memory after it. Two archives of one source must print the same: `tests-c/run arm64` holds the Arm one to the native one.
 *
 * digest [CALLS [SEED]] */
#include "pylonfrith.h"

#include <inttypes.h>
#include <math.h>
#include <stdio.h>
#include <stdlib.h>

enum { MOST = 300, SPARE = 3, RINGS = 6, CALLS = 200000, AREA_EVERY = 500 };

/* ---- random numbers: splitmix64. At most one is taken in an expression: C leaves the order of two open ---- */

static uint64_t state;

static uint64_t any(void) {
    uint64_t z = state += 0x9e3779b97f4a7c15u;
    z = (z ^ z >> 30) * 0xbf58476d1ce4e5b9u;
    z = (z ^ z >> 27) * 0x94d049bb133111ebu;
    return z ^ z >> 31;
}

static uint32_t below(uint32_t limit) { return (uint32_t)(any() % limit); }

static bool once_in(uint32_t times) { return below(times) == 0; }

/* ---- the digest: FNV-1a over 64-bit pieces ---- */

static uint64_t digest = 0xcbf29ce484222325u;

static void add(uint64_t piece) { digest = (digest ^ piece) * 0x100000001b3u; }

/* Which NaN an operation gives is the processor's own affair; on the grid there is none. */
static void add_float(double value) {
    union { double value; uint64_t bits; } both = {value};
    add(isnan(value) ? 1 : both.bits);
}

static void add_floats(const double *floats, size_t count) {
    for (size_t at = 0; at < count; at++) {
        add_float(floats[at]);
    }
}

static void add_words(const uint32_t *words, size_t count) {
    for (size_t at = 0; at < count; at++) {
        add(words[at]);
    }
}

/* ---- what is lent ---- */

static double x[MOST], y[MOST];
static uint32_t rings[RINGS], out[MOST + SPARE], ring_out[RINGS + SPARE], words[MOST * PF_SCRATCH_WORDS_PER_POINT + SPARE];
static double floats[MOST * PF_SCRATCH_FLOATS_PER_POINT + SPARE];
static double area_floats[PF_WORK_FLOATS + SPARE];
static uint32_t area_words[PF_WORK_WORDS + SPARE];

static double odd_number(void) {
    const double odd[] = {0.5, -0.0, 16777216.0, 16777217.0, -16777216.0, -16777217.0, NAN, INFINITY, -INFINITY, 1e-300};
    return odd[below(sizeof odd / sizeof *odd)];
}

static double coordinate(uint32_t reach) { return (double)below(2 * reach + 1) - reach; }

static size_t line(void) {
    const uint32_t reaches[] = {1, 3, 20, 1000, 16777216};
    uint32_t reach = reaches[below(sizeof reaches / sizeof *reaches)];
    size_t count = below(once_in(50) ? MOST : 24);
    for (size_t at = 0; at < count; at++) {
        x[at] = once_in(2000) ? odd_number() : coordinate(reach);
        y[at] = once_in(2000) ? odd_number() : coordinate(reach);
    }
    return count;
}

static double tolerance(void) {
    if (once_in(40)) {
        return odd_number();
    }
    if (once_in(3)) {
        double part = below(1000);
        return ldexp(part, (int)below(50)) / 2;
    }
    return (below(60) - 6.0) / 2;
}

/* Cuts the points into rings, most of them closed, and most of the time up to the last point. */
static size_t ring_table(size_t count) {
    size_t many = once_in(20) ? 0 : 1 + below(RINGS - 1), start = 0;
    for (size_t at = 0; at < many; at++) {
        size_t end = at + 1 == many && !once_in(30) ? count : start + below((uint32_t)(count - start) + 1);
        if (end > start && !once_in(30)) {
            x[end - 1] = x[start];
            y[end - 1] = y[start];
        }
        rings[at] = (uint32_t)end;
        start = end;
    }
    return many;
}

static void lend(void) {
    for (size_t at = 0; at < sizeof out / sizeof *out; at++) {
        out[at] = 77;
    }
    for (size_t at = 0; at < sizeof ring_out / sizeof *ring_out; at++) {
        ring_out[at] = 78;
    }
    for (size_t at = 0; at < sizeof words / sizeof *words; at++) {
        words[at] = 79;
    }
    for (size_t at = 0; at < sizeof floats / sizeof *floats; at++) {
        floats[at] = 0.25;
    }
}

/* So many places, and once in a while one fewer or a few more. */
static size_t about(size_t needed) {
    if (once_in(30) && needed > 0) {
        return needed - 1;
    }
    return needed + below(SPARE);
}

static size_t about_area(size_t needed) { return once_in(100) ? needed - 1 : needed + below(SPARE); }

/* ---- calls ---- */

static void whole_call(void) {
    size_t n = line(), m = once_in(60) && n > 0 ? n - 1 : n;
    uint32_t which = below(6);
    size_t table = which == 5 ? ring_table(n) : 0;
    double t = tolerance();
    size_t room = about(n), f = about(n * PF_SCRATCH_FLOATS_PER_POINT), w = about(n * PF_SCRATCH_WORDS_PER_POINT), ends = about(table);
    lend();
    switch (which) {
    case 0: add(pf_remove_repeated_points(x, n, y, m, out, room)); break;
    case 1: add(pf_remove_repeated_points_anywhere(x, n, y, m, out, room)); break;
    case 2: add(pf_simplify_vw_idx(x, n, y, m, t, out, room, floats, f, words, w)); break;
    case 3: add(pf_simplify_vw(x, n, y, m, t, out, room, floats, f, words, w)); break;
    case 4: add(pf_simplify_vw_preserve(x, n, y, m, t, out, room, floats, f, words, w)); break;
    default: add(pf_simplify_vw_preserve_polygon(x, n, y, m, t, rings, table, out, room, ring_out, ends, floats, f, words, w));
    }
    add_words(out, n + SPARE);
    add_words(ring_out, RINGS + SPARE);
    add_words(words, n * PF_SCRATCH_WORDS_PER_POINT + SPARE);
    add_floats(floats, n * PF_SCRATCH_FLOATS_PER_POINT + SPARE);
}

static void slot_call(void) {
    size_t f = about_area(PF_WORK_FLOATS), w = about_area(PF_WORK_WORDS);
    uint32_t slot = below(once_in(50) ? PF_SLOTS + 1 : PF_SLOTS), which = below(100);
    double area = -1;
    lend();
    if (which < 20) {
        size_t n = line();
        add(pf_open(area_floats, f, area_words, w, slot, x, n, y, n, tolerance()));
    } else if (which < 75) {
        add(pf_step(area_floats, f, area_words, w, slot, &area));
    } else if (which < 90) {
        add(pf_read(area_floats, f, area_words, w, slot, out, about(24)));
    } else {
        add(pf_close(area_floats, f, area_words, w, slot));
    }
    add_float(area);
    add_words(out, MOST + SPARE);
}

/* Other hands: some numbers of a slot's part, its first words among them. */
static void scribble(void) {
    uint32_t slot = below(PF_SLOTS);
    for (uint32_t times = below(20); times > 0; times--) {
        uint32_t word = below(once_in(2) ? 64 : PF_SLOT_WORDS), place = below(once_in(2) ? 64 : PF_SLOT_FLOATS);
        area_words[slot * PF_SLOT_WORDS + word] = once_in(2) ? below(30) : (uint32_t)any();
        area_floats[slot * PF_SLOT_FLOATS + place] = once_in(2) ? odd_number() : coordinate(20);
    }
}

int main(int count, char **given) {
    unsigned long calls = count > 1 ? strtoul(given[1], NULL, 10) : CALLS;
    state = count > 2 ? strtoul(given[2], NULL, 10) : 1;
    for (unsigned long made = 0; made < calls; made++) {
        if (made % AREA_EVERY == 0) {
            add_floats(area_floats, sizeof area_floats / sizeof *area_floats);
            add_words(area_words, sizeof area_words / sizeof *area_words);
            add(pf_clear(area_floats, PF_WORK_FLOATS, area_words, PF_WORK_WORDS));
        }
        if (made / AREA_EVERY % 4 == 3 && once_in(20)) {
            scribble();
        }
        if (once_in(2)) {
            whole_call();
        } else {
            slot_call();
        }
    }
    printf("digest of %lu calls: %016" PRIx64 "\n", calls, digest);
    return 0;
}
