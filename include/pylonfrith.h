/* pylonfrith.h: verified thinning of lines on a grid of whole numbers, for C11.
 *
 * A call is lent memory and keeps none of it: it allocates nothing, has no state of its own, and two threads may call at
 * the same time on memory that they do not share. Points are lent as two runs of doubles, x and y. A coordinate is on the
 * grid if it is a whole number from -16,777,216 to 16,777,216 (2^24); -0.0 counts as 0. Every answer is a list of indices
 * into the points that were given.
 *
 * What a caller owes. The functions are proved for every contents of the lent memory, but nothing checks a C caller's
 * pointers and lengths:
 *
 *   - A pointer and the length after it are one lent slice. The length counts elements, not bytes, and that many elements
 *     must be there, aligned for their type and set to some value.
 *   - No pointer is null. A slice of length 0 may have any pointer that is not null and is aligned; nothing is read or
 *     written through it.
 *   - A slice that is not const, and the area of pf_step, must not overlap any other memory lent to the same call. Two const
 *     slices may overlap.
 *   - While a call runs nothing else writes what it was lent, and nothing else reads what it may write.
 */
#ifndef PYLONFRITH_H
#define PYLONFRITH_H

#include <stdbool.h>
#include <stddef.h>
#include <stdint.h>

#ifdef __cplusplus
extern "C" {
#endif

/* ---- sizes ---- */

#define PF_POINTS 4096u /* the most points in a line, or in all rings of a polygon */
#define PF_RINGS 64u    /* the most rings in a polygon */
#define PF_SLOTS 8u     /* the slots of a work area: 0 to 7 */

#define PF_SCRATCH_FLOATS_PER_POINT 3u /* scratch of a thinning call on n points: 3n doubles .. */
#define PF_SCRATCH_WORDS_PER_POINT 12u /* .. and 12n words of 32 bits */

#define PF_SLOT_FLOATS 20480u /* one slot's part of the work area's doubles */
#define PF_SLOT_WORDS 49168u  /* one slot's part of the work area's words */
#define PF_WORK_FLOATS (PF_SLOTS * PF_SLOT_FLOATS) /* the work area: 163,840 doubles .. */
#define PF_WORK_WORDS (PF_SLOTS * PF_SLOT_WORDS)   /* .. and 393,344 words */

/* ---- answers ---- */

/* Why a call was refused. A refusal leaves all lent memory as it was. */
enum pf_reason {
    PF_LENGTHS_DIFFER = 1,       /* x and y differ in length */
    PF_TOO_MANY_POINTS = 2,      /* more than 4,096 points */
    PF_OFF_GRID = 3,             /* a coordinate is off the grid; the least such point index comes with it */
    PF_TOLERANCE_NOT_FINITE = 4, /* the tolerance is NaN or infinite */
    PF_RING_TABLE = 5,           /* ring table empty, longer than 64, decreasing, or last entry not the number of points */
    PF_RING_NOT_CLOSED = 6,      /* a ring with points whose first and last differ */
    PF_OUTPUT_SHORT = 7,         /* output too short */
    PF_MEMORY_SHORT = 8,         /* scratch or work area shorter than the sizes above */
    PF_NO_SUCH_SLOT = 9,         /* slot number above 7 */
    PF_SLOT_IS_OPEN = 10,        /* opening a slot that is open */
    PF_SLOT_NOT_OPEN = 11        /* step, read or close of a slot that is not open */
};

/* In the place of a reason, from pf_step alone: there is nothing left to remove. */
#define PF_FINISHED 255u

/* Every call answers with one uint64_t, so that a refusal writes nothing at all.
 *
 *   high 32 bits: 0 accepted, else the reason; PF_FINISHED from pf_step
 *   low 32 bits:  accepted: the count of the list, the index of the removed point (pf_step), or 0 (clear, open, close)
 *                 PF_OFF_GRID: the least index of a point that is off the grid; any other reason: 0
 */

/* The high half: 0 if accepted, else an enum pf_reason or PF_FINISHED. */
static inline uint32_t pf_status(uint64_t answer) { return (uint32_t)(answer >> 32); }

/* The low half: the count or the index. */
static inline uint32_t pf_value(uint64_t answer) { return (uint32_t)(answer & 0xffffffffu); }

/* Whether the call did what it was asked: a list was written, a point removed, a slot opened, closed or cleared. */
static inline bool pf_is_accepted(uint64_t answer) { return pf_status(answer) == 0; }

/* Whether a step found nothing left to remove. */
static inline bool pf_is_finished(uint64_t answer) { return pf_status(answer) == PF_FINISHED; }

/* Whether the call was refused; pf_status says why. */
static inline bool pf_is_refused(uint64_t answer) { return !pf_is_accepted(answer) && !pf_is_finished(answer); }

/* ---- thinning a whole line or polygon ----
 *
 * tolerance  any finite double. The candidate of least area, the lower index in a tie, is removed for as long as its area
 *            is not above the tolerance. A point's area is that of the triangle with its two kept neighbours. Ends stay.
 * out        gets the kept indices, in order, from its start; places past them are not touched. It needs a place for
 *            every point given, however few are kept.
 * floats     scratch: at least PF_SCRATCH_FLOATS_PER_POINT doubles for each point.
 * words      scratch: at least PF_SCRATCH_WORDS_PER_POINT words for each point. An accepted call leaves both zeroed up to
 *            that size, and untouched past it.
 *
 * Reasons are tried in the order 1, 2, 4, 3, 5, 6, 7, 8. Accepted: the count of the list.
 */

/* The index rule. A tolerance of 0 removes flat points, a negative one removes nothing. */
uint64_t pf_simplify_vw_idx(const double *x, size_t x_len, const double *y, size_t y_len, double tolerance,
                            uint32_t *out, size_t out_len, double *floats, size_t floats_len,
                            uint32_t *words, size_t words_len);

/* The point rule: as the index rule, but a tolerance of zero or less keeps every point. */
uint64_t pf_simplify_vw(const double *x, size_t x_len, const double *y, size_t y_len, double tolerance,
                        uint32_t *out, size_t out_len, double *floats, size_t floats_len,
                        uint32_t *words, size_t words_len);

/* The preserving rule for a line. A tolerance of zero or less keeps every point. */
uint64_t pf_simplify_vw_preserve(const double *x, size_t x_len, const double *y, size_t y_len, double tolerance,
                                 uint32_t *out, size_t out_len, double *floats, size_t floats_len,
                                 uint32_t *words, size_t words_len);

/* The preserving rule for a polygon. rings is the ring table: for each ring the position one past its last point, the
 * shell first; empty rings are allowed, and a ring with points ends on its first one. ring_out needs a place for every ring
 * and gets such a table for the kept list. */
uint64_t pf_simplify_vw_preserve_polygon(const double *x, size_t x_len, const double *y, size_t y_len, double tolerance,
                                         const uint32_t *rings, size_t rings_len, uint32_t *out, size_t out_len,
                                         uint32_t *ring_out, size_t ring_out_len, double *floats, size_t floats_len,
                                         uint32_t *words, size_t words_len);

/* ---- repeated points ----
 *
 * Points are equal by value: -0.0 equals 0. Reasons are tried in the order 1, 2, 3, 7. Accepted: the count of the list. */

/* Keeps the first of each run of equal points. */
uint64_t pf_remove_repeated_points(const double *x, size_t x_len, const double *y, size_t y_len,
                                   uint32_t *out, size_t out_len);

/* Keeps the first appearance of each point. */
uint64_t pf_remove_repeated_points_anywhere(const double *x, size_t x_len, const double *y, size_t y_len,
                                            uint32_t *out, size_t out_len);

/* ---- slots: thinning by the index rule, one removal at a time ----
 *
 * A work area is PF_WORK_FLOATS doubles and PF_WORK_WORDS words of the caller's. Clear it first. A call other than
 * pf_clear changes the part of the slot it names, and no other. */

/* Closes every slot: zeroes the area up to the sizes above, nothing past them. Reason: 8. */
uint64_t pf_clear(double *floats, size_t floats_len, uint32_t *words, size_t words_len);

/* Copies the points and the tolerance into the slot. Reasons: 8, 9, 10, 1, 2, 4, 3. */
uint64_t pf_open(double *floats, size_t floats_len, uint32_t *words, size_t words_len, uint32_t slot,
                 const double *x, size_t x_len, const double *y, size_t y_len, double tolerance);

/* Makes one removal. Accepted: the index of the removed point, and its area in *area, a zero area as +0.0. Otherwise
 * PF_FINISHED, and again at each later step; *area is written only on a removal. Reasons: 8, 9, 11. */
uint64_t pf_step(double *floats, size_t floats_len, uint32_t *words, size_t words_len, uint32_t slot, double *area);

/* Lists the points left, and changes nothing else. out needs a place for each of them. Accepted: the count.
 * Reasons: 8, 9, 11, 7. */
uint64_t pf_read(const double *floats, size_t floats_len, const uint32_t *words, size_t words_len, uint32_t slot,
                 uint32_t *out, size_t out_len);

/* Zeroes the slot's part, which can then be opened again. Reasons: 8, 9, 11. */
uint64_t pf_close(double *floats, size_t floats_len, uint32_t *words, size_t words_len, uint32_t slot);

#ifdef __cplusplus
}
#endif

#endif
