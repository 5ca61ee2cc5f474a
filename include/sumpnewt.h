/*
 * Sumpnewt: takes a patch of tetrahedra and one edge, and replaces the tetrahedra round that edge by the best possible
 * ones, or refuses with a number. It never moves a point and never chooses the edge.
 *
 * Link with libsumpnewt.a (README.md, "Calling it from C and Rust"). It needs nothing but memcpy and memset.
 *
 * THE PATCH BLOCK, 512 bytes
 *
 *   byte       meaning
 *   0          version: 1, or 2 with marked faces
 *   1          points, 0 to 64
 *   2          rows, 0 to 60
 *   3..15      zero
 *   16..207    64 points of 3 bytes: x, y, z, each 0 to 255
 *   208..507   60 rows of 5 bytes: four point numbers, then the region, 0 to 255; in version 2 the region, 0 to 15, and
 *              the marks of the row's faces
 *   508, 509   first sum, low byte first
 *   510, 511   second sum, low byte first
 *
 * Bytes of points and rows beyond the counts are zero. Both sums start at 0 and wrap at 65,536; for bytes 0 to 507 in
 * order the byte is added to the first sum, and then the first sum to the second. sumpnewt_seal writes them.
 *
 * A row (p,q,r,s) is upright if the determinant D with the rows p-s, q-s, r-s is over 0, flat if it is 0, inverted if it
 * is below. Flat and inverted rows are allowed, and two points may share a place. Mesh rule: the numbers of a row are
 * below the point count and all different, and no directed face stands in two rows; the directed faces of a row are
 * (q,r,s), (p,s,r), (p,q,s), (p,r,q), each the same when its numbers are turned round in a circle.
 *
 * MARKED FACES, version 2 only
 *
 * A marked face carries something, a load surface say, and must not go. The last byte of a row (p,q,r,s) is the region plus a
 * bit for each of its faces that is marked:
 *
 *   bit        meaning
 *   0..3       the region, 0 to 15
 *   4          (q,r,s) is marked, the face opposite p
 *   5          (p,s,r), opposite q
 *   6          (p,q,s), opposite r
 *   7          (p,r,q), opposite s
 *
 * So when a row is rearranged evenly, each bit goes with the number that its face lies opposite to. A face between two
 * rows is marked in both or in neither; one that a single row has may be marked or not. A call that would take a marked face
 * away is refused. Otherwise the same faces are marked afterwards as before, whatever rows they are in then. Of an edge that is
 * removed, or flipped away, the faces with both its ends go: all that lie between two of the rows round it, and of an open
 * chain the two outer ones as well. Of a 2-3 flip the face itself goes. A block that is written has the version of its input.
 *
 * THE QUALITY of a row is 432 D^2 / S^3 with the sign of D, S being the sum of the six squared edge lengths: 1 for a
 * regular tetrahedron, 0 for a flat one. Better and worse are decided on the exact fractions. The score is 1000 times the
 * cube root of the quality of an upright row, rounded down, and 0 for any other row.
 *
 * A quality that is shown is a double: both whole numbers of the fraction, each rounded to the nearest double, and then
 * divided. It has the sign of D, is +0.0 for a flat row, and lies within 2^-51 of the fraction, relative to it. Two fractions
 * that differ by less than 2^-50, relative to them, may be shown as one double or in the other order; one fraction with two
 * pairs of whole numbers may be shown as two doubles. So never decide by doubles which row is worse.
 *
 * EVERY CALL
 *
 * Returns: 0 if it is done, else the number of the refusal, the first in this file's order of what is wrong.
 * Refusals: unless the number is 0, every element of the output stays as it came.
 * Inputs: every length and every number has an answer; nothing has to be looked at before a call. No input is written.
 * Threads: a call keeps nothing between calls and touches only its arguments, so calls may run in any number of threads
 *     at once.
 * Memory: no heap; of stack the bytes that SUMPNEWT_STACK_ with the call's name says.
 * Time: bounded for every input; docs/BENCHMARK.md has the times.
 *
 * WHAT THE CALLER ANSWERS FOR
 *
 * The proof speaks of arguments that are what the declarations say. C does not hold a caller to that; what a call does where
 * one of these is broken lies outside the proof, and no test says it either.
 *
 * Lengths: a pointer is to at least as many elements as the length beside it says, at an address that fits their type, and
 *     those of an input have been written. With length 0 it is not used and may be a null pointer. With any other length no
 *     call can find out that a pointer is null, or to fewer elements.
 * Overlap: the output must not overlap the input. To replace a block by its result, copy it first or write into a second
 *     block.
 * Other threads: while a call runs no other thread may write to any of its arguments, nor read its output, which is written
 *     piece by piece.
 *
 * Output memory need not be initialised. The proof speaks of the elements that are there on entry, so of memory that was never
 * written it says nothing; that no call looks at its output before it writes it is tested instead (docs/TESTS.md). A call that
 * is done has written every element; a refusal has written none, and what was never written must not be read then either.
 */
#ifndef SUMPNEWT_H
#define SUMPNEWT_H

#include <stddef.h>
#include <stdint.h>

#ifdef __cplusplus
extern "C" {
#endif

/* Lengths, in elements. */
#define SUMPNEWT_BLOCK_BYTES 512     /* a block */
#define SUMPNEWT_FIELDS_BYTES 508    /* what is sealed: a block without its sums */
#define SUMPNEWT_SUMMARY_ELEMENTS 7  /* a summary */
#define SUMPNEWT_SHOWN_ELEMENTS 60   /* shown qualities, one for each row that a block can have */
#define SUMPNEWT_PAGE_ELEMENTS 2     /* a page row */

/* Where a block has what. */
#define SUMPNEWT_VERSION_PLAIN 1   /* regions 0 to 255, no marks */
#define SUMPNEWT_VERSION_MARKED 2  /* regions 0 to 15, and marks */
#define SUMPNEWT_MAX_POINTS 64
#define SUMPNEWT_MAX_ROWS 60
#define SUMPNEWT_VERSION_AT 0
#define SUMPNEWT_POINT_COUNT_AT 1
#define SUMPNEWT_ROW_COUNT_AT 2
#define SUMPNEWT_POINTS_AT 16
#define SUMPNEWT_POINT_BYTES 3
#define SUMPNEWT_ROWS_AT 208
#define SUMPNEWT_ROW_BYTES 5

/* What the last byte of a row (p,q,r,s) has in version 2. */
#define SUMPNEWT_REGION_BITS 15
#define SUMPNEWT_MARK_QRS 16
#define SUMPNEWT_MARK_PSR 32
#define SUMPNEWT_MARK_PQS 64
#define SUMPNEWT_MARK_PRQ 128

/*
 * The bytes of stack that a call needs below its caller's frame, whatever its input: measured on x86-64 and on Arm, the
 * larger of both; for a flip on x86-64, for which alone today's toolchain writes an archive. memcpy and memset are counted
 * as taking none of their own.
 */
#define SUMPNEWT_STACK_OPEN 1192
#define SUMPNEWT_STACK_SEAL 1208
#define SUMPNEWT_STACK_SUMMARY 1416
#define SUMPNEWT_STACK_SHOWN 1304
#define SUMPNEWT_STACK_REMOVE 3512
#define SUMPNEWT_STACK_PAGE 4040
#define SUMPNEWT_STACK_FLIP 3464

/* The answers, in the order in which they are tested. */
enum {
    SUMPNEWT_DONE = 0,
    SUMPNEWT_LENGTH = 1,         /* a length is not the one it must be */
    SUMPNEWT_SUM = 2,            /* a sum is wrong */
    SUMPNEWT_NOT_A_VERSION = 3,  /* the version is neither 1 nor 2 */
    SUMPNEWT_COUNT = 4,          /* a count is over its limit */
    SUMPNEWT_NOT_ZERO = 5,       /* a byte that must be zero is not */
    SUMPNEWT_ROW = 7,            /* a row's number is not below the point count, or repeats */
    SUMPNEWT_FACE_TWICE = 8,     /* a directed face stands in two rows */
    SUMPNEWT_MARKS_DISAGREE = 22,
                                 /* a face between two rows is marked in only one of them */
    SUMPNEWT_NOT_TWO_OR_THREE = 21,
                                 /* flip: neither two numbers nor three are given */
    SUMPNEWT_BAD_NUMBER = 9,     /* an edge or face number is not below the point count, or equal to another */
    SUMPNEWT_NOT_HELD = 10,      /* no row holds the edge or face */
    SUMPNEWT_NOT_CLOSED = 11,    /* the tetrahedra round the edge do not all close; removal: and are not one open chain
                                    either (face: only one row) */
    SUMPNEWT_CIRCLES = 12,       /* they make more than one closed circle */
    SUMPNEWT_RING_LENGTH = 13,   /* the points round the edge are fewer than 3 or more than 10 (3-2 flip: not 3) */
    SUMPNEWT_NOT_FLAT = 19,      /* removal: the ends of the open chain and of the edge are not in one plane */
    SUMPNEWT_ONE_APEX = 18,      /* 2-3 flip: both apexes are one point */
    SUMPNEWT_TWO_REGIONS = 20,   /* the rows that go have more than one region */
    SUMPNEWT_MARK_GOES = 23,     /* a marked face would go */
    SUMPNEWT_NO_ROOM = 14,       /* rows afterwards would be over 60 */
    SUMPNEWT_BLOCKED = 15,       /* no triangulation is admissible (2-3 flip: the mesh rule would break) */
    SUMPNEWT_NONE_BETTER = 16    /* removal: each makes a tetrahedron no better than the worst round the edge now */
};

/*
 * 6 is unused: every byte is a coordinate.
 * 17 is unused: whichever way a ring or a flat chain is cut, the total of D stays, so there is nothing to refuse.
 */

/* The elements of a summary. */
enum {
    SUMPNEWT_UPRIGHT,     /* rows with D over 0 */
    SUMPNEWT_FLAT,        /* rows with D = 0 */
    SUMPNEWT_INVERTED,    /* rows with D below 0 */
    SUMPNEWT_HAS_WORST,   /* 1 if there is a worst score, 0 for a patch with no rows */
    SUMPNEWT_WORST,       /* the score of the worst row, 0 to 1000; 0 if there is none */
    SUMPNEWT_HAS_OCTAVE,  /* 1 if there is an octave, 0 for a patch with no upright row */
    SUMPNEWT_OCTAVE       /* largest e with 2^e * n <= the sum of badness over the n upright rows; 0 if there is none.
                             The badness of a row is the inverse of its quality, rounded up. */
};

/*
 * The elements of a page row: the quality of the patch's worst row as one quotient, below 0 for an inverted row. The worst
 * row is the worst by the exact fractions.
 */
enum {
    SUMPNEWT_WORST_BEFORE,
    SUMPNEWT_WORST_AFTER
};

/*
 * Opens a block: is everything in it as it must be?
 * Answers 0 to 5, 7, 8 and 22.
 */
uint32_t sumpnewt_open(const uint8_t *block, size_t n);

/*
 * Seals the first 508 bytes of a block: writes them and their two sums as the 512 bytes of `out`.
 * n must be 508 and out_n 512. Answers 0, 1, 3 to 5, 7, 8 and 22.
 */
uint32_t sumpnewt_seal(const uint8_t *fields, size_t n, uint8_t *out, size_t out_n);

/*
 * Summarises a patch: counts of upright, flat and inverted rows, worst score, octave.
 * out_n must be 7. Answers as sumpnewt_open does; 1 also for out_n.
 */
uint32_t sumpnewt_summary(const uint8_t *block, size_t n, uint64_t *out, size_t out_n);

/*
 * Shows the quality of each row as one quotient, the rows in order: below 0 for an inverted row, +0.0 for a flat one. The
 * elements behind the rows are +0.0.
 * out_n must be 60. Answers as sumpnewt_open does; 1 also for out_n.
 */
uint32_t sumpnewt_shown(const uint8_t *block, size_t n, double *out, size_t out_n);

/*
 * Removes the edge between the points numbered a and b, in either order: of all ways to fill the room round it without
 * the edge that keep the mesh rule, the one whose worst tetrahedron is best, if that is better than the worst there now.
 * The tetrahedra round the edge close, or they are one open chain between two outer faces that make one plane; and they are
 * of one region; and no marked face goes with it. The new block has the kept rows in order, then the new rows with that
 * region; points stay, and so do marks.
 * out_n must be 512. Answers 0 to 5, 7 to 16, 19, 20, 22 and 23.
 */
uint32_t sumpnewt_remove(const uint8_t *block, size_t n, size_t a, size_t b, uint8_t *out, size_t out_n);

/*
 * The page row of that removal: the worst row of the whole patch before and after it. The block afterwards is not
 * written. row_n must be 2. Answers as sumpnewt_remove does; 1 for row_n.
 */
uint32_t sumpnewt_page(const uint8_t *block, size_t n, size_t a, size_t b, double *row, size_t row_n);

/*
 * Flips, whatever the quality. Two numbers are the ends of an edge, in either order: the three rows that close round it
 * become two. Three numbers are a face, in any order: the two rows at it become three. Any other count gets 21.
 * The rows that go must have one region, and no marked face may go with them. The new block has the kept rows in order, then the
 * new rows with that region; points stay, and so do marks.
 * out_n must be 512. Answers with two numbers: 0 to 5, 7, 8, 22, 9 to 13, 20, 23 and 15; 11 for every open case, 13 unless there
 * are exactly three. With three: 0 to 5, 7, 8, 22, 9 to 11, 18, 20, 23, 14 and 15. With any other count: 1 to 5, 7, 8, 22 and 21.
 * With count 0 numbers may be a null pointer.
 */
uint32_t sumpnewt_flip(const uint8_t *block, size_t n, const size_t *numbers, size_t count, uint8_t *out, size_t out_n);

#ifdef __cplusplus
}
#endif

#endif
