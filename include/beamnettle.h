/* Beamnettle: the kiosk's clip masks and boxes. For x86-64 Linux, C11 or C++11; link with libbeamnettle.a
 * and -lm.
 *
 * Every function is proved to return the number and to leave in lent memory exactly what its contract
 * in crates/beamnettle/src/lib.rt says, whatever the numbers are. No contract leaves an answer free.
 *
 * Lent memory. Lengths count elements, not bytes. A lent pointer must be valid for its length and
 * aligned; where the length is 0 it may be anything, NULL too. What is written must not overlap anything
 * else that is lent. Nothing is kept after a call returns and there is no other state, so calls may run
 * at the same time in several threads where none writes what another is lent.
 *
 * Where fewer floats are lent than a box, frame, coverage, bounds or answer takes, the number is 4, before
 * any other cause. More may be lent: what lies past them is neither read nor changed. Only 0, 36, 37, 38 and the
 * lengths of beamnettle_write_pgm write anything, what their functions say: on every other number all lent memory
 * is left as it was.
 *
 * Floats. Calls run with the processor's default settings: rounding to nearest, subnormal numbers kept
 * (no flush to zero, no denormals are zero), no floating-point exception trapped. Where these are changed,
 * nothing is promised of an answer.
 * A done answer may hold NaN or infinities, and numbers of a size over 2^20: the next call that is lent
 * them as a box or a frame refuses them with 1. The first box of a cut (beamnettle_fit_with_cut) reaches further
 * than its outline, and so may pass 2^20. A box that trimmed_scissor or rect_fill answers may have a half extent
 * below 0: a call that takes it refuses it with 2, or with 1 where a number in it is over 2^20.
 *
 * A frame a b c d x y takes a point (px, py) to (a * px + c * py + x, b * px + d * py + y). A box
 * reaches from minus its half extents to its half extents along the axes, with elliptical corners of its
 * radii (0: square); its frame takes it to where it lies. A fringe is a width there, such as that of a
 * pixel: over it an edge fades. Distances are in fringe widths, below 0 inside.
 *
 * Small frames. Coverage and touch take the box's frame back; inside the safe area's; parallel, the intersections,
 * with_scissor and rect_fill the first box's; trimmed_scissor the scissor's. Where its determinant a * d - b * c lies
 * between -0.000001 and 0.000001, the identity is taken for what takes it back, as femtovg does, and nothing is
 * refused: a box drawn to less than a thousandth of its size gets an answer about another box.
 */
#ifndef BEAMNETTLE_H
#define BEAMNETTLE_H

#include <stddef.h>
#include <stdint.h>

#ifdef __cplusplus
extern "C" {
#endif

/* What a function returns: 8 bits, but for beamnettle_touch, beamnettle_inside and beamnettle_write_pgm, which return
 * 32. 1 to 31 are refusals alone, and 10 is given to nothing. */
enum {
    BEAMNETTLE_DONE = 0,
    /* refused: */
    BEAMNETTLE_NUMBER_OUT_OF_RANGE = 1,     /* a number is not finite, or its size is over 2^20 */
    BEAMNETTLE_IMPROPER_BOX = 2,            /* a half extent or radius below 0, or a radius over its half extent */
    BEAMNETTLE_MASK_TOO_LARGE = 3,          /* a mask width or height over 4,096 */
    BEAMNETTLE_BUFFER_TOO_SHORT = 4,        /* mask, ink, other mask, scratch, file, size, corner, floats too short */
    BEAMNETTLE_LIST_ENDS_EARLY = 5,         /* a word list ends inside a group */
    BEAMNETTLE_COUNT_OUT_OF_RANGE = 6,      /* a count word below 0, or points passing 2,048 in the list */
    BEAMNETTLE_COORDINATE_OUT_OF_RANGE = 7, /* a coordinate word beyond +-1,048,576 */
    BEAMNETTLE_UNKNOWN_VERB = 8,            /* a verb byte above 5 */
    BEAMNETTLE_POSITIONS_MISMATCH = 9,      /* verbs need more positions than given, or fewer */
    BEAMNETTLE_TOO_MANY_VERBS = 11,         /* over 256 verbs */
    BEAMNETTLE_TOO_MANY_BOXES = 12,         /* over 4,096 boxes in a list */
    BEAMNETTLE_NOT_PGM = 13,                /* a PGM mark, number or whitespace at fault, or a width or height of 0 */
    BEAMNETTLE_WRONG_DEPTH = 14,            /* a PGM depth other than 255 */
    BEAMNETTLE_WRONG_RASTER = 15,           /* a PGM raster of more bytes than width * height, or of fewer */
    BEAMNETTLE_CORNER_OUT_OF_RANGE = 16,    /* a corner number beyond +-1,048,576, laying on by corners */
    /* done, and: */
    BEAMNETTLE_NONE = 32, /* there is no box, no coverage (of a safe area too), or no bounds */
    BEAMNETTLE_YES = 33,
    BEAMNETTLE_NO = 34,
    BEAMNETTLE_NO_FRAME = 35,     /* beamnettle_touch: no box is touched */
    BEAMNETTLE_SHARED = 36,       /* beamnettle_rect_fill: a box is written, which the two share */
    BEAMNETTLE_COVERED = 37,      /* beamnettle_rect_fill: a box is written, around the clip */
    BEAMNETTLE_CUT = 38,          /* beamnettle_fit_with_cut: a box, its strays and a cut box are written */
    BEAMNETTLE_FIRST_PLACE = 256, /* beamnettle_touch, beamnettle_inside: the box at place k, from 0, is 256 + k */
    BEAMNETTLE_FIRST_LENGTH = 256 /* beamnettle_write_pgm: a file of n bytes, which is written, is 256 + n */
};

/* How many floats there are in a box (frame a b c d x y, half extents, radii), a frame, a coverage
 * (linear part by rows, offset, half extents, radii, strays), bounds (least x, least y, most x, most y), a fitted
 * outline (box, strays) and one that may be cut (box, strays, cut box). */
enum {
    BEAMNETTLE_BOX = 10,
    BEAMNETTLE_FRAME = 6,
    BEAMNETTLE_COVERAGE = 11,
    BEAMNETTLE_BOUNDS = 4,
    BEAMNETTLE_OUTLINE = 11,
    BEAMNETTLE_CUT_OUTLINE = 21
};

/* A box of a list: the same ten floats, in the same order. */
struct beamnettle_box {
    float a, b, c, d, x, y;
    float extent_x, extent_y;
    float radius_x, radius_y;
};

/* The most boxes of a list: one more is BEAMNETTLE_TOO_MANY_BOXES. */
enum { BEAMNETTLE_MOST_BOXES = 4096 };

/* The largest size of a corner's number, laying on by corners: one more is BEAMNETTLE_CORNER_OUT_OF_RANGE. */
enum { BEAMNETTLE_LARGEST_CORNER_NUMBER = 1048576 };

/* How many numbers of a mask's ink belong to a row: 2 * height are needed in all. */
enum { BEAMNETTLE_INK_PER_ROW = 2 };

#ifdef __cplusplus
static_assert(sizeof(float) == 4 && sizeof(size_t) == 8, "a float of 32 bits, a length of 64");
static_assert(sizeof(struct beamnettle_box) == 10 * sizeof(float), "a box is ten floats");
#else
_Static_assert(sizeof(float) == 4 && sizeof(size_t) == 8, "a float of 32 bits, a length of 64");
_Static_assert(sizeof(struct beamnettle_box) == 10 * sizeof(float), "a box is ten floats");
#endif

/* A mask's record is its size and its corner on the sheet: its cell (column, row) lies at (x + column, y + row) of the
 * sheet, in cells. The caller keeps it. A mask has the corner that it was last drawn at; laying on leaves both masks'
 * corners as they are, and a mask that is read from a file stands at (0, 0).
 *
 * A mask's ink says which part of each row has bytes that are not 0. Row r has its first such column at ink[2 * r] and
 * the column after its last at ink[2 * r + 1]; a blank row has 0 and 0. Each call that writes a mask is lent its ink
 * right behind it, at least 2 * height numbers, which may hold anything before. After a done call they are what a scan
 * of the mask finds; at width 0 all of them are 0. Numbers past them stay as they were, so a smaller mask drawn over a
 * larger one leaves numbers of the larger one behind its own. An odd length is allowed. Too few numbers are refused as
 * too few bytes of the mask are: with 4, at the same place in the order. Ink is aligned to 2 bytes and must not overlap
 * the mask. The other mask of a laying-on is lent without ink.
 * A print loop may send only those stretches: of row r the bytes from mask[r * width + ink[2 * r]] up to, but not
 * including, mask[r * width + ink[2 * r + 1]]. On blank paper that prints the same cells as sending every byte.
 *
 * Draws a word list into the first width * height bytes of a mask, rows first, and writes its ink; later bytes are not
 * changed. Words are relative to the mask's corner (x, y), which may be any two numbers: it decides neither the answer
 * nor a byte. A group is a rule word (0 non-zero, else even-odd), a count of contours, then per contour a
 * count of points and that many pairs of coordinates in 256ths of a cell; a contour closes from its last
 * point to its first. What the cells held is forgotten; the groups' bytes add up, stopping at 255, and an
 * empty list gives zeros. Scratch is at least
 * width + 15 * points floats and (width + 63) / 64 + height + 1 counters; it may hold anything before
 * and is all zero after a done drawing.
 * Returns 0, or 3, then 4 for the mask or its ink, then 5, 6 or 7 at the first word at fault, then 4 for scratch. */
uint8_t beamnettle_draw(uint8_t *mask, size_t mask_length, uint16_t *ink, size_t ink_length, size_t width,
                        size_t height, int32_t x, int32_t y, const int32_t *words, size_t words_length, float *floats,
                        size_t floats_length, uint64_t *counters, size_t counters_length);

/* Lays the other mask on a mask: cell (column, row) meets the other's cell (column + offset_x,
 * row + offset_y) and becomes (cell * other + 127) / 255, rounded down, or 0 where the other has no such
 * cell; then writes the mask's ink. Later bytes than width * height are not changed, nor is the other mask.
 * Returns 0, or 3 (either size), then 4 (the mask or its ink, then the other). */
uint8_t beamnettle_lay(uint8_t *mask, size_t mask_length, uint16_t *ink, size_t ink_length, size_t width,
                       size_t height, const uint8_t *other, size_t other_length, size_t other_width,
                       size_t other_height, int32_t offset_x, int32_t offset_y);

/* The same by where the masks lie on the sheet: cells meet that lie at one place of it. It is beamnettle_lay with the
 * offset (x - other_x, y - other_y).
 * Returns 0, or 3 (either size), then 16 where a corner number is beyond +-1,048,576 (the mask's, then the other's),
 * then 4 (the mask or its ink, then the other). */
uint8_t beamnettle_lay_placed(uint8_t *mask, size_t mask_length, uint16_t *ink, size_t ink_length, size_t width,
                              size_t height, int32_t x, int32_t y, const uint8_t *other, size_t other_length,
                              size_t other_width, size_t other_height, int32_t other_x, int32_t other_y);

/* Writes a mask to the first bytes of file as a raw Netpbm PGM: "P5", line feed, width, a blank, height, line
 * feed, "255", line feed, then the cells, rows first. Later bytes are not changed, nor is the mask. A file takes 11
 * to 17 bytes more than there are cells.
 * Returns 256 + the file's length; or 13 for a width or height of 0, then 3, then 4 (the mask, then the file). */
uint32_t beamnettle_write_pgm(const uint8_t *mask, size_t mask_length, size_t width, size_t height, uint8_t *file,
                              size_t file_length);

/* Reads a raw Netpbm PGM, which is all that is lent as file: "P5", then width, height and depth, each with one or
 * more bytes of whitespace (blank, tab, carriage return, line feed) before it, one byte of whitespace, and the
 * cells. A number has one to nine digits, leading zeros counted. Comments are not taken. Writes width and height
 * to size, 0 and 0 to corner, since a mask that is read stands at (0, 0), the cells to the first width * height
 * bytes of mask, and the mask's ink; what lies past them is not changed, nor is the file.
 * Returns 0; or 13 where the mark, a number or whitespace is at fault or the width or height is 0, then 14 where
 * the depth is not 255, then 3, then 15 where there are not just width * height cells, then 4 where the mask or its ink
 * is too short or size or corner has fewer than two numbers. */
uint8_t beamnettle_read_pgm(const uint8_t *file, size_t file_length, uint8_t *mask, size_t mask_length, uint16_t *ink,
                            size_t ink_length, size_t *size, size_t size_length, int32_t *corner,
                            size_t corner_length);

/* The box that an outline draws: one contour, once around a parallelogram, or, where it has curves, around a
 * rectangle along the axes with four corners alike, square or round, or an ellipse along the axes. An outline with
 * curves may lie off the box by 0.005 of the radius at a round corner, of the smaller half extent elsewhere. Verbs: 0
 * move to and 1 line to, with one position each; 2 curve, with three (two control points, then its end); 3 solid, 4
 * hole and 5 close, with none. A position is two floats, and positions_length counts floats. Writes a box to out.
 * Returns 0; 32 where the outline is no box, or a cut one (beamnettle_fit_with_cut); or 11, then 8 where a byte is
 * above 5, then 9 where the floats are not just those that the verbs take, an odd one too, then 1. */
uint8_t beamnettle_fit(const uint8_t *verbs, size_t verbs_length, const float *positions, size_t positions_length,
                       float *out, size_t out_length);

/* The box of beamnettle_fit and its strays: 1.1 times the furthest that a sample of the outline lies outside the box,
 * at least +0, in the outline's units. Samples are the ends of lines and curves, the middle of each line and seven
 * points within each curve, at even steps of its parameter. Without curves the strays are +0. Writes a box and its
 * strays to out, eleven floats. Returns what beamnettle_fit returns. */
uint8_t beamnettle_fit_outline(const uint8_t *verbs, size_t verbs_length, const float *positions,
                               size_t positions_length, float *out, size_t out_length);

/* The same, and what a tab draws: a rectangle along the axes of which just the two corners of one side are square and
 * the others are round and alike. That is a cut: a box with four round corners that runs past the square side by twice
 * its radius there, and the cut box, the outline's own rectangle with square corners. What lies in both is the shape
 * that the outline draws, and its strays lie outside that. Writes a box and its strays to out, and of a cut the cut box
 * behind them, 21 floats in all. That many are asked for always; without a cut the last ten are left as they were.
 * Returns 0 where the outline is whole, 38 where it is a cut, 32 where it is neither, or what beamnettle_fit refuses,
 * in its order. */
uint8_t beamnettle_fit_with_cut(const uint8_t *verbs, size_t verbs_length, const float *positions,
                                size_t positions_length, float *out, size_t out_length);

/* The box through a frame after its own. Writes a box to out. Returns 0, or 1 or 2 for the box, then 1. */
uint8_t beamnettle_transformed(const float *box, size_t box_length, const float *frame, size_t frame_length,
                               float *out, size_t out_length);

/* What two boxes share, where that is a box within half a fringe width. Writes a box to out.
 * Returns 0; 32 where their sides are not parallel, where they share nothing or an edge alone, or where a
 * corner is round, neither is a rectangle around the other, and the overlap is no box or one of the two has
 * no coverage; or 1 or 2 for the first box, for the second, then 1 for the fringe. */
uint8_t beamnettle_intersection(const float *one, size_t one_length, const float *two, size_t two_length,
                                float fringe, float *out, size_t out_length);

/* What two rectangles share; where they are apart, a box of no width or no height, which lies at the greater
 * of the two lower sides, along the first box's axes. Writes a box to out. Returns 0; 32 where a corner is
 * round or their sides are not parallel; or 1 or 2 for the first box, then for the second. */
uint8_t beamnettle_rect_intersection(const float *one, size_t one_length, const float *two, size_t two_length,
                                     float *out, size_t out_length);

/* The box as a draw takes it: the map from a point to the box's own axes, scaled to fringe widths, and the
 * box in those. Where a radius, as it lies there, is below half a fringe width, both become 0. Writes a
 * coverage to out.
 * Returns 0; 32 where the frame all but collapses (the sine between its axes is at most 0.01, or they are so
 * short, about 1e-11, that their squares vanish), where the fringe is 0 or below, or where two sides, as they
 * lie there, are less than a fringe width apart; or 1 or 2 for the box, then 1 for the fringe. */
uint8_t beamnettle_coverage(const float *box, size_t box_length, float fringe, float *out, size_t out_length);

/* The bounds of a box's four corners, taken as square, where they lie. Writes four floats to out. Returns 0,
 * or 1 or 2. */
uint8_t beamnettle_bounds(const float *box, size_t box_length, float *out, size_t out_length);

/* The distance of a point from a coverage's outline, in fringe widths, below 0 inside. The coverage may hold
 * any floats. Writes one float to out. Returns 0, or 1 for the point. */
uint8_t beamnettle_distance(const float *coverage, size_t coverage_length, float x, float y, float *out,
                            size_t out_length);

/* Whether the sides of two boxes are parallel. Returns 33 or 34, or 1 or 2 for the first box, then for the second. */
uint8_t beamnettle_parallel(const float *one, size_t one_length, const float *two, size_t two_length);

/* Whether a coverage, of any floats, holds all of a box, within half a fringe width. Returns 33 or 34, or 1 or 2. */
uint8_t beamnettle_contains(const float *coverage, size_t coverage_length, const float *box, size_t box_length);

/* A clip and a scissor as one box, within 1/64 of a fringe width, that draws under both carry in place of the
 * two. Writes a box to out and its coverage to coverage: both are lent, and both are asked for before all
 * else. Returns 0; 32 where the two make no such box (as beamnettle_intersection, with 1/64 for a half), or it
 * has no coverage; or 1 or 2 for the clip, for the scissor, then 1 for the fringe. */
uint8_t beamnettle_with_scissor(const float *clip, size_t clip_length, const float *scissor, size_t scissor_length,
                                float fringe, float *out, size_t out_length, float *coverage,
                                size_t coverage_length);

/* What of a scissor still clips a draw under the clip too: each side of the scissor that the clip lies within,
 * to 1/64 of a fringe width, is moved out to two fringe widths past the clip. Where the scissor's corners are
 * round, or its sides are not parallel to the clip's, the scissor as it is. Where the two lie apart, a half
 * extent of the box may be below 0. Writes a box to out.
 * Returns 0; 32 where the clip lies within all four sides; or 1 or 2 for the clip, for the scissor, then 1 for
 * the fringe. */
uint8_t beamnettle_trimmed_scissor(const float *clip, size_t clip_length, const float *scissor,
                                   size_t scissor_length, float fringe, float *out, size_t out_length);

/* What an upright rect filled under an upright clip is drawn as in its place. Under a clip with square corners:
 * 36, the rect that the two share, within 1/64 of a fringe width, antialiased by its own fringe, with no clip.
 * Under one with round corners that the fill covers whole: 37, a rect a fringe width around the clip, with no
 * fringe of its own, under the clip's coverage; at a fringe below 0 its half extents may be below 0. Of the
 * fill it is not asked that it is upright or a rect (beamnettle_upright_rect gives such). Writes a box to out.
 * Returns 36 or 37; 32 where the clip is not upright, where they share no box that has a coverage, or where the
 * fill does not cover the clip; or 1 or 2 for the clip, for the fill, then 1 for the fringe. */
uint8_t beamnettle_rect_fill(const float *clip, size_t clip_length, const float *fill, size_t fill_length,
                             float fringe, float *out, size_t out_length);

/* The upright rect that an outline fills under a frame, if it is one: the box of beamnettle_fit through the
 * frame, with sides along the axes and square corners. Writes a box to out.
 * Returns 0; 32 where the outline is no box or has round corners, where the box does not lie along the axes, or where
 * there are more than 8 verbs; or what beamnettle_fit refuses, in its order, then 1 for the frame. */
uint8_t beamnettle_upright_rect(const uint8_t *verbs, size_t verbs_length, const float *positions,
                                size_t positions_length, const float *frame, size_t frame_length, float *out,
                                size_t out_length);

/* The bounds outside which a coverage is zero: its box out to where the ramps of its sides end, half a fringe
 * width past them. The coverage may hold any floats; with half extents below 0 the least may be over the most.
 * Writes four floats to out. Returns 0, or 32 where the determinant of the linear part is 0: the coverage is
 * one everywhere. */
uint8_t beamnettle_reach(const float *coverage, size_t coverage_length, float *out, size_t out_length);

/* Whether a clip, as it was given, holds all of a rectangle, within 1/64 of a fringe width: off a round corner
 * the coverage's strays are allowed besides. Coverage and bounds may hold any floats. Returns 33 or 34. */
uint8_t beamnettle_holds(const float *coverage, size_t coverage_length, const float *bounds, size_t bounds_length);

/* The lowest place whose box a point touches: a box whose coverage exists and whose distance at the point is
 * at most 0.5, the allowance that beamnettle_contains has: the print lays ink to half a fringe width past the
 * outline. At most 4,096 boxes are taken, and all of them are checked before a place is named.
 * Returns 256 + the place, counted from 0; 35 where there is no such box; or 12, then 1 or 2 for each box in
 * order, then 1 for the fringe or the point. */
uint32_t beamnettle_touch(const struct beamnettle_box *boxes, size_t boxes_length, float fringe, float x, float y);

/* Whether a safe area holds all of every box of a list. The safe area is the box in safe; it holds what its coverage
 * at the fringe does, within half a fringe width (beamnettle_contains). At most 4,096 boxes are taken, and all of them
 * are checked, whatever is found. Nothing is written.
 * Returns 33 where it holds them all, or the list is empty; 256 + the lowest place, counted from 0, of a box that it
 * does not hold; 32 where it has no coverage, whatever the list, an empty one too; or 12, then 1 or 2 for each box in
 * order, then for the safe area, then 1 for the fringe. */
uint32_t beamnettle_inside(const struct beamnettle_box *boxes, size_t boxes_length, const float *safe,
                           size_t safe_length, float fringe);

#ifdef __cplusplus
}
#endif

#endif
