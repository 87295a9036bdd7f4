/* Calls every function of include/beamnettle.h from C, with different numbers in every place, and checks
 * the number, all that is written, and that what lies past it is not changed. What is expected is document
 * 01's examples, or is reckoned in whole numbers, halves and quarters beside the call; strays are reckoned sample by
 * sample. Then touch and inside, on structs, are held to coverage, distance and contains, on arrays. The exit status
 * is 1 where a check fails. */
#include "beamnettle.h"

#include <math.h>
#include <stdio.h>
#include <string.h>

static unsigned checks, failed;

static void check(int good, int line, const char *what) {
    checks++;
    if (!good) {
        failed++;
        printf("line %d: %s\n", line, what);
    }
}

#define CHECK(fact) check(fact, __LINE__, #fact)

/* ---- what is lent for an answer: rubbish, in each buffer at least two floats more than an answer takes */

enum { BOX = BEAMNETTLE_BOX, FRAME = BEAMNETTLE_FRAME, COVERAGE = BEAMNETTLE_COVERAGE, BOUNDS = BEAMNETTLE_BOUNDS };
enum { OUTLINE = BEAMNETTLE_OUTLINE, CUT_OUTLINE = BEAMNETTLE_CUT_OUTLINE, LENT = CUT_OUTLINE + 2 };

static float out[LENT], also[LENT];

static float rubbish(size_t i) { return 1000.0f + (float)i; }

static void lend(void) {
    for (size_t i = 0; i < LENT; i++) {
        out[i] = rubbish(i);
        also[i] = rubbish(LENT + i);
    }
}

/* Whether a buffer holds these floats, bit by bit, and behind them the rubbish that it held. */
static int holds(const float *buffer, size_t first, const float *expected, size_t n) {
    for (size_t i = 0; i < LENT; i++) {
        float now = i < n ? expected[i] : rubbish(first + i);
        if (memcmp(&buffer[i], &now, sizeof now) != 0) return 0;
    }
    return 1;
}

/* Whether these floats were written to out, and nothing else. */
static int wrote(const float *expected, size_t n) { return holds(out, 0, expected, n) && holds(also, LENT, NULL, 0); }

/* Whether a box was written to out, its coverage to the other buffer, and nothing else. */
static int wrote_both(const float *expected) {
    return holds(out, 0, expected, BOX) && holds(also, LENT, expected + BOX, COVERAGE);
}

/* A call that returns a number and writes these floats to out, one that is done and writes them, one that is
 * done and writes a box and a coverage, and one that returns another number and writes none. */
#define ANSWERS(number, call, ...)                                        \
    do {                                                                  \
        const float expected[] = {__VA_ARGS__};                           \
        lend();                                                           \
        CHECK((call) == (number));                                        \
        CHECK(wrote(expected, sizeof expected / sizeof *expected));       \
    } while (0)
#define WRITES(call, ...) ANSWERS(BEAMNETTLE_DONE, call, __VA_ARGS__)
#define WRITES_BOTH(call, ...)                                            \
    do {                                                                  \
        const float expected[BOX + COVERAGE] = {__VA_ARGS__};             \
        lend();                                                           \
        CHECK((call) == BEAMNETTLE_DONE);                                 \
        CHECK(wrote_both(expected));                                      \
    } while (0)
#define RETURNS(number, call)         \
    do {                              \
        lend();                       \
        CHECK((call) == (number));    \
        CHECK(wrote(NULL, 0));        \
    } while (0)

/* ---- ink: rubbish, at least three numbers more than a call is lent */

enum { INK_ROOM = 12 };

static uint16_t ink[INK_ROOM];

static uint16_t ink_rubbish(size_t i) { return (uint16_t)(60000 + i); }

static void lend_ink(void) {
    for (size_t i = 0; i < INK_ROOM; i++) ink[i] = ink_rubbish(i);
}

/* Whether these numbers were written to the ink, and nothing else. */
static int inked(const uint16_t *expected, size_t n) {
    for (size_t i = 0; i < INK_ROOM; i++)
        if (ink[i] != (i < n ? expected[i] : ink_rubbish(i))) return 0;
    return 1;
}

#define INKED(...) inked((const uint16_t[]){__VA_ARGS__}, sizeof((const uint16_t[]){__VA_ARGS__}) / sizeof(uint16_t))

static int ink_left(void) { return inked(NULL, 0); }

/* Whether a print loop that sends each row's stretch, and nothing else, onto blank paper prints a mask's cells. */
static int prints(const uint8_t *mask, size_t width, size_t height) {
    uint8_t paper[16] = {0};
    for (size_t r = 0; r < height; r++) {
        const uint16_t *row = ink + BEAMNETTLE_INK_PER_ROW * r;
        size_t first = r * width + row[0], end = r * width + row[1];
        memcpy(paper + first, mask + first, end - first);
    }
    return memcmp(paper, mask, width * height) == 0;
}

/* ---- masks */

/* A rectangle from (1, 0) to (2.5, 1.5) cells on a mask of 3 by 2. A cell is 255 times its share, to nearest. */
static const int32_t RECTANGLE[] = {0, 1, 4, 256, 0, 640, 0, 640, 384, 256, 384};
enum { WORDS = 11, FLOATS = 3 + 15 * 4, COUNTERS = (3 + 63) / 64 + 2 + 1 };

static struct {
    uint8_t mask[9];
    float floats[FLOATS + 2];
    uint64_t counters[COUNTERS + 2];
} lent, before;

/* Where the mask's corner lies on the sheet, which changes nothing. */
static const struct {
    int32_t x, y;
} CORNERS[] = {{0, 0}, {-3, 7}, {INT32_MAX, INT32_MIN}, {INT32_MIN, INT32_MAX}};
static int32_t corner_x, corner_y;

static uint8_t draw(size_t mask, size_t numbers, size_t width, const int32_t *words, size_t length, size_t floats,
                    size_t counters) {
    for (size_t i = 0; i < 9; i++) lent.mask[i] = (uint8_t)(90 + i);
    for (size_t i = 0; i < FLOATS + 2; i++) lent.floats[i] = rubbish(i);
    for (size_t i = 0; i < COUNTERS + 2; i++) lent.counters[i] = 50 + i;
    before = lent;
    lend_ink();
    return beamnettle_draw(lent.mask, mask, ink, numbers, width, 2, corner_x, corner_y, words, length, lent.floats,
                           floats, lent.counters, counters);
}

static int left_as_it_was(void) {
    return memcmp(lent.mask, before.mask, sizeof lent.mask) == 0 &&
           memcmp(lent.floats, before.floats, sizeof lent.floats) == 0 &&
           memcmp(lent.counters, before.counters, sizeof lent.counters) == 0 && ink_left();
}

static void drawing(void) {
    const uint8_t cells[] = {0, 255, 128, 0, 128, 64};
    for (size_t past = 0; past < 4; past++) {
        CHECK(draw(8, 4 + past, 3, RECTANGLE, WORDS, FLOATS, COUNTERS) == BEAMNETTLE_DONE);
        CHECK(memcmp(lent.mask, cells, 6) == 0);
        CHECK(memcmp(lent.mask + 6, before.mask + 6, 3) == 0);
        CHECK(INKED(1, 3, 1, 3) && prints(lent.mask, 3, 2));
    }
    for (size_t i = 0; i < FLOATS; i++) CHECK(lent.floats[i] == 0.0f && !signbit(lent.floats[i]));
    for (size_t i = 0; i < COUNTERS; i++) CHECK(lent.counters[i] == 0);
    CHECK(memcmp(lent.floats + FLOATS, before.floats + FLOATS, 2 * sizeof(float)) == 0);
    CHECK(memcmp(lent.counters + COUNTERS, before.counters + COUNTERS, 2 * sizeof(uint64_t)) == 0);

    /* an empty list: a mask of zeros */
    CHECK(draw(6, 4, 3, NULL, 0, 3, COUNTERS) == BEAMNETTLE_DONE);
    CHECK(memcmp(lent.mask, (const uint8_t[6]){0}, 6) == 0 && memcmp(lent.mask + 6, before.mask + 6, 3) == 0);
    CHECK(INKED(0, 0, 0, 0) && prints(lent.mask, 3, 2));
}

static void refusing_drawings(void) {
    const struct {
        size_t mask, numbers, width;
        const int32_t *words;
        size_t length, floats, counters;
        uint8_t number;
    } refused[] = {
        {8, 4, 4097, RECTANGLE, WORDS, FLOATS, COUNTERS, BEAMNETTLE_MASK_TOO_LARGE},
        {5, 4, 3, RECTANGLE, WORDS, FLOATS, COUNTERS, BEAMNETTLE_BUFFER_TOO_SHORT},
        {8, 4, 3, RECTANGLE, WORDS - 1, FLOATS, COUNTERS, BEAMNETTLE_LIST_ENDS_EARLY},
        {8, 4, 3, (const int32_t[]){0}, 1, FLOATS, COUNTERS, BEAMNETTLE_LIST_ENDS_EARLY},
        {8, 4, 3, (const int32_t[]){0, -1}, 2, FLOATS, COUNTERS, BEAMNETTLE_COUNT_OUT_OF_RANGE},
        {8, 4, 3, (const int32_t[]){0, 1, 1, 1048577, 0}, 5, FLOATS, COUNTERS, BEAMNETTLE_COORDINATE_OUT_OF_RANGE},
        {8, 4, 3, RECTANGLE, WORDS, FLOATS - 1, COUNTERS, BEAMNETTLE_BUFFER_TOO_SHORT},
        {8, 4, 3, RECTANGLE, WORDS, FLOATS, COUNTERS - 1, BEAMNETTLE_BUFFER_TOO_SHORT},
        /* too little ink: behind 3, and before the list and the scratch */
        {8, 3, 4097, RECTANGLE, WORDS, FLOATS, COUNTERS, BEAMNETTLE_MASK_TOO_LARGE},
        {8, 3, 3, RECTANGLE, WORDS, FLOATS, COUNTERS, BEAMNETTLE_BUFFER_TOO_SHORT},
        {8, 0, 3, RECTANGLE, WORDS, FLOATS, COUNTERS, BEAMNETTLE_BUFFER_TOO_SHORT},
        {8, 3, 3, (const int32_t[]){0}, 1, FLOATS, COUNTERS, BEAMNETTLE_BUFFER_TOO_SHORT},
        {8, 3, 3, (const int32_t[]){0, -1}, 2, FLOATS, COUNTERS, BEAMNETTLE_BUFFER_TOO_SHORT},
        {8, 3, 3, RECTANGLE, WORDS, FLOATS - 1, COUNTERS - 1, BEAMNETTLE_BUFFER_TOO_SHORT},
    };
    for (size_t i = 0; i < sizeof refused / sizeof *refused; i++) {
        CHECK(draw(refused[i].mask, refused[i].numbers, refused[i].width, refused[i].words, refused[i].length,
                   refused[i].floats, refused[i].counters) == refused[i].number);
        CHECK(left_as_it_was());
    }
}

static void drawing_at_corners(void) {
    for (size_t i = 0; i < sizeof CORNERS / sizeof *CORNERS; i++) {
        corner_x = CORNERS[i].x;
        corner_y = CORNERS[i].y;
        drawing();
        refusing_drawings();
    }
}

static void laying(void) {
    /* cell (column, row) meets (column - 1, row + 1) of the other: (cell * other + 127) / 255, rounded down */
    uint8_t mask[] = {10, 20, 30, 40, 50, 60, 77};
    const uint8_t other[] = {9, 9, 255, 128, 127, 51}, laid[] = {0, 20, 15, 0, 25, 12, 77};
    uint8_t kept[sizeof mask];
    memcpy(kept, mask, sizeof mask);
    lend_ink();
    CHECK(beamnettle_lay(mask, 6, ink, 4, 4097, 2, other, 6, 2, 3, -1, 1) == BEAMNETTLE_MASK_TOO_LARGE);
    CHECK(beamnettle_lay(mask, 6, ink, 4, 3, 2, other, 6, 2, 4097, -1, 1) == BEAMNETTLE_MASK_TOO_LARGE);
    CHECK(beamnettle_lay(mask, 6, ink, 3, 3, 2, other, 6, 2, 4097, -1, 1) == BEAMNETTLE_MASK_TOO_LARGE);
    CHECK(beamnettle_lay(mask, 5, ink, 4, 3, 2, other, 6, 2, 3, -1, 1) == BEAMNETTLE_BUFFER_TOO_SHORT);
    CHECK(beamnettle_lay(mask, 6, ink, 3, 3, 2, other, 6, 2, 3, -1, 1) == BEAMNETTLE_BUFFER_TOO_SHORT);
    CHECK(beamnettle_lay(mask, 6, ink, 4, 3, 2, other, 5, 2, 3, -1, 1) == BEAMNETTLE_BUFFER_TOO_SHORT);
    CHECK(memcmp(mask, kept, sizeof mask) == 0 && ink_left());
    CHECK(beamnettle_lay(mask, 7, ink, 5, 3, 2, other, 6, 2, 3, -1, 1) == BEAMNETTLE_DONE);
    CHECK(memcmp(mask, laid, sizeof mask) == 0);
    CHECK(INKED(1, 3, 1, 3) && prints(mask, 3, 2));
    /* a wider other mask: cell (column, row) meets (column + 1, row - 1), row 0 none */
    uint8_t open[] = {255, 255, 255, 255, 255, 255, 77};
    const uint8_t wider[] = {1, 2, 3, 4, 5, 6, 7, 8, 9}, met[] = {0, 0, 2, 3, 5, 6, 77};
    lend_ink();
    CHECK(beamnettle_lay(open, 7, ink, 6, 2, 3, wider, 9, 3, 3, 1, -1) == BEAMNETTLE_DONE);
    CHECK(memcmp(open, met, sizeof open) == 0);
    CHECK(INKED(0, 0, 0, 2, 0, 2) && prints(open, 2, 3));
    CHECK(beamnettle_lay(open, 7, ink, 6, 2, 3, wider, 9, 3, 3, 0, INT32_MIN) == BEAMNETTLE_DONE);
    CHECK(memcmp(open, (const uint8_t[]){0, 0, 0, 0, 0, 0, 77}, sizeof open) == 0);
    CHECK(INKED(0, 0, 0, 0, 0, 0));
}

/* ---- masks by corners */

/* Six cells of 3 by 2 with a byte behind them, the other mask's six of 2 by 3, and the largest corner number. */
static const uint8_t OWN[] = {100, 150, 200, 50, 60, 70, 77}, OTHER[] = {255, 128, 64, 255, 51, 254};
enum { FAR = BEAMNETTLE_LARGEST_CORNER_NUMBER };
static uint8_t placed[sizeof OWN];

/* The number for so many bytes, numbers of ink, widths and corners. */
static uint8_t lay_inked(size_t length, size_t numbers, size_t other_length, size_t width, size_t other_width,
                         const int32_t *c) {
    memcpy(placed, OWN, sizeof OWN);
    lend_ink();
    return beamnettle_lay_placed(placed, length, ink, numbers, width, 2, c[0], c[1], OTHER, other_length, other_width,
                                 3, c[2], c[3]);
}

/* The same with enough ink. */
static uint8_t lay_placed(size_t length, size_t other_length, size_t width, size_t other_width, const int32_t *c) {
    return lay_inked(length, 4, other_length, width, other_width, c);
}

/* The same with all that is needed: own corner, then the other's. */
#define LAY_AT(...) lay_placed(6, 6, 3, 2, (const int32_t[4]){__VA_ARGS__})

static int placed_is(const uint8_t *cells) { return memcmp(placed, cells, sizeof placed) == 0; }

static int placed_left(void) { return placed_is(OWN) && ink_left(); }

static void laying_placed(void) {
    /* cell (column, row) meets (column + own x - other x, row + own y - other y) */
    const struct {
        int32_t c[4];
        uint8_t cells[sizeof OWN];
        uint16_t ink[4];
    } done[] = {
        {{0, 0, 0, 0}, {100, 75, 0, 13, 60, 0, 77}, {0, 2, 0, 2}},
        {{1, 0, 0, 0}, {50, 0, 0, 50, 0, 0, 77}, {0, 1, 0, 1}},
        {{0, 0, 1, 0}, {0, 150, 100, 0, 15, 70, 77}, {1, 3, 1, 3}},
        {{0, 1, 0, 0}, {25, 150, 0, 10, 60, 0, 77}, {0, 2, 0, 2}},
        {{0, 0, 0, 1}, {0, 0, 0, 50, 30, 0, 77}, {0, 0, 0, 2}},
        {{-8, 41, -7, 40}, {0, 38, 200, 0, 12, 70, 77}, {1, 3, 1, 3}},
        {{FAR - 1, 1 - FAR, FAR, -FAR}, {0, 38, 200, 0, 12, 70, 77}, {1, 3, 1, 3}},
        {{-FAR, FAR, 1 - FAR, FAR - 1}, {0, 38, 200, 0, 12, 70, 77}, {1, 3, 1, 3}},
        {{FAR, 0, -FAR, 0}, {0, 0, 0, 0, 0, 0, 77}, {0, 0, 0, 0}},
        {{0, -FAR, 0, FAR}, {0, 0, 0, 0, 0, 0, 77}, {0, 0, 0, 0}},
    };
    for (size_t i = 0; i < sizeof done / sizeof *done; i++) {
        CHECK(lay_inked(7, 4 + i % 3, 6, 3, 2, done[i].c) == BEAMNETTLE_DONE);
        CHECK(placed_is(done[i].cells));
        CHECK(inked(done[i].ink, 4) && prints(placed, 3, 2));
    }
}

static void refusing_placed(void) {
    const int32_t beyond[] = {FAR + 1, -FAR - 1, INT32_MAX, INT32_MIN, INT32_MIN + 1}, at_limit[] = {FAR, -FAR};
    for (size_t place = 0; place < 4; place++) {
        for (size_t i = 0; i < sizeof beyond / sizeof *beyond; i++) {
            int32_t c[4] = {0};
            c[place] = beyond[i];
            CHECK(lay_placed(6, 6, 4097, 2, c) == BEAMNETTLE_MASK_TOO_LARGE && placed_left());
            CHECK(lay_placed(6, 6, 3, 4097, c) == BEAMNETTLE_MASK_TOO_LARGE && placed_left());
            CHECK(lay_placed(6, 6, 3, 2, c) == BEAMNETTLE_CORNER_OUT_OF_RANGE && placed_left());
            CHECK(lay_placed(5, 6, 3, 2, c) == BEAMNETTLE_CORNER_OUT_OF_RANGE && placed_left());
            CHECK(lay_placed(6, 5, 3, 2, c) == BEAMNETTLE_CORNER_OUT_OF_RANGE && placed_left());
            CHECK(lay_inked(6, 3, 6, 3, 2, c) == BEAMNETTLE_CORNER_OUT_OF_RANGE && placed_left());
            CHECK(lay_inked(6, 3, 6, 3, 4097, c) == BEAMNETTLE_MASK_TOO_LARGE && placed_left());
        }
        for (size_t i = 0; i < sizeof at_limit / sizeof *at_limit; i++) {
            int32_t c[4] = {0};
            c[place] = at_limit[i];
            CHECK(lay_placed(6, 6, 3, 4097, c) == BEAMNETTLE_MASK_TOO_LARGE && placed_left());
            CHECK(lay_placed(5, 6, 3, 2, c) == BEAMNETTLE_BUFFER_TOO_SHORT && placed_left());
            CHECK(lay_placed(6, 5, 3, 2, c) == BEAMNETTLE_BUFFER_TOO_SHORT && placed_left());
            CHECK(lay_inked(6, 3, 6, 3, 2, c) == BEAMNETTLE_BUFFER_TOO_SHORT && placed_left());
            CHECK(lay_placed(6, 6, 3, 2, c) == BEAMNETTLE_DONE);
            CHECK(placed_is((const uint8_t[]){0, 0, 0, 0, 0, 0, 77}));
        }
    }
    CHECK(beamnettle_lay_placed(placed, 6, ink, 4, 3, 4097, 0, 0, OTHER, 6, 2, 3, FAR + 1, 0) ==
          BEAMNETTLE_MASK_TOO_LARGE);
    CHECK(beamnettle_lay_placed(placed, 6, ink, 4, 3, 2, 0, -FAR - 1, OTHER, 6, 2, 4097, 0, 0) ==
          BEAMNETTLE_MASK_TOO_LARGE);
    CHECK(LAY_AT(INT32_MAX, 0, -1, 0) == BEAMNETTLE_CORNER_OUT_OF_RANGE && placed_left());
    CHECK(LAY_AT(INT32_MIN, 0, 1, 0) == BEAMNETTLE_CORNER_OUT_OF_RANGE && placed_left());
    CHECK(LAY_AT(0, INT32_MIN, 0, INT32_MIN) == BEAMNETTLE_CORNER_OUT_OF_RANGE && placed_left());
    CHECK(LAY_AT(FAR + 1, 0, FAR + 1, 0) == BEAMNETTLE_CORNER_OUT_OF_RANGE && placed_left());
}

/* ---- PGM files */

/* A mask of 3 by 2, with one byte behind it, and its file. Before what is lent to be written lie three bytes or
 * numbers, and at least three behind it. */
static const uint8_t CELLS[] = {7, 0, 255, 10, 32, 35, 99};
static const uint8_t PICTURE[] = "P5\n3 2\n255\n\a\0\377\n #";
enum { CELL_COUNT = 6, PICTURE_LENGTH = 11 + CELL_COUNT, PAST = 3 };
enum { WRITTEN = BEAMNETTLE_FIRST_LENGTH + PICTURE_LENGTH };

static struct {
    uint8_t file[PICTURE_LENGTH + 3 * PAST], mask[CELL_COUNT + 3 * PAST];
    size_t size[2 + 3 * PAST];
    int32_t corner[2 + 3 * PAST];
} pgm, pgm_before;

static void lend_pgm(void) {
    for (size_t i = 0; i < sizeof pgm.file; i++) pgm.file[i] = (uint8_t)(150 + i);
    for (size_t i = 0; i < sizeof pgm.mask; i++) pgm.mask[i] = (uint8_t)(100 + i);
    for (size_t i = 0; i < sizeof pgm.size / sizeof *pgm.size; i++) pgm.size[i] = 1000 + i;
    for (size_t i = 0; i < sizeof pgm.corner / sizeof *pgm.corner; i++) pgm.corner[i] = -2000 - (int32_t)i;
    pgm_before = pgm;
}

/* Whether the file or the mask holds these bytes, and what it held before and behind them. */
static int file_holds(const uint8_t *bytes, size_t n) {
    return memcmp(pgm.file, pgm_before.file, PAST) == 0 && memcmp(pgm.file + PAST, bytes, n) == 0 &&
           memcmp(pgm.file + PAST + n, pgm_before.file + PAST + n, sizeof pgm.file - PAST - n) == 0;
}

static int mask_holds(const uint8_t *bytes, size_t n) {
    return memcmp(pgm.mask, pgm_before.mask, PAST) == 0 && memcmp(pgm.mask + PAST, bytes, n) == 0 &&
           memcmp(pgm.mask + PAST + n, pgm_before.mask + PAST + n, sizeof pgm.mask - PAST - n) == 0;
}

/* The same of the size's two numbers. */
static int size_holds(size_t width, size_t height) {
    pgm_before.size[PAST] = width;
    pgm_before.size[PAST + 1] = height;
    return memcmp(pgm.size, pgm_before.size, sizeof pgm.size) == 0;
}

/* And of the corner's. */
static int corner_holds(int32_t left, int32_t top) {
    pgm_before.corner[PAST] = left;
    pgm_before.corner[PAST + 1] = top;
    return memcmp(pgm.corner, pgm_before.corner, sizeof pgm.corner) == 0;
}

/* The number for so many bytes of the mask, a size and so many bytes lent for the file. */
static uint32_t write_pgm(size_t mask, size_t width, size_t height, size_t file) {
    lend_pgm();
    return beamnettle_write_pgm(CELLS, mask, width, height, pgm.file + PAST, file);
}

/* The number for a file, with so many bytes lent for the mask and numbers for its ink, the size and the corner. */
static uint8_t read_pgm(const void *file, size_t length, size_t mask, size_t numbers, size_t size, size_t corner) {
    lend_pgm();
    lend_ink();
    return beamnettle_read_pgm(file, length, pgm.mask + PAST, mask, ink, numbers, pgm.size + PAST, size,
                               pgm.corner + PAST, corner);
}

static void writing_pgm(void) {
    for (size_t past = 0; past < PAST; past++) {
        CHECK(write_pgm(CELL_COUNT + past % 2, 3, 2, PICTURE_LENGTH + past) == WRITTEN);
        CHECK(file_holds(PICTURE, PICTURE_LENGTH));
    }
    /* more digits */
    static uint8_t mask[4096 + 1], file[14 + 4096 + 1];
    memset(mask, 255, sizeof mask);
    CHECK(beamnettle_write_pgm(mask, 4096, 4096, 1, file, 14 + 4096) == 256 + 14 + 4096);
    CHECK(memcmp(file, "P5\n4096 1\n255\n\377", 15) == 0 && file[14 + 4095] == 255 && file[14 + 4096] == 0);
    CHECK(beamnettle_write_pgm(mask, 10, 1, 10, file, 22) == 256 + 12 + 10);
    CHECK(memcmp(file, "P5\n1 10\n255\n\377", 13) == 0);

    const struct {
        size_t mask, width, height, file;
        uint32_t number;
    } refused[] = {
        {6, 0, 4097, 0, BEAMNETTLE_NOT_PGM},
        {6, SIZE_MAX, 0, 20, BEAMNETTLE_NOT_PGM},
        {0, 4097, 1, 0, BEAMNETTLE_MASK_TOO_LARGE},
        {7, 1, 4097, 20, BEAMNETTLE_MASK_TOO_LARGE},
        {7, (size_t)1 << 32, (size_t)1 << 32, 20, BEAMNETTLE_MASK_TOO_LARGE},
        {5, 3, 2, 20, BEAMNETTLE_BUFFER_TOO_SHORT},
        {7, 4096, 4096, 20, BEAMNETTLE_BUFFER_TOO_SHORT},
        {6, 3, 2, 16, BEAMNETTLE_BUFFER_TOO_SHORT},
        {6, 3, 2, 11, BEAMNETTLE_BUFFER_TOO_SHORT},
    };
    for (size_t i = 0; i < sizeof refused / sizeof *refused; i++) {
        CHECK(write_pgm(refused[i].mask, refused[i].width, refused[i].height, refused[i].file) == refused[i].number);
        CHECK(file_holds(PICTURE, 0));
    }
}

/* A file as it stands between quotes. */
#define PGM(text) (text), sizeof(text) - 1

static void reading_pgm(void) {
    /* what is written, read; and the same with other whitespace and zeros */
    static const char spelled[] = "P5 \t\r\n000000003\n\n02\r0255 \a\0\377\n #";
    for (size_t past = 0; past < PAST; past++) {
        CHECK(write_pgm(CELL_COUNT, 3, 2, PICTURE_LENGTH) == WRITTEN);
        lend_ink();
        CHECK(beamnettle_read_pgm(pgm.file + PAST, PICTURE_LENGTH, pgm.mask + PAST, CELL_COUNT + past, ink, 4 + past,
                                  pgm.size + PAST, 2 + past, pgm.corner + PAST,
                                  2 + (past + 1) % PAST) == BEAMNETTLE_DONE);
        CHECK(mask_holds(CELLS, CELL_COUNT) && size_holds(3, 2) && corner_holds(0, 0));
        CHECK(file_holds(PICTURE, PICTURE_LENGTH) && INKED(0, 3, 0, 3) && prints(pgm.mask + PAST, 3, 2));
        CHECK(read_pgm(PGM(spelled), CELL_COUNT + past, 4 + past, 2 + past, 2 + past) == BEAMNETTLE_DONE);
        CHECK(mask_holds(CELLS, CELL_COUNT) && size_holds(3, 2) && corner_holds(0, 0) && INKED(0, 3, 0, 3));
    }
    CHECK(read_pgm(PGM("P5\n1 1\n255\n\n"), 1, 2, 2, 2) == BEAMNETTLE_DONE);
    CHECK(mask_holds((const uint8_t *)"\n", 1) && size_holds(1, 1) && corner_holds(0, 0) && INKED(0, 1));
}

static void refusing_pgm(void) {
    const struct {
        const char *file;
        size_t length, mask, numbers, size, corner;
        uint8_t number;
    } refused[] = {
        {PGM(""), 6, 6, 2, 2, BEAMNETTLE_NOT_PGM},
        {PGM("P2\n1 1\n255\n7"), 6, 6, 2, 2, BEAMNETTLE_NOT_PGM},
        {PGM("P51 1\n255\n\a"), 6, 6, 2, 2, BEAMNETTLE_NOT_PGM},
        {PGM("P5\n#\n1 1\n255\n\a"), 6, 6, 2, 2, BEAMNETTLE_NOT_PGM},
        {PGM("P5\n+1 1\n255\n\a"), 6, 6, 2, 2, BEAMNETTLE_NOT_PGM},
        {PGM("P5\n1\f1\n255\n\a"), 6, 6, 2, 2, BEAMNETTLE_NOT_PGM},
        {PGM("P5\n0000000001 1\n255\n\a"), 6, 6, 2, 2, BEAMNETTLE_NOT_PGM},
        {PGM("P5\n1 0\n254\n"), 0, 0, 0, 0, BEAMNETTLE_NOT_PGM},
        {PGM("P5\n1 1\n254"), 0, 0, 0, 0, BEAMNETTLE_NOT_PGM},
        {PGM("P5\n4097 1\n254\n"), 0, 0, 0, 0, BEAMNETTLE_WRONG_DEPTH},
        {PGM("P5\n1 1\n0\n\a"), 6, 6, 2, 2, BEAMNETTLE_WRONG_DEPTH},
        {PGM("P5\n4097 1\n255\n\a"), 0, 0, 0, 0, BEAMNETTLE_MASK_TOO_LARGE},
        {PGM("P5\n1 999999999\n255\n\a"), 6, 6, 2, 2, BEAMNETTLE_MASK_TOO_LARGE},
        {PGM("P5\n2 1\n255\n\a"), 0, 0, 0, 0, BEAMNETTLE_WRONG_RASTER},
        {PGM("P5\n1 1\n255\r\n\a"), 6, 6, 2, 2, BEAMNETTLE_WRONG_RASTER},
        {PGM("P5\n2 3\n255\n\a\a\a\a\a\a"), 5, 6, 2, 2, BEAMNETTLE_BUFFER_TOO_SHORT},
        {PGM("P5\n2 3\n255\n\a\a\a\a\a\a"), 6, 6, 1, 2, BEAMNETTLE_BUFFER_TOO_SHORT},
        {PGM("P5\n2 3\n255\n\a\a\a\a\a\a"), 6, 6, 0, 2, BEAMNETTLE_BUFFER_TOO_SHORT},
        {PGM("P5\n2 3\n255\n\a\a\a\a\a\a"), 6, 6, 2, 1, BEAMNETTLE_BUFFER_TOO_SHORT},
        {PGM("P5\n2 3\n255\n\a\a\a\a\a\a"), 6, 6, 2, 0, BEAMNETTLE_BUFFER_TOO_SHORT},
        /* too little ink: behind all but itself */
        {PGM("P5\n2 3\n255\n\a\a\a\a\a\a"), 6, 5, 2, 2, BEAMNETTLE_BUFFER_TOO_SHORT},
        {PGM("P5\n2 3\n255\n\a\a\a\a\a\a"), 6, 0, 2, 2, BEAMNETTLE_BUFFER_TOO_SHORT},
        {PGM("P5\n2 3\n255\n\a\a\a\a\a"), 6, 5, 2, 2, BEAMNETTLE_WRONG_RASTER},
        {PGM("P5\n2 4097\n255\n"), 6, 5, 2, 2, BEAMNETTLE_MASK_TOO_LARGE},
        {PGM("P5\n2 3\n254\n\a\a\a\a\a\a"), 6, 5, 2, 2, BEAMNETTLE_WRONG_DEPTH},
        {PGM("P5\n2 0\n255\n"), 6, 5, 2, 2, BEAMNETTLE_NOT_PGM},
    };
    for (size_t i = 0; i < sizeof refused / sizeof *refused; i++) {
        CHECK(read_pgm(refused[i].file, refused[i].length, refused[i].mask, refused[i].numbers, refused[i].size,
                       refused[i].corner) == refused[i].number);
        CHECK(mask_holds(CELLS, 0) && size_holds(1000 + PAST, 1001 + PAST) && ink_left());
        CHECK(corner_holds(-2000 - PAST, -2001 - PAST));
    }
}

/* ---- ink of rows that are odd */

/* A file read into these bytes, with just enough ink. */
static uint8_t read_rows(const void *file, size_t length, uint8_t *mask, size_t cells, size_t rows) {
    size_t size[2];
    int32_t corner[2];
    lend_ink();
    return beamnettle_read_pgm(file, length, mask, cells, ink, BEAMNETTLE_INK_PER_ROW * rows, size, 2, corner, 2);
}

static void inking_rows(void) {
    static uint8_t mask[2 * 4096], file[14 + 2 * 4096] = "P5\n4096 2\n255\n";
    CHECK(read_rows(PGM("P5\n3 4\n255\n\0\0\0\5\0\0\0\0\5\5\0\a"), mask, 12, 4) == BEAMNETTLE_DONE);
    CHECK(INKED(0, 0, 0, 1, 2, 3, 0, 3) && prints(mask, 3, 4));
    /* the last cell alone, and all of them */
    file[14 + 4095] = 1;
    memset(file + 14 + 4096, 200, 4096);
    CHECK(read_rows(file, sizeof file, mask, sizeof mask, 2) == BEAMNETTLE_DONE);
    CHECK(INKED(4095, 4096, 0, 4096));
}

/* A drawing of up to five columns, five rows and twenty points, over the ink as it is. */
static uint8_t drawn[25];

static uint8_t draw_small(size_t width, size_t height, size_t numbers, const int32_t *words, size_t length) {
    static float floats[5 + 15 * 20];
    static uint64_t counters[7];
    return beamnettle_draw(drawn, width * height, ink, numbers, width, height, 0, 0, words, length, floats,
                           sizeof floats / sizeof *floats, counters, sizeof counters / sizeof *counters);
}

static void inking_drawings(void) {
    /* a sliver whose byte is 0 is no ink */
    const int32_t sliver[] = {0, 1, 3, 0, 0, 1, 0, 0, 1};
    lend_ink();
    CHECK(draw_small(1, 1, 2, sliver, 9) == BEAMNETTLE_DONE && drawn[0] == 0 && INKED(0, 0));
    /* one group inks column 3, the next column 0 */
    const int32_t groups[] = {0, 1, 4, 768, 0, 1024, 0, 1024, 256, 768, 256, 0, 1, 4, 0, 0, 256, 0, 256, 256, 0, 256};
    lend_ink();
    CHECK(draw_small(5, 1, 2, groups, 22) == BEAMNETTLE_DONE);
    CHECK(memcmp(drawn, (const uint8_t[]){255, 0, 0, 255, 0}, 5) == 0 && INKED(0, 4) && prints(drawn, 5, 1));
    /* a smaller mask over a larger one leaves the numbers behind its own */
    const int32_t column[] = {0, 1, 4, 256, 0, 512, 0, 512, 768, 256, 768};
    lend_ink();
    CHECK(draw_small(2, 3, 7, column, 11) == BEAMNETTLE_DONE && INKED(1, 2, 1, 2, 1, 2));
    CHECK(draw_small(2, 2, 7, NULL, 0) == BEAMNETTLE_DONE && INKED(0, 0, 0, 0, 1, 2));
    CHECK(draw_small(2, 2, 3, column, 11) == BEAMNETTLE_BUFFER_TOO_SHORT && INKED(0, 0, 0, 0, 1, 2));
}

static void inking_layings(void) {
    /* laying on makes a row shorter: (1 * 127 + 127) / 255 is 0 */
    const uint8_t other[] = {255, 127};
    uint8_t mask[] = {255, 1}, again[] = {255, 1}, rows[] = {9, 9, 9, 9};
    lend_ink();
    CHECK(beamnettle_lay(mask, 2, ink, 2, 2, 1, other, 2, 2, 1, 0, 0) == BEAMNETTLE_DONE);
    CHECK(mask[0] == 255 && mask[1] == 0 && INKED(0, 1) && prints(mask, 2, 1));
    lend_ink();
    CHECK(beamnettle_lay_placed(again, 2, ink, 2, 2, 1, 5, -4, other, 2, 2, 1, 5, -4) == BEAMNETTLE_DONE);
    CHECK(again[0] == 255 && again[1] == 0 && INKED(0, 1));
    /* a row that meets no row of the other is blank */
    lend_ink();
    CHECK(beamnettle_lay(rows, 4, ink, 4, 2, 2, other, 2, 2, 1, 0, 0) == BEAMNETTLE_DONE);
    CHECK(INKED(0, 2, 0, 0) && prints(rows, 2, 2));
    /* ink that lies at an odd number of 16-bit numbers */
    lend_ink();
    ink[0] = 5;
    CHECK(beamnettle_lay(rows, 4, ink + 1, 4, 2, 2, other, 2, 2, 1, 1, 0) == BEAMNETTLE_DONE);
    CHECK(rows[0] == 4 && rows[1] == 0 && INKED(5, 0, 1, 0, 0));
}

/* No columns, and three rows, which have ink all the same: six numbers, all of which become 0. */
static void inking_no_columns(void) {
    uint64_t counters[4];
    const uint8_t other[] = {255};
    lend_ink();
    CHECK(beamnettle_draw(NULL, 0, ink, 5, 0, 3, 1, 2, NULL, 0, NULL, 0, counters, 4) == BEAMNETTLE_BUFFER_TOO_SHORT);
    CHECK(beamnettle_lay(NULL, 0, ink, 5, 0, 3, other, 1, 1, 1, 0, 0) == BEAMNETTLE_BUFFER_TOO_SHORT);
    CHECK(beamnettle_lay_placed(NULL, 0, ink, 5, 0, 3, 1, 2, other, 1, 1, 1, 1, 2) == BEAMNETTLE_BUFFER_TOO_SHORT);
    CHECK(ink_left());
    CHECK(beamnettle_draw(NULL, 0, ink, 6, 0, 3, 1, 2, NULL, 0, NULL, 0, counters, 4) == BEAMNETTLE_DONE);
    CHECK(INKED(0, 0, 0, 0, 0, 0));
    lend_ink();
    CHECK(beamnettle_lay(NULL, 0, ink, 9, 0, 3, other, 1, 1, 1, 0, 0) == BEAMNETTLE_DONE);
    CHECK(INKED(0, 0, 0, 0, 0, 0));
    lend_ink();
    CHECK(beamnettle_lay_placed(NULL, 0, ink, 7, 0, 3, 1, 2, other, 1, 1, 1, 1, 2) == BEAMNETTLE_DONE);
    CHECK(INKED(0, 0, 0, 0, 0, 0));
}

/* ---- boxes */

/* Turned by a quarter and stretched: (px, py) goes to (-4 py + 6, 2 px + 8). */
static const float TURNED[] = {0, 2, -4, 0, 6, 8, 3, 5, 1, 2};
static const float IMPROPER[] = {1, 0, 0, 1, 0, 0, 1, 1, 2, 0};
static const float INFINITE[] = {1, 0, 0, 1, 0, INFINITY, 1, 1, 0, 0};

static void fitting(void) {
    /* the rectangle from (3, 5) to (9, 9), along its first side; MoveTo, Close, MoveTo, LineTo is none */
    const uint8_t verbs[] = {0, 1, 1, 1, 5}, apart[] = {0, 5, 0, 1}, curve[] = {0, 2, 6}, unknown[] = {6, 2};
    const float corners[] = {3, 5, 9, 5, 9, 9, 3, 9}, far[] = {3, 5, 9, 5, 9, 9, 3, 1048577};
    static const uint8_t many[257];
    WRITES(beamnettle_fit(verbs, 5, corners, 8, out, BOX), 1, 0, 0, 1, 6, 7, 3, 2, 0, 0);
    WRITES(beamnettle_fit_outline(verbs, 5, corners, 8, out, OUTLINE), 1, 0, 0, 1, 6, 7, 3, 2, 0, 0, 0);
    WRITES(beamnettle_fit_with_cut(verbs, 5, corners, 8, out, CUT_OUTLINE), 1, 0, 0, 1, 6, 7, 3, 2, 0, 0, 0);
    RETURNS(BEAMNETTLE_NONE, beamnettle_fit(apart, 4, corners, 6, out, BOX));
    RETURNS(BEAMNETTLE_BUFFER_TOO_SHORT, beamnettle_fit(many, 257, corners, 8, out, BOX - 1));
    RETURNS(BEAMNETTLE_TOO_MANY_VERBS, beamnettle_fit(many, 257, corners, 8, out, BOX));
    RETURNS(BEAMNETTLE_UNKNOWN_VERB, beamnettle_fit(curve, 3, corners, 7, out, BOX));
    RETURNS(BEAMNETTLE_UNKNOWN_VERB, beamnettle_fit(unknown, 2, corners, 8, out, BOX));
    RETURNS(BEAMNETTLE_NONE, beamnettle_fit(curve, 2, corners, 8, out, BOX));
    RETURNS(BEAMNETTLE_POSITIONS_MISMATCH, beamnettle_fit(curve, 2, far, 7, out, BOX));
    RETURNS(BEAMNETTLE_POSITIONS_MISMATCH, beamnettle_fit(verbs, 5, corners, 7, out, BOX));
    RETURNS(BEAMNETTLE_NUMBER_OUT_OF_RANGE, beamnettle_fit(verbs, 5, far, 8, out, BOX));
    RETURNS(BEAMNETTLE_NUMBER_OUT_OF_RANGE, beamnettle_fit(curve, 2, far, 8, out, BOX));
}

/* ---- outlines with curves */

/* The circle of radius 1, from its right end; two tabs, from (0, 0) to (8, 4) and from (0, 0) to (4, 8), round at low y
 * and at low x with radii 2 and 1, 1 and 2. Control points at 0.55 of a radius keep every sample of a curve inside. */
#define KAPPA 0.5522848f
static const uint8_t CIRCLE_VERBS[] = {0, 2, 2, 2, 2}, TAB_VERBS[] = {0, 2, 1, 2, 1, 1, 5};
enum { CIRCLE_FLOATS = 26, TAB_FLOATS = 20 };
static const float CIRCLE[] = {1, 0, 1, KAPPA, KAPPA, 1, 0, 1, -KAPPA, 1, -1, KAPPA, -1, 0,
                               -1, -KAPPA, -KAPPA, -1, 0, -1, KAPPA, -1, 1, -KAPPA, 1, 0};
#define TAB(kappa)                                                                                        \
    {0, 1, 0, 1 - (kappa), 2 - 2 * (kappa), 0, 2, 0, 6, 0, 6 + 2 * (kappa), 0, 8, 1 - (kappa), 8, 1, 8, 4, 0, 4}
static const float TAB_INSIDE[] = TAB(0.55f), TAB_OUTSIDE[] = TAB(KAPPA);

static float at(float from, float one, float two, float end, float t) {
    float s = 1 - t;
    return s * s * s * from + 3 * s * s * t * one + 3 * s * t * t * two + t * t * t * end;
}

static float root(float x, float y) { return (float)sqrt((double)x * (double)x + (double)y * (double)y); }

/* How far the samples of a corner's curve, of eight floats, lie outside a box on the axes at most. */
static float outside(const float *curve, const float *box) {
    float most = 0, rx = box[8], ry = box[9];
    for (int i = 1; i < 8; i++) {
        float t = (float)i / 8;
        float side_x = fabsf(at(curve[0], curve[2], curve[4], curve[6], t) - box[4]) - box[6];
        float side_y = fabsf(at(curve[1], curve[3], curve[5], curve[7], t) - box[5]) - box[7];
        float x = (side_x + rx) / rx, y = (side_y + ry) / ry;
        most = fmaxf(most, (root(x, y) - 1) * root(x, y) / root(x / rx, y / ry));
    }
    return most;
}

/* The numbers for an outline, with so many floats lent. */
static uint8_t outline(const uint8_t *verbs, size_t n, const float *positions, size_t floats, size_t lent_floats) {
    return beamnettle_fit_outline(verbs, n, positions, floats, out, lent_floats);
}

static uint8_t with_cut(const uint8_t *verbs, size_t n, const float *positions, size_t floats, size_t lent_floats) {
    return beamnettle_fit_with_cut(verbs, n, positions, floats, out, lent_floats);
}

static void rounding(void) {
    /* a circle: whole, and its strays those of each of its four curves */
    const float disc[] = {1, 0, 0, 1, 0, 0, 1, 1, 1, 1}, strays = outside(CIRCLE, disc) * 1.1f;
    CHECK(strays == 0.00028455257f);
    WRITES(beamnettle_fit(CIRCLE_VERBS, 5, CIRCLE, CIRCLE_FLOATS, out, BOX), 1, 0, 0, 1, 0, 0, 1, 1, 1, 1);
    for (size_t past = 0; past < 3; past++) {
        WRITES(outline(CIRCLE_VERBS, 5, CIRCLE, CIRCLE_FLOATS, OUTLINE + past), 1, 0, 0, 1, 0, 0, 1, 1, 1, 1, strays);
        WRITES(with_cut(CIRCLE_VERBS, 5, CIRCLE, CIRCLE_FLOATS, CUT_OUTLINE + past), 1, 0, 0, 1, 0, 0, 1, 1, 1, 1,
               strays);
    }
    RETURNS(BEAMNETTLE_BUFFER_TOO_SHORT, outline(CIRCLE_VERBS, 5, CIRCLE, CIRCLE_FLOATS, OUTLINE - 1));
    RETURNS(BEAMNETTLE_BUFFER_TOO_SHORT, with_cut(CIRCLE_VERBS, 5, CIRCLE, CIRCLE_FLOATS, CUT_OUTLINE - 1));
    RETURNS(BEAMNETTLE_BUFFER_TOO_SHORT, with_cut(CIRCLE_VERBS, 5, CIRCLE, CIRCLE_FLOATS, OUTLINE));

    /* an empty curve at the start of the rectangle from (3, 5) to (9, 9) */
    const uint8_t verbs[] = {0, 2, 1, 1, 1};
    const float corners[] = {3, 5, 3, 5, 3, 5, 3, 5, 9, 5, 9, 9, 3, 9};
    WRITES(beamnettle_fit(verbs, 5, corners, 14, out, BOX), 1, 0, 0, 1, 6, 7, 3, 2, 0, 0);
    WRITES(outline(verbs, 5, corners, 14, OUTLINE), 1, 0, 0, 1, 6, 7, 3, 2, 0, 0, 0);
    WRITES(with_cut(verbs, 5, corners, 14, CUT_OUTLINE), 1, 0, 0, 1, 6, 7, 3, 2, 0, 0, 0);
}

static void cutting(void) {
    /* past the square side at 4 by twice the radius of 1: a side at 6 */
    for (size_t past = 0; past < 3; past++)
        ANSWERS(BEAMNETTLE_CUT, with_cut(TAB_VERBS, 7, TAB_INSIDE, TAB_FLOATS, CUT_OUTLINE + past),
                1, 0, 0, 1, 4, 3, 4, 3, 2, 1, 0, 1, 0, 0, 1, 4, 2, 4, 2, 0, 0);
    float other_way[TAB_FLOATS];
    for (size_t i = 0; i < TAB_FLOATS; i++) other_way[i] = TAB_INSIDE[i ^ 1];
    ANSWERS(BEAMNETTLE_CUT, with_cut(TAB_VERBS, 7, other_way, TAB_FLOATS, CUT_OUTLINE),
            1, 0, 0, 1, 3, 4, 3, 4, 1, 2, 0, 1, 0, 0, 1, 2, 4, 2, 4, 0, 0);
    const float tab[] = {1, 0, 0, 1, 4, 2, 4, 2, 2, 1};
    const float strays = fmaxf(outside(TAB_OUTSIDE, tab), outside(TAB_OUTSIDE + 8, tab)) * 1.1f;
    CHECK(strays > 0);
    ANSWERS(BEAMNETTLE_CUT, with_cut(TAB_VERBS, 7, TAB_OUTSIDE, TAB_FLOATS, CUT_OUTLINE),
            1, 0, 0, 1, 4, 3, 4, 3, 2, 1, strays, 1, 0, 0, 1, 4, 2, 4, 2, 0, 0);
    RETURNS(BEAMNETTLE_NONE, beamnettle_fit(TAB_VERBS, 7, TAB_INSIDE, TAB_FLOATS, out, BOX));
    RETURNS(BEAMNETTLE_NONE, outline(TAB_VERBS, 7, TAB_INSIDE, TAB_FLOATS, OUTLINE));
    RETURNS(BEAMNETTLE_BUFFER_TOO_SHORT, with_cut(TAB_VERBS, 7, TAB_INSIDE, TAB_FLOATS, CUT_OUTLINE - 1));
    RETURNS(BEAMNETTLE_BUFFER_TOO_SHORT, outline(TAB_VERBS, 7, TAB_INSIDE, TAB_FLOATS, OUTLINE - 1));
    RETURNS(BEAMNETTLE_NONE, with_cut(TAB_VERBS, 2, TAB_INSIDE, 8, CUT_OUTLINE));
}

static void refusing_outlines(void) {
    const uint8_t unknown[] = {0, 2, 6};
    const float far[] = {3, 5, 9, 5, 9, 9, 3, 1048577};
    static const uint8_t many[257];
    const struct {
        const uint8_t *verbs;
        size_t n;
        const float *positions;
        size_t floats;
        uint8_t number;
    } refused[] = {
        {many, 257, far, 8, BEAMNETTLE_TOO_MANY_VERBS},
        {many, 256, far, 8, BEAMNETTLE_POSITIONS_MISMATCH},
        {unknown, 3, far, 7, BEAMNETTLE_UNKNOWN_VERB},
        {unknown, 2, far, 7, BEAMNETTLE_POSITIONS_MISMATCH},
        {unknown, 2, CIRCLE, 9, BEAMNETTLE_POSITIONS_MISMATCH},
        {unknown, 2, far, 8, BEAMNETTLE_NUMBER_OUT_OF_RANGE},
    };
    for (size_t i = 0; i < sizeof refused / sizeof *refused; i++) {
        RETURNS(refused[i].number,
                outline(refused[i].verbs, refused[i].n, refused[i].positions, refused[i].floats, OUTLINE));
        RETURNS(refused[i].number,
                with_cut(refused[i].verbs, refused[i].n, refused[i].positions, refused[i].floats, CUT_OUTLINE));
        RETURNS(BEAMNETTLE_BUFFER_TOO_SHORT,
                outline(refused[i].verbs, refused[i].n, refused[i].positions, refused[i].floats, OUTLINE - 1));
        RETURNS(BEAMNETTLE_BUFFER_TOO_SHORT,
                with_cut(refused[i].verbs, refused[i].n, refused[i].positions, refused[i].floats, CUT_OUTLINE - 1));
    }
}

/* As many curves as an outline takes: a circle, most of whose curves are empty. */
static void most_curves(void) {
    enum { CURVES = 255, EMPTY = CURVES - 4 };
    static uint8_t verbs[CURVES + 1];
    static float positions[2 + 6 * CURVES];
    memset(verbs + 1, 2, CURVES);
    for (size_t i = 0; i < 2 + 6 * EMPTY; i++) positions[i] = CIRCLE[i % 2];
    memcpy(positions + 6 * EMPTY, CIRCLE, sizeof CIRCLE);
    const float disc[] = {1, 0, 0, 1, 0, 0, 1, 1, 1, 1}, strays = outside(CIRCLE, disc) * 1.1f;
    WRITES(outline(verbs, 256, positions, 2 + 6 * CURVES, OUTLINE), 1, 0, 0, 1, 0, 0, 1, 1, 1, 1, strays);
    WRITES(with_cut(verbs, 256, positions, 2 + 6 * CURVES, CUT_OUTLINE), 1, 0, 0, 1, 0, 0, 1, 1, 1, 1, strays);
}

static void transforming(void) {
    const float box[] = {2, 3, 5, 7, 11, 13, 47, 53, 41, 43}, frame[] = {17, 19, 23, 29, 31, 37};
    WRITES(beamnettle_transformed(box, BOX, frame, FRAME, out, BOX), 2 * 17 + 3 * 23, 2 * 19 + 3 * 29, 5 * 17 + 7 * 23,
           5 * 19 + 7 * 29, 11 * 17 + 13 * 23 + 31, 11 * 19 + 13 * 29 + 37, 47, 53, 41, 43);
    RETURNS(BEAMNETTLE_BUFFER_TOO_SHORT, beamnettle_transformed(box, BOX - 1, frame, FRAME, out, BOX));
    RETURNS(BEAMNETTLE_BUFFER_TOO_SHORT, beamnettle_transformed(box, BOX, frame, FRAME - 1, out, BOX));
    RETURNS(BEAMNETTLE_BUFFER_TOO_SHORT, beamnettle_transformed(box, BOX, frame, FRAME, out, BOX - 1));
    RETURNS(BEAMNETTLE_IMPROPER_BOX, beamnettle_transformed(IMPROPER, BOX, INFINITE, FRAME, out, BOX));
    RETURNS(BEAMNETTLE_NUMBER_OUT_OF_RANGE, beamnettle_transformed(box, BOX, INFINITE, FRAME, out, BOX));
}

static void sharing(void) {
    /* from (-3, -1) to (5, 5), and from (-2, 2) to (8, 6): from (-2, 2) to (5, 5) */
    const float one[] = {1, 0, 0, 1, 1, 2, 4, 3, 0, 0}, two[] = {1, 0, 0, 1, 3, 4, 5, 2, 0, 0};
    WRITES(beamnettle_intersection(one, BOX, two, BOX, 0, out, BOX), 1, 0, 0, 1, 1.5f, 3.5f, 3.5f, 1.5f, 0, 0);
    WRITES(beamnettle_rect_intersection(one, BOX, two, BOX, out, BOX), 1, 0, 0, 1, 1.5f, 3.5f, 3.5f, 1.5f, 0, 0);
    /* document 01: boxes that lie apart */
    const float here[] = {1, 0, 0, 1, 0, 0, 2, 1, 0, 0}, there[] = {1, 0, 0, 1, 10, 0, 1, 1, 0, 0};
    RETURNS(BEAMNETTLE_NONE, beamnettle_intersection(here, BOX, there, BOX, 1, out, BOX));
    WRITES(beamnettle_rect_intersection(here, BOX, there, BOX, out, BOX), 1, 0, 0, 1, 9, 0, 0, 1, 0, 0);
    /* a round box with itself: itself, where there is a fringe */
    const float round[] = {1, 0, 0, 1, 6, 7, 4, 5, 1, 2};
    WRITES(beamnettle_intersection(round, BOX, round, BOX, 0.25f, out, BOX), 1, 0, 0, 1, 6, 7, 4, 5, 1, 2);
    RETURNS(BEAMNETTLE_NONE, beamnettle_intersection(round, BOX, round, BOX, 0, out, BOX));
    RETURNS(BEAMNETTLE_NONE, beamnettle_rect_intersection(round, BOX, one, BOX, out, BOX));
    RETURNS(BEAMNETTLE_BUFFER_TOO_SHORT, beamnettle_intersection(one, BOX - 1, two, BOX, 1, out, BOX));
    RETURNS(BEAMNETTLE_BUFFER_TOO_SHORT, beamnettle_intersection(one, BOX, two, BOX - 1, 1, out, BOX));
    RETURNS(BEAMNETTLE_BUFFER_TOO_SHORT, beamnettle_intersection(one, BOX, two, BOX, 1, out, BOX - 1));
    RETURNS(BEAMNETTLE_IMPROPER_BOX, beamnettle_intersection(IMPROPER, BOX, INFINITE, BOX, INFINITY, out, BOX));
    RETURNS(BEAMNETTLE_NUMBER_OUT_OF_RANGE, beamnettle_intersection(one, BOX, two, BOX, INFINITY, out, BOX));
    RETURNS(BEAMNETTLE_BUFFER_TOO_SHORT, beamnettle_rect_intersection(one, BOX - 1, two, BOX, out, BOX));
    RETURNS(BEAMNETTLE_BUFFER_TOO_SHORT, beamnettle_rect_intersection(one, BOX, two, BOX - 1, out, BOX));
    RETURNS(BEAMNETTLE_BUFFER_TOO_SHORT, beamnettle_rect_intersection(one, BOX, two, BOX, out, BOX - 1));
    RETURNS(BEAMNETTLE_NUMBER_OUT_OF_RANGE, beamnettle_rect_intersection(INFINITE, BOX, IMPROPER, BOX, out, BOX));
}

static void covering(void) {
    /* back from TURNED: (px, py) goes to (py / 2 - 4, -px / 4 + 3 / 2); a fringe of a half is 1/4 and 1/8 there */
    WRITES(beamnettle_coverage(TURNED, BOX, 0.5f, out, COVERAGE), 0, 2, -2, 0, -16, 12, 12, 40, 4, 16, 0);
    /* document 01: radii of 0.4375 and 3 become 0, and a half extent of 0.4375 is too thin */
    const float tight[] = {1, 0, 0, 1, 0, 0, 4, 5, 0.4375f, 3}, thin[] = {1, 0, 0, 1, 0, 0, 0.4375f, 5, 0, 0};
    WRITES(beamnettle_coverage(tight, BOX, 1, out, COVERAGE), 1, -0.0f, -0.0f, 1, 0, 0, 4, 5, 0, 0, 0);
    RETURNS(BEAMNETTLE_NONE, beamnettle_coverage(thin, BOX, 1, out, COVERAGE));
    RETURNS(BEAMNETTLE_NONE, beamnettle_coverage(TURNED, BOX, 0, out, COVERAGE));
    /* thin by how its sides lie: 0.3 at a scale of 2 is 0.6, 0.9 at a scale of a half is 0.45 */
    const float doubled[] = {2, 0, 0, 2, 0, 0, 0.3f, 5, 0, 0}, halved[] = {0.5f, 0, 0, 0.5f, 0, 0, 0.9f, 5, 0, 0};
    CHECK(beamnettle_coverage(doubled, BOX, 1, out, COVERAGE) == BEAMNETTLE_DONE);
    RETURNS(BEAMNETTLE_NONE, beamnettle_coverage(halved, BOX, 1, out, COVERAGE));
    /* a small frame is taken back as the identity */
    const float small[] = {0.0005f, 0, 0, 0.0005f, 100, 50, 4000, 3000, 0, 0};
    WRITES(beamnettle_coverage(small, BOX, 1, out, COVERAGE), 1, 0, 0, 1, 0, 0, 4000, 3000, 0, 0, 0);
    RETURNS(BEAMNETTLE_BUFFER_TOO_SHORT, beamnettle_coverage(TURNED, BOX - 1, 1, out, COVERAGE));
    RETURNS(BEAMNETTLE_BUFFER_TOO_SHORT, beamnettle_coverage(TURNED, BOX, 1, out, COVERAGE - 1));
    RETURNS(BEAMNETTLE_IMPROPER_BOX, beamnettle_coverage(IMPROPER, BOX, INFINITY, out, COVERAGE));
    RETURNS(BEAMNETTLE_NUMBER_OUT_OF_RANGE, beamnettle_coverage(TURNED, BOX, -INFINITY, out, COVERAGE));

    WRITES(beamnettle_bounds(TURNED, BOX, out, BOUNDS), 6 - 4 * 5, 8 - 2 * 3, 6 + 4 * 5, 8 + 2 * 3);
    RETURNS(BEAMNETTLE_BUFFER_TOO_SHORT, beamnettle_bounds(TURNED, BOX - 1, out, BOUNDS));
    RETURNS(BEAMNETTLE_BUFFER_TOO_SHORT, beamnettle_bounds(TURNED, BOX, out, BOUNDS - 1));
    RETURNS(BEAMNETTLE_IMPROPER_BOX, beamnettle_bounds(IMPROPER, BOX, out, BOUNDS));
}

static void measuring(void) {
    /* (1, 2) at (3 + 8 + 6, 5 + 14 + 8) less the extents: 8 across, 17 along; the larger counts, then the other */
    const float along[] = {3, 4, 5, 7, 6, 8, 9, 10, 0, 0, 1}, across[] = {3, 4, 5, 7, 6, 8, 9, 20, 0, 0, 1};
    WRITES(beamnettle_distance(along, COVERAGE, 1, 2, out, 1), 17);
    WRITES(beamnettle_distance(across, COVERAGE, 1, 2, out, 1), 8);
    /* at a corner: (163, 15) at (34, 170), which is (8, 15) radii from the corner's centre; 17 radii, less 1 */
    const float corner[] = {0, 2, 1, 0, 4, 7, 20, 100, 2, 5, 9};
    WRITES(beamnettle_distance(corner, COVERAGE, 163, 15, out, 1), (17 - 1) * 17 / 5.0f);
    RETURNS(BEAMNETTLE_BUFFER_TOO_SHORT, beamnettle_distance(corner, COVERAGE - 1, 1, 2, out, 1));
    RETURNS(BEAMNETTLE_BUFFER_TOO_SHORT, beamnettle_distance(corner, COVERAGE, 1, 2, out, 0));
    RETURNS(BEAMNETTLE_NUMBER_OUT_OF_RANGE, beamnettle_distance(corner, COVERAGE, 1, INFINITY, out, 1));

    /* it holds x from -307 to 293 and y from -32 to 28 */
    const float around[] = {0, 2, 1, 0, 4, 7, 60, 300, 2, 5, 9};
    const float inside[] = {1, 0, 0, 1, 163, 15, 50, 5, 3, 4}, outside[] = {1, 0, 0, 1, 163, 15, 5, 50, 3, 4};
    CHECK(beamnettle_contains(around, COVERAGE, inside, BOX) == BEAMNETTLE_YES);
    CHECK(beamnettle_contains(around, COVERAGE, outside, BOX) == BEAMNETTLE_NO);
    CHECK(beamnettle_contains(around, COVERAGE - 1, inside, BOX) == BEAMNETTLE_BUFFER_TOO_SHORT);
    CHECK(beamnettle_contains(around, COVERAGE, inside, BOX - 1) == BEAMNETTLE_BUFFER_TOO_SHORT);
    CHECK(beamnettle_contains(around, COVERAGE, IMPROPER, BOX) == BEAMNETTLE_IMPROPER_BOX);
    CHECK(beamnettle_contains(around, COVERAGE, INFINITE, BOX) == BEAMNETTLE_NUMBER_OUT_OF_RANGE);

    const float leaning[] = {1, 1, -1, 1, 0, 0, 1, 1, 0, 0};
    CHECK(beamnettle_parallel(inside, BOX, TURNED, BOX) == BEAMNETTLE_YES);
    CHECK(beamnettle_parallel(inside, BOX, leaning, BOX) == BEAMNETTLE_NO);
    CHECK(beamnettle_parallel(inside, BOX - 1, TURNED, BOX) == BEAMNETTLE_BUFFER_TOO_SHORT);
    CHECK(beamnettle_parallel(inside, BOX, TURNED, BOX - 1) == BEAMNETTLE_BUFFER_TOO_SHORT);
    CHECK(beamnettle_parallel(IMPROPER, BOX, INFINITE, BOX) == BEAMNETTLE_IMPROPER_BOX);
    CHECK(beamnettle_parallel(INFINITE, BOX, IMPROPER, BOX) == BEAMNETTLE_NUMBER_OUT_OF_RANGE);
}

/* ---- scissors and fills */

/* AROUND holds TURNED, which lies from (-14, 2) to (26, 14), whole; LEFT lies from (-3, -1) to (5, 5), RIGHT
 * from (-2, 2) to (8, 6). */
static const float AROUND[LENT] = {1, 0, 0, 1, 6, 8, 30, 20, 0, 0};
static const float LEFT[] = {1, 0, 0, 1, 1, 2, 4, 3, 0, 0}, RIGHT[] = {1, 0, 0, 1, 3, 4, 5, 2, 0, 0};

/* The number for a clip and a scissor at a fringe, with so many floats lent of each, for the box and the coverage. */
static uint8_t with(const float *clip, const float *scissor, float fringe, size_t one, size_t two, size_t box,
                    size_t coverage) {
    return beamnettle_with_scissor(clip, one, scissor, two, fringe, out, box, also, coverage);
}

static void scissoring(void) {
    /* a box that the other holds whole: as it is where it is the clip, along the clip's axes where it is the scissor */
    WRITES_BOTH(with(TURNED, AROUND, 0.5f, BOX, BOX, BOX, COVERAGE), 0, 2, -4, 0, 6, 8, 3, 5, 1, 2,
                0, 2, -2, 0, -16, 12, 12, 40, 4, 16, 0);
    WRITES_BOTH(with(AROUND, TURNED, 0.5f, LENT, BOX, LENT, LENT), 1, 0, 0, 1, 6, 8, 4 * 5, 2 * 3, 4 * 2, 2 * 1,
                2, -0.0f, -0.0f, 2, -12, -16, 40, 12, 16, 4, 0);
    /* from (-2, 2) to (5, 5) */
    WRITES_BOTH(with(LEFT, RIGHT, 0.5f, BOX, BOX, BOX, COVERAGE), 1, 0, 0, 1, 1.5f, 3.5f, 3.5f, 1.5f, 0, 0,
                2, -0.0f, -0.0f, 2, -3, -7, 7, 3, 0, 0, 0);
    /* no coverage; two boxes that make none within a 64th of a fringe; two that lie apart */
    const float round[] = {1, 0, 0, 1, 0, 0, 8, 8, 2, 2}, sharp[] = {1, 0, 0, 1, 0, 0, 7.75f, 7.75f, 0, 0};
    const float there[] = {1, 0, 0, 1, 50, 0, 1, 1, 0, 0};
    RETURNS(BEAMNETTLE_NONE, with(LEFT, RIGHT, 0, BOX, BOX, BOX, COVERAGE));
    RETURNS(BEAMNETTLE_NONE, with(LEFT, RIGHT, 4, BOX, BOX, BOX, COVERAGE));
    RETURNS(BEAMNETTLE_NONE, with(round, sharp, 1, BOX, BOX, BOX, COVERAGE));
    RETURNS(BEAMNETTLE_NONE, with(LEFT, there, 1, BOX, BOX, BOX, COVERAGE));
    RETURNS(BEAMNETTLE_BUFFER_TOO_SHORT, with(IMPROPER, RIGHT, 1, BOX - 1, BOX, BOX, COVERAGE));
    RETURNS(BEAMNETTLE_BUFFER_TOO_SHORT, with(IMPROPER, RIGHT, 1, BOX, BOX - 1, BOX, COVERAGE));
    RETURNS(BEAMNETTLE_BUFFER_TOO_SHORT, with(IMPROPER, RIGHT, 1, BOX, BOX, BOX - 1, COVERAGE));
    RETURNS(BEAMNETTLE_BUFFER_TOO_SHORT, with(IMPROPER, RIGHT, 1, BOX, BOX, BOX, COVERAGE - 1));
    RETURNS(BEAMNETTLE_BUFFER_TOO_SHORT, with(LEFT, RIGHT, 1, BOX, BOX, COVERAGE, BOX));
    RETURNS(BEAMNETTLE_IMPROPER_BOX, with(IMPROPER, INFINITE, INFINITY, BOX, BOX, BOX, COVERAGE));
    RETURNS(BEAMNETTLE_NUMBER_OUT_OF_RANGE, with(INFINITE, IMPROPER, 1, BOX, BOX, BOX, COVERAGE));
    RETURNS(BEAMNETTLE_IMPROPER_BOX, with(LEFT, IMPROPER, INFINITY, BOX, BOX, BOX, COVERAGE));
    RETURNS(BEAMNETTLE_NUMBER_OUT_OF_RANGE, with(LEFT, RIGHT, INFINITY, BOX, BOX, BOX, COVERAGE));
}

static void trimming(void) {
    /* from (16, -2) to (24, 8), and a scissor from (8, -3) to (22, 15): its side at 22 cuts, the others move to two
     * fringes past the clip's */
    const float clip[] = {1, 0, 0, 1, 20, 3, 4, 5, 1, 2}, scissor[] = {1, 0, 0, 1, 15, 6, 7, 9, 0, 0};
    WRITES(beamnettle_trimmed_scissor(clip, BOX, scissor, BOX, 0.5f, out, BOX), 1, 0, 0, 1, 18.5f, 3, 3.5f, 6, 0, 0);
    /* a scissor from (-14, 2) to (26, 14) around from (-8, 0) to (12, 18): two sides move, to -9 and 13 */
    const float wide[] = {1, 0, 0, 1, 2, 9, 10, 9, 0, 0}, turned[] = {0, 2, -4, 0, 6, 8, 3, 5, 0, 0};
    WRITES(beamnettle_trimmed_scissor(wide, BOX, turned, BOX, 0.5f, out, BOX), 0, 2, -4, 0, 2, 8, 3, 11 / 4.0f, 0, 0);
    /* as it is where its corners are round; none where no side cuts */
    WRITES(beamnettle_trimmed_scissor(clip, BOX, TURNED, BOX, 1, out, BOX), 0, 2, -4, 0, 6, 8, 3, 5, 1, 2);
    RETURNS(BEAMNETTLE_NONE, beamnettle_trimmed_scissor(TURNED, BOX, AROUND, BOX, 0.5f, out, BOX));
    /* apart: a half extent below 0, which the next call refuses */
    const float here[] = {1, 0, 0, 1, 0, 0, 1, 1, 0, 0}, there[] = {1, 0, 0, 1, 10, 0, 1, 1, 0, 0};
    const float trim[] = {1, 0, 0, 1, 4, 0, -3, 3, 0, 0};
    WRITES(beamnettle_trimmed_scissor(there, BOX, here, BOX, 1, out, BOX), 1, 0, 0, 1, 4, 0, -3, 3, 0, 0);
    RETURNS(BEAMNETTLE_IMPROPER_BOX, beamnettle_coverage(trim, BOX, 1, out, COVERAGE));
    RETURNS(BEAMNETTLE_BUFFER_TOO_SHORT, beamnettle_trimmed_scissor(clip, BOX - 1, scissor, BOX, 1, out, BOX));
    RETURNS(BEAMNETTLE_BUFFER_TOO_SHORT, beamnettle_trimmed_scissor(clip, BOX, scissor, BOX - 1, 1, out, BOX));
    RETURNS(BEAMNETTLE_BUFFER_TOO_SHORT, beamnettle_trimmed_scissor(clip, BOX, scissor, BOX, 1, out, BOX - 1));
    RETURNS(BEAMNETTLE_IMPROPER_BOX, beamnettle_trimmed_scissor(IMPROPER, BOX, INFINITE, BOX, INFINITY, out, BOX));
    RETURNS(BEAMNETTLE_NUMBER_OUT_OF_RANGE, beamnettle_trimmed_scissor(INFINITE, BOX, IMPROPER, BOX, 1, out, BOX));
    RETURNS(BEAMNETTLE_IMPROPER_BOX, beamnettle_trimmed_scissor(clip, BOX, trim, BOX, INFINITY, out, BOX));
    RETURNS(BEAMNETTLE_NUMBER_OUT_OF_RANGE, beamnettle_trimmed_scissor(clip, BOX, scissor, BOX, INFINITY, out, BOX));
}

static void filling(void) {
    ANSWERS(BEAMNETTLE_SHARED, beamnettle_rect_fill(LEFT, BOX, RIGHT, BOX, 1, out, BOX), 1, 0, 0, 1, 1.5f, 3.5f, 3.5f,
            1.5f, 0, 0);
    /* a fringe of a half is 1/4 and 1/8 along TURNED */
    ANSWERS(BEAMNETTLE_COVERED, beamnettle_rect_fill(TURNED, BOX, AROUND, BOX, 0.5f, out, BOX), 0, 2, -4, 0, 6, 8,
            3.25f, 5.125f, 0, 0);
    ANSWERS(BEAMNETTLE_COVERED, beamnettle_rect_fill(TURNED, BOX, AROUND, BOX, 0, out, BOX), 0, 2, -4, 0, 6, 8, 3, 5, 0,
            0);
    /* a round clip that the fill does not cover, a square one without a coverage, one that is not upright */
    const float leaning[] = {1, 1, -1, 1, 0, 0, 1, 1, 0, 0};
    RETURNS(BEAMNETTLE_NONE, beamnettle_rect_fill(TURNED, BOX, LEFT, BOX, 1, out, BOX));
    RETURNS(BEAMNETTLE_NONE, beamnettle_rect_fill(LEFT, BOX, RIGHT, BOX, 0, out, BOX));
    RETURNS(BEAMNETTLE_NONE, beamnettle_rect_fill(leaning, BOX, leaning, BOX, 0.5f, out, BOX));
    RETURNS(BEAMNETTLE_BUFFER_TOO_SHORT, beamnettle_rect_fill(LEFT, BOX - 1, RIGHT, BOX, 1, out, BOX));
    RETURNS(BEAMNETTLE_BUFFER_TOO_SHORT, beamnettle_rect_fill(LEFT, BOX, RIGHT, BOX - 1, 1, out, BOX));
    RETURNS(BEAMNETTLE_BUFFER_TOO_SHORT, beamnettle_rect_fill(LEFT, BOX, RIGHT, BOX, 1, out, BOX - 1));
    RETURNS(BEAMNETTLE_IMPROPER_BOX, beamnettle_rect_fill(IMPROPER, BOX, INFINITE, BOX, INFINITY, out, BOX));
    RETURNS(BEAMNETTLE_NUMBER_OUT_OF_RANGE, beamnettle_rect_fill(INFINITE, BOX, IMPROPER, BOX, 1, out, BOX));
    RETURNS(BEAMNETTLE_IMPROPER_BOX, beamnettle_rect_fill(LEFT, BOX, IMPROPER, BOX, INFINITY, out, BOX));
    RETURNS(BEAMNETTLE_NUMBER_OUT_OF_RANGE, beamnettle_rect_fill(LEFT, BOX, RIGHT, BOX, INFINITY, out, BOX));
}

/* The number for an outline through a frame. */
static uint8_t upright(const uint8_t *verbs, size_t n, const float *positions, size_t floats, const float *frame) {
    return beamnettle_upright_rect(verbs, n, positions, floats, frame, FRAME, out, BOX);
}

static void filling_upright(void) {
    /* the rectangle from (3, 5) to (9, 9), taken to (-3 py + 5, 2 px + 1); no ninth verb */
    const uint8_t verbs[] = {0, 1, 1, 1, 5, 3, 4, 3, 3}, unknown[] = {6, 2};
    const uint8_t curve[] = {0, 2, 1, 1, 1, 3, 4, 5, 5, 6};
    const float stopped[] = {3, 5, 3, 5, 3, 5, 3, 5, 9, 5, 9, 9, 3, 9};
    const float corners[] = {3, 5, 9, 5, 9, 9, 3, 9}, far[] = {3, 5, 9, 5, 9, 9, 3, 1048577};
    const float quarter[] = {0, 2, -3, 0, 5, 1}, leaning[] = {1, 1, 0, 1, 0, 0}, endless[] = {0, 2, -3, 0, 5, INFINITY};
    static const uint8_t many[257];
    WRITES(upright(verbs, 5, corners, 8, quarter), 0, 2, -3, 0, -3 * 7 + 5, 2 * 6 + 1, 3, 2, 0, 0);
    WRITES(upright(verbs, 8, corners, 8, quarter), 0, 2, -3, 0, -3 * 7 + 5, 2 * 6 + 1, 3, 2, 0, 0);
    /* an empty curve at its start; round corners, a cut */
    WRITES(upright(curve, 5, stopped, 14, quarter), 0, 2, -3, 0, -3 * 7 + 5, 2 * 6 + 1, 3, 2, 0, 0);
    WRITES(upright(curve, 8, stopped, 14, quarter), 0, 2, -3, 0, -3 * 7 + 5, 2 * 6 + 1, 3, 2, 0, 0);
    RETURNS(BEAMNETTLE_NONE, upright(curve, 9, stopped, 14, quarter));
    RETURNS(BEAMNETTLE_NONE, upright(CIRCLE_VERBS, 5, CIRCLE, CIRCLE_FLOATS, quarter));
    RETURNS(BEAMNETTLE_NONE, upright(TAB_VERBS, 7, TAB_INSIDE, TAB_FLOATS, quarter));
    RETURNS(BEAMNETTLE_NONE, upright(verbs, 9, corners, 8, quarter));
    RETURNS(BEAMNETTLE_NONE, upright(verbs, 5, corners, 8, leaning));
    RETURNS(BEAMNETTLE_BUFFER_TOO_SHORT,
            beamnettle_upright_rect(many, 257, corners, 8, quarter, FRAME - 1, out, BOX));
    RETURNS(BEAMNETTLE_BUFFER_TOO_SHORT,
            beamnettle_upright_rect(many, 257, corners, 8, quarter, FRAME, out, BOX - 1));
    RETURNS(BEAMNETTLE_TOO_MANY_VERBS, upright(many, 257, corners, 8, endless));
    RETURNS(BEAMNETTLE_UNKNOWN_VERB, upright(curve, 10, corners, 8, endless));
    RETURNS(BEAMNETTLE_UNKNOWN_VERB, upright(unknown, 2, corners, 8, endless));
    RETURNS(BEAMNETTLE_POSITIONS_MISMATCH, upright(curve, 5, stopped, 13, endless));
    RETURNS(BEAMNETTLE_POSITIONS_MISMATCH, upright(verbs, 9, corners, 7, endless));
    RETURNS(BEAMNETTLE_NUMBER_OUT_OF_RANGE, upright(verbs, 5, far, 8, quarter));
    RETURNS(BEAMNETTLE_NUMBER_OUT_OF_RANGE, upright(verbs, 9, corners, 8, endless));
}

static void reaching(void) {
    /* (x, y) at (2 y + 4, x + 7): half a fringe out it is y from -12.25 to 8.25 and x from -107.5 to 93.5 */
    const float coverage[] = {0, 2, 1, 0, 4, 7, 20, 100, 2, 5, 9}, everywhere[COVERAGE] = {0};
    WRITES(beamnettle_reach(coverage, COVERAGE, out, BOUNDS), -107.5f, -12.25f, 93.5f, 8.25f);
    RETURNS(BEAMNETTLE_NONE, beamnettle_reach(everywhere, COVERAGE, out, BOUNDS));
    RETURNS(BEAMNETTLE_BUFFER_TOO_SHORT, beamnettle_reach(coverage, COVERAGE - 1, out, BOUNDS));
    RETURNS(BEAMNETTLE_BUFFER_TOO_SHORT, beamnettle_reach(coverage, COVERAGE, out, BOUNDS - 1));
}

/* The number for a coverage and bounds. */
static uint8_t held(const float *coverage, float least_x, float least_y, float most_x, float most_y) {
    const float bounds[] = {least_x, least_y, most_x, most_y};
    return beamnettle_holds(coverage, COVERAGE, bounds, BOUNDS);
}

static void holding(void) {
    /* each holds x from -307 to 293 and y from -32 to 28, a 64th of a fringe more */
    const float square[] = {0, 2, 1, 0, 4, 7, 60, 300, 0, 0, 9}, round[] = {0, 2, 1, 0, 4, 7, 60, 300, 2, 5, 0};
    const float straying[] = {0, 2, 1, 0, 4, 7, 60, 300, 2, 5, 9}, bounds[] = {0, 0, 1, 1};
    CHECK(held(square, -307, -32, 293, 28) == BEAMNETTLE_YES);
    CHECK(held(square, -307 - 1 / 64.0f, -32 - 1 / 128.0f, 293 + 1 / 64.0f, 28 + 1 / 128.0f) == BEAMNETTLE_YES);
    CHECK(held(square, -307 - 1 / 32.0f, -32, 293, 28) == BEAMNETTLE_NO);
    CHECK(held(square, -307, -32 - 1 / 64.0f, 293, 28) == BEAMNETTLE_NO);
    CHECK(held(square, -307, -32, 293 + 1 / 32.0f, 28) == BEAMNETTLE_NO);
    CHECK(held(square, -307, -32, 293, 28 + 1 / 64.0f) == BEAMNETTLE_NO);
    CHECK(held(square, 293, 28, -307, -32) == BEAMNETTLE_YES);
    CHECK(held(square, 400, 40, -400, -40) == BEAMNETTLE_YES);
    CHECK(held(square, -400, -40, 400, 40) == BEAMNETTLE_NO);
    CHECK(held(square, NAN, -32, 293, INFINITY) == BEAMNETTLE_NO);
    /* round corners hold what lies inside their centres, at (-302, -31) to (288, 27), and strays more */
    CHECK(held(round, -302, -31, 288, 27) == BEAMNETTLE_YES);
    CHECK(held(round, -307, -32, 293, 28) == BEAMNETTLE_NO);
    CHECK(held(straying, -307, -32, 293, 28) == BEAMNETTLE_YES);
    CHECK(beamnettle_holds(square, COVERAGE - 1, bounds, BOUNDS) == BEAMNETTLE_BUFFER_TOO_SHORT);
    CHECK(beamnettle_holds(square, COVERAGE, bounds, BOUNDS - 1) == BEAMNETTLE_BUFFER_TOO_SHORT);
}

/* ---- lists of boxes */

/* No proof speaks of where a struct's fields lie. So touch and inside, which take structs, are held to coverage,
 * distance and contains, which take the same ten floats as an array: at points on and about a box, and in safe areas
 * that lie about it. Any two of the floats exchanged would show: the array's answer changes at some point. */
enum { SIDE = 41, POINTS = SIDE * SIDE };
static const float SAMPLE[BOX] = {3, 1, -2, 4, 5, -7, 9, 8, 6, 2};
static const struct beamnettle_box SAMPLE_BOX = {
    .a = 3, .b = 1, .c = -2, .d = 4, .x = 5, .y = -7, .extent_x = 9, .extent_y = 8, .radius_x = 6, .radius_y = 2,
};
static const float FRINGE = 0.75f;

static float x_of(size_t point) { return 2.0f * (float)(point % SIDE) - 35.0f; }
static float y_of(size_t point) { return 2.0f * (float)(point / SIDE) - 46.0f; }

/* What touch is to answer at a point. */
static uint32_t by_distance(const float *box, size_t point) {
    float coverage[COVERAGE], distance;
    uint8_t number = beamnettle_coverage(box, BOX, FRINGE, coverage, COVERAGE);
    if (number == BEAMNETTLE_NONE) return BEAMNETTLE_NO_FRAME;
    if (number != BEAMNETTLE_DONE) return number;
    number = beamnettle_distance(coverage, COVERAGE, x_of(point), y_of(point), &distance, 1);
    if (number != BEAMNETTLE_DONE) return number;
    return distance <= 0.5f ? BEAMNETTLE_FIRST_PLACE : BEAMNETTLE_NO_FRAME;
}

/* A safe area little larger than the sample, whose centre lies an eighth as far off the sample's as a point lies off
 * the middle one. */
static void area_at(size_t point, float *safe) {
    const float area[BOX] = {1, 0, 0, 1, 5 + (x_of(point) - 5) / 8, -7 + (y_of(point) + 6) / 8, 41, 38.5f};
    memcpy(safe, area, sizeof area);
}

/* What inside is to answer there. */
static uint32_t by_contains(const float *box, size_t point) {
    float safe[BOX], coverage[COVERAGE];
    area_at(point, safe);
    uint8_t number = beamnettle_coverage(safe, BOX, FRINGE, coverage, COVERAGE);
    if (number != BEAMNETTLE_DONE) return number;
    number = beamnettle_contains(coverage, COVERAGE, box, BOX);
    return number == BEAMNETTLE_NO ? BEAMNETTLE_FIRST_PLACE : number;
}

/* Checks that any two floats exchanged change the answer at some point. */
static void shows(uint32_t (*answer)(const float *, size_t)) {
    for (size_t one = 0; one < BOX; one++)
        for (size_t two = one + 1; two < BOX; two++) {
            float box[BOX];
            size_t changed = 0;
            memcpy(box, SAMPLE, sizeof box);
            box[one] = SAMPLE[two];
            box[two] = SAMPLE[one];
            for (size_t point = 0; point < POINTS; point++) changed += answer(box, point) != answer(SAMPLE, point);
            CHECK(changed > 0);
        }
}

static void touching_as_an_array(void) {
    size_t same = 0;
    for (size_t point = 0; point < POINTS; point++)
        same += beamnettle_touch(&SAMPLE_BOX, 1, FRINGE, x_of(point), y_of(point)) == by_distance(SAMPLE, point);
    CHECK(same == POINTS);
    shows(by_distance);
}

/* Boxes side by side: places, and numbers in their order. */
static struct beamnettle_box boxes[BEAMNETTLE_MOST_BOXES + 1];

static void put_boxes(void) {
    for (size_t i = 0; i <= BEAMNETTLE_MOST_BOXES; i++)
        boxes[i] = (struct beamnettle_box){.a = 1, .d = 1, .x = 10.0f * (float)i, .y = 3, .extent_x = 2, .extent_y = 1};
}

static void touching(void) {
    put_boxes();
    CHECK(beamnettle_touch(boxes, 256, 1, 0, 3) == BEAMNETTLE_FIRST_PLACE);
    CHECK(beamnettle_touch(boxes, 256, 1, 2551, 3.5f) == BEAMNETTLE_FIRST_PLACE + 255);
    CHECK(beamnettle_touch(boxes, 255, 1, 2551, 3.5f) == BEAMNETTLE_NO_FRAME);
    CHECK(beamnettle_touch(boxes, 257, 1, 2560, 3) == BEAMNETTLE_FIRST_PLACE + 256);
    CHECK(beamnettle_touch(boxes, 4096, 1, 40951, 3.5f) == BEAMNETTLE_FIRST_PLACE + 4095);
    CHECK(beamnettle_touch(boxes, 4095, 1, 40951, 3.5f) == BEAMNETTLE_NO_FRAME);
    CHECK(beamnettle_touch(boxes, BEAMNETTLE_MOST_BOXES + 1, 1, 0, 3) == BEAMNETTLE_TOO_MANY_BOXES);
    /* half a fringe width past a side, and the next float; and the same past the sides that meet in a corner */
    CHECK(beamnettle_touch(boxes, 256, 1, 22.5f, 3) == BEAMNETTLE_FIRST_PLACE + 2);
    CHECK(beamnettle_touch(boxes, 256, 1, nextafterf(22.5f, 23), 3) == BEAMNETTLE_NO_FRAME);
    CHECK(beamnettle_touch(boxes, 256, 2, 23, 3) == BEAMNETTLE_FIRST_PLACE + 2);
    CHECK(beamnettle_touch(boxes, 256, 2, nextafterf(23, 24), 3) == BEAMNETTLE_NO_FRAME);
    CHECK(beamnettle_touch(boxes, 256, 1, 22.5f, 4.5f) == BEAMNETTLE_FIRST_PLACE + 2);
    /* of boxes in one another's way the lowest place */
    for (size_t i = 100; i < 256; i++) boxes[i].extent_x = 1000;
    CHECK(beamnettle_touch(boxes, 256, 1, 1500, 3) == BEAMNETTLE_FIRST_PLACE + 100);
    CHECK(beamnettle_touch(boxes, 256, 1, 2001, 3) == BEAMNETTLE_FIRST_PLACE + 101);
    CHECK(beamnettle_touch(boxes, 256, 1, 20, 3) == BEAMNETTLE_FIRST_PLACE + 2);
    /* a box at fault refuses the list, and more boxes than are taken before it */
    boxes[4095].radius_x = -1;
    CHECK(beamnettle_touch(boxes, BEAMNETTLE_MOST_BOXES, 1, 0, 3) == BEAMNETTLE_IMPROPER_BOX);
    CHECK(beamnettle_touch(boxes, BEAMNETTLE_MOST_BOXES + 1, 1, 0, 3) == BEAMNETTLE_TOO_MANY_BOXES);
    CHECK(beamnettle_touch(boxes, 4095, 1, 0, 3) == BEAMNETTLE_FIRST_PLACE);
    boxes[255].radius_x = -1;
    CHECK(beamnettle_touch(boxes, 256, 1, 1500, 3) == BEAMNETTLE_IMPROPER_BOX);
    CHECK(beamnettle_touch(boxes, 255, 1, 1500, 3) == BEAMNETTLE_FIRST_PLACE + 100);
    boxes[255].radius_x = 0;
    boxes[7].radius_y = 2;
    boxes[9].c = INFINITY;
    CHECK(beamnettle_touch(boxes, 256, INFINITY, 0, 3) == BEAMNETTLE_IMPROPER_BOX);
    CHECK(beamnettle_touch(boxes + 8, 248, INFINITY, 80, 3) == BEAMNETTLE_NUMBER_OUT_OF_RANGE);
    CHECK(beamnettle_touch(boxes, 7, INFINITY, 0, 3) == BEAMNETTLE_NUMBER_OUT_OF_RANGE);
    CHECK(beamnettle_touch(boxes, 7, 1, 0, 1048577) == BEAMNETTLE_NUMBER_OUT_OF_RANGE);
}

static void inside_as_an_array(void) {
    size_t same = 0, yes = 0;
    for (size_t point = 0; point < POINTS; point++) {
        float safe[BOX];
        area_at(point, safe);
        uint32_t number = beamnettle_inside(&SAMPLE_BOX, 1, safe, BOX, FRINGE);
        same += number == by_contains(SAMPLE, point);
        yes += number == BEAMNETTLE_YES;
    }
    CHECK(same == POINTS);
    CHECK(yes > 0 && yes < POINTS);
    shows(by_contains);
}

/* The first boxes in a safe area, of which so many floats are lent. Neither is changed, nor what lies behind. */
static uint32_t inside(size_t n, const float *safe, size_t length, float fringe) {
    static struct beamnettle_box kept[BEAMNETTLE_MOST_BOXES + 1];
    float area[BOX + 2] = {[BOX] = NAN, [BOX + 1] = 7}, same[BOX + 2];
    memcpy(kept, boxes, sizeof kept);
    memcpy(area, safe, BOX * sizeof *safe);
    memcpy(same, area, sizeof area);
    uint32_t number = beamnettle_inside(boxes, n, area, length, fringe);
    CHECK(memcmp(kept, boxes, sizeof kept) == 0);
    CHECK(memcmp(same, area, sizeof area) == 0);
    return number;
}

/* The first 4,096 boxes just fill this. */
static const float SAFE[BOX] = {1, 0, 0, 1, 20475, 3, 20477, 1};
/* Less than a fringe width across, and so without a coverage. */
static const float THIN[BOX] = {1, 0, 0, 1, 0, 3, 0.4375f, 4};

static void placing_inside(void) {
    put_boxes();
    CHECK(inside(0, SAFE, BOX, 1) == BEAMNETTLE_YES);
    CHECK(inside(1, SAFE, BOX, 1) == BEAMNETTLE_YES);
    CHECK(inside(BEAMNETTLE_MOST_BOXES, SAFE, BOX, 1) == BEAMNETTLE_YES);
    CHECK(inside(BEAMNETTLE_MOST_BOXES, SAFE, BOX + 2, 1) == BEAMNETTLE_YES);
    CHECK(inside(BEAMNETTLE_MOST_BOXES + 1, SAFE, BOX, 1) == BEAMNETTLE_TOO_MANY_BOXES);
    /* half a fringe width past the safe area, and one float further */
    boxes[4095].x = 40950.5f;
    CHECK(inside(4096, SAFE, BOX, 1) == BEAMNETTLE_YES);
    boxes[4095].x = nextafterf(40950.5f, 40951);
    CHECK(inside(4096, SAFE, BOX, 1) == BEAMNETTLE_FIRST_PLACE + 4095);
    CHECK(inside(4096, SAFE, BOX, 2) == BEAMNETTLE_YES);
    CHECK(inside(4095, SAFE, BOX, 1) == BEAMNETTLE_YES);
    /* of those outside the lowest place */
    boxes[2000].extent_y = 1.75f;
    CHECK(inside(4096, SAFE, BOX, 1) == BEAMNETTLE_FIRST_PLACE + 2000);
    CHECK(inside(2001, SAFE, BOX, 1) == BEAMNETTLE_FIRST_PLACE + 2000);
    CHECK(inside(2000, SAFE, BOX, 1) == BEAMNETTLE_YES);
    boxes[3].y = boxes[1].y = 4;
    CHECK(inside(4096, SAFE, BOX, 1) == BEAMNETTLE_FIRST_PLACE + 1);
    boxes[0].x = -1;
    CHECK(inside(4096, SAFE, BOX, 1) == BEAMNETTLE_FIRST_PLACE);
}

/* No coverage, whatever the list; and one of infinities, whose distances are NaN. */
static void hardly_covering(void) {
    put_boxes();
    boxes[0].x = -1;
    for (size_t n = 0; n < 2; n++) {
        CHECK(inside(n, THIN, BOX, 1) == BEAMNETTLE_NONE);
        CHECK(inside(n, SAFE, BOX, 0) == BEAMNETTLE_NONE);
        CHECK(inside(n, SAFE, BOX, -1) == BEAMNETTLE_NONE);
        CHECK(inside(4096 * n, THIN, BOX, 1) == BEAMNETTLE_NONE);
    }
    CHECK(inside(0, SAFE, BOX, 1e-45f) == BEAMNETTLE_YES);
    CHECK(inside(1, SAFE, BOX, 1e-45f) == BEAMNETTLE_FIRST_PLACE);
}

/* A square of these half extents in one of 4. */
static uint32_t squared(float extent, float fringe) {
    const float four[BOX] = {1, 0, 0, 1, 0, 0, 4, 4};
    boxes[0] = (struct beamnettle_box){.a = 1, .d = 1, .extent_x = extent, .extent_y = extent};
    return inside(1, four, BOX, fringe);
}

static void squares_inside(void) {
    static const float FRINGES[] = {1, 2, 0.25f};
    for (size_t i = 0; i < 3; i++) {
        const float fringe = FRINGES[i], half = 4 + fringe / 2;
        CHECK(squared(4, fringe) == BEAMNETTLE_YES);
        CHECK(squared(half, fringe) == BEAMNETTLE_YES);
        CHECK(squared(nextafterf(half, 0), fringe) == BEAMNETTLE_YES);
        CHECK(squared(nextafterf(half, 9), fringe) == BEAMNETTLE_FIRST_PLACE);
        CHECK(squared(4 + fringe, fringe) == BEAMNETTLE_FIRST_PLACE);
    }
}

/* Numbers in their order; every box is checked, whatever was found. */
static void refusing_inside(void) {
    put_boxes();
    CHECK(inside(1, SAFE, 0, 1) == BEAMNETTLE_BUFFER_TOO_SHORT);
    CHECK(inside(1, SAFE, BOX - 1, 1) == BEAMNETTLE_BUFFER_TOO_SHORT);
    CHECK(inside(4097, SAFE, BOX - 1, NAN) == BEAMNETTLE_BUFFER_TOO_SHORT);
    CHECK(inside(1, SAFE, BOX, NAN) == BEAMNETTLE_NUMBER_OUT_OF_RANGE);
    CHECK(inside(0, SAFE, BOX, INFINITY) == BEAMNETTLE_NUMBER_OUT_OF_RANGE);
    CHECK(inside(0, SAFE, BOX, 1048577) == BEAMNETTLE_NUMBER_OUT_OF_RANGE);
    CHECK(inside(1, THIN, BOX, NAN) == BEAMNETTLE_NUMBER_OUT_OF_RANGE);
    CHECK(inside(0, IMPROPER, BOX, 1) == BEAMNETTLE_IMPROPER_BOX);
    CHECK(inside(1, IMPROPER, BOX, NAN) == BEAMNETTLE_IMPROPER_BOX);
    CHECK(inside(1, INFINITE, BOX, 1) == BEAMNETTLE_NUMBER_OUT_OF_RANGE);
    CHECK(inside(4097, IMPROPER, BOX, NAN) == BEAMNETTLE_TOO_MANY_BOXES);
    /* the list's boxes before the safe area, and a box at fault behind one that is outside */
    boxes[0].y = 9;
    boxes[1].extent_y = -1;
    boxes[2].d = INFINITY;
    boxes[4095].radius_x = 3;
    CHECK(inside(1, SAFE, BOX, 1) == BEAMNETTLE_FIRST_PLACE);
    CHECK(inside(2, SAFE, BOX, 1) == BEAMNETTLE_IMPROPER_BOX);
    CHECK(inside(2, INFINITE, BOX, 1) == BEAMNETTLE_IMPROPER_BOX);
    CHECK(inside(2, THIN, BOX, NAN) == BEAMNETTLE_IMPROPER_BOX);
    boxes[1].extent_y = 1;
    CHECK(inside(3, SAFE, BOX, 1) == BEAMNETTLE_NUMBER_OUT_OF_RANGE);
    CHECK(inside(3, IMPROPER, BOX, 1) == BEAMNETTLE_NUMBER_OUT_OF_RANGE);
    CHECK(inside(3, THIN, BOX, 0) == BEAMNETTLE_NUMBER_OUT_OF_RANGE);
    boxes[2].d = 1;
    CHECK(inside(4095, SAFE, BOX, 1) == BEAMNETTLE_FIRST_PLACE);
    CHECK(inside(4096, SAFE, BOX, 1) == BEAMNETTLE_IMPROPER_BOX);
    for (size_t i = 0; i < 4097; i++) boxes[i].a = NAN;
    CHECK(inside(4096, SAFE, BOX, 1) == BEAMNETTLE_NUMBER_OUT_OF_RANGE);
    CHECK(inside(4097, SAFE, BOX, 1) == BEAMNETTLE_TOO_MANY_BOXES);
}

/* ---- a length of 0 with no address, as of an empty vector */
static void nothing(void) {
    uint64_t counters[] = {5, 6};
    CHECK(beamnettle_draw(NULL, 0, NULL, 0, 0, 0, 1, 2, NULL, 0, NULL, 0, counters, 1) == BEAMNETTLE_DONE);
    CHECK(counters[0] == 0 && counters[1] == 6);
    CHECK(beamnettle_draw(NULL, 0, NULL, 0, 0, 0, 1, 2, NULL, 0, NULL, 0, NULL, 0) == BEAMNETTLE_BUFFER_TOO_SHORT);
    CHECK(beamnettle_draw(NULL, 0, NULL, 0, 0, 1, 1, 2, NULL, 0, NULL, 0, counters, 2) == BEAMNETTLE_BUFFER_TOO_SHORT);
    CHECK(counters[1] == 6);
    CHECK(beamnettle_lay(NULL, 0, NULL, 0, 7, 0, NULL, 0, 5, 0, 3, 2) == BEAMNETTLE_DONE);
    CHECK(beamnettle_lay(NULL, 0, NULL, 0, 0, 7, NULL, 0, 5, 0, 3, 2) == BEAMNETTLE_BUFFER_TOO_SHORT);
    CHECK(beamnettle_lay_placed(NULL, 0, NULL, 0, 7, 0, 1, 2, NULL, 0, 5, 0, 3, 4) == BEAMNETTLE_DONE);
    CHECK(beamnettle_lay_placed(NULL, 0, NULL, 0, 0, 7, 1, 2, NULL, 0, 5, 0, 3, 4) == BEAMNETTLE_BUFFER_TOO_SHORT);
    CHECK(beamnettle_lay_placed(NULL, 0, NULL, 0, 0, 7, 1, 2, NULL, 0, 5, 0, 3, FAR + 1) ==
          BEAMNETTLE_CORNER_OUT_OF_RANGE);
    CHECK(beamnettle_lay_placed(NULL, 0, NULL, 0, 1, 1, 1, 2, NULL, 0, 0, 0, 3, 4) == BEAMNETTLE_BUFFER_TOO_SHORT);
    CHECK(beamnettle_lay_placed(NULL, 0, NULL, 0, 0, 0, 1, 2, NULL, 0, 1, 1, 3, 4) == BEAMNETTLE_BUFFER_TOO_SHORT);
    CHECK(beamnettle_write_pgm(NULL, 0, 0, 0, NULL, 0) == BEAMNETTLE_NOT_PGM);
    CHECK(beamnettle_write_pgm(NULL, 0, 1, 1, NULL, 0) == BEAMNETTLE_BUFFER_TOO_SHORT);
    CHECK(beamnettle_write_pgm(CELLS, 1, 1, 1, NULL, 0) == BEAMNETTLE_BUFFER_TOO_SHORT);
    CHECK(beamnettle_read_pgm(NULL, 0, NULL, 0, NULL, 0, NULL, 0, NULL, 0) == BEAMNETTLE_NOT_PGM);
    CHECK(beamnettle_read_pgm(PICTURE, PICTURE_LENGTH, NULL, 0, NULL, 0, NULL, 0, NULL, 0) ==
          BEAMNETTLE_BUFFER_TOO_SHORT);
    RETURNS(BEAMNETTLE_NONE, beamnettle_fit(NULL, 0, NULL, 0, out, BOX));
    CHECK(beamnettle_fit(NULL, 0, NULL, 0, NULL, 0) == BEAMNETTLE_BUFFER_TOO_SHORT);
    RETURNS(BEAMNETTLE_NONE, beamnettle_fit_outline(NULL, 0, NULL, 0, out, OUTLINE));
    CHECK(beamnettle_fit_outline(NULL, 0, NULL, 0, NULL, 0) == BEAMNETTLE_BUFFER_TOO_SHORT);
    RETURNS(BEAMNETTLE_NONE, beamnettle_fit_with_cut(NULL, 0, NULL, 0, out, CUT_OUTLINE));
    CHECK(beamnettle_fit_with_cut(NULL, 0, NULL, 0, NULL, 0) == BEAMNETTLE_BUFFER_TOO_SHORT);
    CHECK(beamnettle_fit_with_cut(TAB_VERBS, 7, TAB_INSIDE, TAB_FLOATS, NULL, 0) == BEAMNETTLE_BUFFER_TOO_SHORT);
    CHECK(beamnettle_transformed(NULL, 0, NULL, 0, NULL, 0) == BEAMNETTLE_BUFFER_TOO_SHORT);
    CHECK(beamnettle_intersection(NULL, 0, NULL, 0, 1, NULL, 0) == BEAMNETTLE_BUFFER_TOO_SHORT);
    CHECK(beamnettle_rect_intersection(NULL, 0, NULL, 0, NULL, 0) == BEAMNETTLE_BUFFER_TOO_SHORT);
    CHECK(beamnettle_coverage(NULL, 0, 1, NULL, 0) == BEAMNETTLE_BUFFER_TOO_SHORT);
    CHECK(beamnettle_bounds(NULL, 0, NULL, 0) == BEAMNETTLE_BUFFER_TOO_SHORT);
    CHECK(beamnettle_distance(NULL, 0, 1, 2, NULL, 0) == BEAMNETTLE_BUFFER_TOO_SHORT);
    CHECK(beamnettle_parallel(NULL, 0, NULL, 0) == BEAMNETTLE_BUFFER_TOO_SHORT);
    CHECK(beamnettle_contains(NULL, 0, NULL, 0) == BEAMNETTLE_BUFFER_TOO_SHORT);
    CHECK(beamnettle_touch(NULL, 0, 1, 2, 3) == BEAMNETTLE_NO_FRAME);
    CHECK(beamnettle_inside(NULL, 0, SAFE, BOX, 1) == BEAMNETTLE_YES);
    CHECK(beamnettle_inside(NULL, 0, THIN, BOX, 1) == BEAMNETTLE_NONE);
    CHECK(beamnettle_inside(NULL, 0, NULL, 0, 1) == BEAMNETTLE_BUFFER_TOO_SHORT);
    CHECK(beamnettle_with_scissor(NULL, 0, NULL, 0, 1, NULL, 0, NULL, 0) == BEAMNETTLE_BUFFER_TOO_SHORT);
    CHECK(beamnettle_trimmed_scissor(NULL, 0, NULL, 0, 1, NULL, 0) == BEAMNETTLE_BUFFER_TOO_SHORT);
    CHECK(beamnettle_rect_fill(NULL, 0, NULL, 0, 1, NULL, 0) == BEAMNETTLE_BUFFER_TOO_SHORT);
    RETURNS(BEAMNETTLE_NONE, beamnettle_upright_rect(NULL, 0, NULL, 0, TURNED, FRAME, out, BOX));
    CHECK(beamnettle_upright_rect(NULL, 0, NULL, 0, NULL, 0, NULL, 0) == BEAMNETTLE_BUFFER_TOO_SHORT);
    CHECK(beamnettle_reach(NULL, 0, NULL, 0) == BEAMNETTLE_BUFFER_TOO_SHORT);
    CHECK(beamnettle_holds(NULL, 0, NULL, 0) == BEAMNETTLE_BUFFER_TOO_SHORT);
}

int main(void) {
    drawing_at_corners();
    laying();
    laying_placed();
    refusing_placed();
    writing_pgm();
    reading_pgm();
    refusing_pgm();
    inking_rows();
    inking_drawings();
    inking_layings();
    inking_no_columns();
    fitting();
    rounding();
    cutting();
    refusing_outlines();
    most_curves();
    transforming();
    sharing();
    covering();
    measuring();
    scissoring();
    trimming();
    filling();
    filling_upright();
    reaching();
    holding();
    touching_as_an_array();
    touching();
    inside_as_an_array();
    placing_inside();
    hardly_covering();
    squares_inside();
    refusing_inside();
    nothing();
    printf("%u checks of the header, %u failed\n", checks, failed);
    return failed > 0;
}
