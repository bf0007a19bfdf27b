/* The hulls of many sets: each is that of a call for it alone, in its part of the buffers, whatever the others are told. */
#include "qconvex.h"
#include <stdbool.h>
#include <stdio.h>
#include <stdlib.h>
#include <string.h>

enum { SETS = 300, MOST = 40, UNTOUCHED = 99, SPARE = 5 };

static qconvex_point points[SETS * MOST];
static size_t starts[SETS + 1];
static qconvex_answer answers[SETS + SPARE], blank_answer;
static uint32_t extremes[SETS * MOST + SPARE], corners[6 * SETS * MOST + 4 * SETS + SPARE];
static size_t offsets[2 * SETS * MOST + 2 * SETS + SPARE];
static int wrong = 0;

static void expect(bool holds, const char *what) {
    if (!holds && wrong++ < 10) printf("WRONG: %s\n", what);
}

/* Sets of all dimensions, empty ones and such as are out of range among them. Returns how many points they have. */
static size_t make_sets(void) {
    size_t count = 0;
    srand(11);
    for (size_t set = 0; set < SETS; set++) {
        size_t size = rand() % MOST;
        int reach = rand() % 3 ? 3 : 1000000, dimension = rand() % 4;
        for (size_t k = 0; k < size; k++) {
            int x = rand() % (2 * reach + 1) - reach, y = rand() % (2 * reach + 1) - reach, z = rand() % (2 * reach + 1) - reach;
            points[count + k] = (qconvex_point){dimension > 0 ? x : 7, dimension > 1 ? y : x, dimension > 2 ? z : x + y};
            if (dimension == 0) points[count + k] = points[count];
        }
        if (set % 37 == 5 && size) points[count + size - 1].y = QCONVEX_COORDINATE_LIMIT + 1;
        starts[set] = count;
        count += size;
    }
    starts[SETS] = count;
    return count;
}

static void blank(void) {
    memset(&blank_answer, 0x55, sizeof blank_answer);
    for (size_t k = 0; k < sizeof answers / sizeof *answers; k++) answers[k] = blank_answer;
    for (size_t k = 0; k < sizeof extremes / sizeof *extremes; k++) extremes[k] = UNTOUCHED;
    for (size_t k = 0; k < sizeof offsets / sizeof *offsets; k++) offsets[k] = UNTOUCHED;
    for (size_t k = 0; k < sizeof corners / sizeof *corners; k++) corners[k] = UNTOUCHED;
}

/* Whether all of the answers and the buffers are blank, each from an index on. */
static bool is_blank(size_t answers_from, size_t extremes_from, size_t offsets_from, size_t corners_from) {
    bool kept = true;
    for (size_t k = answers_from; k < sizeof answers / sizeof *answers; k++)
        kept = kept && memcmp(&answers[k], &blank_answer, sizeof blank_answer) == 0;
    for (size_t k = extremes_from; k < sizeof extremes / sizeof *extremes; k++) kept = kept && extremes[k] == UNTOUCHED;
    for (size_t k = offsets_from; k < sizeof offsets / sizeof *offsets; k++) kept = kept && offsets[k] == UNTOUCHED;
    for (size_t k = corners_from; k < sizeof corners / sizeof *corners; k++) kept = kept && corners[k] == UNTOUCHED;
    return kept;
}

/* The parts of a set are what a call for it alone makes of parts that were blank. */
static void set_is_right(size_t set, long *refused) {
    size_t size = starts[set + 1] - starts[set];
    uint32_t extremes_alone[MOST], corners_alone[6 * MOST + 4];
    size_t offsets_alone[2 * MOST + 2];
    qconvex_sizes sizes;
    memset(&sizes, 0, sizeof sizes);
    for (size_t k = 0; k < MOST; k++) extremes_alone[k] = UNTOUCHED;
    for (size_t k = 0; k < 2 * MOST + 2; k++) offsets_alone[k] = UNTOUCHED;
    for (size_t k = 0; k < 6 * MOST + 4; k++) corners_alone[k] = UNTOUCHED;
    uint32_t code = qconvex_hull(points + starts[set], size, &sizes, extremes_alone, size, offsets_alone, 2 * size + 2,
                                 corners_alone, 6 * size + 4);
    const qconvex_sizes *told = &answers[set].sizes;
    expect(answers[set].code == code, "the code of a set");
    expect(told->points == sizes.points && told->distinct == sizes.distinct && told->dimension == sizes.dimension &&
               told->extremes == sizes.extremes && told->faces == sizes.faces && told->corners == sizes.corners &&
               told->edges == sizes.edges,
           "the sizes of a set");
    expect(memcmp(extremes + starts[set], extremes_alone, size * sizeof *extremes) == 0, "the extreme points of a set");
    expect(memcmp(offsets + 2 * starts[set] + 2 * set, offsets_alone, (2 * size + 2) * sizeof *offsets) == 0, "the offsets of a set");
    expect(memcmp(corners + 6 * starts[set] + 4 * set, corners_alone, (6 * size + 4) * sizeof *corners) == 0, "the corners of a set");
    *refused += code != QCONVEX_DONE;
}

static uint32_t call(size_t point_count, size_t start_count, size_t rooms[4]) {
    return qconvex_hulls(points, point_count, starts, start_count, answers, rooms[0], extremes, rooms[1], offsets, rooms[2], corners,
                         rooms[3]);
}

int main(void) {
    size_t count = make_sets();
    size_t enough[4] = {SETS, count, 2 * count + 2 * SETS, 6 * count + 4 * SETS};
    long refused = 0;
    blank();
    for (size_t k = 0; k < 4; k++) {
        enough[k]--;
        expect(call(count, SETS + 1, enough) == QCONVEX_ROOM && is_blank(0, 0, 0, 0), "a room that is one too short");
        enough[k]++;
    }
    expect(call(count, 0, enough) == QCONVEX_STARTS && is_blank(0, 0, 0, 0), "no start");
    expect(call(count - 1, SETS + 1, enough) == QCONVEX_STARTS && is_blank(0, 0, 0, 0), "a start beyond the points");
    starts[7] = starts[8] + 1;
    expect(call(count, SETS + 1, enough) == QCONVEX_STARTS && is_blank(0, 0, 0, 0), "starts that fall");
    make_sets();
    expect(call(count, SETS + 1, enough) == QCONVEX_DONE, "all sets");
    for (size_t set = 0; set < SETS; set++) set_is_right(set, &refused);
    expect(is_blank(SETS, count, 2 * count + 2 * SETS, 6 * count + 4 * SETS), "what stands behind the parts");
    expect(refused > 8 && refused < SETS / 4, "some sets are refused");
    blank();
    size_t nothing[4] = {0, 0, 0, 0};
    expect(call(count, 1, nothing) == QCONVEX_DONE && is_blank(0, 0, 0, 0), "no set");
    printf(wrong ? "%d things about many sets are wrong\n" : "%d sets in one call are right\n", wrong ? wrong : SETS);
    return wrong != 0;
}
