/* Each answer of the library, and what it leaves alone. The expected lists are those of a cube in Geomview's OFF. */
#include "qconvex.h"
#include <stdbool.h>
#include <stdio.h>
#include <stdlib.h>
#include <string.h>

enum { EXTREMES = 9, OFFSETS = 8, CORNERS = 25, UNTOUCHED = 99 };

static const qconvex_point cube[9] = {{0, 0, 0}, {0, 0, 1}, {0, 1, 0}, {0, 1, 1}, {1, 0, 0},
                                      {1, 0, 1}, {1, 1, 0}, {1, 1, 1}, {0, 0, 0}};
static uint32_t extremes[EXTREMES], corners[CORNERS];
static size_t offsets[OFFSETS];
static qconvex_sizes sizes;
static int wrong = 0;

static void expect(bool holds, const char *what) {
    if (!holds) {
        wrong++;
        printf("WRONG: %s\n", what);
    }
}

/* Sets everything to a value that no answer has. */
static void blank(void) {
    for (size_t k = 0; k < EXTREMES; k++) extremes[k] = UNTOUCHED;
    for (size_t k = 0; k < OFFSETS; k++) offsets[k] = UNTOUCHED;
    for (size_t k = 0; k < CORNERS; k++) corners[k] = UNTOUCHED;
    memset(&sizes, 0, sizeof sizes);
    sizes.dimension = UNTOUCHED;
}

static bool buffers_kept(void) {
    bool kept = true;
    for (size_t k = 0; k < EXTREMES; k++) kept = kept && extremes[k] == UNTOUCHED;
    for (size_t k = 0; k < OFFSETS; k++) kept = kept && offsets[k] == UNTOUCHED;
    for (size_t k = 0; k < CORNERS; k++) kept = kept && corners[k] == UNTOUCHED;
    return kept;
}

static uint32_t hull(const qconvex_point *points, size_t count, size_t extremes_room, size_t offsets_room, size_t corners_room) {
    blank();
    return qconvex_hull(points, count, &sizes, extremes, extremes_room, offsets, offsets_room, corners, corners_room);
}

static void cube_is_done(void) {
    static const uint32_t faces[24] = {0, 1, 3, 2, 0, 2, 6, 4, 0, 4, 5, 1, 1, 5, 7, 3, 2, 3, 7, 6, 4, 6, 7, 5};
    expect(hull(cube, 9, EXTREMES, OFFSETS, CORNERS) == QCONVEX_DONE, "the cube is done");
    expect(sizes.points == 9 && sizes.distinct == 8 && sizes.dimension == 3, "points and dimension of the cube");
    expect(sizes.extremes == 8 && sizes.faces == 6 && sizes.corners == 24 && sizes.edges == 12, "sizes of the cube");
    for (size_t k = 0; k < 8; k++) expect(extremes[k] == k, "extreme points of the cube");
    for (size_t k = 0; k < 7; k++) expect(offsets[k] == 4 * k, "offsets of the cube");
    expect(memcmp(corners, faces, sizeof faces) == 0, "corners of the cube");
    expect(extremes[8] == UNTOUCHED && offsets[7] == UNTOUCHED && corners[24] == UNTOUCHED, "what stands behind the hull");
}

static void short_buffers_are_refused(void) {
    static const size_t rooms[3][3] = {{7, 7, 24}, {8, 6, 24}, {8, 7, 23}};
    for (size_t row = 0; row < 3; row++) {
        expect(hull(cube, 9, rooms[row][0], rooms[row][1], rooms[row][2]) == QCONVEX_ROOM, "a buffer is too short");
        expect(sizes.extremes == 8 && sizes.faces == 6 && sizes.corners == 24, "the sizes that are wanted");
        expect(buffers_kept(), "buffers after QCONVEX_ROOM");
    }
    expect(hull(cube, 9, 8, 7, 24) == QCONVEX_DONE, "buffers that are just long enough");
}

static void bad_points_are_refused(void) {
    static const qconvex_point far[3] = {{0, 0, 0}, {0, -1073741825, 0}, {1, 1, 1}};
    static const qconvex_point ends[2] = {{-1073741824, 1073741824, 0}, {1073741824, 0, -1073741824}};
    static const qconvex_point least[1] = {{0, 0, INT32_MIN}};
    qconvex_point *many = calloc(QCONVEX_POINT_LIMIT + 1, sizeof *many);
    if (!many) {
        expect(false, "memory for one point too many");
        return;
    }
    expect(hull(cube, 0, EXTREMES, OFFSETS, CORNERS) == QCONVEX_NO_POINT, "no point");
    expect(buffers_kept() && sizes.dimension == UNTOUCHED, "buffers after QCONVEX_NO_POINT");
    expect(hull(many, QCONVEX_POINT_LIMIT + 1, EXTREMES, OFFSETS, CORNERS) == QCONVEX_TOO_MANY, "one point too many");
    expect(buffers_kept() && sizes.dimension == UNTOUCHED, "buffers after QCONVEX_TOO_MANY");
    expect(hull(many, QCONVEX_POINT_LIMIT, EXTREMES, OFFSETS, CORNERS) == QCONVEX_DONE, "as many points as may be");
    expect(sizes.distinct == 1 && sizes.dimension == 0 && sizes.faces == 1, "points that are all one");
    expect(hull(far, 3, EXTREMES, OFFSETS, CORNERS) == QCONVEX_RANGE, "a coordinate out of range");
    expect(buffers_kept() && sizes.dimension == UNTOUCHED, "buffers after QCONVEX_RANGE");
    expect(hull(least, 1, EXTREMES, OFFSETS, CORNERS) == QCONVEX_RANGE, "the least coordinate that C has");
    expect(hull(ends, 2, EXTREMES, OFFSETS, CORNERS) == QCONVEX_DONE, "coordinates at the limit");
    expect(sizes.dimension == 1 && corners[0] == 0 && corners[1] == 1, "a segment");
    free(many);
}

static void fans_of_a_cube(void) {
    enum { ROOM = 36 };
    static uint32_t triangles[ROOM + 1];
    static int64_t normals[ROOM + 1];
    size_t count = UNTOUCHED;
    for (size_t k = 0; k <= ROOM; k++) triangles[k] = normals[k] = UNTOUCHED;
    expect(qconvex_fans(cube, 9, &count, triangles, ROOM - 1, normals, ROOM) == QCONVEX_ROOM && count == 12, "room for corners");
    count = UNTOUCHED;
    expect(qconvex_fans(cube, 9, &count, triangles, ROOM, normals, ROOM - 1) == QCONVEX_ROOM && count == 12, "room for normals");
    for (size_t k = 0; k <= ROOM; k++) expect(triangles[k] == UNTOUCHED && normals[k] == UNTOUCHED, "buffers of fans are kept");
    count = UNTOUCHED;
    expect(qconvex_fans(cube, 0, &count, triangles, ROOM, normals, ROOM) == QCONVEX_NO_POINT && count == UNTOUCHED, "no point");
    expect(qconvex_fans(cube, 9, &count, triangles, ROOM + 1, normals, ROOM + 1) == QCONVEX_DONE && count == 12, "fans of the cube");
    static const uint32_t first[6] = {0, 1, 3, 0, 3, 2}, last[6] = {4, 6, 7, 4, 7, 5};
    static const int64_t left[6] = {-1, 0, 0, -1, 0, 0}, right[6] = {1, 0, 0, 1, 0, 0};
    expect(memcmp(triangles, first, sizeof first) == 0 && memcmp(triangles + 30, last, sizeof last) == 0, "triangles of the cube");
    expect(memcmp(normals, left, sizeof left) == 0 && memcmp(normals + 30, right, sizeof right) == 0, "normals of the cube");
    expect(triangles[ROOM] == UNTOUCHED && normals[ROOM] == UNTOUCHED, "what stands behind the fans");
}

static void longest_normal(void) {
    static const int32_t end = QCONVEX_COORDINATE_LIMIT;
    const qconvex_point square[4] = {{-end, -end, end}, {end, -end, end}, {end, end, end}, {-end, end, end}};
    uint32_t triangles[6] = {0};
    int64_t normals[6] = {0};
    size_t count = 0;
    expect(qconvex_fans(square, 4, &count, triangles, 6, normals, 6) == QCONVEX_DONE && count == 2, "a square at the limit");
    expect(normals[2] == (int64_t)1 << 62 && normals[5] == (int64_t)1 << 62, "the longest normal");
    expect(qconvex_fans(square, 2, &count, triangles, 6, normals, 6) == QCONVEX_DONE && count == 0, "a segment has no triangles");
}

static void volumes(void) {
    static const int32_t end = QCONVEX_COORDINATE_LIMIT;
    const qconvex_point corner[4] = {{-end, -end, -end}, {end, -end, -end}, {-end, end, -end}, {-end, -end, end}};
    static const uint32_t outward[13] = {0, 2, 1, 0, 1, 3, 0, 3, 2, 1, 2, 3, 9}, beyond[3] = {0, 1, 9};
    qconvex_wide volume = {UNTOUCHED, UNTOUCHED};
    expect(qconvex_six_volumes(cube, 0, outward, 12, &volume) == QCONVEX_NO_POINT && volume.low == UNTOUCHED, "volume of no point");
    expect(qconvex_six_volumes(cube, 9, beyond, 3, &volume) == QCONVEX_RANGE && volume.low == UNTOUCHED, "a corner beyond the points");
    expect(qconvex_six_volumes(corner, 4, outward, 12, &volume) == QCONVEX_DONE, "the largest corner");
    expect(volume.low == 0 && volume.high == (uint64_t)1 << 29, "six volumes of 2^93");
    static const uint32_t inward[12] = {0, 1, 2, 0, 3, 1, 0, 2, 3, 1, 3, 2};
    expect(qconvex_six_volumes(corner, 4, inward, 12, &volume) == QCONVEX_DONE, "the same, inside out");
    expect(volume.low == 0 && volume.high == (uint64_t)-1 - ((uint64_t)1 << 29) + 1, "less than nothing");
    expect(qconvex_six_volumes(corner, 4, outward, 2, &volume) == QCONVEX_DONE && volume.low == 0 && volume.high == 0, "no triangle");
    uint32_t triangles[36];
    int64_t normals[36];
    size_t count;
    expect(qconvex_fans(cube, 9, &count, triangles, 36, normals, 36) == QCONVEX_DONE, "triangles of the cube");
    expect(qconvex_six_volumes(cube, 9, triangles, 3 * count, &volume) == QCONVEX_DONE && volume.low == 6 && volume.high == 0, "a cube");
}

static void neighbours(void) {
    enum { MANY = 2 * QCONVEX_POINT_LIMIT };
    static const uint32_t outward[13] = {0, 2, 1, 0, 1, 3, 0, 3, 2, 1, 2, 3, 9}, wanted[13] = {3, 1, 2, 3, 2, 0, 3, 0, 1, 2, 1, 0, UNTOUCHED};
    static const uint32_t doubled[9] = {0, 1, 2, 1, 0, 3, 1, 0, 4}, beyond[3] = {0, 1, QCONVEX_POINT_LIMIT};
    uint32_t found[13], *many = calloc(3 * MANY + 3, sizeof *many);
    for (size_t k = 0; k < 13; k++) found[k] = UNTOUCHED;
    expect(qconvex_neighbors(beyond, 3, found, 13) == QCONVEX_RANGE && found[0] == UNTOUCHED, "a corner beyond all points");
    expect(qconvex_neighbors(outward, 12, found, 11) == QCONVEX_ROOM && found[0] == UNTOUCHED, "room for neighbours");
    expect(qconvex_neighbors(outward, 13, found, 13) == QCONVEX_DONE && memcmp(found, wanted, sizeof wanted) == 0, "a tetrahedron");
    expect(qconvex_neighbors(outward, 2, found, 0) == QCONVEX_DONE, "no triangle");
    expect(qconvex_neighbors(doubled, 9, found, 9) == QCONVEX_DONE && found[2] == 1 && found[5] == 0 && found[8] == 0, "a side that three share");
    expect(found[0] == QCONVEX_NONE && found[1] == QCONVEX_NONE, "sides of one triangle alone");
    if (many) {
        expect(qconvex_neighbors(many, 3 * MANY + 3, found, 13) == QCONVEX_TOO_MANY, "a triangle too many");
        free(many);
    }
}

static void version_is_that_of_the_header(void) {
    int major, minor, patch;
    expect(sscanf(QCONVEX_VERSION, "%d.%d.%d", &major, &minor, &patch) == 3, "the header's version has three numbers");
    expect(10000 * major + 100 * minor + patch == QCONVEX_VERSION_NUMBER, "the header's version as one number");
    expect(qconvex_version() == QCONVEX_VERSION_NUMBER, "the library has the version of the header");
}

int main(void) {
    version_is_that_of_the_header();
    cube_is_done();
    fans_of_a_cube();
    longest_normal();
    volumes();
    neighbours();
    short_buffers_are_refused();
    bad_points_are_refused();
    printf(wrong ? "%d answers are wrong\n" : "all answers are right\n", wrong);
    return wrong != 0;
}
