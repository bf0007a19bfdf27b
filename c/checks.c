/* What is told of faces that other programs might have written: those of a cube, in pieces and orders of their own, and
 * some that are wrong. Of random points the faces and the fans of the library are right, and no longer are after a change. */
#include "qconvex.h"
#include <stdbool.h>
#include <stdio.h>
#include <stdlib.h>
#include <string.h>

enum { UNTOUCHED = 99, FACES = 6, TRIANGLES = 12, POINTS = 60 };

static const qconvex_point cube[9] = {{0, 0, 0}, {0, 0, 1}, {0, 1, 0}, {0, 1, 1}, {1, 0, 0},
                                      {1, 0, 1}, {1, 1, 0}, {1, 1, 1}, {0, 0, 0}};
/* The faces of a cube in some order, each from some corner on; one of them names point 0 by its later index. */
static const uint32_t faces[4 * FACES] = {6, 7, 5, 4, 3, 2, 0, 1, 1, 5, 7, 3, 4, 8, 2, 6, 2, 3, 7, 6, 5, 1, 0, 4};
/* The triangles of a cube that Qhull writes, turned round. */
static const uint32_t triangles[3 * TRIANGLES] = {0, 2, 6, 0, 6, 4, 0, 4, 5, 0, 5, 1, 4, 6, 5, 7, 5, 6,
                                                  0, 3, 2, 0, 1, 3, 2, 3, 6, 7, 6, 3, 1, 5, 3, 7, 3, 5};
static qconvex_verdict verdict;
static int wrong = 0;

static void expect(bool holds, const char *what) {
    if (!holds && wrong++ < 10) printf("WRONG: %s\n", what);
}

/* Checks faces with as many corners each, and begins with a verdict that no call gives. */
static uint32_t check(const qconvex_point *points, size_t count, const uint32_t *corners, size_t number, size_t size) {
    static size_t offsets[6 * POINTS];
    for (size_t face = 0; face <= number; face++) offsets[face] = face * size;
    memset(&verdict, 0x55, sizeof verdict);
    return qconvex_check(points, count, offsets, number + 1, corners, number * size, &verdict);
}

static bool is_told(uint32_t kind, size_t face) {
    return verdict.kind == kind && verdict.face == face && verdict.from == 0 && verdict.to == 0;
}

static void faces_of_a_cube(void) {
    uint32_t other[4 * FACES];
    expect(check(cube, 9, faces, FACES, 4) == QCONVEX_DONE && is_told(QCONVEX_RIGHT, 0) && verdict.point == 0, "a cube");
    expect(check(cube, 9, triangles, TRIANGLES, 3) == QCONVEX_DONE && is_told(QCONVEX_RIGHT, 0), "a cube in triangles");
    memcpy(other, faces, sizeof faces);
    other[8] = 7, other[10] = 1;
    expect(check(cube, 9, other, FACES, 4) == QCONVEX_DONE && is_told(QCONVEX_ABOVE, 2), "a face that is turned round");
    expect(verdict.point < 9 && cube[verdict.point].z == 0, "a point above its plane");
    memcpy(other, faces, sizeof faces);
    other[13] = 9;
    expect(check(cube, 9, other, FACES, 4) == QCONVEX_DONE && is_told(QCONVEX_STRANGER, 3), "a corner beyond the points");
    memcpy(other, faces, sizeof faces);
    other[16] = 3, other[17] = 2;
    expect(check(cube, 9, other, FACES, 4) == QCONVEX_DONE && verdict.kind != QCONVEX_RIGHT && verdict.face == 4, "two corners exchanged");
    expect(check(cube, 9, faces, 0, 4) == QCONVEX_DONE && is_told(QCONVEX_OTHERS, 0), "no face");
}

static void corners_that_are_no_face(void) {
    static const uint32_t twice[3] = {0, 8, 1}, back[5] = {0, 1, 3, 2, 1};
    expect(check(cube, 9, twice, 1, 3) == QCONVEX_DONE && is_told(QCONVEX_NO_PLANE, 0), "a corner twice");
    expect(check(cube, 9, faces, 1, 2) == QCONVEX_DONE && is_told(QCONVEX_NO_PLANE, 0), "two corners");
    expect(check(cube, 9, back, 1, 5) == QCONVEX_DONE && is_told(QCONVEX_OTHER_FACE, 0), "a face that comes back to a corner");
}

static void edges(void) {
    uint32_t twice[6 * TRIANGLES];
    expect(check(cube, 9, triangles + 3, TRIANGLES - 1, 3) == QCONVEX_DONE && verdict.kind == QCONVEX_OPEN, "a missing triangle");
    uint32_t from = verdict.from, to = verdict.to;
    expect(from != to && (from | to | 6) == 6 && verdict.face == 0 && verdict.point == 0, "one of its edges");
    memcpy(twice, triangles, sizeof triangles);
    memcpy(twice + 3 * TRIANGLES, triangles, sizeof triangles);
    expect(check(cube, 9, twice, 2 * TRIANGLES, 3) == QCONVEX_DONE && verdict.kind == QCONVEX_TWICE, "the surface twice");
    expect(verdict.from < verdict.to && verdict.to < 8 && verdict.face == 0, "an edge of it");
}

static bool is_kept(void) {
    qconvex_verdict blank;
    memset(&blank, 0x55, sizeof blank);
    return memcmp(&verdict, &blank, sizeof blank) == 0;
}

static void refusals(void) {
    static const qconvex_point far[1] = {{0, QCONVEX_COORDINATE_LIMIT + 1, 0}};
    static const size_t falling[3] = {0, 4, 3}, beyond[2] = {0, 25}, part[2] = {4, 8}, none[1] = {0};
    qconvex_point *many = calloc(QCONVEX_POINT_LIMIT + 1, sizeof *many);
    if (!many) {
        expect(false, "memory for one point too many");
        return;
    }
    expect(check(cube, 0, faces, FACES, 4) == QCONVEX_NO_POINT && is_kept(), "no point");
    expect(check(many, QCONVEX_POINT_LIMIT + 1, faces, FACES, 4) == QCONVEX_TOO_MANY && is_kept(), "one point too many");
    expect(check(far, 1, faces, FACES, 4) == QCONVEX_RANGE && is_kept(), "a coordinate out of range");
    expect(qconvex_check(cube, 9, falling, 3, faces, 24, &verdict) == QCONVEX_STARTS && is_kept(), "offsets that fall");
    expect(qconvex_check(cube, 9, beyond, 2, faces, 24, &verdict) == QCONVEX_STARTS && is_kept(), "an offset beyond the corners");
    expect(qconvex_check(cube, 9, none, 0, faces, 24, &verdict) == QCONVEX_STARTS && is_kept(), "no offset");
    expect(qconvex_check(cube, 9, part, 2, faces, 24, &verdict) == QCONVEX_DONE && verdict.kind == QCONVEX_OPEN, "one face alone");
    free(many);
}

/* Points of each dimension, in few places or many. */
static void make_points(qconvex_point *points, int dimension) {
    int reach = rand() % 2 ? 3 : 100000;
    for (int k = 0; k < POINTS; k++) {
        int x = rand() % reach, y = rand() % reach, z = rand() % reach;
        points[k] = (qconvex_point){dimension > 0 ? x : 7, dimension > 1 ? y : x, dimension > 2 ? z : x + y};
        if (dimension == 0) points[k] = points[0];
    }
}

static void hulls_of_random_points(void) {
    enum { OFFSETS = 2 * POINTS + 2, CORNERS = 6 * POINTS + 4 };
    static qconvex_point points[POINTS];
    static uint32_t extremes[POINTS], corners[CORNERS], fans[CORNERS];
    static size_t offsets[OFFSETS];
    static int64_t normals[CORNERS];
    qconvex_sizes sizes;
    size_t count;
    srand(13);
    for (int run = 0; run < 400; run++) {
        make_points(points, run % 4);
        expect(qconvex_hull(points, POINTS, &sizes, extremes, POINTS, offsets, OFFSETS, corners, CORNERS) == QCONVEX_DONE, "a hull");
        uint32_t code = qconvex_check(points, POINTS, offsets, sizes.faces + 1, corners, sizes.corners, &verdict);
        expect(code == QCONVEX_DONE && verdict.kind == QCONVEX_RIGHT, "the faces of a hull");
        code = qconvex_check(points, POINTS, offsets, sizes.faces, corners, sizes.corners, &verdict);
        expect(code == QCONVEX_DONE && verdict.kind == (sizes.faces == 1 ? QCONVEX_OTHERS : QCONVEX_OPEN), "all faces but one");
        expect(qconvex_fans(points, POINTS, &count, fans, CORNERS, normals, CORNERS) == QCONVEX_DONE, "fans");
        bool is_surface = sizes.dimension == 3 || (sizes.dimension == 2 && count == 1);
        expect(check(points, POINTS, fans, count, 3) == QCONVEX_DONE && (verdict.kind == QCONVEX_RIGHT) == is_surface, "the fans of a hull");
    }
}

int main(void) {
    faces_of_a_cube();
    corners_that_are_no_face();
    edges();
    refusals();
    hulls_of_random_points();
    printf(wrong ? "%d checks are wrong\n" : "all checks are right\n", wrong);
    return wrong != 0;
}
