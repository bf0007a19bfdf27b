/* The convex hull of whole-number points in space, exact and proved.
 *
 * Each call is proved, for every input that keeps the duties below: it returns, reads and writes only what it is
 * given, and answers as said here; the one answer that the input does not decide is QCONVEX_MEMORY. Nothing is kept
 * between calls and no thread is started, so any number of threads may call at once, each with buffers of its own.
 *
 * The caller's duties, which nothing checks:
 *  - every pointer is aligned for what it points to and is not null, also for a count or a room of 0;
 *  - lists that are only read have as many elements as their count says, each buffer as its room says, all initialised
 *    (calloc does it, and takes no memory for pages that stay unwritten); during the call nobody writes the lists that are
 *    only read, which several calls may read at once, and nobody else uses the rest; the sizes, the count or the verdict,
 *    the buffers and what is only read do not overlap;
 *  - malloc, realloc and free are of one allocator, and align to 16 bytes, as the C library's do;
 *  - no call from a signal handler, or from the forked child of a process that has threads, where malloc may hang;
 *  - the processor has the level x86-64-v2 (SSE4.2).
 */
#ifndef QCONVEX_H
#define QCONVEX_H
#include <stddef.h>
#include <stdint.h>
#ifdef __cplusplus
extern "C" {
#endif

#define QCONVEX_VERSION "0.2.0"
#define QCONVEX_VERSION_NUMBER 200 /* 10000 times the major number, 100 times the minor one, and the patch's */

#define QCONVEX_COORDINATE_LIMIT 1073741824 /* the greatest size of a coordinate, either way: 2^30 */
#define QCONVEX_POINT_LIMIT 1048576         /* the greatest number of points */

typedef struct {
    int32_t x, y, z;
} qconvex_point;

typedef struct {
    uint32_t points;    /* the points as given */
    uint32_t distinct;  /* the distinct ones: of equal points the lowest index stands for all */
    uint32_t dimension; /* 0 to 3 */
    size_t extremes;    /* the extreme points */
    size_t faces;       /* the faces: exactly one where the dimension is below 3 */
    size_t corners;     /* the corners of all faces */
    uint64_t edges;
} qconvex_sizes;

enum {
    QCONVEX_DONE = 0,
    QCONVEX_NO_POINT = 1, /* exactly where count is 0 */
    QCONVEX_TOO_MANY = 2, /* exactly where count is above QCONVEX_POINT_LIMIT */
    QCONVEX_RANGE = 3,    /* else exactly where a coordinate is past QCONVEX_COORDINATE_LIMIT */
    QCONVEX_MEMORY = 4,   /* malloc or realloc refused; all that was taken is given back */
    QCONVEX_ROOM = 5,     /* a buffer is too short: sizes says how long they have to be */
    QCONVEX_STARTS = 6    /* the starts of sets, or the offsets of faces, don't rise, go beyond the list, or are none */
};

/* QCONVEX_VERSION_NUMBER of the library that is linked or loaded, which may differ from this header's. */
uint32_t qconvex_version(void);

/* The hull. QCONVEX_DONE: sizes is filled in, and the buffers begin with
 *   extremes  [sizes.extremes]   the indices of the extreme points, rising, none missed and none else
 *   offsets   [sizes.faces + 1]  the corners of face j stand from corners[offsets[j]] to before corners[offsets[j + 1]]
 *   corners   [sizes.corners]    the polygon of every plane through three points not in line that leaves no point
 *                                outside, counterclockwise seen from outside, each from its least index on; the faces in
 *                                rising lexicographic order. Points inside a face or an edge are no corners.
 * A set in a plane has one face, seen from the side of the normal whose first component that is not 0 is above 0; a set
 * in a line has its two ends; one point has itself. What stands behind these in a buffer stays as it was.
 *
 * Every other answer leaves the three buffers as they were; QCONVEX_ROOM fills sizes in, the others leave it, too.
 * Room for count, 2 * count + 2 and 6 * count + 4 elements is enough (Euler's formula; not part of the proof: a call
 * that finds too little says QCONVEX_ROOM). */
uint32_t qconvex_hull(const qconvex_point *points, size_t count, qconvex_sizes *sizes,
                      uint32_t *extremes, size_t extremes_room,
                      size_t *offsets, size_t offsets_room,
                      uint32_t *corners, size_t corners_room);

/* The same faces as triangles: each face of three corners or more as the fan of its first corner, a, and any two
 * neighbours after it. QCONVEX_DONE: *triangle_count is their number, and the buffers begin with
 *   triangles  [3 * *triangle_count]  the corners of each, counterclockwise seen from outside
 *   normals    [3 * *triangle_count]  the outer normal of each, (b - a) x (c - a), twice as long as its area; exact,
 *                                     since a component is at most 2^62 in size
 * In dimension 3 each triangle has an area, and no point is above its plane. Points in a line have no triangles.
 *
 * The other answers are those of qconvex_hull; for QCONVEX_ROOM *triangle_count says how many triangles there are, and
 * otherwise it stays as it was. Room for 6 * count + 3 elements each is enough (Euler's formula, not proved). */
uint32_t qconvex_fans(const qconvex_point *points, size_t count, size_t *triangle_count,
                      uint32_t *triangles, size_t triangles_room,
                      int64_t *normals, size_t normals_room);

/* A whole number of 128 bits, in two's complement: high * 2^64 + low, less 2^128 where high is 2^63 or more. */
typedef struct {
    uint64_t low, high;
} qconvex_wide;

/* Six times the volume inside triangles that close up, as those of qconvex_fans do: the sum of the determinants of the
 * corners of each, seen from the first point; exact, and above 0 where they are counterclockwise seen from outside. Three
 * numbers of `triangles` are one triangle; one or two that are left count nothing. QCONVEX_DONE: volume is the sum.
 * QCONVEX_NO_POINT, QCONVEX_RANGE where a coordinate is out of range or a corner is the index of no point, and QCONVEX_ROOM
 * where the sum, or one on the way to it, has more than 128 bits, which takes millions of triangles, leave it as it was.
 * There is no other answer, and no memory is asked for. */
uint32_t qconvex_six_volumes(const qconvex_point *points, size_t count, const uint32_t *triangles, size_t corner_count,
                             qconvex_wide *volume);

#define QCONVEX_NONE 4294967295u /* for neighbours: no triangle has the reversed side */

/* The neighbours of triangles, over their sides. Three numbers of `triangles` are one triangle; one or two that are left
 * count nothing. Side i of a triangle is opposite to its corner i: it goes from the corner behind that one to the corner
 * before it. QCONVEX_DONE: neighbors begins with three numbers for each triangle, of which number i is the first triangle,
 * by its position, that has side i reversed, or QCONVEX_NONE where none has. The triangles of qconvex_fans in dimension 3
 * close up: there each side is reversed in exactly one. What stands behind in the buffer stays as it was.
 *
 * QCONVEX_TOO_MANY exactly where there are more than 2 * QCONVEX_POINT_LIMIT triangles, which no hull has; else
 * QCONVEX_RANGE exactly where a corner is not below QCONVEX_POINT_LIMIT; else QCONVEX_ROOM exactly where neighbors_room is
 * below three for each triangle. These and QCONVEX_MEMORY leave neighbors as it was; there is no other answer. The time is
 * that of a sort of the sides, also where a corner has many triangles. */
uint32_t qconvex_neighbors(const uint32_t *triangles, size_t corner_count, uint32_t *neighbors, size_t neighbors_room);

/* What a set among many is told. */
typedef struct {
    uint32_t code;       /* the answer of qconvex_hull for the set alone */
    qconvex_sizes sizes; /* the sizes of its hull for QCONVEX_DONE and QCONVEX_ROOM; else all are 0 */
} qconvex_answer;

/* The hulls of many sets in one call. Set j has the points from points[starts[j]] to before points[starts[j + 1]], so
 * start_count is the number of sets and one more. QCONVEX_DONE: answers begins with the answer of each set, and its hull
 * stands in its part of each buffer, as qconvex_hull writes it there, with indices that count from the set's first point:
 *   extremes  from starts[j] on                 as many elements as the set has points, n
 *   offsets   from 2 * starts[j] + 2 * j on     2 * n + 2
 *   corners   from 6 * starts[j] + 4 * j on     6 * n + 4
 * A set that is refused leaves its parts as they were, and the others are answered; one may have no point, or more than
 * QCONVEX_POINT_LIMIT. With e the last start and m the number of sets there is to be room for m answers, and for e,
 * 2 * e + 2 * m and 6 * e + 4 * m elements in the buffers.
 *
 * QCONVEX_STARTS where starts don't rise, one is above point_count, or there is none; QCONVEX_ROOM where there is less
 * room: both leave answers and buffers as they were. There is no other answer. */
uint32_t qconvex_hulls(const qconvex_point *points, size_t point_count,
                       const size_t *starts, size_t start_count,
                       qconvex_answer *answers, size_t answers_room,
                       uint32_t *extremes, size_t extremes_room,
                       size_t *offsets, size_t offsets_room,
                       uint32_t *corners, size_t corners_room);

/* What qconvex_check tells of faces. Of several points at one place the lowest index is named. */
enum {
    QCONVEX_RIGHT = 0,      /* they are the surface of the hull */
    QCONVEX_STRANGER = 1,   /* face: a corner of it is the index of no point */
    QCONVEX_NO_PLANE = 2,   /* face: it has fewer than three corners, or its first three lie in one line */
    QCONVEX_ABOVE = 3,      /* face, point: the point is above the plane of the first three corners, so outside */
    QCONVEX_OTHER_FACE = 4, /* face: no point is above its plane, but its corners don't go round the face in order */
    QCONVEX_OPEN = 5,       /* from, to: more faces run along this edge one way than the other */
    QCONVEX_TWICE = 6,      /* from, to: faces run along this edge, this way, more than once */
    QCONVEX_OTHERS = 7      /* there is no face, or the points lie in one plane and have another polygon */
};

typedef struct {
    uint32_t kind;     /* QCONVEX_RIGHT, or what is wrong */
    uint32_t point;    /* what the kind names above; the fields that it doesn't name are 0 */
    uint32_t from, to;
    size_t face;       /* by its position, from 0 */
} qconvex_verdict;

/* Tells whether faces, whoever made them, are the surface of the hull of points: the faces of the hull or pieces of them,
 * such as triangles, in any cutting and any order, each counterclockwise seen from outside, from any of its corners on.
 * Face j has the corners from corners[offsets[j]] to before corners[offsets[j + 1]], so offset_count is the number of faces
 * and one more; a corner is the index of a point. Each corner has to be an extreme point; of equal points any will do.
 * The faces of points in one plane have to be what qconvex_hull writes: one polygon, or the two ends, or the one point.
 *
 * QCONVEX_DONE: verdict is filled in. Its kind is QCONVEX_RIGHT exactly where the faces are the surface of the hull; another
 * kind is so, of the face, the point or the edge that it names, which is one of several where more is wrong.
 * QCONVEX_STARTS where the offsets don't rise, one is above corner_count, or there is none. The other answers are those of
 * qconvex_hull, but never QCONVEX_ROOM; all but QCONVEX_DONE leave verdict as it was. */
uint32_t qconvex_check(const qconvex_point *points, size_t count, const size_t *offsets, size_t offset_count,
                       const uint32_t *corners, size_t corner_count, qconvex_verdict *verdict);

#ifdef __cplusplus
}
#endif
#endif
