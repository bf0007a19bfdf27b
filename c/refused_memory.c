/* Refuses each request for memory in turn. The answer is QCONVEX_MEMORY, and the buffers stay as they were; or it is the
 * right one, where the request was for room in advance and the call did with less. Nothing is kept in either case. The
 * three functions stand in place of the library's own calls of malloc, realloc and free. */
#include "qconvex.h"
#include <stdbool.h>
#include <stdio.h>
#include <stdlib.h>
#include <string.h>

/* What a request gives: whether it was met, and where; a refused one gives an aligned address that is not used. */
struct request {
    bool met;
    void *place;
};

static long requests, refused, living;

static bool is_refused(void) { return ++requests == refused; }

struct request rattle_alloc(size_t size, size_t align) {
    void *place = is_refused() ? NULL : malloc(size ? size : align);
    living += place != NULL;
    return (struct request){place != NULL, place ? place : (void *)align};
}

struct request rattle_realloc(void *old, size_t kept, size_t size, size_t align) {
    (void)kept;
    void *place = is_refused() ? NULL : realloc(old, size ? size : align);
    return (struct request){place != NULL, place ? place : (void *)align};
}

void rattle_dealloc(void *place) {
    free(place);
    living--;
}

enum { POINTS = 400, OFFSETS = 2 * POINTS + 2, CORNERS = 6 * POINTS + 4 };

/* The same points as several sets, one of which has none. */
enum { SETS = 4 };
static const size_t starts[SETS + 1] = {0, 150, 150, 290, POINTS};

struct buffers {
    qconvex_sizes sizes;
    qconvex_answer answers[SETS];
    uint32_t extremes[POINTS], corners[CORNERS + 4 * SETS];
    size_t offsets[OFFSETS + 2 * SETS], count;
    uint32_t triangles[CORNERS];
    int64_t normals[CORNERS];
};

static qconvex_point points[POINTS];
static struct buffers blank, right, now;

/* The families: solid with large faces, solid without, in a plane, in a line, one point. */
static void make_points(int family) {
    srand(5);
    for (int k = 0; k < POINTS; k++) {
        int reach = family == 1 ? 1000000 : 10;
        int x = rand() % (2 * reach + 1) - reach, y = rand() % (2 * reach + 1) - reach, z = rand() % (2 * reach + 1) - reach;
        if (family == 2) z = x + 2 * y;
        if (family == 3) y = z = x;
        if (family == 4) x = y = z = 7;
        points[k] = (qconvex_point){x, y, z};
    }
}

/* A hull, or its fans, in blank buffers; one request may be refused. */
static uint32_t call(bool fans, struct buffers *to) {
    requests = 0;
    memcpy(to, &blank, sizeof blank);
    if (fans) return qconvex_fans(points, POINTS, &to->count, to->triangles, CORNERS, to->normals, CORNERS);
    return qconvex_hull(points, POINTS, &to->sizes, to->extremes, POINTS, to->offsets, OFFSETS, to->corners, CORNERS);
}

static bool is_right(uint32_t code) {
    const struct buffers *want = code == QCONVEX_MEMORY ? &blank : &right;
    return (code == QCONVEX_MEMORY || code == QCONVEX_DONE) && memcmp(&now, want, sizeof now) == 0 && living == 0;
}

/* Refuses each request of one call in turn. */
static void refuse_each(bool fans, long *tried, long *memory, long *wrong) {
    refused = 0;
    *wrong += call(fans, &right) != QCONVEX_DONE || living != 0;
    long total = requests;
    for (refused = 1; refused <= total; refused++, ++*tried) {
        uint32_t code = call(fans, &now);
        *memory += code == QCONVEX_MEMORY;
        *wrong += !is_right(code);
    }
}

/* The hulls of the sets in blank buffers; one request may be refused. */
static uint32_t call_sets(struct buffers *to) {
    requests = 0;
    memcpy(to, &blank, sizeof blank);
    return qconvex_hulls(points, POINTS, starts, SETS + 1, to->answers, SETS, to->extremes, POINTS, to->offsets, OFFSETS + 2 * SETS - 2,
                         to->corners, CORNERS + 4 * SETS - 4);
}

/* Whether a set's parts of the buffers are those of other buffers. */
static bool has_parts_of(size_t set, const struct buffers *other) {
    size_t from = starts[set], size = starts[set + 1] - from;
    return memcmp(now.extremes + from, other->extremes + from, size * sizeof *now.extremes) == 0 &&
           memcmp(now.offsets + 2 * (from + set), other->offsets + 2 * (from + set), (2 * size + 2) * sizeof *now.offsets) == 0 &&
           memcmp(now.corners + 6 * from + 4 * set, other->corners + 6 * from + 4 * set, (6 * size + 4) * sizeof *now.corners) == 0;
}

/* Whether a set is told what is right, or that an allocation failed, which is counted. */
static bool set_is_right(size_t set, long *memory) {
    const qconvex_answer *told = &now.answers[set], *wanted = &right.answers[set];
    if (told->code != QCONVEX_MEMORY)
        return told->code == wanted->code && told->sizes.corners == wanted->sizes.corners && has_parts_of(set, &right);
    ++*memory;
    return told->sizes.points == 0 && told->sizes.corners == 0 && has_parts_of(set, &blank);
}

/* Refuses each request of a call for many sets in turn: at most one set is told so, and the others are answered. */
static void refuse_each_of_sets(long *tried, long *memory, long *wrong) {
    refused = 0;
    *wrong += call_sets(&right) != QCONVEX_DONE || living != 0 || right.answers[1].code != QCONVEX_NO_POINT;
    long total = requests;
    for (refused = 1; refused <= total; refused++, ++*tried) {
        long before = *memory;
        *wrong += call_sets(&now) != QCONVEX_DONE || living != 0;
        for (size_t set = 0; set < SETS; set++) *wrong += !set_is_right(set, memory);
        *wrong += *memory > before + 1;
    }
}

/* A check of the faces of a hull, with a verdict that no call gives; one request may be refused. */
static uint32_t call_check(const struct buffers *hull, qconvex_verdict *to) {
    requests = 0;
    memset(to, 0x55, sizeof *to);
    return qconvex_check(points, POINTS, hull->offsets, hull->sizes.faces + 1, hull->corners, hull->sizes.corners, to);
}

/* Refuses each request of a check in turn: of the right faces, or with the first of them turned round. */
static void refuse_each_of_check(bool turned, long *tried, long *memory, long *wrong) {
    static struct buffers hull;
    qconvex_verdict wanted, told, blank_verdict;
    memset(&blank_verdict, 0x55, sizeof blank_verdict);
    refused = 0;
    *wrong += call(false, &hull) != QCONVEX_DONE;
    if (turned) {
        uint32_t corner = hull.corners[0];
        hull.corners[0] = hull.corners[2];
        hull.corners[2] = corner;
    }
    *wrong += call_check(&hull, &wanted) != QCONVEX_DONE || living != 0 || (wanted.kind == QCONVEX_RIGHT) == turned;
    long total = requests;
    for (refused = 1; refused <= total; refused++, ++*tried) {
        uint32_t code = call_check(&hull, &told);
        *memory += code == QCONVEX_MEMORY;
        *wrong += code != QCONVEX_MEMORY && code != QCONVEX_DONE;
        *wrong += living != 0 || memcmp(&told, code == QCONVEX_MEMORY ? &blank_verdict : &wanted, sizeof told) != 0;
    }
}

/* The neighbours of the triangles of fans in a blank buffer; one request may be refused. */
static uint32_t call_neighbors(struct buffers *fans, struct buffers *to) {
    requests = 0;
    memcpy(to, &blank, sizeof blank);
    return qconvex_neighbors(fans->triangles, 3 * fans->count, to->corners, 3 * fans->count);
}

/* Refuses each request of a call for neighbours in turn. */
static void refuse_each_of_neighbors(long *tried, long *memory, long *wrong) {
    static struct buffers fans;
    refused = 0;
    *wrong += call(true, &fans) != QCONVEX_DONE || call_neighbors(&fans, &right) != QCONVEX_DONE || living != 0;
    long total = requests;
    for (refused = 1; refused <= total; refused++, ++*tried) {
        uint32_t code = call_neighbors(&fans, &now);
        *memory += code == QCONVEX_MEMORY;
        *wrong += !is_right(code);
    }
}

int main(void) {
    long tried = 0, memory = 0, wrong = 0;
    memset(&blank, 0x55, sizeof blank);
    for (int family = 0; family < 5; family++) {
        make_points(family);
        refuse_each(false, &tried, &memory, &wrong);
        refuse_each(true, &tried, &memory, &wrong);
        refuse_each_of_sets(&tried, &memory, &wrong);
        refuse_each_of_neighbors(&tried, &memory, &wrong);
        refuse_each_of_check(false, &tried, &memory, &wrong);
        if (family < 2) refuse_each_of_check(true, &tried, &memory, &wrong);
    }
    printf("%ld requests refused in turn: %ld times QCONVEX_MEMORY, else the right answer; %ld wrong\n", tried, memory, wrong);
    return wrong != 0;
}
