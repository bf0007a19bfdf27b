/* Times hulls of small sets by several libraries in one process: bench/small.py builds and runs it.
 *
 * It reads the number of sets and the number of points of each, then the coordinates as int32, all sets one after the other. Each
 * library makes all hulls, round after round in turn; a line for each has its name, the least CPU seconds of a round, and how
 * many vertices all hulls have together, or -1 where one was refused. */
#include <CGAL/Exact_predicates_inexact_constructions_kernel.h>
#include <CGAL/Polyhedron_3.h>
#include <CGAL/convex_hull_3.h>
#include <LinearMath/btConvexHullComputer.h>
#include <algorithm>
#include <cstdio>
#include <cstdlib>
#include <ctime>
#include <functional>
#include <string>
#include <vector>
extern "C" {
#include <libqhull_r/qhull_ra.h>
}
#include "qconvex.h"

struct Input {
    size_t sets, size;
    std::vector<qconvex_point> whole;
    std::vector<double> decimal;
};

typedef std::function<long(const Input &)> Work; /* how many vertices all hulls have, or -1 */

static double seconds() {
    timespec now;
    clock_gettime(CLOCK_PROCESS_CPUTIME_ID, &now);
    return now.tv_sec + 1e-9 * now.tv_nsec;
}

static long one_by_one(const Input &in) {
    std::vector<uint32_t> extremes(in.size), corners(6 * in.size + 4);
    std::vector<size_t> offsets(2 * in.size + 2);
    long vertices = 0;
    for (size_t set = 0; set < in.sets; set++) {
        qconvex_sizes sizes;
        uint32_t code = qconvex_hull(&in.whole[set * in.size], in.size, &sizes, extremes.data(), extremes.size(), offsets.data(),
                                     offsets.size(), corners.data(), corners.size());
        if (code != QCONVEX_DONE) return -1;
        vertices += sizes.extremes;
    }
    return vertices;
}

static long in_one_call(const Input &in) {
    size_t count = in.sets * in.size;
    std::vector<size_t> starts(in.sets + 1), offsets(2 * count + 2 * in.sets);
    std::vector<qconvex_answer> answers(in.sets);
    std::vector<uint32_t> extremes(count), corners(6 * count + 4 * in.sets);
    for (size_t set = 0; set <= in.sets; set++) starts[set] = set * in.size;
    long vertices = 0;
    if (qconvex_hulls(in.whole.data(), count, starts.data(), starts.size(), answers.data(), answers.size(), extremes.data(),
                      extremes.size(), offsets.data(), offsets.size(), corners.data(), corners.size()) != QCONVEX_DONE)
        return -1;
    for (const qconvex_answer &answer : answers) {
        if (answer.code != QCONVEX_DONE) return -1;
        vertices += answer.sizes.extremes;
    }
    return vertices;
}

static long by_qhull(const Input &in) {
    static FILE *nowhere = std::fopen("/dev/null", "w");
    long vertices = 0;
    std::vector<double> points = in.decimal;
    for (size_t set = 0; set < in.sets; set++) {
        qhT state, *qh = &state;
        char options[] = "qhull ";
        qh_zero(qh, nowhere);
        int code = qh_new_qhull(qh, 3, int(in.size), &points[3 * set * in.size], False, options, nullptr, nowhere);
        vertices = code || vertices < 0 ? -1 : vertices + qh->num_vertices;
        /* Frees long memory, then short memory, as Qhull's own programs do. */
        int left, bytes_left;
        qh_freeqhull(qh, !qh_ALL);
        qh_memfreeshort(qh, &left, &bytes_left);
    }
    return vertices;
}

static long by_cgal(const Input &in) {
    typedef CGAL::Exact_predicates_inexact_constructions_kernel Kernel;
    long vertices = 0;
    std::vector<Kernel::Point_3> points(in.size);
    for (size_t set = 0; set < in.sets; set++) {
        for (size_t k = 0; k < in.size; k++) {
            const double *at = &in.decimal[3 * (set * in.size + k)];
            points[k] = Kernel::Point_3(at[0], at[1], at[2]);
        }
        CGAL::Polyhedron_3<Kernel> mesh;
        CGAL::convex_hull_3(points.begin(), points.end(), mesh);
        vertices += mesh.size_of_vertices();
    }
    return vertices;
}

static long by_bullet(const Input &in) {
    long vertices = 0;
    for (size_t set = 0; set < in.sets; set++) {
        btConvexHullComputer hull;
        hull.compute(&in.decimal[3 * set * in.size], 3 * sizeof(double), int(in.size), 0, 0);
        vertices += hull.vertices.size();
    }
    return vertices;
}

static Input read_input() {
    uint64_t head[2];
    if (std::fread(head, sizeof *head, 2, stdin) != 2) std::exit(2);
    Input in{head[0], head[1], std::vector<qconvex_point>(head[0] * head[1]), {}};
    if (std::fread(in.whole.data(), sizeof(qconvex_point), in.whole.size(), stdin) != in.whole.size()) std::exit(2);
    for (const qconvex_point &p : in.whole) in.decimal.insert(in.decimal.end(), {double(p.x), double(p.y), double(p.z)});
    return in;
}

int main(int, char **words) {
    const std::vector<std::pair<std::string, Work>> libraries = {
        {"hull", one_by_one}, {"hulls", in_one_call}, {"qhull", by_qhull}, {"cgal", by_cgal}, {"bullet", by_bullet}};
    const Input in = read_input();
    std::vector<double> best(libraries.size(), 1e9);
    std::vector<long> vertices(libraries.size());
    for (int round = std::atoi(words[1]); round > 0; round--)
        for (size_t k = 0; k < libraries.size(); k++) {
            double start = seconds();
            vertices[k] = libraries[k].second(in);
            best[k] = std::min(best[k], seconds() - start);
        }
    for (size_t k = 0; k < libraries.size(); k++) std::printf("%s %.9f %ld\n", libraries[k].first.c_str(), best[k], vertices[k]);
}
