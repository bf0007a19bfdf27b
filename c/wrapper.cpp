/* The wrapper for C++: a cube by each call of it, refusals by their status, and by several workers what one finds. */
#include "qconvex.hpp"

#include <cstdio>
#include <random>

using namespace qconvex;

namespace {

int wrong = 0;

void expect(bool holds, const char *what) {
    if (!holds && wrong++ < 10) std::printf("WRONG: %s\n", what);
}

/* Whether a call is refused with a status. */
template <class Call> bool is_refused(Status status, Call call) {
    try {
        call();
    } catch (const Error &error) {
        return error.status() == status && error.what() == text_of(status);
    }
    return false;
}

const std::vector<Point> cube = {{0, 0, 0}, {0, 0, 1}, {0, 1, 0}, {0, 1, 1}, {1, 0, 0},
                                 {1, 0, 1}, {1, 1, 0}, {1, 1, 1}, {0, 0, 0}};
const std::vector<std::vector<Index>> cube_faces = {{0, 1, 3, 2}, {0, 2, 6, 4}, {0, 4, 5, 1},
                                                    {1, 5, 7, 3}, {2, 3, 7, 6}, {4, 6, 7, 5}};

void a_cube() {
    const Hull found = hull(cube);
    expect(found.dimension == 3 && found.distinct == 8u && found.edges == 12, "numbers of a cube");
    expect(found.extremes == std::vector<Index>({0, 1, 2, 3, 4, 5, 6, 7}), "extreme points of a cube");
    expect(found.faces() == cube_faces && found.face_count() == 6, "faces of a cube");
    expect(found.face(4).size() == 4 && found.face(4)[2] == 7, "one face of a cube");
    const Fans triangles = fans(cube);
    expect(triangles.triangles.size() == 12 && triangles.normals.size() == 12, "triangles of a cube");
    expect(triangles.triangles[1] == Triangle({0, 3, 2}) && triangles.normals[1] == Normal({-1, 0, 0}), "a triangle of a cube");
    expect(triangles.area() == 6.0, "the area of a cube");
    expect(six_volumes(cube, triangles.triangles).decimal() == "6" && volume(cube, triangles.triangles) == 1.0, "a cube's volume");
    const std::vector<Neighbors> beside = neighbors(triangles.triangles);
    expect(beside.size() == 12 && beside[0] == Neighbors({7, 1, 5}) && beside[1][2] == 0, "the neighbours of a cube's triangle");
    const Point corners[4] = {{0, 0, 0}, {2, 0, 0}, {0, 2, 0}, {0, 0, 2}};
    expect(hull(corners).face_count() == 4 && hull(Points(corners, 3)).face_count() == 1, "an array and a part of it");
    expect(version() == QCONVEX_VERSION_NUMBER, "the version");
}

void low_dimensions() {
    const std::vector<Point> square = {{0, 0, 5}, {2, 0, 5}, {2, 2, 5}, {0, 2, 5}, {1, 1, 5}};
    expect(hull(square).faces() == std::vector<std::vector<Index>>({{0, 1, 2, 3}}), "a square");
    const std::vector<Point> line = {{0, 0, 0}, {1, 1, 1}, {2, 2, 2}};
    expect(hull(line).faces() == std::vector<std::vector<Index>>({{0, 2}}) && fans(line).triangles.empty(), "a line");
    const std::vector<Point> one = {{7, 7, 7}, {7, 7, 7}};
    expect(hull(one).dimension == 0 && hull(one).extremes == std::vector<Index>({0}), "one point twice");
}

void wide_numbers() {
    const std::int32_t end = QCONVEX_COORDINATE_LIMIT;
    const std::vector<Point> corner = {{-end, -end, -end}, {end, -end, -end}, {-end, end, -end}, {-end, -end, end}};
    const std::vector<Triangle> outward = {{0, 2, 1}, {0, 1, 3}, {0, 3, 2}, {1, 2, 3}};
    const std::vector<Triangle> inward = {{0, 1, 2}, {0, 3, 1}, {0, 2, 3}, {1, 3, 2}};
    const Wide most = six_volumes(corner, outward), least = six_volumes(corner, inward);
    expect(most.decimal() == "9903520314283042199192993792" && most.rounded() == std::ldexp(1.0, 93), "2^93");
    expect(least.decimal() == "-9903520314283042199192993792" && least.rounded() == -std::ldexp(1.0, 93), "-2^93");
    expect(least.is_negative() && !most.is_negative() && most != least && least == Wide(least.words()), "signs");
    expect(Wide({0, 0}).decimal() == "0" && Wide({~0ull, ~0ull}).decimal() == "-1", "0 and -1");
    expect(Wide({0, 1ull << 63}).decimal() == "-170141183460469231731687303715884105728", "-2^127");
    expect(Wide({1, 1}).decimal() == "18446744073709551617", "2^64 + 1");
    expect(six_volumes(corner, {}).decimal() == "0", "no triangle");
}

void refusals() {
    const std::vector<Point> far = {{0, QCONVEX_COORDINATE_LIMIT + 1, 0}}, many(QCONVEX_POINT_LIMIT + 1);
    const std::vector<Point> none;
    expect(is_refused(Status::no_point, [&] { hull(none); }) && is_refused(Status::no_point, [&] { fans(none); }), "no point");
    expect(is_refused(Status::range, [&] { hull(far); }) && is_refused(Status::range, [&] { fans(far); }), "out of range");
    expect(is_refused(Status::too_many, [&] { hull(many); }) && is_refused(Status::too_many, [&] { hull(many, 4); }), "too many");
    std::vector<Point> last(100000);
    last.back().z = QCONVEX_COORDINATE_LIMIT + 1;
    expect(is_refused(Status::range, [&] { hull(last, 4); }), "out of range in a part");
    expect(is_refused(Status::no_point, [&] { six_volumes(none, {}); }), "the volume of no point");
    expect(is_refused(Status::range, [&] { six_volumes(cube, {{0, 1, 9}}); }), "a corner beyond the points");
    expect(is_refused(Status::range, [&] { neighbors({{0, 1, QCONVEX_POINT_LIMIT}}); }), "a corner beyond all points");
    expect(neighbors({}).empty() && neighbors({{0, 1, 2}})[0][1] == QCONVEX_NONE, "one triangle and none");
    const std::vector<std::size_t> falling = {0, 5, 4}, beyond = {0, 10}, missing;
    for (const auto *starts : {&falling, &beyond, &missing}) {
        expect(is_refused(Status::starts, [&] { hulls(cube, *starts); }), "starts");
        expect(is_refused(Status::starts, [&] { check(cube, *starts, std::vector<Index>(9)); }), "offsets");
    }
}

void verdicts() {
    std::vector<std::vector<Index>> faces = cube_faces;
    expect(bool(check(cube, faces)) && check(cube, faces).reason() == "all right", "right faces");
    expect(bool(check(cube, fans(cube).triangles)), "right triangles");
    std::swap(faces[5][1], faces[5][3]);
    const Verdict inward = check(cube, faces);
    expect(!inward && inward.told.kind == QCONVEX_ABOVE && inward.told.face == 5, "a face that is turned round");
    expect(inward.reason() == "face 5: point " + std::to_string(inward.told.point) + " is above its plane", "its reason");
    faces.pop_back();
    expect(check(cube, faces).told.kind == QCONVEX_OPEN, "a face that is missing");
    expect(check(cube, std::vector<std::vector<Index>>()).reason() == "the polygons are others", "no face");
}

bool is_same(const Hull &one, const Hull &other) {
    return one.dimension == other.dimension && one.edges == other.edges && one.extremes == other.extremes &&
           one.offsets == other.offsets && one.corners == other.corners;
}

/* Points of a box, of which a shape may have no extent along an axis. */
std::vector<Point> points_of(std::mt19937 &random, std::size_t count, int reach, int wide, int high) {
    std::uniform_int_distribution<int> number(-reach, reach);
    std::vector<Point> points(count);
    for (Point &point : points) point = {number(random), wide * number(random), high * number(random)};
    return points;
}

void workers_agree() {
    std::mt19937 random(5);
    const int shapes[5][3] = {{9, 1, 1}, {1000000, 1, 1}, {500, 1, 0}, {500, 0, 0}, {0, 1, 1}};
    for (const auto &shape : shapes) {
        const std::vector<Point> points = points_of(random, 70001, shape[0], shape[1], shape[2]);
        const Hull one = hull(points);
        for (unsigned workers : {2u, 3u, 7u, 0u, 1000u}) {
            const Hull many = hull(points, workers);
            expect(is_same(one, many), "the hull of several workers");
            expect(detail::extremes_of_parts(points, 2).size() >= one.extremes.size() && !many.distinct, "parts");
        }
        const Fans mine = fans(points), theirs = fans(points, 3);
        expect(mine.triangles == theirs.triangles && mine.normals == theirs.normals, "triangles of several workers");
    }
    const std::vector<Point> few = points_of(random, 1000, 9, 1, 1);
    expect(detail::extremes_of_parts(few, 4).empty() && hull(few, 4).distinct == hull(few).distinct, "few points are one part");
}

/* Points of a curve of which each is extreme. */
void extreme_points_are_one_part() {
    std::vector<Point> curve;
    for (int k = -32768; k < 32768; k++) curve.push_back({k, k * k, 0});
    expect(detail::extremes_of_parts(curve, 4).empty(), "points that are all extreme are one part");
}

void many_sets() {
    std::mt19937 random(7);
    std::vector<Point> points;
    std::vector<std::size_t> starts = {0};
    for (std::size_t set = 0; set < 50; set++) {
        const std::vector<Point> more = points_of(random, set % 30, 4, set % 2, set % 3);
        points.insert(points.end(), more.begin(), more.end());
        starts.push_back(points.size());
    }
    points[starts[20]].x = QCONVEX_COORDINATE_LIMIT + 1;
    for (unsigned workers : {1u, 2u, 9u, 200u}) {
        const std::vector<Answer> found = hulls(points, starts, workers);
        expect(found.size() == 50, "as many answers as sets");
        expect(found[20].status == Status::range && found[30].status == Status::no_point, "sets that are refused");
        for (std::size_t set = 0; set < 50; set++) {
            if (found[set].status != Status::done) continue;
            const Hull alone = hull(Points(points).part(starts[set], starts[set + 1]));
            expect(is_same(found[set].hull, alone) && found[set].hull.distinct == alone.distinct, "a set among many");
        }
    }
    expect(hulls(points, std::vector<std::size_t>({5}), 4).empty(), "no set");
    expect(hulls(points, View<std::size_t>(starts).part(10, 16)).size() == 5, "some sets");
}

} /* namespace */

int main() {
    a_cube();
    low_dimensions();
    wide_numbers();
    refusals();
    verdicts();
    workers_agree();
    extreme_points_are_one_part();
    many_sets();
    if (wrong) std::printf("%d things about the wrapper are wrong\n", wrong);
    else std::printf("the wrapper is right\n");
    return wrong != 0;
}
