/* The convex hull of whole-number points in space for C++17: vectors in, a hull out, and errors as exceptions.
 *
 * This header alone wraps the calls of qconvex.h; a program links with the library of these, and with threads where it
 * asks for several workers. The library's answers are proved; what this header adds is tested, not proved.
 *
 * A call throws Error with the library's status where it refuses what it is given, and std::bad_alloc where there is no
 * memory for buffers. All memory is given back in any case. A call that throws has changed nothing.
 *
 * Where a call takes workers, it uses that many threads, or the calling one alone if more would not pay; 0 stands for as many
 * as there are processors. The answer is the same for any number of them.
 */
#ifndef QCONVEX_HPP
#define QCONVEX_HPP
#include "qconvex.h"

#include <algorithm>
#include <array>
#include <cmath>
#include <cstddef>
#include <cstdint>
#include <cstdlib>
#include <future>
#include <iterator>
#include <memory>
#include <new>
#include <optional>
#include <stdexcept>
#include <string>
#include <system_error>
#include <thread>
#include <type_traits>
#include <utility>
#include <vector>

namespace qconvex {

using Point = qconvex_point;
using Index = std::uint32_t;                /* of a point, from 0 on */
using Triangle = std::array<Index, 3>;      /* its corners, counterclockwise seen from outside */
using Neighbors = std::array<Index, 3>;     /* the triangle over the side opposite to each corner, or QCONVEX_NONE */
using Normal = std::array<std::int64_t, 3>; /* a vector that points outside */

/* What the library answers to a call; qconvex.h says when. */
enum class Status : std::uint32_t {
    done = QCONVEX_DONE,
    no_point = QCONVEX_NO_POINT,
    too_many = QCONVEX_TOO_MANY,
    range = QCONVEX_RANGE,
    memory = QCONVEX_MEMORY,
    room = QCONVEX_ROOM,
    starts = QCONVEX_STARTS
};

/* A status in words. */
inline std::string text_of(Status status) {
    switch (status) {
    case Status::done: return "done";
    case Status::no_point: return "there is no point";
    case Status::too_many: return "there are more than " + std::to_string(QCONVEX_POINT_LIMIT) + " points, or twice as many triangles";
    case Status::range: return "a coordinate, or the index of a corner, is out of range";
    case Status::memory: return "out of memory";
    case Status::room: return "a number, or what was found, has no room";
    case Status::starts: return "starts or offsets must rise, and go no further than what they cut";
    }
    return "the library answered " + std::to_string(static_cast<std::uint32_t>(status));
}

/* A refusal, by its status. */
class Error : public std::runtime_error {
public:
    explicit Error(Status status) : std::runtime_error(text_of(status)), status_(status) {}

    Status status() const noexcept { return status_; }

private:
    Status status_;
};

/* Elements that stand one after the other and belong to somebody else, who keeps them as long as the view is used. A vector or
 * an array becomes a view by itself. */
template <class Element> class View {
public:
    View(const Element *first, std::size_t count) : first_(first), count_(count) {}

    template <class Container, class = std::enable_if_t<std::is_convertible_v<decltype(std::declval<const Container &>().data()),
                                                                              const Element *>>>
    View(const Container &container) : first_(container.data()), count_(container.size()) {}

    template <std::size_t count> View(const Element (&elements)[count]) : first_(elements), count_(count) {}

    const Element *begin() const noexcept { return first_; }
    const Element *end() const noexcept { return first_ + count_; }
    std::size_t size() const noexcept { return count_; }
    const Element &operator[](std::size_t place) const noexcept { return first_[place]; }

    /* The elements from a place to before another. */
    View part(std::size_t start, std::size_t end) const noexcept { return View(first_ + start, end - start); }

private:
    const Element *first_;
    std::size_t count_;
};

using Points = View<Point>;

/* A hull. Of equal points the lowest index stands for all. */
struct Hull {
    std::uint32_t dimension = 0;            /* 0 to 3 */
    std::optional<std::uint32_t> distinct;  /* the distinct points; none where several workers made the hull */
    std::uint64_t edges = 0;                /* the number of edges */
    std::vector<Index> extremes;            /* the extreme points, rising */
    std::vector<std::size_t> offsets = {0}; /* face j has the corners from corners[offsets[j]] to before corners[offsets[j + 1]] */
    std::vector<Index> corners;             /* counterclockwise seen from outside, each face from its least index on */

    /* The number of faces: exactly one where the dimension is below 3. */
    std::size_t face_count() const noexcept { return offsets.size() - 1; }

    /* The corners of a face, as long as the hull lives. */
    View<Index> face(std::size_t place) const noexcept { return View<Index>(corners).part(offsets[place], offsets[place + 1]); }

    /* The corners of all faces, each in a vector of its own. */
    std::vector<std::vector<Index>> faces() const {
        std::vector<std::vector<Index>> found;
        found.reserve(face_count());
        for (std::size_t place = 0; place < face_count(); place++) found.emplace_back(face(place).begin(), face(place).end());
        return found;
    }
};

/* The faces of a hull as triangles, and the outer normal of each, twice as long as its area; exact. */
struct Fans {
    std::vector<Triangle> triangles;
    std::vector<Normal> normals;

    /* The area of all triangles, rounded. */
    double area() const {
        double doubled = 0;
        for (const Normal &normal : normals)
            doubled += std::hypot(static_cast<double>(normal[0]), static_cast<double>(normal[1]), static_cast<double>(normal[2]));
        return doubled / 2;
    }
};

/* A whole number of 128 bits, exact. */
class Wide {
public:
    explicit Wide(qconvex_wide words) noexcept : words_(words) {}

    /* The two words of it, in two's complement. */
    qconvex_wide words() const noexcept { return words_; }

    bool is_negative() const noexcept { return words_.high >> 63 != 0; }

    /* The nearest number that a double holds, or one next to it. */
    double rounded() const noexcept {
        const qconvex_wide size = magnitude();
        const double found = std::ldexp(static_cast<double>(size.high), 64) + static_cast<double>(size.low);
        return is_negative() ? -found : found;
    }

    /* Its decimal digits, behind a sign where it is below 0. */
    std::string decimal() const {
        const qconvex_wide size = magnitude();
        std::array<std::uint64_t, 4> parts = {size.high >> 32, size.high & 0xffffffff, size.low >> 32, size.low & 0xffffffff};
        std::string digits;
        do {
            std::uint64_t rest = 0;
            for (std::uint64_t &part : parts) {
                part += rest << 32;
                rest = part % 10;
                part /= 10;
            }
            digits += static_cast<char>('0' + rest);
        } while (std::any_of(parts.begin(), parts.end(), [](std::uint64_t part) { return part != 0; }));
        if (is_negative()) digits += '-';
        return {digits.rbegin(), digits.rend()};
    }

    friend bool operator==(const Wide &one, const Wide &other) noexcept {
        return one.words_.low == other.words_.low && one.words_.high == other.words_.high;
    }
    friend bool operator!=(const Wide &one, const Wide &other) noexcept { return !(one == other); }

private:
    qconvex_wide magnitude() const noexcept {
        if (!is_negative()) return words_;
        return {~words_.low + 1, ~words_.high + (words_.low == 0)};
    }

    qconvex_wide words_;
};

/* What is told of faces. It is true exactly where they are the surface of the hull. */
struct Verdict {
    qconvex_verdict told; /* what is wrong, by the kinds that qconvex.h lists */

    explicit operator bool() const noexcept { return told.kind == QCONVEX_RIGHT; }

    /* "all right", or what is wrong. */
    std::string reason() const {
        const std::string face = "face " + std::to_string(told.face);
        const std::string edge = "the side from point " + std::to_string(told.from) + " to point " + std::to_string(told.to);
        switch (told.kind) {
        case QCONVEX_RIGHT: return "all right";
        case QCONVEX_STRANGER: return face + ": a corner of it is the index of no point";
        case QCONVEX_NO_PLANE: return face + ": its first three corners are no points in a plane";
        case QCONVEX_ABOVE: return face + ": point " + std::to_string(told.point) + " is above its plane";
        case QCONVEX_OTHER_FACE: return face + ": the polygon of its plane is another";
        case QCONVEX_OPEN: return edge + " is open";
        case QCONVEX_TWICE: return "more than one face has " + edge;
        default: return "the polygons are others";
        }
    }
};

/* What a set among many is told: its hull, or in place of it why it was refused. */
struct Answer {
    Status status = Status::done;
    Hull hull;
};

namespace detail {

/* One thread is used for fewer points than this, and if more than two fifths of a sample are extreme. */
inline constexpr std::size_t least_points = 1 << 16, sample_points = 1 << 12, part_points = 1 << 13;

struct Free {
    void operator()(void *memory) const noexcept { std::free(memory); }
};

/* Room for elements, all 0. Its address is never null, and pages that stay unwritten take no memory. */
template <class Element> class Room {
public:
    explicit Room(std::size_t count)
        : count_(count), first_(static_cast<Element *>(std::calloc(std::max<std::size_t>(count, 1), sizeof(Element)))) {
        if (!first_) throw std::bad_alloc();
    }

    Element *data() noexcept { return first_.get(); }
    std::size_t size() const noexcept { return count_; }
    const Element &operator[](std::size_t place) const noexcept { return first_.get()[place]; }

    /* A copy of some elements from a place on. */
    std::vector<Element> copied(std::size_t start, std::size_t count) const {
        return {first_.get() + start, first_.get() + start + count};
    }

private:
    std::size_t count_;
    std::unique_ptr<Element, Free> first_;
};

inline void expect_done(std::uint32_t code) {
    if (code != QCONVEX_DONE) throw Error(static_cast<Status>(code));
}

/* The address of the first element, which is not null for no elements either. */
template <class Element> const Element *address_of(View<Element> elements) noexcept {
    static const Element nothing{};
    return elements.size() ? elements.begin() : &nothing;
}

/* The address of the first corner of triangles, likewise. */
inline const Index *first_of(const std::vector<Triangle> &triangles) noexcept {
    static_assert(sizeof(Triangle) == 3 * sizeof(Index), "triangles stand one after the other");
    return address_of(View<Triangle>(triangles))->data();
}

/* The number of threads that workers stand for. */
inline std::size_t count_of(unsigned workers) noexcept {
    return workers ? workers : std::max(1u, std::thread::hardware_concurrency());
}

/* What the work makes of each number below a count, by a thread each; where none can be started, by this one. */
template <class Work> auto shared(std::size_t count, Work work) -> std::vector<decltype(work(count))> {
    std::vector<std::future<decltype(work(count))>> started;
    started.reserve(count);
    for (std::size_t place = 0; place < count; place++) {
        const auto policy = place + 1 < count ? std::launch::async : std::launch::deferred;
        try {
            started.push_back(std::async(policy, work, place));
        } catch (const std::system_error &) {
            started.push_back(std::async(std::launch::deferred, work, place));
        }
    }
    std::vector<decltype(work(count))> found;
    found.reserve(count);
    for (std::size_t place = count; place-- > 0;) started[place].wait();
    for (auto &one : started) found.push_back(one.get());
    return found;
}

/* Room for the hull of a number of points. */
struct Rooms {
    Room<Index> extremes;
    Room<std::size_t> offsets;
    Room<Index> corners;

    /* Enough by Euler's formula. */
    explicit Rooms(std::size_t points) : extremes(points), offsets(2 * points + 2), corners(6 * points + 4) {}

    explicit Rooms(const qconvex_sizes &wanted) : extremes(wanted.extremes), offsets(wanted.faces + 1), corners(wanted.corners) {}

    std::uint32_t call(Points points, qconvex_sizes &sizes) {
        return qconvex_hull(address_of(points), points.size(), &sizes, extremes.data(), extremes.size(), offsets.data(),
                            offsets.size(), corners.data(), corners.size());
    }
};

/* A hull whose lists begin at some places of buffers. */
inline Hull copied(const qconvex_sizes &sizes, const Room<Index> &extremes, std::size_t first_extreme,
                   const Room<std::size_t> &offsets, std::size_t first_offset, const Room<Index> &corners,
                   std::size_t first_corner) {
    return {sizes.dimension,
            sizes.distinct,
            sizes.edges,
            extremes.copied(first_extreme, sizes.extremes),
            offsets.copied(first_offset, sizes.faces + 1),
            corners.copied(first_corner, sizes.corners)};
}

/* Calls with room that is enough by Euler's formula, and where it is not, with the room that is wanted. */
inline Hull hull_of_all(Points points) {
    qconvex_sizes sizes{};
    Rooms rooms(std::min<std::size_t>(points.size(), QCONVEX_POINT_LIMIT));
    std::uint32_t code = rooms.call(points, sizes);
    if (code == QCONVEX_ROOM) {
        rooms = Rooms(sizes);
        code = rooms.call(points, sizes);
    }
    expect_done(code);
    return copied(sizes, rooms.extremes, 0, rooms.offsets, 0, rooms.corners, 0);
}

inline Fans fans_of_all(Points points) {
    std::size_t count = 6 * std::min<std::size_t>(points.size(), QCONVEX_POINT_LIMIT) / 3 + 1;
    std::uint32_t code = QCONVEX_ROOM;
    for (int turn = 0; turn < 2 && code == QCONVEX_ROOM; turn++) {
        Room<Index> triangles(3 * count);
        Room<std::int64_t> normals(3 * count);
        code = qconvex_fans(address_of(points), points.size(), &count, triangles.data(), triangles.size(), normals.data(),
                            normals.size());
        if (code != QCONVEX_DONE) continue;
        Fans found;
        found.triangles.reserve(count);
        found.normals.reserve(count);
        for (std::size_t k = 0; k < 3 * count; k += 3) {
            found.triangles.push_back({triangles[k], triangles[k + 1], triangles[k + 2]});
            found.normals.push_back({normals[k], normals[k + 1], normals[k + 2]});
        }
        return found;
    }
    throw Error(static_cast<Status>(code));
}

/* Whether more than two fifths of a sample are extreme points of it, as on a sphere, where parts have most points each. */
inline bool is_mostly_extreme(Points points) {
    std::vector<Point> sample;
    const std::size_t step = std::max<std::size_t>(points.size() / sample_points, 1);
    for (std::size_t place = 0; place < points.size(); place += step) sample.push_back(points[place]);
    return 5 * hull_of_all(sample).extremes.size() > 2 * sample.size();
}

/* The extreme points of consecutive parts, rising; none where one thread is to do it. By the law of unions the extreme
 * points of all are those of these. */
inline std::vector<Index> extremes_of_parts(Points points, unsigned workers) {
    const std::size_t count = std::min(count_of(workers), points.size() / part_points);
    if (count < 2 || points.size() < least_points || points.size() > QCONVEX_POINT_LIMIT || is_mostly_extreme(points)) return {};
    const auto found = shared(count, [points, count](std::size_t place) {
        const std::size_t start = points.size() * place / count, end = points.size() * (place + 1) / count;
        std::vector<Index> extremes = hull_of_all(points.part(start, end)).extremes;
        for (Index &index : extremes) index += static_cast<Index>(start);
        return extremes;
    });
    std::vector<Index> all;
    for (const std::vector<Index> &part : found) all.insert(all.end(), part.begin(), part.end());
    return all;
}

inline std::vector<Point> chosen(Points points, const std::vector<Index> &indices) {
    std::vector<Point> found;
    found.reserve(indices.size());
    for (Index index : indices) found.push_back(points[index]);
    return found;
}

/* The answers of the sets from one to before another. */
inline std::vector<Answer> answers_of(Points points, View<std::size_t> starts, std::size_t first, std::size_t end) {
    std::vector<std::size_t> here(starts.begin() + first, starts.begin() + end + 1);
    const std::size_t begin = here[0], sets = end - first, count = here[sets] - begin;
    for (std::size_t &start : here) start -= begin;
    Room<qconvex_answer> answers(sets);
    Room<Index> extremes(count), corners(6 * count + 4 * sets);
    Room<std::size_t> offsets(2 * count + 2 * sets);
    const Points part = points.part(begin, begin + count);
    expect_done(qconvex_hulls(address_of(part), count, here.data(), here.size(), answers.data(), sets, extremes.data(), count,
                              offsets.data(), offsets.size(), corners.data(), corners.size()));
    std::vector<Answer> found(sets);
    for (std::size_t set = 0; set < sets; set++) {
        found[set].status = static_cast<Status>(answers[set].code);
        if (found[set].status == Status::done)
            found[set].hull = copied(answers[set].sizes, extremes, here[set], offsets, 2 * here[set] + 2 * set, corners,
                                     6 * here[set] + 4 * set);
    }
    return found;
}

/* Ends of ranges of sets with about as many points each. */
inline std::vector<std::size_t> cuts_of(View<std::size_t> starts, std::size_t count) {
    const std::size_t all = starts[starts.size() - 1] - starts[0];
    std::vector<std::size_t> ends = {0};
    for (std::size_t part = 1; part < count; part++) {
        const std::size_t goal = starts[0] + all / count * part;
        ends.push_back(static_cast<std::size_t>(std::lower_bound(starts.begin(), starts.end() - 1, goal) - starts.begin()));
    }
    ends.push_back(starts.size() - 1);
    return ends;
}

} /* namespace detail */

/* The hull of points.
 *
 * Each worker takes the extreme points of a part, and then one thread the hull of these, which is that of all points. One
 * thread is used for fewer than 65536 points, and if more than two fifths of a sample are extreme. Throws Error where there is no point,
 * there are too many, a coordinate is out of range, or memory is out. */
inline Hull hull(Points points, unsigned workers = 1) {
    const std::vector<Index> indices = detail::extremes_of_parts(points, workers);
    if (indices.empty()) return detail::hull_of_all(points);
    Hull found = detail::hull_of_all(detail::chosen(points, indices));
    found.distinct.reset(); /* each part has its own */
    for (Index &extreme : found.extremes) extreme = indices[extreme];
    for (Index &corner : found.corners) corner = indices[corner];
    return found;
}

/* The faces of the hull of points as triangles, with their outer normals; below dimension 2 there are none. */
inline Fans fans(Points points, unsigned workers = 1) {
    const std::vector<Index> indices = detail::extremes_of_parts(points, workers);
    if (indices.empty()) return detail::fans_of_all(points);
    Fans found = detail::fans_of_all(detail::chosen(points, indices));
    for (Triangle &triangle : found.triangles)
        for (Index &corner : triangle) corner = indices[corner];
    return found;
}

/* Six times the volume inside triangles that close up, such as those of fans, exact. Throws Error with Status::room where a
 * sum has more than 128 bits, and with Status::range where a corner is the index of no point. */
inline Wide six_volumes(Points points, const std::vector<Triangle> &triangles) {
    qconvex_wide sum{};
    detail::expect_done(qconvex_six_volumes(detail::address_of(points), points.size(), detail::first_of(triangles),
                                            3 * triangles.size(), &sum));
    return Wide(sum);
}

/* The volume inside such triangles, rounded. */
inline double volume(Points points, const std::vector<Triangle> &triangles) { return six_volumes(points, triangles).rounded() / 6; }

/* Of each triangle those over its sides, each opposite to the corner at the same place; QCONVEX_NONE where none has the side
 * reversed. Throws Error with Status::range where a corner is not below QCONVEX_POINT_LIMIT, and with Status::too_many where
 * there are more than twice as many triangles. */
inline std::vector<Neighbors> neighbors(const std::vector<Triangle> &triangles) {
    std::vector<Neighbors> found(std::max<std::size_t>(triangles.size(), 1));
    const std::size_t count = 3 * triangles.size();
    detail::expect_done(qconvex_neighbors(detail::first_of(triangles), count, found[0].data(), count));
    found.resize(triangles.size());
    return found;
}

/* The hulls of many sets that follow each other in one list: set j has the points from points[starts[j]] to before
 * points[starts[j + 1]]. A set that is refused leaves the others. Throws Error with Status::starts where the starts don't
 * rise, go beyond the points, or are none. */
inline std::vector<Answer> hulls(Points points, View<std::size_t> starts, unsigned workers = 1) {
    if (!starts.size() || starts[starts.size() - 1] > points.size() || !std::is_sorted(starts.begin(), starts.end()))
        throw Error(Status::starts);
    const std::size_t sets = starts.size() - 1, count = std::max<std::size_t>(std::min(detail::count_of(workers), sets), 1);
    const std::vector<std::size_t> ends = detail::cuts_of(starts, count);
    auto parts = detail::shared(count, [&](std::size_t place) {
        return detail::answers_of(points, starts, ends[place], ends[place + 1]);
    });
    std::vector<Answer> found;
    found.reserve(sets);
    for (std::vector<Answer> &part : parts) std::move(part.begin(), part.end(), std::back_inserter(found));
    return found;
}

/* Tells whether faces, whoever made them, are the surface of the hull of points: face j has the corners from
 * corners[offsets[j]] to before corners[offsets[j + 1]], counterclockwise seen from outside. */
inline Verdict check(Points points, View<std::size_t> offsets, View<Index> corners) {
    Verdict verdict{};
    detail::expect_done(qconvex_check(detail::address_of(points), points.size(), detail::address_of(offsets), offsets.size(),
                                      detail::address_of(corners), corners.size(), &verdict.told));
    return verdict;
}

/* The same of faces that are lists of corners, such as vectors of vectors or of triangles. */
template <class Face> Verdict check(Points points, const std::vector<Face> &faces) {
    std::vector<std::size_t> offsets = {0};
    std::vector<Index> corners;
    for (const Face &face : faces) {
        corners.insert(corners.end(), face.begin(), face.end());
        offsets.push_back(corners.size());
    }
    return check(points, offsets, corners);
}

/* The version of the library that is linked or loaded, as QCONVEX_VERSION_NUMBER is that of the header. */
inline std::uint32_t version() noexcept { return qconvex_version(); }

} /* namespace qconvex */

#endif
