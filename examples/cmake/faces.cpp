/* Reads a point file and writes the faces of the hull, each by the indices of its corners, and the exact volume. */
#include <qconvex.hpp>

#include <cstddef>
#include <cstdint>
#include <iostream>
#include <vector>

/* The points of a file of whole numbers: 3, their number, and three coordinates each. */
static std::vector<qconvex::Point> points_of(std::istream &source) {
    std::size_t dimension = 0, count = 0;
    source >> dimension >> count;
    std::vector<qconvex::Point> points;
    for (qconvex::Point point; points.size() < count && source >> point.x >> point.y >> point.z;) points.push_back(point);
    return points;
}

int main() {
    const std::vector<qconvex::Point> points = points_of(std::cin);
    try {
        const qconvex::Hull hull = qconvex::hull(points, 4);
        for (std::size_t face = 0; face < hull.face_count(); face++) {
            for (qconvex::Index corner : hull.face(face)) std::cout << corner << ' ';
            std::cout << '\n';
        }
        const qconvex::Fans fans = qconvex::fans(points, 4);
        std::cout << "six times the volume: " << qconvex::six_volumes(points, fans.triangles).decimal() << '\n';
    } catch (const qconvex::Error &error) {
        std::cerr << "refused: " << error.what() << '\n';
        return static_cast<int>(error.status());
    }
}
