#!/usr/bin/env python3
"""Builds the peers that are libraries into small programs: each reads a point file and prints the numbers of vertices and faces.

    bench/peers.py cgal PROGRAM          CGAL's convex_hull_3 with its exact-predicates kernel (Debian's libcgal-dev)
    bench/peers.py cgal-plain PROGRAM    the same over plain doubles, whose predicates are rounded
    bench/peers.py bullet PROGRAM        Bullet's btConvexHullComputer (Debian's libbullet-dev)

CGAL's program writes the hull as OFF text if it is run with a word, such as `off`. Other scripts of this folder build what they need
themselves, in build/peers.
"""
import subprocess
import sys
import tempfile
from pathlib import Path

sys.path.insert(0, str(Path(__file__).resolve().parents[1] / "scripts"))
from lib.paths import TOP  # noqa: E402
from lib.usage import names_given  # noqa: E402

# Qhull's program of the same name, of Debian's package qhull-bin.
QHULL = "/usr/bin/qconvex"

# Reads the points of standard input and calls `add(x, y, z)` for each.
READ = r"""
#include <cstdio>
#include <cstdlib>
#include <string>
#include <vector>

template <typename Add> void read(Add add) {
    std::string text;
    char buffer[1 << 16];
    for (size_t n; (n = std::fread(buffer, 1, sizeof buffer, stdin)) > 0;) text.append(buffer, n);
    char *at = &text[0];
    std::strtol(at, &at, 10);
    long count = std::strtol(at, &at, 10);
    for (long i = 0; i < count; i++) {
        long x = std::strtol(at, &at, 10), y = std::strtol(at, &at, 10), z = std::strtol(at, &at, 10);
        add(x, y, z);
    }
}
"""

CGAL = READ + r"""
#include <CGAL/Exact_predicates_inexact_constructions_kernel.h>
#include <CGAL/Simple_cartesian.h>
#include <CGAL/Polyhedron_3.h>
#include <CGAL/convex_hull_3.h>
#include <map>

#ifdef PLAIN
typedef CGAL::Simple_cartesian<double> Kernel;
#else
typedef CGAL::Exact_predicates_inexact_constructions_kernel Kernel;
#endif
typedef Kernel::Point_3 Point;

void write(const CGAL::Polyhedron_3<Kernel> &mesh) {
    std::printf("OFF\n%zu %zu 0\n", (size_t)mesh.size_of_vertices(), (size_t)mesh.size_of_facets());
    std::map<const void *, size_t> places;
    for (auto vertex = mesh.vertices_begin(); vertex != mesh.vertices_end(); ++vertex) {
        places.emplace(&*vertex, places.size());
        Point p = vertex->point();
        std::printf("%ld %ld %ld\n", (long)p.x(), (long)p.y(), (long)p.z());
    }
    for (auto facet = mesh.facets_begin(); facet != mesh.facets_end(); ++facet) {
        std::printf("%zu", (size_t)facet->facet_degree());
        auto edge = facet->facet_begin(), first = edge;
        do std::printf(" %zu", places.at(&*edge->vertex()));
        while (++edge != first);
        std::printf("\n");
    }
}

int main(int words, char **) {
    std::vector<Point> points;
    read([&](long x, long y, long z) { points.emplace_back(x, y, z); });
    CGAL::Object object;
    CGAL::convex_hull_3(points.begin(), points.end(), object);
    CGAL::Polyhedron_3<Kernel> mesh;
    if (!CGAL::assign(mesh, object)) std::printf("degenerate\n");
    else if (words > 1) write(mesh);
    else std::printf("%zu %zu\n", (size_t)mesh.size_of_vertices(), (size_t)mesh.size_of_facets());
}
"""

BULLET = READ + r"""
#include <LinearMath/btConvexHullComputer.h>

int main() {
    std::vector<double> points;
    read([&](long x, long y, long z) { points.insert(points.end(), {double(x), double(y), double(z)}); });
    btConvexHullComputer hull;
    hull.compute(points.data(), 3 * sizeof(double), int(points.size() / 3), 0, 0);
    std::printf("%d %d\n", hull.vertices.size(), hull.faces.size());
}
"""

PEERS = {
    "cgal": (CGAL, ["-frounding-math"], ["-lgmp", "-lmpfr"]),
    "cgal-plain": (CGAL, ["-frounding-math", "-DPLAIN"], ["-lgmp", "-lmpfr"]),
    "bullet": (BULLET, ["-I/usr/include/bullet"], ["-lLinearMath"]),
}


def build(name, target):
    """Builds a peer."""
    source, flags, libraries = PEERS[name]
    with tempfile.TemporaryDirectory() as folder:
        path = Path(folder) / "hull.cpp"
        path.write_text(source, encoding="ascii")
        subprocess.run(["g++", "-O3", "-DNDEBUG", "-std=c++17", *flags, path, "-o", target, *libraries], check=True)


def command_of(name, output):
    """Returns the command of a peer for an output of this program; a library's program is built if it was not yet."""
    if name == "qhull":
        return [QHULL, *{"off": ["o"], "offt": ["Qt", "o"]}.get(output, [output])]
    target = TOP / "build" / "peers" / name
    if not target.exists() or target.stat().st_mtime < Path(__file__).stat().st_mtime:
        target.parent.mkdir(parents=True, exist_ok=True)
        build(name, target)
    return [str(target), "off"] if output.startswith("off") and name != "bullet" else [str(target)]


def main():
    names = names_given(__doc__)
    if len(names) != 2 or names[0] not in PEERS:
        sys.exit(f"name a peer, which is one of {', '.join(PEERS)}, and the program to build")
    build(names[0], Path(names[1]).absolute())


if __name__ == "__main__":
    main()
