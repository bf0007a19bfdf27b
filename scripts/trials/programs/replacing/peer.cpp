#include <cstddef>
#include <cstdint>
#include <cstdio>
#include <vector>

struct Side { uint32_t start; bool live, seen; size_t twin; };
struct Spoke { uint32_t from, to; size_t outer, next; };

static size_t after(size_t e) { return e % 3 == 2 ? e - 2 : e + 1; }

struct Mesh {
    std::vector<Side> sides;
    std::vector<size_t> free_places, rim;
    std::vector<Spoke> spokes;

    size_t turn(size_t h) const {
        for (size_t z = h;;) {
            size_t e = after(z), t = sides[e].twin;
            if (!sides[t].seen) return e;
            z = t;
        }
    }

    size_t place(const std::vector<size_t> &visible, size_t j) {
        if (j < visible.size()) return visible[j];
        if (!free_places.empty()) {
            size_t f = free_places.back();
            free_places.pop_back();
            return f;
        }
        sides.resize(sides.size() + 3, Side{0, false, false, 0});
        return sides.size() / 3 - 1;
    }

    std::vector<size_t> replace(const std::vector<size_t> &visible, uint32_t apex) {
        rim.clear();
        spokes.clear();
        for (size_t f : visible)
            for (size_t e = 3 * f; e < 3 * f + 3; e++) sides[e].seen = true;
        for (size_t f : visible)
            for (size_t e = 3 * f; e < 3 * f + 3; e++)
                if (!sides[sides[e].twin].seen) rim.push_back(e);
        std::vector<size_t> made;
        made.reserve(3 * visible.size());
        for (size_t j = 0; j < rim.size(); j++) made.push_back(place(visible, j));
        for (size_t j = 0; j < rim.size(); j++) sides[sides[rim[j]].twin].twin = 3 * made[j];
        for (size_t h : rim) {
            size_t next = turn(h);
            spokes.push_back({sides[h].start, sides[after(h)].start, sides[h].twin, sides[sides[next].twin].twin});
        }
        for (size_t j = 0; j < made.size(); j++) {
            size_t at = 3 * made[j];
            const Spoke &s = spokes[j];
            sides[at] = {s.from, true, false, s.outer};
            sides[at + 1] = {s.to, true, false, s.next + 2};
            sides[s.next + 2] = {apex, true, false, at + 1};
        }
        for (size_t j = made.size(); j < visible.size(); j++) {
            for (size_t e = 3 * visible[j]; e < 3 * visible[j] + 3; e++) sides[e] = {0, false, false, 0};
            free_places.push_back(visible[j]);
        }
        return made;
    }
};

int main() {
    Mesh mesh;
    const uint32_t corner[12] = {0, 2, 1, 0, 3, 2, 0, 1, 3, 2, 3, 1};
    const size_t twin[12] = {5, 11, 6, 8, 9, 0, 2, 10, 3, 4, 7, 1};
    for (int e = 0; e < 12; e++) mesh.sides.push_back({corner[e], true, false, twin[e]});
    std::vector<size_t> made = mesh.replace({0}, 0);
    for (uint32_t round = 0; round < 10000000; round++) made = mesh.replace(made, round % 4);
    std::printf("%zu\n", mesh.sides.size() / 3);
}
