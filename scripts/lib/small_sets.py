"""Small degenerate sets, seeded: grids, planes, lines, repeats, prisms, antiprisms, cones, corners of the range, slivers."""
from lib.limits import COORDINATE_LIMIT

GREATEST_SET = 14


# The sets.


def some(rng, all_points, least=1):
    """A choice among the points, at most 14."""
    most = min(GREATEST_SET, len(all_points))
    return rng.sample(all_points, rng.randint(min(least, most), most))


def grid(rng):
    a, b, c = (rng.randint(1, 3) for _ in range(3))
    return some(rng, [(x, y, z) for x in range(a + 1) for y in range(b + 1) for z in range(c + 1)], 4)


def small_vector(rng, side=3):
    return tuple(rng.randint(-side, side) for _ in range(3))


def combined(origin, *parts):
    """The origin plus each factor times its vector."""
    return tuple(origin[axis] + sum(factor * vector[axis] for factor, vector in parts) for axis in range(3))


def plane(rng):
    origin, u, v = small_vector(rng), small_vector(rng), small_vector(rng)
    cells = [(i, j) for i in range(-2, 3) for j in range(-2, 3)]
    return [combined(origin, (i, u), (j, v)) for i, j in some(rng, cells, 3)]


def line(rng):
    origin, u = small_vector(rng), small_vector(rng)
    return [combined(origin, (i, u)) for i in some(rng, range(-9, 10), 1)]


def repeats(rng):
    few = [small_vector(rng) for _ in range(rng.randint(1, 6))]
    return [rng.choice(few) for _ in range(rng.randint(1, GREATEST_SET))]


POLYGONS = [
    [(0, 0), (4, 0), (0, 4)],
    [(0, 0), (4, 0), (4, 4), (0, 4)],
    [(2, 0), (4, 1), (3, 4), (1, 4), (0, 1)],
    [(2, 0), (4, 0), (6, 2), (4, 4), (2, 4), (0, 2)],
]


def base(rng):
    corners = rng.choice(POLYGONS)
    middles = [((a[0] + b[0]) // 2, (a[1] + b[1]) // 2) for a, b in zip(corners, corners[1:] + corners[:1])]
    return corners + (rng.sample(middles, rng.randint(0, 1)))


def prism(rng):
    slant, height = (rng.randint(-2, 2), rng.randint(-2, 2)), rng.randint(1, 3)
    flat = base(rng)
    return [(x, y, 0) for x, y in flat] + [(x + slant[0], y + slant[1], height) for x, y in flat]


def antiprism(rng):
    flat, height = base(rng)[:6], rng.randint(1, 3)
    return [(x, y, 0) for x, y in flat] + [(4 - y, x, height) for x, y in flat]


def cone(rng):
    apex = (rng.randint(-1, 5), rng.randint(-1, 5), rng.choice([-2, 2, 4]))
    flat = [(x, y, 0) for x, y in base(rng)]
    half = [combined(apex, (1, point)) for point in rng.sample(flat, 2)]
    return [combined((0, 0, 0), (2, point)) for point in [*flat, apex]] + half


WEIGHTS = [(6, 6), (4, 8), (3, 9), (4, 4, 4), (6, 3, 3), (3, 3, 3, 3)]


def within(rng):
    """The corners of a solid, and points within its edges, its faces and itself."""
    corners = [combined((0, 0, 0), (12, small_vector(rng, 2))) for _ in range(rng.randint(3, 6))]
    inner = []
    for _ in range(rng.randint(1, 8)):
        weights = rng.choice(WEIGHTS)
        chosen = [rng.choice(corners) for _ in weights]
        inner.append(tuple(part // 12 for part in combined((0, 0, 0), *zip(weights, chosen))))
    return corners + inner


def range_corners(rng):
    side = rng.choice([1 << 20, COORDINATE_LIMIT])
    values = [-side, side]
    corners = [(x, y, z) for x in values for y in values for z in values]
    near = rng.choice([[], [-side + 1, side - 1], [0], [-1, 0, 1]])
    inner = [tuple(rng.choice(values + near) for _ in range(3)) for _ in range(rng.randint(0, 6))]
    return some(rng, corners, 4) + inner


def sliver(rng):
    """Points near a plane or a line of great extent, off it by one or not at all."""
    side = rng.choice([200_000, 200_000_000])
    u, v = (tuple(rng.randint(-side, side) for _ in range(3)) for _ in range(2))
    factors = [(rng.randint(-2, 2), rng.randint(-2, 2)) for _ in range(rng.randint(3, 12))]
    return [combined(small_vector(rng, rng.choice([0, 0, 1])), (i, u), (j, v)) for i, j in factors]


def cloud(rng):
    side = rng.choice([1, 2, 5, 1 << 20, COORDINATE_LIMIT])
    return [small_vector(rng, side) for _ in range(rng.randint(1, GREATEST_SET))]


FAMILIES = [grid, plane, line, repeats, prism, antiprism, cone, within, range_corners, sliver, cloud]


def in_range(points):
    return all(-COORDINATE_LIMIT <= coordinate <= COORDINATE_LIMIT for point in points for coordinate in point)


def sheared(rng, points):
    """The points times a small whole matrix, which may flatten them, and shifted."""
    columns = [small_vector(rng, 2) for _ in range(3)]
    shift = small_vector(rng, rng.choice([0, 3, 1_000_000, 1_000_000_000]))
    return [combined(shift, *zip(point, columns)) for point in points]


def disturbed(rng, points):
    """The points with axes and signs exchanged, perhaps one again or one moved by one, in any order."""
    axes, signs = rng.sample(range(3), 3), [rng.choice([-1, 1]) for _ in range(3)]
    points = [tuple(sign * point[axis] for axis, sign in zip(axes, signs)) for point in points]
    if rng.random() < 0.3:
        points[rng.randrange(len(points))] = combined(rng.choice(points), (1, small_vector(rng, 1)))
    if rng.random() < 0.3:
        points.append(rng.choice(points))
    rng.shuffle(points)
    return points[:GREATEST_SET]


def small_set(rng):
    """A set in range, and the name of its family."""
    while True:
        family = rng.choice(FAMILIES)
        points = family(rng)
        moved = sheared(rng, points) if rng.random() < 0.5 else points
        points = disturbed(rng, moved if in_range(moved) else points)
        if in_range(points):
            return points, family.__name__
