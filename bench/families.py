"""Families of points, seeded: ordinary ones, and inputs that are bad for some hull program, in the orders that are worst.

Each takes a random source and a number of points. Coordinates are whole numbers within 2^20, whatever the limit of the program, so that
times stay comparable. The worst families are solid, and their points distinct or nearly so.
"""
import functools
import math

SIZE = 1 << 20
BLOCK = 4096  # the ids of a block of this program, by default


# Ordinary families.


def cube(rng, n):
    """Uniform in a cube."""
    return [tuple(rng.randint(-SIZE, SIZE) for _ in range(3)) for _ in range(n)]


def direction(rng):
    """A direction, uniform over the sphere."""
    while True:
        v = [rng.gauss(0, 1) for _ in range(3)]
        size = math.sqrt(sum(c * c for c in v))
        if size > 1e-9:
            return [c / size for c in v]


def on_sphere(rng, n, radius):
    """Points on a sphere, rounded to whole numbers."""
    return [tuple(round(radius * c) for c in direction(rng)) for _ in range(n)]


def sphere(rng, n):
    """On a sphere."""
    return on_sphere(rng, n, SIZE)


def ball(rng, n):
    """Uniform in a ball."""
    points = []
    for _ in range(n):
        radius = SIZE * rng.random() ** (1 / 3)
        points.append(tuple(round(radius * c) for c in direction(rng)))
    return points


def paraboloid_in_rows(_rng, n):
    """(x, y, x^2 + y^2) around 0, row by row: all are extreme."""
    side = math.isqrt(n)
    low = -(side // 2)
    return [(x, y, x * x + y * y) for x in range(low, low + side) for y in range(low, low + side)]


def shuffled(family):
    """The points of a family, shuffled."""

    def make(rng, n):
        points = family(rng, n)
        rng.shuffle(points)
        return points

    return make


def grid(rng, n):
    """Whole coordinates from 0 to 10: nearly all points are repeats."""
    return [tuple(rng.randint(0, 10) for _ in range(3)) for _ in range(n)]


def cube_surface(rng, n):
    """On the six faces of a cube."""
    points = []
    for _ in range(n):
        p = [rng.randint(-SIZE, SIZE) for _ in range(3)]
        p[rng.randrange(3)] = rng.choice((-SIZE, SIZE))
        points.append(tuple(p))
    return points


def flat(rng, n):
    """In the plane x + y + z = 0."""
    pairs = ((rng.randint(-SIZE // 2, SIZE // 2), rng.randint(-SIZE // 2, SIZE // 2)) for _ in range(n))
    return [(x, y, -x - y) for x, y in pairs]


def line(rng, n):
    """On one line; nearly all points are repeats or neighbours."""
    return [(t, t, -t) for t in (rng.randint(-SIZE, SIZE) for _ in range(n))]


ORDINARY = {
    "cube": cube, "ball": ball, "sphere": sphere, "paraboloid": shuffled(paraboloid_in_rows), "paraboloid-in-rows": paraboloid_in_rows,
    "grid": grid, "cube-surface": cube_surface, "flat": flat, "line": line,
}  # fmt: skip


# The worst families.


def rounded(x, y, z):
    """The nearest whole point."""
    return (round(x), round(y), round(z))


@functools.lru_cache(maxsize=4)
def polygon(corners):
    """Returns the corners of a strictly convex polygon around 0, with whole coordinates: its sides are the shortest
    steps of two whole numbers without a common divisor, in the order of their directions. Up to 57,112 fit."""
    radius = math.isqrt(int(corners * math.pi / 6)) + 3
    steps = [(x, y) for x in range(-radius, radius + 1) for y in range(-radius, radius + 1) if math.gcd(x, y) == 1]
    steps.sort(key=lambda s: (s[0] * s[0] + s[1] * s[1], s))
    # Whole pairs of opposite steps close the polygon.
    half = [s for s in steps if s > (0, 0)][: corners // 2]
    x = y = 0
    found = []
    for dx, dy in sorted(half + [(-x, -y) for x, y in half], key=lambda s: math.atan2(s[1], s[0])):
        x, y = x + dx, y + dy
        found.append((x, y))
    cx, cy = ((min(column) + max(column)) // 2 for column in zip(*found))
    return [(x - cx, y - cy) for x, y in found]


def most_corners(count):
    """Returns the number of corners of a polygon for a number of points: half of it, or the most that fit."""
    return min(57112, count // 2)


def radius_of(corners):
    """The radius of a circle within the polygon."""
    return min(math.hypot(x, y) for x, y in polygon(corners)) * 0.99


def disc(rng, count):
    """Points of a disc of radius 1, each with its distance from the middle."""
    for _ in range(count):
        r, t = math.sqrt(rng.random()), rng.random() * math.tau
        yield r * math.cos(t), r * math.sin(t), r


def cap(rng, count, radius, height, base):
    """On a paraboloid's cap over a circle."""
    return [rounded(radius * x, radius * y, base + height * (1 - r * r)) for x, y, r in disc(rng, count)]


def tent(corners, rng, count):
    """A polygon, a point below its middle, a cap above it, and last the apex of a roof over all."""
    rim = [(x, y, 0) for x, y in polygon(corners)]
    return rim + [(0, 0, -SIZE)] + cap(rng, count - corners - 2, radius_of(corners) / 2, SIZE / 4, 16) + [(0, 0, SIZE)]


def block_tents(rng, count):
    """A tent in each block, one above the other."""
    rim, found = polygon(2000), []
    scale = max(1, 900000 // max(x for x, _ in rim))
    for block in range(max(1, count // BLOCK)):
        base = -SIZE // 2 + block
        found += [(scale * x + block, scale * y - block, base) for x, y in rim] + [(0, 0, base - SIZE // 4)]
        found += cap(rng, BLOCK - 2002, scale * radius_of(2000) / 2, SIZE / 4, base + 16) + [(0, 0, base + SIZE)]
    return found


def shells(rng, count):
    """A hundred spheres one in the other, the inner ones first."""
    return [point for shell in range(100) for point in on_sphere(rng, max(1, count // 100), SIZE * (shell + 1) / 100)]


def spheres(rng, count):
    """Ten spheres one in the other."""
    return [point for shell in range(10) for point in on_sphere(rng, count // 10, SIZE * (0.5 + 0.05 * (shell + 1)))]


def half_sphere(rng, count, radius):
    """On the upper half of a sphere."""
    return [(x, y, abs(z)) for x, y, z in on_sphere(rng, count, radius)]


def dome(rng, count):
    """A polygon, and then half a sphere above it."""
    corners = most_corners(count)
    return [(x, y, 0) for x, y in polygon(corners)] + half_sphere(rng, count - corners, radius_of(corners))


def disc_and_dome(rng, count):
    """A disc's points, and then half a sphere above it."""
    floor = [rounded(SIZE * x, SIZE * y, 0) for x, y, _ in disc(rng, count // 2)]
    return floor + half_sphere(rng, count - count // 2, SIZE)


def prism(_rng, count):
    """The corners of a polygon at heights from below to above."""
    corners = most_corners(count)
    levels = max(2, count // corners)
    return [(x, y, round(SIZE * (2 * level / (levels - 1) - 1))) for level in range(levels) for x, y in polygon(corners)]


def cone(rng, count):
    """A cone's surface, from the rim to the apex."""
    found = []
    for k in range(count - 1):
        r, t = SIZE * math.sqrt(1 - k / count), rng.random() * math.tau
        found.append(rounded(r * math.cos(t), r * math.sin(t), SIZE - r))
    return found + [(0, 0, SIZE)]


def ring(count, radius, z, turn=0.0):
    """On a circle, in order."""
    angles = [turn + math.tau * k / count for k in range(count)]
    return [rounded(radius * math.cos(angle), radius * math.sin(angle), z) for angle in angles]


def few_rings(_rng, count):
    """Four rings on a sphere."""
    heights = enumerate((-0.6, -0.2, 0.2, 0.6))
    return [p for k, z in heights for p in ring(count // 4, SIZE * math.sqrt(1 - z * z), round(SIZE * z), k)]


def circle(_rng, count):
    """A circle in its order, and a point above and below its middle."""
    return ring(count - 2, SIZE, 0) + [(0, 0, SIZE), (0, 0, -SIZE)]


def circles(_rng, count):
    """Two equal circles, one above the other, each in its order."""
    return ring(count // 2, SIZE, -SIZE // 2) + ring(count // 2, SIZE, SIZE // 2)


def spiral(_rng, count):
    """A spiral round a cylinder."""
    turns = ((40 * math.tau * k / count, 2 * k / count - 1) for k in range(count))
    return [rounded(SIZE * math.cos(t), SIZE * math.sin(t), SIZE * z) for t, z in turns]


def sphere_spiral(_rng, count):
    """A spiral round a sphere, from pole to pole."""
    turns = ((200 * math.tau * k / count, 2 * k / count - 1, math.sqrt(1 - (2 * k / count - 1) ** 2)) for k in range(count))
    return [rounded(SIZE * r * math.cos(t), SIZE * r * math.sin(t), SIZE * z) for t, z, r in turns]


def skew_curves(_rng, count):
    """Two parabolas in planes at right angles, each around the other."""
    steps = [2 * k / (count // 2) - 1 for k in range(count // 2)]
    pairs = [((SIZE * t, 0, SIZE * (t * t - 1) / 2), (0, SIZE * t, SIZE * (1 - t * t) / 2)) for t in steps]
    return [rounded(*point) for pair in pairs for point in pair]


def in_order(family, reverse):
    """The points of a family sorted by coordinates."""
    return lambda rng, count: sorted(family(rng, count), reverse=reverse)


WORST = {
    **{f"tent-{corners}": functools.partial(tent, corners) for corners in (1000, 5000, 20000, 57112)},
    "shuffled-tent-20000": shuffled(functools.partial(tent, 20000)),
    "block-tents": block_tents, "shells": shells, "spheres": shuffled(spheres), "dome": dome, "disc-and-dome": disc_and_dome,
    "prism": prism, "cone": cone, "few-rings": shuffled(few_rings), "circle": circle, "circles": circles, "spiral": spiral,
    "sphere-spiral": sphere_spiral, "skew-curves": skew_curves,
}  # fmt: skip
for _name in ("cube", "ball", "sphere", "paraboloid"):
    WORST[f"{_name}-sorted"] = in_order(ORDINARY[_name], False)
    WORST[f"{_name}-reversed"] = in_order(ORDINARY[_name], True)
    WORST[f"{_name}-shuffled"] = shuffled(ORDINARY[_name])
