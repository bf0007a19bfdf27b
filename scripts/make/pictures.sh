#!/bin/sh
# Makes the pictures of the documents in docs/pictures.
#
#     scripts/make/pictures.sh        from anywhere
#
# Needs the built program, the library for Python, numpy, and Qhull's program (Debian's package qhull-bin), whose answer one picture shows.
set -eu
. "$(dirname "$0")/../lib/paths.sh"
for needed in "$program" qhull; do
    command -v "$needed" > /dev/null || { echo "$needed is missing" >&2; exit 1; }
done
pictures=docs/pictures
work=$(mktemp -d)
trap 'rm -r "$work"' EXIT
for name in octahedron-midpoints sphere-60; do
    "$program" off < "examples/$name.txt" | scripts/tools/picture.py > "$pictures/$name.svg"
done
scripts/make/example_sets.py ball7 | "$program" off > "$work/lattice-ball.off"
scripts/tools/picture.py --size 320 "$work/lattice-ball.off" > "$pictures/lattice-ball.svg"
scripts/make/example_sets.py ball7 | PYTHONPATH=python /usr/bin/python3 -c 'import sys, numpy, qconvex
print(qconvex.ConvexHull(numpy.loadtxt(sys.stdin, int, skiprows=2)).to_stl(), end="")' > "$pictures/lattice-ball.stl"
"$program" off < examples/bowl122.txt > "$work/right.off"
qhull o < examples/bowl122.txt > "$work/qhull.off"
scripts/tools/picture.py --eye=2,6,-3 --size 320 "$work/right.off" > "$pictures/bowl122.svg"
scripts/tools/picture.py --eye=-6,5,-4 --size 320 \
    --title 'exact: 122 corners, 124 faces' --title 'Qhull: 23 corners, 23 faces' \
    "$work/right.off" "$work/qhull.off" > "$pictures/bowl122-both.svg"
python/bin/meshpoints --scale 1000 --centre 0,0,0 examples/knot.obj > "$work/knot.txt"
"$program" off < "$work/knot.txt" | python/bin/meshpoints --back "$work/knot.txt" > "$work/knot.off"
scripts/tools/picture.py --eye=1,-1.5,2 --size 360 --mesh examples/knot.obj "$work/knot.off" > "$pictures/knot.svg"
