#!/usr/bin/env python3
"""Makes meshes that are hard to simplify, in ASCII with whole or float coordinates, by a formula.

    bench/hard_meshes.py field 1000 input.ply    a height field of 2 * 1000 * 1000 triangles, with three digits behind the point
    bench/hard_meshes.py debris 10000 input.ply  a sheet of 80,000 triangles, and so many loose tetrahedra over it
    bench/hard_meshes.py fan 30000 input.ply     a fan of so many triangles round a vertex on the border
    bench/hard_meshes.py disc 30000 input.ply    half a disc of three rims round such a vertex, 5 triangles for each of the first rim
    bench/hard_meshes.py flat 400 input.ply      a flat grid of 2 * 400 * 400 triangles: every sweep is 0

The same words make the same file.
"""

import math
import random
import sys

from shapes import squares


def grid(n, height, step=16):
    return [(i * step, j * step, height(i, j)) for i in range(n + 1) for j in range(n + 1)], squares(n)


def field(n):
    """Hills and roughness over n by n cells of two metres."""
    chance = random.Random(3)

    def height(i, j):
        hills = 40 * math.sin(i / 37) * math.cos(j / 51) + 9 * math.sin(i / 5 + j / 7)
        return round(hills + chance.uniform(0, 1.5), 3)

    return grid(n, height, 2)


def debris(n):
    """A rough sheet with small closed tetrahedra over it."""
    chance = random.Random(7)
    points, tris = grid(200, lambda i, j: chance.randrange(40), 64)
    for _ in range(n):
        x, y, z = chance.randrange(12700), chance.randrange(12700), 60 + chance.randrange(400)
        k = len(points)
        points += [(x, y, z), (x + 3, y, z), (x, y + 3, z), (x + 1, y + 1, z + 3)]
        tris += [(k, k + 2, k + 1), (k, k + 1, k + 3), (k + 1, k + 2, k + 3), (k + 2, k, k + 3)]
    return points, tris


def rim(n, radius):
    return [(round(radius * (1 + math.cos(math.pi * i / n))), round(radius * math.sin(math.pi * i / n)), i * 7919 % 97) for i in range(n + 1)]


def fan(n):
    """A fan of n triangles round a vertex on the border."""
    points = [(40000000, 0, 0)] + rim(n, 40000000)
    return points, [(0, i + 1, i + 2) for i in range(n)]


def disc(n):
    """Three rims round a vertex on the border, so that the first two can be simplified."""
    shift = lambda points, by: [(x + by, y, z) for x, y, z in points]
    points = [(60000000, 0, 0)] + shift(rim(n, 20000000), 40000000) + shift(rim(n, 40000000), 20000000) + rim(n, 60000000)
    tris = [(0, i + 1, i + 2) for i in range(n)]
    for k in (1, n + 2):
        for i in range(n):
            a, b = k + i, k + n + 1 + i
            tris += [(a, b, b + 1), (a, b + 1, a + 1)]
    return points, tris


def flat(n):
    """A flat grid."""
    return grid(n, lambda i, j: 0)


SHAPES = {"field": field, "debris": debris, "fan": fan, "disc": disc, "flat": flat}


def main():
    if len(sys.argv) != 4 or sys.argv[1] not in SHAPES:
        sys.exit(__doc__)
    points, tris = SHAPES[sys.argv[1]](int(sys.argv[2]))
    kind = "float" if any(isinstance(c, float) for p in points[:9] for c in p) else "int"
    with open(sys.argv[3], "w", encoding="ascii") as out:
        out.write(f"ply\nformat ascii 1.0\nelement vertex {len(points)}\n")
        for axis in "xyz":
            out.write(f"property {kind} {axis}\n")
        out.write(f"element face {len(tris)}\nproperty list uchar int vertex_indices\nend_header\n")
        out.writelines(f"{x} {y} {z}\n" for x, y, z in points)
        out.writelines(f"3 {a} {b} {c}\n" for a, b, c in tris)


if __name__ == "__main__":
    main()
