#!/usr/bin/env python3
"""Makes meshes that look like those of users, as binary PLY with doubles, by a formula.

    bench/shapes.py terrain 320 terrain.ply     2 * 320 * 320 triangles, 3.2 km wide, in metres, at UTM coordinates
    bench/shapes.py rock 130 rock.ply       12 * 130 * 130 triangles, closed, 2.2 m high

tools/to_ascii makes an input of them. The same words make the same file: heights are rounded to millimetres, points of a
rock to micrometres.
"""

import math
import random
import struct
import sys


def waves(seed, count, least, most, power):
    """Directions in space with an amplitude and a shift: rough for short waves as for long ones."""
    chance = random.Random(seed)
    for i in range(count):
        frequency = least * (most / least) ** (i / (count - 1))
        x, y, z = (chance.gauss(0, 1) for _ in range(3))
        length = math.sqrt(x * x + y * y + z * z)
        scale = frequency / length
        yield x * scale, y * scale, z * scale, chance.uniform(0, 7), frequency**-power


def height(parts, x, y, z):
    return sum(amplitude * math.sin(a * x + b * y + c * z + shift) for a, b, c, shift, amplitude in parts)


def squares(n):
    """The triangles of n by n cells, whose points stand row by row, n + 1 in each."""
    tris = []
    for i in range(n):
        for j in range(n):
            a, b = i * (n + 1) + j, (i + 1) * (n + 1) + j
            tris += [(a, b, b + 1), (a, b + 1, a + 1)]
    return tris


def terrain(n):
    """A square of n by n cells, 3,200 m wide, with hills."""
    parts = list(waves(4, 60, 4, 180, 1.1))
    points = []
    for i in range(n + 1):
        for j in range(n + 1):
            x, y = i / n, j / n
            points.append((431200.25 + 3200 * x, 5412300.5 + 3200 * y, round(412 + 420 * height(parts, x, y, 0), 3)))
    return points, squares(n)


def rock(n):
    """A cube of n by n cells a side, blown up to a ball, with lumps and dents."""
    parts = list(waves(11, 16, 1.5, 9, 1.1)) + [(a, b, c, d, 0.12 * e) for a, b, c, d, e in waves(12, 24, 12, 90, 1.0)]
    numbers = {}
    points = []

    def number(corner):
        if corner not in numbers:
            numbers[corner] = len(points)
            x, y, z = (math.tan(math.pi / 4 * (2 * c / n - 1)) for c in corner)
            length = math.sqrt(x * x + y * y + z * z)
            x, y, z = x / length, y / length, z / length
            r = 0.55 * (1 + 0.5 * height(parts, x, y, z))
            points.append(tuple(round(c, 6) for c in (r * x, r * y, 1.6 * r * z)))
        return numbers[corner]

    tris = []
    for axis in range(3):
        for side in (0, n):
            for p in range(n):
                for q in range(n):
                    at = lambda u, v: number(tuple({axis: side, (axis + 1) % 3: u, (axis + 2) % 3: v}[k] for k in range(3)))
                    a, b, c, d = at(p, q), at(p + 1, q), at(p + 1, q + 1), at(p, q + 1)
                    tris += [(a, b, c), (a, c, d)] if side else [(a, c, b), (a, d, c)]
    return points, tris


def write(points, tris, path):
    head = "ply\nformat binary_little_endian 1.0\nelement vertex %d\n" % len(points)
    head += "property double x\nproperty double y\nproperty double z\nelement face %d\n" % len(tris)
    head += "property list uchar int vertex_indices\nend_header\n"
    with open(path, "wb") as out:
        out.write(head.encode())
        out.writelines(struct.pack("<ddd", *p) for p in points)
        out.writelines(struct.pack("<Biii", 3, *t) for t in tris)


def main():
    shapes = {"terrain": terrain, "rock": rock}
    if len(sys.argv) != 4 or sys.argv[1] not in shapes or not sys.argv[2].isdigit():
        sys.exit(__doc__)
    write(*shapes[sys.argv[1]](int(sys.argv[2])), sys.argv[3])


if __name__ == "__main__":
    main()
