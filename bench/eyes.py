#!/usr/bin/env python3
"""Measures what eyes and tolerances make of three meshes, for docs/EYES.md.

    bench/eyes.py FOLDER

It makes the meshes of bench/shapes.py and `gen` in FOLDER, builds their stores with default options, and prints three
tables: triangles by distance and pixels, the same of two pictures, and how far the surface really is from the input.
It draws the pictures eyes-*.png in FOLDER. TPZ names another program in the place of ./tpz.
"""

import math
import os
import subprocess
import sys

HERE = os.path.dirname(os.path.abspath(__file__))
TOOLS = os.path.join(HERE, "..", "tools")
sys.dont_write_bytecode = True
sys.path.insert(0, TOOLS)
import ply
import units

TPZ = os.path.abspath(os.environ.get("TPZ", os.path.join(HERE, "..", "tpz")))
DISTANCES = (0, 0.25, 1, 3, 10, 30, 100)
PIXELS = (1, 3, 10, 30, 100)
SHAPES = {"terrain": ("320", 3), "rock": ("130", 6)}
HEIGHT, FOV = 1080, 60


def do(*words):
    subprocess.run(words, check=True, stdout=subprocess.PIPE, stderr=subprocess.PIPE)


def make(folder, name):
    """The input of a shape and its store, where they aren't there yet. Gives the digits."""
    place = os.path.join(folder, name)
    source = os.path.join(place, "input.ply")
    size, digits = SHAPES.get(name, ("130", 0))
    if not os.path.exists(source):
        os.makedirs(place, exist_ok=True)
        if name == "cube":
            do(TPZ, place, "gen", "--size", size)
            os.rename(os.path.join(place, "part-1.ply"), source)
        else:
            shape = os.path.join(place, "shape.ply")
            do(os.path.join(HERE, "shapes.py"), name, size, shape)
            do(os.path.join(TOOLS, "to_ascii"), "--origin", shape, source)
    if not os.path.exists(os.path.join(place, "store.tpz")):
        do(TPZ, place, "build", "--digits", str(digits))
    return digits


def replay(folder, name, views):
    """Writes a part for each view. Gives the numbers of their triangles."""
    place = os.path.join(folder, name)
    with open(os.path.join(place, "script.txt"), "w") as script:
        script.writelines("%s\nwrite\n" % units.view(eye, tol) for eye, tol in views)
    do(TPZ, place, "replay")
    return [ply.Mesh(part(folder, name, i)).polygons.rows for i in range(len(views))]


def part(folder, name, i):
    return os.path.join(folder, name, "part-%d.ply" % (i + 1))


def tolerance(pixels):
    return units.tolerance(pixels, HEIGHT, FOV)


def by_distance(folder, name, digits):
    """Triangles for each distance above the box and each tolerance."""
    box, mesh, _ = units.box_of(os.path.join(folder, name, "input.ply"), digits)
    x, y, _ = box.middle()
    views = [((x, y, box.scaled[1][2] + d * box.diagonal()), tolerance(p)) for d in DISTANCES for p in PIXELS]
    counts = replay(folder, name, views)
    print("\n%s, %d triangles\n" % (name, mesh.polygons.rows))
    print("| Distance | %s |" % " | ".join("%d px" % p for p in PIXELS))
    print("|---" * (len(PIXELS) + 1) + "|")
    for i, distance in enumerate(DISTANCES):
        row = counts[i * len(PIXELS) : (i + 1) * len(PIXELS)]
        print("| %g | %s |" % (distance, " | ".join("all" if n == mesh.polygons.rows else "{:,}".format(n) for n in row)))


def oblique(box):
    """An eye one diagonal away from the middle, to the side and above."""
    away = box.diagonal()
    x, y, z = box.middle()
    return x - 0.25 * away, y - 0.65 * away, z + 0.4 * away


def pictures(folder, name, digits):
    """Pictures of one view at rising tolerances."""
    box, mesh, _ = units.box_of(os.path.join(folder, name, "input.ply"), digits)
    eye = oblique(box)
    pixels = (0, 100, 300)
    counts = replay(folder, name, [(eye, tolerance(p) if p else 0) for p in pixels])
    print("\n%s, seen by %s\n" % (name, units.view(eye, 0)[5:-2]))
    for i, (p, count) in enumerate(zip(pixels, counts)):
        where = "--eye=" + ",".join(str(round(c)) for c in eye)
        out = os.path.join(folder, "eyes-%s-%d.png" % (name, p))
        do(os.path.join(TOOLS, "picture"), "--size", "320x240", where, part(folder, name, i), out)
        print("%3d px: %d triangles" % (p, count))


def heights(path, least, step, n):
    """The heights of a part over a grid in whole units."""
    (xs, ys, zs), tris = ply.load(ply.Mesh(path))
    grid = [[None] * (n + 1) for _ in range(n + 1)]
    for i, j, k in tris:
        (ax, ay, az), (bx, by, bz), (cx, cy, cz) = ((xs[v], ys[v], zs[v]) for v in (i, j, k))
        area = (bx - ax) * (cy - ay) - (cx - ax) * (by - ay)
        if not area:
            continue
        for u in range(math.ceil((min(ax, bx, cx) - least[0]) / step), int((max(ax, bx, cx) - least[0]) // step) + 1):
            for v in range(math.ceil((min(ay, by, cy) - least[1]) / step), int((max(ay, by, cy) - least[1]) // step) + 1):
                x, y = least[0] + u * step, least[1] + v * step
                b = ((x - ax) * (cy - ay) - (cx - ax) * (y - ay)) / area
                c = ((bx - ax) * (y - ay) - (x - ax) * (by - ay)) / area
                if b >= 0 and c >= 0 and b + c <= 1:
                    grid[u][v] = az + b * (bz - az) + c * (cz - az)
    return grid


def surface(folder):
    """How far the terrain's surface really is from the input, in metres, one diagonal above."""
    n, digits = int(SHAPES["terrain"][0]), SHAPES["terrain"][1]
    box, _, _ = units.box_of(os.path.join(folder, "terrain", "input.ply"), digits)
    x, y, _ = box.middle()
    eye = (x, y, box.scaled[1][2] + box.diagonal())
    pixels = (10, 30, 100, 300)
    counts = replay(folder, "terrain", [(eye, 0)] + [(eye, tolerance(p)) for p in pixels])
    step = box.widths()[0] // n
    exact = heights(part(folder, "terrain", 0), box.scaled[0], step, n)
    print("\nterrain, one diagonal above\n\n| Tolerance | Triangles | Least that is refined | Surface: greatest | Surface: mean |\n|---|---|---|---|---|")
    for i, p in enumerate(pixels):
        found = heights(part(folder, "terrain", i + 1), box.scaled[0], step, n)
        off = [abs(a - b) / 10**digits for one, two in zip(exact, found) for a, b in zip(one, two) if None not in (a, b)]
        least = tolerance(p) / units.UNIT * box.diagonal() / 10**digits
        print("| %d px | %s | %.0f m | %.1f m | %.2f m |" % (p, "{:,}".format(counts[i + 1]), least, max(off), sum(off) / len(off)))


def main():
    if len(sys.argv) != 2:
        sys.exit(__doc__)
    folder = sys.argv[1]
    for name in ("terrain", "rock", "cube"):
        digits = make(folder, name)
        by_distance(folder, name, digits)
        if name != "cube":
            pictures(folder, name, digits)
    surface(folder)


if __name__ == "__main__":
    main()
