#!/usr/bin/env python3
"""Draws the pictures of docs/HOW.md as SVG, beside this file: docs/figures.py

The pictures are flat, with triangles in the place of tetrahedra, but for the cube. In the plane a right triangle is
bisected at the middle of its longest side, and a diamond is the two triangles that share this side.
"""

import math
import os

HERE = os.path.dirname(os.path.abspath(__file__))
LINE, PALE, INK, RED = "#555", "#f3efe6", "#222", "#c0392b"
HUES = ("#e8d5a9", "#bcd4e6", "#cfe3c1", "#e6c3c3", "#d9cbe6", "#c9e3df")


class Figure:
    """A picture of polygons, lines, dots and words."""

    def __init__(self, wide, high):
        self.wide, self.high = wide, high
        self.parts = []

    def polygon(self, points, fill=PALE, line=LINE, width=1):
        places = " ".join("%.1f,%.1f" % p for p in points)
        self.parts.append('<polygon points="%s" fill="%s" stroke="%s" stroke-width="%g" stroke-linejoin="round"/>' % (places, fill, line, width))

    def line(self, a, b, colour=LINE, width=1, dash=""):
        more = ' stroke-dasharray="%s"' % dash if dash else ""
        self.parts.append('<line x1="%.1f" y1="%.1f" x2="%.1f" y2="%.1f" stroke="%s" stroke-width="%g"%s/>' % (*a, *b, colour, width, more))

    def dot(self, p, colour=RED, size=3.5):
        self.parts.append('<circle cx="%.1f" cy="%.1f" r="%g" fill="%s"/>' % (*p, size, colour))

    def word(self, p, text, anchor="middle"):
        self.parts.append('<text x="%.1f" y="%.1f" text-anchor="%s">%s</text>' % (*p, anchor, text))

    def arrow(self, a, b):
        self.line(a, b, INK, 1.5)
        turn = math.atan2(b[1] - a[1], b[0] - a[0])
        for side in (-0.5, 0.5):
            self.line(b, (b[0] - 8 * math.cos(turn + side), b[1] - 8 * math.sin(turn + side)), INK, 1.5)

    def save(self, name):
        head = '<svg xmlns="http://www.w3.org/2000/svg" viewBox="0 0 %d %d" width="%d" height="%d" ' % (self.wide, self.high, self.wide, self.high)
        head += 'font-family="sans-serif" font-size="13" fill="%s">\n<rect width="100%%" height="100%%" fill="white"/>\n' % INK
        with open(os.path.join(HERE, name), "w") as out:
            out.write(head + "\n".join(self.parts) + "\n</svg>\n")


def middle(a, b):
    return (a[0] + b[0]) / 2, (a[1] + b[1]) / 2


def placed(points, x, y, scale):
    return [(x + scale * u, y + scale * (1 - v)) for u, v in points]


# A triangle is (a, b, c) with the right angle at c; it is bisected at the middle of a and b.
ROOTS = [((0, 0), (1, 1), (1, 0)), ((1, 1), (0, 0), (0, 1))]


def children(t):
    a, b, c = t
    m = middle(a, b)
    return (c, a, m), (b, c, m)


def of_level(n):
    level = ROOTS
    for _ in range(n):
        level = [child for t in level for child in children(t)]
    return level


def bisection():
    """The first four levels."""
    figure = Figure(640, 180)
    for n in range(4):
        for i, t in enumerate(of_level(n)):
            figure.polygon(placed(t, 15 + 158 * n, 15, 130), HUES[i % 2] if n == 0 else PALE)
        for t in of_level(n):
            figure.dot(placed([middle(t[0], t[1])], 15 + 158 * n, 15, 130)[0], size=2.5)
        figure.word((80 + 158 * n, 167), "level %d" % n)
    figure.save("how-bisection.svg")


TURN, RISE = math.radians(28), math.radians(24)


def seen(p):
    """A point of space on the picture."""
    x, y, z = p
    away = x * math.sin(TURN) + y * math.cos(TURN)
    return x * math.cos(TURN) - y * math.sin(TURN), -z * math.cos(RISE) - away * math.sin(RISE)


def depth(p):
    """How near a point of space is to the eye."""
    x, y, z = p
    return z * math.sin(RISE) - (x * math.sin(TURN) + y * math.cos(TURN)) * math.cos(RISE)


def cube():
    """The cube in its six tetrahedra, drawn apart, and one of them bisected."""
    orders = [(0, 1, 2), (0, 2, 1), (1, 0, 2), (1, 2, 0), (2, 0, 1), (2, 1, 0)]
    tets = []
    for order in orders:
        corner = [0, 0, 0]
        tet = [tuple(corner)]
        for axis in order:
            corner[axis] = 1
            tet.append(tuple(corner))
        tets.append(tet)
    figure = Figure(640, 290)
    solid(figure, tets, 115, 215, 125, 0.7)
    figure.word((160, 282), "the cube in six tetrahedra, drawn apart")
    x0, x1, x2, x3 = tets[0]
    z = tuple((a + b) / 2 for a, b in zip(x0, x3))
    solid(figure, [(x0, x1, x2, z), (x1, x2, x3, z)], 440, 240, 120, 0.4)
    figure.word((480, 282), "one of them, bisected")
    figure.save("how-cube.svg")


def solid(figure, tets, x, y, scale, apart):
    """Tetrahedra, each moved away from the middle of all."""
    all_corners = [c for tet in tets for c in tet]
    centre = [sum(c[i] for c in all_corners) / len(all_corners) for i in range(3)]
    faces = []
    for n, tet in enumerate(tets):
        own = [sum(c[i] for c in tet) / 4 for i in range(3)]
        moved = [tuple(c[i] + apart * (own[i] - centre[i]) for i in range(3)) for c in tet]
        for skip in range(4):
            face = [c for k, c in enumerate(moved) if k != skip]
            faces.append((sum(map(depth, face)), sum(map(depth, moved)), face, HUES[n]))
    for _, _, face, hue in sorted(faces, key=lambda f: (f[1], f[0])):
        figure.polygon([(x + scale * u, y + scale * v) for u, v in map(seen, face)], hue)


def diamond():
    """A diamond with its parents and kids."""
    figure = Figure(640, 190)
    words = ("its parents", "a diamond: two triangles, one midpoint", "its kids")
    for i, level in enumerate((1, 2, 3)):
        x = 20 + 215 * i
        for t in of_level(level):
            m = middle(t[0], t[1])
            mine = {1: ((0.5, 0), (0.5, 1), (0, 0.5), (1, 0.5)), 2: ((0.25, 0.25),), 3: ((0.25, 0), (0, 0.25), (0.5, 0.25), (0.25, 0.5))}[level]
            if level == 1:
                mine = ((0.5, 0), (0, 0.5))
            figure.polygon(placed(t, x, 12, 140), HUES[1] if m in mine else PALE)
        for m in mine:
            figure.dot(placed([m], x, 12, 140)[0])
        figure.word((x + 70, 175), words[i])
    figure.save("how-diamond.svg")


def grid(n):
    """Triangles of a square of n by n cells, with inner corners moved a little."""
    def at(i, j):
        inner = 0 < i < n and 0 < j < n
        return (i + (0.25 * math.sin(5 * i + 3 * j) if inner else 0)) / n, (j + (0.25 * math.cos(4 * i + j) if inner else 0)) / n

    for i in range(n):
        for j in range(n):
            yield at(i, j), at(i + 1, j), at(i + 1, j + 1)
            yield at(i, j), at(i + 1, j + 1), at(i, j + 1)


def rim(n):
    """The corners along the border of a square, in turn."""
    sides = [(i / n, 0) for i in range(n)] + [(1, i / n) for i in range(n)]
    return sides + [(1 - i / n, 1) for i in range(n)] + [(0, 1 - i / n) for i in range(n)]


def fan(hub, n):
    ring = rim(n)
    return [(ring[i], ring[(i + 1) % len(ring)], hub) for i in range(len(ring))]


def is_below(t):
    """Whether a triangle lies nearer to the lower right half of the square."""
    x, y = (sum(c[i] for c in t) / 3 for i in range(2))
    return x > y


def halves():
    """A list that is joined, halved, and given to the members."""
    figure = Figure(640, 215)
    words = ("joined: 32 triangles", "halved: 16, the border stays", "each to the nearest member")
    fine, coarse = list(grid(4)), fan((0.56, 0.42), 4)
    for k, (tris, word) in enumerate(((fine, words[0]), (coarse, words[1]), (coarse, words[2]))):
        x = 15 + 220 * k
        for t in tris:
            hue = PALE if k == 1 else HUES[0] if is_below(t) else HUES[1]
            figure.polygon(placed(t, x, 12, 165), hue)
        ring = placed(rim(4), x, 12, 165)
        figure.polygon(ring, "none", INK, 2.5)
        if k != 1:
            figure.line(*placed([(0, 0), (1, 1)], x, 12, 165), RED, 1.5, "5 4")
        figure.word((x + 82, 200), word)
    figure.arrow((185, 95), (230, 95))
    figure.arrow((405, 95), (450, 95))
    figure.save("how-halves.svg")


def budget():
    """A list over the budget."""
    figure = Figure(640, 215)
    for k, word in enumerate(("72 triangles, budget 60", "kept as it is", "each to the nearest member")):
        x = 15 + 220 * k
        for t in grid(6):
            figure.polygon(placed(t, x, 12, 165), PALE if k == 1 else HUES[0] if is_below(t) else HUES[1], width=0.7)
        figure.polygon(placed(rim(1), x, 12, 165), "none", INK, 2.5)
        figure.word((x + 82, 200), word)
    figure.arrow((185, 95), (230, 95))
    figure.arrow((405, 95), (450, 95))
    figure.save("how-budget.svg")


def hierarchy(levels):
    """The parents of each diamond, and the level of each."""
    parents, level_of = {}, {}
    level = [(t, None) for t in ROOTS]
    for n in range(levels):
        below = []
        for t, above in level:
            m = middle(t[0], t[1])
            parents.setdefault(m, set()).update([above] if above else [])
            level_of[m] = n
            below += [(child, m) for child in children(t)]
        level = below
    return parents, level_of


def cut_of(eye, levels, factor):
    """The diamonds that an eye wants, with all above them."""
    parents, level_of = hierarchy(levels)
    wanted = {m for m, n in level_of.items() if factor * 2 ** (-n / 2) >= max(abs(m[0] - eye[0]), abs(m[1] - eye[1]))}
    for m in sorted(level_of, key=lambda m: -level_of[m]):
        if m in wanted:
            wanted |= parents[m]
    return wanted


def leaves(wanted):
    rest = list(ROOTS)
    while rest:
        t = rest.pop()
        if middle(t[0], t[1]) in wanted:
            rest += children(t)
        else:
            yield t


def cut():
    """The cuts of two eyes."""
    figure = Figure(640, 330)
    for k, (eye, word) in enumerate((((0.28, 0.36), "an eye: fine near it, coarse elsewhere"), ((0.97, 0.93), "the eye has moved"))):
        x = 15 + 320 * k
        for t in leaves(cut_of(eye, 9, 0.9)):
            size = abs(t[0][0] - t[1][0]) + abs(t[0][1] - t[1][1])
            figure.polygon(placed(t, x, 20, 275), HUES[round(-2 * math.log2(size)) % 6], width=0.8)
        figure.dot(placed([eye], x, 20, 275)[0], size=5)
        figure.word((x + 137, 318), word)
    figure.save("how-cut.svg")


def error():
    """How errors add up along the levels."""
    figure = Figure(640, 200)
    steps = (("leaf", 0, 0), ("level 5", 4, 0), ("level 4", 9, 4), ("level 3", 17, 13), ("level 2", 30, 30))
    for i, (name, own, below) in enumerate(steps):
        y = 20 + 34 * i
        figure.word((72, y + 15), name, "end")
        if below:
            figure.polygon([(80, y), (80 + 7 * below, y), (80 + 7 * below, y + 20), (80, y + 20)], HUES[1])
        if own:
            left = 80 + 7 * below
            figure.polygon([(left, y), (left + 7 * own, y), (left + 7 * own, y + 20), (left, y + 20)], HUES[0])
        text = "0" if not own else "%d + %d = %d" % (own, below, own + below)
        figure.word((88 + 7 * (own + below), y + 15), text, "start")
    figure.save("how-error.svg")


if __name__ == "__main__":
    for draw in (bisection, cube, diamond, halves, budget, cut, error):
        draw()
