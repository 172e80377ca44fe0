"""Whole scaled units: what tpz makes of coordinates, and what a view's tolerance is. The other tools stand on it."""

import argparse
import math
import re
from decimal import Decimal

import ply

NUMBER = re.compile(r"[+-]?[0-9]+(\.[0-9]+)?")
MOST_SCALED = 2147483647
MOST_WIDTH = 1 << 30
MOST_EYE = 1 << 40
MOST_TOLERANCE = 4294967295
UNIT = 65536  # tolerance of an error as large as the distance


class Box:
    """The box of a mesh, in its own units and in whole scaled ones."""

    def __init__(self, least, greatest, digits, is_scaled):
        scale = 10**digits
        self.digits = digits
        if is_scaled:
            self.scaled = [list(map(round, least)), list(map(round, greatest))]
            self.own = [[value / scale for value in corner] for corner in self.scaled]
        else:
            self.own = [list(least), list(greatest)]
            self.scaled = [[away(value * scale) for value in corner] for corner in self.own]

    def middle(self):
        return [(low + high) // 2 for low, high in zip(*self.scaled)]

    def widths(self):
        return [high - low for low, high in zip(*self.scaled)]

    def diagonal(self):
        return max(1, math.isqrt(sum(width * width for width in self.widths())))

    def lacks(self):
        """What tpz answers of such coordinates: 'Range', 'Extent' or None."""
        if max(abs(value) for corner in self.scaled for value in corner) > MOST_SCALED:
            return "Range"
        return "Extent" if max(self.widths()) > MOST_WIDTH else None


def box_of(path, digits):
    """The box of a file, the open file, and the number of its points. A part says its digits itself."""
    mesh = ply.Mesh(path)
    least, greatest, count = ply.box_of(mesh)
    of_part = mesh.header.digits()
    if of_part is not None:
        return Box(least, greatest, of_part, True), mesh, count
    if digits is None:
        digits = mesh.header.default_digits()
    return Box(least, greatest, digits, False), mesh, count


def point(text):
    """Three decimal numbers with commas between them."""
    parts = [Decimal(part) if NUMBER.fullmatch(part) else None for part in text.split(",")]
    if len(parts) != 3 or None in parts:
        raise argparse.ArgumentTypeError("'%s' isn't three numbers with commas between them" % text)
    return parts


def plain(number):
    """A decimal number without an exponent."""
    return format(number, "f")


def away(value):
    """The nearest whole number, ties away from zero."""
    return int(math.copysign(math.floor(abs(value) + 0.5), value))


def most_digits(least, greatest):
    """The most digits with which tpz takes these coordinates, or None."""
    fitting = [k for k in range(10) if Box(least, greatest, k, False).lacks() is None]
    return fitting[-1] if fitting else None


def tolerance(pixels, height, fov):
    """The tolerance of so many pixels, where the picture has this height and its field of view so many degrees."""
    of_height = 2 * math.tan(math.radians(fov) / 2)
    return max(1, min(MOST_TOLERANCE, round(UNIT * pixels * of_height / height)))


def add_screen(parser):
    """The options that say what a pixel is."""
    parser.add_argument("--pixels", type=positive, default=30, metavar="P", help="tolerance in pixels (30; docs/EYES.md says why)")
    parser.add_argument("--height", type=positive, default=1080, metavar="H", help="height of the picture in pixels (1080)")
    parser.add_argument("--fov", type=angle, default=60, metavar="DEGREES", help="vertical field of view (60)")


def add_digits(parser):
    parser.add_argument(
        "--digits", type=digits, metavar="K", help="digits of the build; else those of the part, or tpz's default"
    )


def digits(text):
    if text not in tuple("0123456789"):
        raise argparse.ArgumentTypeError("'%s' isn't 0 to 9" % text)
    return int(text)


def positive(text):
    try:
        value = float(text)
    except ValueError:
        value = 0
    if not 0 < value < 1e9:
        raise argparse.ArgumentTypeError("'%s' isn't a number above 0" % text)
    return value


def angle(text):
    value = positive(text)
    if value >= 180:
        raise argparse.ArgumentTypeError("'%s' isn't below 180" % text)
    return value


def view(eye, tol):
    """The line of a script."""
    return "view %d %d %d %d" % (*(max(-MOST_EYE, min(MOST_EYE, round(value))) for value in eye), tol)
