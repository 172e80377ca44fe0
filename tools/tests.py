#!/usr/bin/env python3
"""Tests of the tools, over examples/ and over files that are made here.

    tools/tests.py                 the tools alone
    TPZ=./tpz tools/tests.py       each converted file goes through that program too
"""

import os
import struct
import subprocess
import sys
import tempfile
import unittest
import zlib

HERE = os.path.dirname(os.path.abspath(__file__))
EXAMPLES = os.path.join(HERE, "..", "examples")
POINTS = [(0.5, -1.25, 2.0), (4.0, 0.0, 0.125), (2.0, 2.0, -3.5), (4.0, 4.0, 1.0), (0.0, 4.0, 0.0)]
POLYGONS = [(0, 1, 2), (1, 3, 2), (2, 3, 4, 0)]
CODES = {"char": "b", "uchar": "B", "short": "h", "ushort": "H", "int": "i", "uint": "I", "float": "f", "double": "d"}
CODES.update({"int8": "b", "uint8": "B", "int16": "h", "uint16": "H", "int32": "i", "uint32": "I", "float32": "f"})
CODES.update({"float64": "d", "int64": "q"})


def tool(name, *words):
    """Runs a tool: its status, standard output and standard error."""
    run = subprocess.run([os.path.join(HERE, name), *words], capture_output=True, text=True)
    return run.returncode, run.stdout, run.stderr


def head(form, vertex="float", count="uchar", index="int", more="", name="vertex_indices"):
    """The header of a file with the points and polygons above."""
    return (
        "ply\nformat %s 1.0\n%selement vertex 5\nproperty %s x\nproperty %s y\nproperty %s z\nelement face 3\n"
        "property list %s %s %s\nend_header\n" % (form, more, vertex, vertex, vertex, count, index, name)
    ).encode()


def rows(order, vertex="float", count="uchar", index="int", points=POINTS):
    """The rows of such a file in binary."""
    v, c, i = CODES[vertex], CODES[count], CODES[index]
    whole = v not in "fd"
    data = b"".join(struct.pack(order + 3 * v, *(map(int, p) if whole else p)) for p in points)
    return data + b"".join(struct.pack(order + c + len(f) * i, len(f), *f) for f in POLYGONS)


def text_rows(end="\n"):
    lines = ["%r %r %r" % p for p in POINTS] + [" ".join(map(str, (len(f), *f))) for f in POLYGONS]
    return (end.join(lines) + end).encode()


def read(path):
    """Points and polygons of a file that to_ascii wrote."""
    with open(path) as file:
        lines = file.read().split("\n")
    end = lines.index("end_header")
    count = next(int(line.split()[2]) for line in lines if line.startswith("element vertex"))
    points = [tuple(map(float, line.split())) for line in lines[end + 1 : end + 1 + count]]
    polygons = [tuple(map(int, line.split()))[1:] for line in lines[end + 1 + count :] if line]
    return points, polygons


class Case(unittest.TestCase):
    def setUp(self):
        self.folder = tempfile.TemporaryDirectory()
        self.addCleanup(self.folder.cleanup)

    def path(self, name):
        return os.path.join(self.folder.name, name)

    def file(self, data, name="in.ply"):
        with open(self.path(name), "wb") as out:
            out.write(data)
        return self.path(name)

    def converted(self, data, *words):
        """What to_ascii makes of these bytes, and what it says."""
        status, _, said = tool("to_ascii", *words, self.file(data), self.path("input.ply"))
        self.assertEqual(status, 0, said)
        self.accepted()
        return *read(self.path("input.ply")), said

    def accepted(self, *words):
        """Where a program is given, it takes the file."""
        if os.environ.get("TPZ"):
            run = subprocess.run([os.environ["TPZ"], self.folder.name, "finest", *words], capture_output=True, text=True)
            self.assertEqual(run.returncode, 0, run.stderr)

    def refused(self, data, why):
        status, _, said = tool("to_ascii", self.file(data), self.path("input.ply"))
        self.assertEqual((status, said), (3, "to_ascii: %s: %s\n" % (self.path("in.ply"), why)))
        self.assertEqual(os.listdir(self.folder.name), ["in.ply"])


class ToAscii(Case):
    def test_every_type_of_coordinate_in_both_orders(self):
        for form, order in (("binary_little_endian", "<"), ("binary_big_endian", ">")):
            for kind in ("float", "double", "float32", "float64"):
                points, polygons, _ = self.converted(head(form, kind) + rows(order, kind))
                self.assertEqual((points, polygons), (POINTS, POLYGONS), (form, kind))
            for kind in ("char", "short", "int", "int8", "int16", "int32", "int64"):
                points, polygons, _ = self.converted(head(form, kind) + rows(order, kind))
                self.assertEqual(points, [tuple(map(int, p)) for p in POINTS], (form, kind))
                self.assertEqual(polygons, POLYGONS)

    def test_every_type_of_list(self):
        for count in ("char", "uchar", "short", "ushort", "int", "uint", "uint8", "int32"):
            for index in ("char", "uchar", "short", "ushort", "int", "uint", "int64", "float"):
                data = head("binary_big_endian", "float", count, index) + rows(">", "float", count, index)
                self.assertEqual(self.converted(data)[:2], (POINTS, POLYGONS), (count, index))

    def test_ascii_keeps_every_digit(self):
        body = b"0.1234567890123456789 -6.167906e-18 1E3\n" + b"".join(b"%d 0 0\n" % i for i in range(4)) + b"3 0 1 2\n3 0 1 3\n3 1 2 4\n"
        self.converted(head("ascii") + body)
        with open(self.path("input.ply")) as file:
            self.assertIn("\n0.1234567890123456789 -6.167906e-18 1E3\n", file.read())

    def test_floats_keep_nine_digits_and_doubles_all(self):
        points = [(0.1, 1 / 3, 234.5678)] + POINTS[1:]
        single = [tuple(struct.unpack("<3f", struct.pack("<3f", *p))) for p in points]
        self.assertEqual(self.converted(head("binary_little_endian", "double") + rows("<", "double", points=points))[0], points)
        found = self.converted(head("binary_little_endian") + rows("<", points=points))[0]
        again = [tuple(struct.unpack("<3f", struct.pack("<3f", *p))) for p in found]
        self.assertEqual(again, single)

    def test_headers_of_other_programs(self):
        plain = head("ascii")
        for name, data in {
            "CR LF": plain.replace(b"\n", b"\r\n") + text_rows("\r\n"),
            "CR LF before binary rows": head("binary_little_endian").replace(b"\n", b"\r\n") + rows("<"),
            "lone CR": plain.replace(b"\n", b"\r") + text_rows("\r"),
            "lone CR before binary rows": head("binary_big_endian").replace(b"\n", b"\r") + rows(">"),
            "a byte order mark": b"\xef\xbb\xbf" + plain + text_rows(),
            "a comment before format": plain.replace(b"ply\n", b"ply\ncomment made by hand\n", 1) + text_rows(),
            "format after the comments": plain.replace(b"format", b"obj_info x\ncomment\nformat", 1) + text_rows(),
            "blanks at line ends": plain.replace(b"\n", b" \n") + text_rows(" \n"),
            "vertex_index": head("ascii", name="vertex_index") + text_rows(),
            "another list name": head("ascii", name="vertex_indexes") + text_rows(),
            "no line end at the end": plain + text_rows()[:-1],
            "upper case types": head("ascii", "FLOAT", "UCHAR", "INT") + text_rows(),
            "a camera behind": plain.replace(b"end_header", b"element camera 1\nproperty float a\nend_header") + text_rows() + b"1\n",
            "more behind the rows": plain + text_rows() + b"and more",
        }.items():
            with self.subTest(name):
                self.assertEqual(self.converted(data)[:2], (POINTS, POLYGONS))

    def test_what_else_a_file_holds_is_passed_over(self):
        form = "ply\nformat %s 1.0\nelement camera 2\nproperty double a\nproperty list uchar short b\nelement vertex 5\n"
        form += "property uchar red\nproperty float nx\nproperty float z\nproperty list int float w\nproperty float x\nproperty float y\n"
        form += "element face 3\nproperty float quality\nproperty list uchar uint vertex_indices\nproperty list uchar float texcoord\n"
        form += "property uchar flags\nend_header\n"
        binary = b"".join(struct.pack("<dB%dh" % n, 1.5, n, *range(n)) for n in (2, 0))
        for i, (x, y, z) in enumerate(POINTS):
            binary += struct.pack("<Bffi%dfff" % i, 7, 0.5, z, i, *[9.0] * i, x, y)
        for f in POLYGONS:
            binary += struct.pack("<fB%dIB%dfB" % (len(f), 2 * len(f)), 0.5, len(f), *f, 2 * len(f), *[0.25] * 2 * len(f), 1)
        self.assertEqual(self.converted((form % "binary_little_endian").encode() + binary)[:2], (POINTS, POLYGONS))
        text = "1.5 2 0 1\n1.5 0\n"
        for i, (x, y, z) in enumerate(POINTS):
            text += " ".join(map(str, (7, 0.5, z, i, *[9.0] * i, x, y))) + "\n"
        for f in POLYGONS:
            text += " ".join(map(str, (0.5, len(f), *f, 2 * len(f), *[0.25] * 2 * len(f), 1))) + "\n"
        self.assertEqual(self.converted((form % "ascii" + text).encode())[:2], (POINTS, POLYGONS))

    def test_faces_before_vertices(self):
        top = "ply\nformat binary_little_endian 1.0\nelement face 3\nproperty list uchar int vertex_indices\nelement vertex 5\n"
        top += "property float x\nproperty float y\nproperty float z\nend_header\n"
        body = rows("<")
        self.assertEqual(self.converted(top.encode() + body[60:] + body[:60])[:2], (POINTS, POLYGONS))

    def test_many_rows_of_mixed_lengths(self):
        faces = [tuple((i + j) % 5 for j in range(3 + (i // 5000) % 3)) for i in range(20000)]
        data = head("binary_little_endian").replace(b"face 3", b"face 20000") + rows("<")[:60]
        data += b"".join(struct.pack("<B%di" % len(f), len(f), *f) for f in faces)
        self.assertEqual(self.converted(data)[1], faces)
        text = head("ascii").replace(b"face 3", b"face 20000") + b"".join(b"%r %r %r\n" % p for p in POINTS)
        text += b"".join(b"%d " % len(f) + b" ".join(map(b"%d".__mod__, f)) + b"\n" for f in faces)
        self.assertEqual(self.converted(text)[1], faces)

    def test_origin_is_subtracted_and_said(self):
        far = [(x + 431200, y + 5412300, z - 17) for x, y, z in POINTS]
        data = head("binary_little_endian", "double") + rows("<", "double", points=far)
        points, _, said = self.converted(data, "--origin")
        self.assertIn("moved by -431202 -5412301 18; add 431202 5412301 -18 to come back", said)
        self.assertEqual(points, [(x - 2, y - 1, z + 1) for x, y, z in POINTS])
        points, _, _ = self.converted(data, "--origin-at=431200,5412300,-17")
        self.assertEqual(points, POINTS)
        text = head("ascii", "double") + b"".join(b"%r %r %r\n" % p for p in far) + text_rows().split(b"\n", 5)[5]
        points, _, _ = self.converted(text, "--origin-at=431200.5,5412300,-17")
        self.assertEqual(points, [(x - 0.5, y, z) for x, y, z in POINTS])

    def test_digits_that_fit_are_said(self):
        far = [(x * 1000, y, z) for x, y, z in POINTS]
        status, _, said = tool("to_ascii", self.file(head("binary_little_endian", "double") + rows("<", "double", points=far)), self.path("input.ply"))
        self.assertEqual(status, 0)
        self.assertIn("use --digits 5 with tpz, or fewer", said)
        self.accepted("--digits", "5")

    def test_what_cannot_be_converted(self):
        points = head("ascii").split(b"element face")[0] + b"end_header\n" + text_rows()
        strips = head("ascii").replace(b"face", b"tristrips") + text_rows()
        self.refused(points, "it has points, and no polygons: a point cloud must be made a mesh first")
        self.refused(strips, "it has triangle strips, and no polygons: write it as triangles in the program that it comes from")
        self.refused(b"", "its first line isn't 'ply'")
        self.refused(b"OFF\n3 1 0\n", "its first line isn't 'ply'")
        self.refused(b"ply\nformat ascii 1.0\n", "its header isn't ended by 'end_header'")
        self.refused(head("text") + text_rows(), "its header has the line 'format text 1.0'")
        self.refused(head("ascii", "real") + text_rows(), "its header has the unknown type 'real'")
        self.refused(head("ascii").replace(b"x\n", b"u\n") + text_rows(), "its element 'vertex' has no x, y and z")
        self.refused(head("ascii") + text_rows()[:-4], "it ends before its last row")
        self.refused(head("binary_little_endian") + rows("<")[:-1], "it ends before its last row")
        self.refused(head("ascii") + text_rows().replace(b"2.0 2.0", b"2.0 two"), "the y of vertex 2 is 'two'")
        self.refused(head("ascii") + text_rows().replace(b"2.0 2.0", b"nan 2.0"), "the x of vertex 2 is nan")
        inf = [POINTS[0], (0.0, float("inf"), 0.0)] + POINTS[2:]
        self.refused(head("binary_big_endian") + rows(">", points=inf), "the y of vertex 1 is inf")
        self.refused(head("ascii") + text_rows().replace(b"3 0 1 2", b"3 0 1 5"), "a polygon from 0 on names a vertex that isn't there")
        self.refused(head("ascii") + text_rows().replace(b"3 0 1 2", b"-1"), "the count of a list is -1")

    def test_usage_and_missing_files(self):
        self.assertEqual(tool("to_ascii")[0], 2)
        self.assertEqual(tool("to_ascii", self.path("none"), self.path("out"))[0], 1)
        one = self.file(head("ascii") + text_rows())
        self.assertEqual(tool("to_ascii", one, one)[0], 2)

    def test_examples(self):
        for name in ("square", "torus", "icosahedron", "float_ascii", "crlf_ascii", "little_endian", "big_endian", "extra_elements"):
            with open(os.path.join(EXAMPLES, name, "input.ply"), "rb") as file:
                self.converted(file.read())
        with open(os.path.join(EXAMPLES, "broken", "binary_floats", "input.ply"), "rb") as file:
            self.converted(file.read())


PART = b"ply\nformat ascii 1.0\ncomment tpz digits 3\nelement vertex 3\nproperty int x\nproperty int y\nproperty int z\n"
PART += b"element face 1\nproperty list uchar int vertex_indices\nend_header\n-1500 0 7\n2147483647 20 -1\n0 3000 0\n3 0 1 2\n"


class Others(Case):
    def test_unscale_gives_the_units_of_the_input(self):
        part = self.file(PART)
        self.assertEqual(tool("unscale", part, self.path("out.ply"))[0], 0)
        self.assertEqual(read(self.path("out.ply")), ([(-1.5, 0, 0.007), (2147483.647, 0.02, -0.001), (0, 3, 0)], [(0, 1, 2)]))
        self.assertEqual(tool("unscale", "--double", "--origin-at=100,0,-2.5", part, self.path("out.ply"))[0], 0)
        self.assertEqual(read(self.path("out.ply"))[0], [(98.5, 0, -2.493), (2147583.647, 0.02, -2.501), (100, 3, -2.5)])
        with open(self.path("out.ply")) as file:
            self.assertIn("property double x", file.read())

    def test_unscale_of_what_is_no_part(self):
        status, _, said = tool("unscale", self.file(head("ascii") + text_rows()), self.path("out.ply"))
        self.assertEqual(status, 3)
        self.assertIn("it has no line 'comment tpz digits K', so it isn't a part", said)

    def test_bounds_of_a_mesh_and_of_a_part(self):
        status, said, _ = tool("bounds", self.file(head("binary_little_endian") + rows("<")))
        self.assertEqual(status, 0)
        for line in ("# 5 vertices, 3 polygons", "# least     0 -1.25 -3.5", "# greatest  4000000 4000000 2000000"):
            self.assertIn(line + "\n", said)
        self.assertEqual(said.count("view "), 3)
        status, said, _ = tool("bounds", self.file(PART))
        self.assertIn("# least     -1.5 0 -0.001\n", said)
        self.assertIn("# least     -1500 0 -1\n", said)
        self.assertIn("too large for tpz (Extent)", said)

    def test_a_script_has_the_tolerance_of_so_many_pixels(self):
        status, said, _ = tool("script", "--box=0,0,0,1000,500,100", "--pixels", "1", "--steps", "3", "--above", "1", "--beyond", "1")
        self.assertEqual(status, 0)
        self.assertEqual(
            said,
            "# 1 pixels of 1080, at 60 degrees: tolerance 70\nview -1000 250 1222 70\nwrite\nview 500 250 1222 70\nwrite\n"
            "view 2000 250 1222 70\nwrite\n",
        )
        self.assertEqual(tool("script")[0], 2)
        self.assertEqual(tool("script", "--box=1,2,3")[0], 2)

    def test_a_picture_is_a_png_with_something_on_it(self):
        source = os.path.join(EXAMPLES, "icosahedron", "input.ply")
        for words in ([], ["--edges"], ["--eye=300,50,40", "--fov", "30"]):
            self.assertEqual(tool("picture", "--size", "61x40", *words, source, self.path("p.png"))[0], 0)
            wide, high, shades = pixels(self.path("p.png"))
            self.assertEqual((wide, high), (61, 40))
            self.assertEqual(shades[:3], b"\xff\xff\xff")
            drawn = sum(shades[i : i + 3] != b"\xff\xff\xff" for i in range(0, len(shades), 3))
            self.assertGreater(drawn, 300)

    def test_every_tool_has_help(self):
        for name in ("to_ascii", "bounds", "unscale", "script", "picture"):
            status, said, _ = tool(name, "--help")
            self.assertEqual(status, 0)
            self.assertIn("It isn't proved", said.replace("\n", " "))


class Script(unittest.TestCase):
    """./tpz before anything is built."""

    def run_tpz(self, *words):
        run = subprocess.run([os.path.join(HERE, "..", "tpz"), *words], capture_output=True, text=True)
        return run.returncode, run.stdout, run.stderr

    def test_help_is_printed_without_a_build(self):
        status, page, said = self.run_tpz("--help")
        self.assertEqual((status, said), (0, ""))
        for command in ("build", "replay", "tour", "finest", "info", "gen"):
            self.assertIn("\n%s " % command, page)
        self.assertEqual(self.run_tpz(), (2, page, ""))

    def test_version_says_commit_and_logic(self):
        status, said, _ = self.run_tpz("--version")
        self.assertEqual(status, 0)
        with open(os.path.join(HERE, "..", "docs", "PROMISES.md")) as file:
            self.assertIn(said.split("\n")[1], file.read())

    def test_the_manual_has_each_option(self):
        with open(os.path.join(HERE, "..", "docs", "tpz.1")) as file:
            page = file.read()
        for option in ("digits", "cap", "budget", "tries", "size", "help", "version", "man", "build", "clean"):
            self.assertIn("-" + option, page)


def pixels(path):
    """Width, height and the bytes of a picture whose rows have filter 1."""
    with open(path, "rb") as file:
        data = file.read()
    wide, high = struct.unpack(">II", data[16:24])
    at, packed = 8, b""
    while at < len(data):
        length, name = struct.unpack(">I4s", data[at : at + 8])
        packed += data[at + 8 : at + 8 + length] if name == b"IDAT" else b""
        at += 12 + length
    raw = zlib.decompress(packed)
    shades = bytearray()
    for row in range(high):
        line = bytearray(raw[row * (3 * wide + 1) + 1 : (row + 1) * (3 * wide + 1)])
        for i in range(3, len(line)):
            line[i] = (line[i] + line[i - 3]) & 255
        shades += line
    return wide, high, bytes(shades)


if __name__ == "__main__":
    sys.exit(unittest.main())
