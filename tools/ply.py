"""Reads PLY files of any program, block by block. The other tools here stand on it.

It takes more than `tpz` does: binary floats, CR line ends, comments before the format line, integers of 64 bits, any
order of elements. It holds one block of rows at a time. Nothing in this folder is proved.
"""

import contextlib
import os
import re
import struct
import sys
from itertools import chain

# Struct code and bytes of each type, by all names that were met in files.
TYPES = {
    name: (code, struct.calcsize("<" + code))
    for code, names in {
        "b": "char int8",
        "B": "uchar uint8",
        "h": "short int16",
        "H": "ushort uint16",
        "i": "int int32",
        "I": "uint uint32",
        "q": "int64 long longlong",
        "Q": "uint64 ulong ulonglong",
        "f": "float float32",
        "d": "double float64",
    }.items()
    for name in names.split()
}
ORDERS = {"ascii": None, "binary_little_endian": "<", "binary_big_endian": ">"}
LIST_NAMES = ("vertex_indices", "vertex_index")
MOST_HEADER_BYTES = 1 << 24
MOST_LIST = 1 << 24  # items of a list
ROWS = 4096  # rows of a block
CHUNK = 1 << 20  # bytes of a read


class BadPly(Exception):
    """The file can't be read as a mesh, and why."""

    path = ""  # the file that is being read


class Property:
    """A property: its name, its type, and for a list the type of its count."""

    def __init__(self, name, kind, count=None):
        self.name = name
        self.code, self.size = TYPES[kind]
        self.count = None if count is None else TYPES[count]

    def is_float(self):
        return self.code in "fd"

    def is_list(self):
        return self.count is not None


class Element:
    """An element: its name, its number of rows and its properties."""

    def __init__(self, name, rows):
        self.name = name
        self.rows = rows
        self.properties = []

    def place(self, name):
        """The place of the first scalar of this name, or None."""
        for place, p in enumerate(self.properties):
            if p.name == name and not p.is_list():
                return place
        return None

    def index_list(self):
        """The place of the list of corners, or None."""
        lists = [i for i, p in enumerate(self.properties) if p.is_list()]
        named = [i for i in lists if self.properties[i].name in LIST_NAMES]
        return named[0] if named else lists[0] if len(lists) == 1 else None


class Header:
    """What stands before the rows: the byte order (None for ASCII), the elements, the comments."""

    def __init__(self):
        self.order = None
        self.has_format = False
        self.elements = []
        self.comments = []
        self.start = 0

    def vertices(self):
        """The place of the element with the points."""
        for place, e in enumerate(self.elements):
            if e.name == "vertex":
                if all(e.place(axis) is not None for axis in "xyz"):
                    return place
                raise BadPly("its element 'vertex' has no x, y and z")
        raise BadPly("it has no element 'vertex'")

    def faces(self):
        """The place of the element with the polygons."""
        names = [e.name for e in self.elements]
        for place, e in enumerate(self.elements):
            if e.name == "face" and e.index_list() is not None:
                return place
        if "tristrips" in names:
            raise BadPly("it has triangle strips, and no polygons: write it as triangles in the program that it comes from")
        raise BadPly("it has points, and no polygons: a point cloud must be made a mesh first")

    def digits(self):
        """K of the line 'comment tpz digits K' that parts have, or None."""
        for text in self.comments:
            found = re.fullmatch(r"tpz digits ([0-9])", text)
            if found:
                return int(found.group(1))
        return None

    def default_digits(self):
        """The digits that `tpz` takes where it isn't told any."""
        points = self.elements[self.vertices()]
        return 6 if any(points.properties[points.place(axis)].is_float() for axis in "xyz") else 0


def take_line(file, end):
    """One line without its end. The end of the input ends none."""
    line = bytearray()
    while True:
        byte = file.read(1)
        if not byte:
            raise BadPly("its header isn't ended by 'end_header'")
        if byte == end:
            return bytes(line[:-1]) if line.endswith(b"\r") else bytes(line)
        line += byte
        if len(line) > MOST_HEADER_BYTES:
            raise BadPly("its header isn't ended by 'end_header'")


def line_end(file):
    """Reads the first line. Gives the byte that ends lines: a line feed, or a carriage return that none follows."""
    first = file.read(16)
    text = first[3:] if first.startswith(b"\xef\xbb\xbf") else first
    found = re.match(rb"ply[ \t]*(\r\n|\r|\n)", text)
    if not found:
        raise BadPly("its first line isn't 'ply'")
    file.seek(len(first) - len(text) + found.end())
    return b"\r" if found.group(1) == b"\r" else b"\n"


def whole(word):
    """A count of the header."""
    if not re.fullmatch(r"[0-9]+", word):
        raise BadPly("its header has the count '%s'" % word)
    return int(word)


def kind(word):
    """A type's name, in any case."""
    if word.lower() not in TYPES:
        raise BadPly("its header has the unknown type '%s'" % word)
    return word.lower()


def add_line(header, text):
    """What one line of the header says. Gives False at the last."""
    words = text.split()
    if not words or words[0] == "obj_info":
        return True
    if words[0] == "comment":
        header.comments.append(text.strip()[8:])
    elif words[0] == "format" and len(words) >= 2 and words[1] in ORDERS:
        header.order = ORDERS[words[1]]
        header.has_format = True
    elif words[0] == "element" and len(words) == 3:
        header.elements.append(Element(words[1], whole(words[2])))
    elif words[0] == "property" and len(words) == 3 and header.elements:
        header.elements[-1].properties.append(Property(words[2], kind(words[1])))
    elif words[:2] == ["property", "list"] and len(words) == 5 and header.elements:
        header.elements[-1].properties.append(Property(words[4], kind(words[3]), kind(words[2])))
    elif words != ["end_header"]:
        raise BadPly("its header has the line '%s'" % text.strip()[:60])
    return words != ["end_header"]


def read_header(file):
    """The header of an open file, which then stands at its first row."""
    header = Header()
    end = line_end(file)
    size = 0
    more = True
    while more:
        line = take_line(file, end)
        size += len(line)
        if size > MOST_HEADER_BYTES:
            raise BadPly("its header isn't ended by 'end_header'")
        more = add_line(header, line.decode("latin-1"))
    if not header.has_format:
        raise BadPly("its header has no line 'format'")
    header.start = file.tell()
    return header


class Block:
    """Some rows of an element: for each wanted scalar a column, and the wanted list of each row."""

    def __init__(self, columns, lists):
        self.columns = columns
        self.lists = lists


class AsciiRows:
    """The rows of an ASCII file, as tokens."""

    def __init__(self, file):
        self.file = file
        self.tokens = []
        self.at = 0
        self.rest = b""

    def fill(self, count):
        """Makes sure that so many tokens are there."""
        while len(self.tokens) - self.at < count:
            chunk = self.file.read(CHUNK)
            if not chunk and not self.rest:
                raise BadPly("it ends before its last row")
            text = self.rest + chunk
            tokens = text.split()
            # The last token may go on in the next chunk.
            ends = not chunk or text[-1:].isspace()
            self.rest = b"" if ends or not tokens else tokens.pop()
            self.tokens = self.tokens[self.at :] + tokens
            self.at = 0

    def take(self, count):
        self.fill(count)
        self.at += count
        return self.tokens[self.at - count : self.at]

    def blocks(self, element, scalars, listed):
        """The rows of an element: columns for these places, and the list at that place (or None)."""
        done = 0
        width = len(element.properties)
        plain = not any(p.is_list() for p in element.properties)
        while width and done < element.rows:
            count = min(ROWS, element.rows - done)
            if plain:
                tokens = self.take(count * width)
                yield Block([tokens[place::width] for place in scalars], [])
            elif width == 1:
                yield Block([], self.lists(count))
            else:
                yield self.mixed(element, count, scalars, listed)
            done += count

    def lists(self, count):
        """So many rows of one list each."""
        self.fill(count)
        if self.tokens[self.at] == b"3":
            try:
                self.fill(4 * count)
            except BadPly:
                pass
            if self.tokens[self.at : self.at + 4 * count : 4] == [b"3"] * count:
                tokens = self.take(4 * count)
                return list(zip(tokens[1::4], tokens[2::4], tokens[3::4]))
        return [self.one_list() for _ in range(count)]

    def one_list(self):
        return self.take(list_length(self.take(1)[0]))

    def mixed(self, element, count, scalars, listed):
        columns = [[] for _ in scalars]
        lists = []
        for _ in range(count):
            row = [self.one_list() if p.is_list() else self.take(1)[0] for p in element.properties]
            for column, place in zip(columns, scalars):
                column.append(row[place])
            if listed is not None:
                lists.append(row[listed])
        return Block(columns, lists)


def list_length(text):
    """The count of a list."""
    try:
        length = int(text)
    except ValueError:
        raise BadPly("the count of a list is '%s'" % show(text)) from None
    if not 0 <= length <= MOST_LIST:
        raise BadPly("the count of a list is %d" % length)
    return length


def show(token):
    """A token as it is told to a user."""
    return token.decode("latin-1")[:40] if isinstance(token, bytes) else str(token)


class BinaryRows:
    """The rows of a binary file, as numbers."""

    def __init__(self, file, order):
        self.file = file
        self.order = order
        self.data = b""
        self.at = 0
        self.structs = {}

    def fill(self, count):
        """Makes sure that so many bytes are there."""
        if len(self.data) - self.at >= count:
            return
        rest = self.data[self.at :]
        more = self.file.read(max(CHUNK, count - len(rest)))
        self.data = rest + more
        self.at = 0
        if len(self.data) < count:
            raise BadPly("it ends before its last row")

    def struct(self, code):
        if code not in self.structs:
            if len(self.structs) > 256:
                self.structs.clear()
            self.structs[code] = struct.Struct(self.order + code)
        return self.structs[code]

    def blocks(self, element, scalars, listed):
        """The rows of an element: columns for these places, and the list at that place (or None)."""
        done = 0
        if not element.properties:
            return
        while done < element.rows:
            counts = self.counts_of_row(element)
            width = row_size(element, counts)
            self.fill(width)
            most = min(ROWS, element.rows - done, (len(self.data) - self.at) // max(width, 1))
            rows = self.alike(element, counts, width, most)
            yield self.block(element, counts, width, rows, scalars, listed)
            self.at += rows * width
            done += rows

    def counts_of_row(self, element):
        """The counts of the lists of the row that comes."""
        counts = []
        offset = 0
        for p in element.properties:
            if p.is_list():
                code, size = p.count
                self.fill(offset + size)
                counts.append(list_length(self.struct(code).unpack_from(self.data, self.at + offset)[0]))
                offset += size + counts[-1] * p.size
            else:
                offset += p.size
        return counts

    def alike(self, element, counts, width, most):
        """How many rows, at most so many, have lists of these lengths."""
        rows = most
        for offset, (code, size), count in count_places(element, counts):
            wanted = self.struct(code).pack(count)
            for part in range(size):
                column = self.data[self.at + offset + part : self.at + width * rows : width]
                if column != wanted[part : part + 1] * rows:
                    rows = next(i for i, byte in enumerate(column) if byte != wanted[part])
        return rows

    def block(self, element, counts, width, rows, scalars, listed):
        """So many rows of lists of these lengths."""
        code, wanted = row_code(element, counts, scalars, listed)
        if not wanted:
            return Block([], [()] * rows)
        values = list(self.struct(code).iter_unpack(self.data[self.at : self.at + rows * width]))
        if not scalars:
            return Block([], values)
        columns = list(zip(*values))
        lists = []
        if listed is not None:
            first = wanted.index(listed)
            length = wanted.count(listed)
            lists = list(zip(*columns[first : first + length])) if length else [()] * rows
        return Block([columns[wanted.index(place)] for place in scalars], lists)


def row_size(element, counts):
    """The bytes of a row whose lists have these lengths."""
    left = iter(counts)
    return sum(p.count[1] + next(left) * p.size if p.is_list() else p.size for p in element.properties)


def count_places(element, counts):
    """Where the counts of lists stand in a row, with their types and values."""
    left = iter(counts)
    offset = 0
    for p in element.properties:
        if p.is_list():
            count = next(left)
            yield offset, p.count, count
            offset += p.count[1] + count * p.size
        else:
            offset += p.size


def row_code(element, counts, scalars, listed):
    """The struct code of a row, in which what isn't wanted is passed over, and whose place each value is of."""
    left = iter(counts)
    code = ""
    wanted = []
    for place, p in enumerate(element.properties):
        count = 1
        if p.is_list():
            code += "%dx" % p.count[1]
            count = next(left)
        if place in scalars or place == listed:
            code += p.code * count
            wanted += [place] * count
        else:
            code += "%dx" % (p.size * count)
    return code, wanted


class Mesh:
    """An open file with its header. Points and polygons are read from its front as often as one likes."""

    def __init__(self, path):
        BadPly.path = path
        self.file = open(path, "rb")
        if not self.file.seekable():
            raise BadPly("it is no plain file")
        self.header = read_header(self.file)
        self.points = self.header.elements[self.header.vertices()]
        self.polygons = self.header.elements[self.header.faces()]

    def blocks(self, element, scalars, listed):
        """The wanted rows of an element, after those before it are passed over."""
        self.file.seek(self.header.start)
        order = self.header.order
        rows = AsciiRows(self.file) if order is None else BinaryRows(self.file, order)
        for e in self.header.elements:
            if e is element:
                yield from rows.blocks(e, scalars, listed)
                return
            for _ in rows.blocks(e, [], None):
                pass

    def point_blocks(self):
        """Blocks of three columns x, y, z: tokens of an ASCII file, numbers of a binary one."""
        places = [self.points.place(axis) for axis in "xyz"]
        for block in self.blocks(self.points, places, None):
            yield block.columns

    def polygon_blocks(self):
        """Blocks of lists of corners."""
        for block in self.blocks(self.polygons, [], self.polygons.index_list()):
            yield block.lists


@contextlib.contextmanager
def written(path):
    """A file to write, which takes its place only once it is whole."""
    unfinished = path + ".part"
    try:
        with open(unfinished, "wb", buffering=CHUNK) as out:
            yield out
        os.replace(unfinished, path)
    finally:
        if os.path.exists(unfinished):
            os.remove(unfinished)


def are_one(first, second):
    """Whether two paths are one file."""
    return os.path.exists(first) and os.path.exists(second) and os.path.samefile(first, second)


def numbers(column, axis, row):
    """A column of tokens as floats, or of numbers as they are."""
    if not column or not isinstance(column[0], bytes):
        return column
    try:
        return list(map(float, column))
    except ValueError:
        for i, token in enumerate(column):
            if not is_number(token):
                raise BadPly("the %s of vertex %d is '%s'" % (axis, row + i, show(token))) from None
        raise


def is_number(token):
    try:
        float(token)
    except ValueError:
        return False
    return True


def box_of(mesh):
    """The least and the greatest coordinate on each axis, and the number of points."""
    least = [float("inf")] * 3
    greatest = [float("-inf")] * 3
    row = 0
    for columns in mesh.point_blocks():
        for i, column in enumerate(columns):
            values = numbers(column, "xyz"[i], row)
            low, high = min(values), max(values)
            if not (low > float("-inf") and high < float("inf")) or any(v != v for v in values):
                raise BadPly("the %s of a vertex from %d on isn't finite" % ("xyz"[i], row))
            least[i] = min(least[i], low)
            greatest[i] = max(greatest[i], high)
        row += len(columns[0])
    if not row:
        return [0] * 3, [0] * 3, 0
    return least, greatest, row


def load(mesh):
    """All points as three lists of numbers, and all triangles as three corners each."""
    columns = [[], [], []]
    for block in mesh.point_blocks():
        for i, column in enumerate(block):
            columns[i].extend(numbers(column, "xyz"[i], len(columns[i])))
    count = len(columns[0])
    tris = []
    for lists in mesh.polygon_blocks():
        tris.extend(fans(lists))
    if tris and not (0 <= min(chain.from_iterable(tris)) and max(chain.from_iterable(tris)) < count):
        raise BadPly("a polygon names a vertex that isn't there")
    return columns, tris


def polygon_lines(lists, corners):
    """The lines of some polygons, whose corners stand one after another as numbers."""
    if all(len(row) == 3 for row in lists):
        return b"3 %d %d %d\n" * len(lists) % tuple(corners)
    lines = []
    at = 0
    for row in lists:
        n = len(row)
        lines.append((b"%d" + b" %d" * n + b"\n") % (n, *corners[at : at + n]))
        at += n
    return b"".join(lines)


def fans(lists):
    """The triangles of polygons."""
    for corners in lists:
        c = list(map(int, corners))
        for i in range(1, len(c) - 1):
            yield c[0], c[i], c[i + 1]


def run(main, name):
    """Runs a tool: its errors on files end with 3, or 1 where the system failed, in one line."""
    try:
        sys.exit(main())
    except BadPly as e:
        print("%s: %s: %s" % (name, BadPly.path, e), file=sys.stderr)
        sys.exit(3)
    except BrokenPipeError:
        os.dup2(os.open(os.devnull, os.O_WRONLY), 1)
        sys.exit(1)
    except OSError as e:
        print("%s: %s: %s" % (name, e.filename or "the file", e.strerror), file=sys.stderr)
        sys.exit(1)
    except KeyboardInterrupt:
        sys.exit(130)
