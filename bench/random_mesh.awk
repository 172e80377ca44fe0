# Writes a small random mesh as ASCII PLY, for a number SEED: awk -v seed=7 -f random_mesh.awk
#
# By SEED it is a bumpy sheet with a border, some closed tetrahedra, a closed box of cells, polygons, or triangles at random, with
# or without vertices at one place, faces twice, coordinates below 0 and float coordinates.

function pick(n) { return int(rand() * n) }

function vertex(x, y, z) {
    if (floats)
        rows[count] = sprintf("%.4f %.4f %.4f", x / 8, y / 8, z / 8)
    else
        rows[count] = sprintf("%d %d %d", x, y, z)
    return count++
}

function face(line) {
    faces[total++] = line
    if (twice && pick(5) == 0)
        faces[total++] = line
}

# cells of four corners, as two triangles or one polygon, over a sheet of n by n cells; `turned` turns them round
function cell(a, b, c, d, turned) {
    if (turned)
        cell(a, d, c, b, 0)
    else if (polygons)
        face("4 " a " " b " " c " " d)
    else {
        face("3 " a " " b " " c)
        face("3 " a " " c " " d)
    }
}

function sheet(n, left, back, low, i, j) {
    for (i = 0; i <= n; i++)
        for (j = 0; j <= n; j++)
            at[i, j] = vertex(left + 16 * i + pick(6), back + 16 * j + pick(6), low + pick(24))
    for (i = 0; i < n; i++)
        for (j = 0; j < n; j++)
            cell(at[i, j], at[i + 1, j], at[i + 1, j + 1], at[i, j + 1], 0)
}

function tetrahedron(x, y, z, s, a, b, c, d) {
    a = vertex(x, y, z)
    b = vertex(x + s, y, z)
    c = vertex(x, y + s, z)
    d = vertex(x, y, z + s)
    face("3 " a " " c " " b)
    face("3 " a " " b " " d)
    face("3 " a " " d " " c)
    face("3 " b " " c " " d)
}

# a closed prism of n by n cells between two heights, flat but for its top
function box(n, i, j, k) {
    for (i = 0; i <= n; i++)
        for (j = 0; j <= n; j++)
            for (k = 0; k < 2; k++)
                at[i, j, k] = vertex(16 * i, 16 * j, 40 * k + (k ? pick(9) : 0))
    for (i = 0; i < n; i++)
        for (j = 0; j < n; j++)
            for (k = 0; k < 2; k++)
                cell(at[i, j, k], at[i + 1, j, k], at[i + 1, j + 1, k], at[i, j + 1, k], !k)
    for (i = 0; i < n; i++)
        for (k = 0; k < 2; k++) {
            cell(at[i, k * n, 0], at[i + 1, k * n, 0], at[i + 1, k * n, 1], at[i, k * n, 1], k)
            cell(at[k * n, i, 0], at[k * n, i + 1, 0], at[k * n, i + 1, 1], at[k * n, i, 1], !k)
        }
}

function soup(n, i) {
    for (i = 0; i < 3 * n; i++)
        vertex(pick(300), pick(300), pick(300))
    for (i = 0; i < 2 * n; i++)
        face("3 " pick(count) " " pick(count) " " pick(count))
}

BEGIN {
    srand(seed)
    count = total = 0
    kind = seed % 5
    floats = pick(3) == 0
    twice = pick(2)
    polygons = pick(2)
    shift = pick(2) ? -100 : 0
    if (kind == 0)
        sheet(6 + pick(12), shift, shift, shift)
    else if (kind == 1)
        box(4 + pick(8))
    else if (kind == 2)
        for (i = 0; i < 12; i++)
            tetrahedron(shift + pick(200), shift + pick(200), shift + pick(200), 1 + pick(40))
    else if (kind == 3) {
        sheet(4 + pick(6), shift, 0, 0)
        sheet(4 + pick(6), shift, 0, 300)
        tetrahedron(0, 0, 100, 60)
    } else
        soup(20 + pick(60))

    type = floats ? "float" : "int"
    print "ply\nformat ascii 1.0"
    print "element vertex " count
    print "property " type " x\nproperty " type " y\nproperty " type " z"
    print "element face " total
    print "property list uchar int vertex_indices\nend_header"
    for (i = 0; i < count; i++)
        print rows[i]
    for (i = 0; i < total; i++)
        print faces[i]
}
