# Writes a plain mesh: the surface of a cube of n by n by n cells, with a bump at each grid point, closed and without
# repeated points. It has 12 n^2 triangles and 6 n^2 + 2 vertices.
#
#     awk -v n=288 -f bumpy_cube.awk > input.ply

# Each grid point lies 64 units from its neighbours and is moved by 0 to 32 on each axis, so no two points meet.
function row(i, j, k,   bump) {
    bump = 31 * i * j + 17 * j * k + 13 * k * i + 7 * i + 5 * j + 3 * k
    printf "%d %d %d\n", 64 * i + bump % 33, 64 * j + (bump + 11) % 33, 64 * k + (bump + 22) % 33
}

# The number of the grid point with the coordinate c on the axis a, p on the next axis and q on the one behind it.
function number(a, c, p, q) {
    if (a == 0) return numbers[c, p, q]
    if (a == 1) return numbers[q, c, p]
    return numbers[p, q, c]
}

# The two triangles of a cell on one side of the cube.
function cell(a, c, p, q,   k0, k1, k2, k3) {
    k0 = number(a, c, p, q)
    k1 = number(a, c, p + 1, q)
    k2 = number(a, c, p + 1, q + 1)
    k3 = number(a, c, p, q + 1)
    if (c == 0) {
        print 3, k0, k2, k1
        print 3, k0, k3, k2
    } else {
        print 3, k0, k1, k2
        print 3, k0, k2, k3
    }
}

BEGIN {
    print "ply\nformat ascii 1.0\ncomment tpz digits 0\nelement vertex", 6 * n * n + 2
    print "property int x\nproperty int y\nproperty int z\nelement face", 12 * n * n
    print "property list uchar int vertex_indices\nend_header"
    count = 0
    for (i = 0; i <= n; i++)
        for (j = 0; j <= n; j++)
            for (k = 0; k <= n; k += (i % n == 0 || j % n == 0) ? 1 : n) {
                numbers[i, j, k] = count++
                row(i, j, k)
            }
    for (a = 0; a < 3; a++)
        for (c = 0; c <= n; c += n)
            for (p = 0; p < n; p++)
                for (q = 0; q < n; q++)
                    cell(a, c, p, q)
}
