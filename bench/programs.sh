#!/bin/sh
# Files of other programs, from their writers to a picture of a part:
#
#     bench/programs.sh [FOLDER]
#
# Each program that is installed writes a mesh as PLY with its own defaults. tools/to_ascii makes it the input, and then
# come ./tpz build with default options, tools/script, ./tpz replay and tools/picture. It prints a row for each program,
# and the package of each that isn't there; it installs nothing. A second table has who reads what tools/unscale writes.
# FOLDER keeps all files. TPZ names another program in the place of ./tpz. It ends with 1 where a row failed, or where
# fewer than eight programs are there.
set -u

here=$(CDPATH='' cd -- "$(dirname -- "$0")" && pwd) || exit 2
top=$here/..
tpz=${TPZ:-$top/tpz}
case $tpz in /*) ;; *) tpz=$PWD/$tpz ;; esac
if [ -n "${1:-}" ]; then
    mkdir -p "$1" || exit 2
    work=$(CDPATH='' cd -- "$1" && pwd)
else
    work=$(mktemp -d)
    trap 'rm -rf "$work"' EXIT
    trap 'exit 1' HUP INT TERM
fi
cd "$work" || exit 2
# Programs with windows want a display, even where they show none.
display=
if command -v xvfb-run >/dev/null 2>&1; then
    display='xvfb-run -a'
fi
# Debian's modules are those of Debian's interpreter.
python=/usr/bin/python3
[ -x "$python" ] || python=python3

# Writers: each reads in.ply, which has floats in ASCII, and writes $1. All go by the program's defaults.

write_assimp() {
    assimp export in.ply in.obj && assimp export in.obj "$1" -fplyb
}

write_meshlab() {
    $display meshlabserver -i in.ply -o "$1"
}

write_vtk() {
    "$python" -c 'import sys, vtk
r = vtk.vtkPLYReader()
r.SetFileName("in.ply")
w = vtk.vtkPLYWriter()
w.SetFileName(sys.argv[1])
w.SetInputConnection(r.GetOutputPort())
w.Write()' "$1"
}

write_open3d() {
    "$python" -c 'import open3d, sys
open3d.io.write_triangle_mesh(sys.argv[1], open3d.io.read_triangle_mesh("in.ply"))' "$1"
}

write_meshio() {
    meshio convert in.ply "$1"
}

write_pcl() {
    assimp export in.ply in.obj && pcl_obj2ply in.obj "$1"
}

write_cloudcompare() {
    QT_QPA_PLATFORM=offscreen CloudCompare -SILENT -O in.ply -M_EXPORT_FMT PLY -SAVE_MESHES FILE "$1"
}

write_blender() {
    blender --background --python-expr "import bpy
bpy.ops.object.select_all(action='SELECT')
bpy.ops.object.delete()
if bpy.app.version >= (4, 0, 0):
    bpy.ops.wm.ply_import(filepath='in.ply')
    bpy.ops.wm.ply_export(filepath='$1')
else:
    bpy.ops.import_mesh.ply(filepath='in.ply')
    bpy.ops.export_mesh.ply(filepath='$1')"
}

write_freecad() {
    printf 'import Mesh\nMesh.Mesh("in.ply").write("%s", "PLY")\n' "$1" >convert.py && freecadcmd convert.py
}

write_rgl() {
    assimp export in.ply in.obj && Rscript -e "options(rgl.useNULL = TRUE); library(rgl); m <- readOBJ('in.obj')
open3d(); shade3d(m); writePLY('$1', format = 'little_endian')"
}

write_matgeom() {
    octave --no-gui --eval "pkg load matgeom; [v, e, f] = createIcosahedron(); writeMesh_ply('$1', v, f, 'binary');"
}

write_draco() {
    draco_encoder -i in.ply -o in.drc && draco_decoder -i in.drc -o "$1"
}

write_openctm() {
    assimp export in.ply in.obj && ctmconv in.obj "$1"
}

write_edtsurf() {
    printf 'ATOM      1  N   GLY A   1       0.000   0.000   0.000  1.00  0.00           N\n' >one.pdb
    printf 'ATOM      2  CA  GLY A   1       1.460   0.000   0.000  1.00  0.00           C\n' >>one.pdb
    EDTSurf -i one.pdb -o "${1%.ply}"
}

# Whether a program is there: the command, or the module of Python, Octave or R behind it.
has() {
    case $1 in
    python:*) "$python" -c "import ${1#python:}" ;;
    octave:*) command -v octave && octave --no-gui --eval "pkg load ${1#octave:}" ;;
    r:*) command -v Rscript && Rscript -e "library(${1#r:})" ;;
    *) command -v "$1" ;;
    esac >/dev/null 2>&1
}

# What a header says of the format and of x.
form_of() {
    LC_ALL=C head -c 2000 "$1" | LC_ALL=C tr -d '\r' | LC_ALL=C awk '
        $1 == "format" { form = $2 }
        $1 == "property" && $3 == "x" { print form, $2; exit }'
}

# The way from a file to a picture, in its own folder. Says how far it came.
try() {
    name=$1
    mkdir -p "$name" && rm -rf "$name/store.tpz" "$name"/part-*.ply
    "$top/tools/to_ascii" "$name.ply" "$name/input.ply" 2>"$name/said" || { tail -n 1 "$name/said"; return 1; }
    "$tpz" "$name" build >"$name/built" 2>>"$name/said" || { tail -n 2 "$name/said"; return 1; }
    "$top/tools/script" "$name/input.ply" --steps 3 >"$name/script.txt" || return 1
    "$tpz" "$name" replay >"$name/played" 2>>"$name/said" || { tail -n 2 "$name/said"; return 1; }
    "$top/tools/picture" --size 320x240 "$name/part-2.ply" "$name/part.png" 2>>"$name/said" || { tail -n 1 "$name/said"; return 1; }
    awk '{ printf "%s triangles, %s dropped, ", $3, $5 }' "$name/built"
    awk '{ printf "%s parts, ", $3 }' "$name/played"
    printf '%s bytes of picture\n' "$(wc -c <"$name/part.png" | tr -d ' ')"
}

# One row: a name, what must be there, and its package.
row() {
    name=$1
    for part in $2; do
        if ! has "$part"; then
            printf '%-13s missing: %s\n' "$name" "$3"
            missing=$((missing + 1))
            return
        fi
    done
    rm -f "$name.ply"
    "write_$name" "$name.ply" >"$name.log" 2>&1 </dev/null
    if [ ! -s "$name.ply" ]; then
        printf '%-13s wrote nothing: %s\n' "$name" "$(tail -n 1 "$name.log")"
        failed=$((failed + 1))
    elif result=$(try "$name"); then
        printf '%-13s %-30s %s\n' "$name" "$(form_of "$name.ply")" "$result"
        passed=$((passed + 1))
    else
        printf '%-13s %-30s FAILED: %s\n' "$name" "$(form_of "$name.ply")" "$result"
        failed=$((failed + 1))
    fi
}

# Whether a program reads a part after tools/unscale: what it says of the numbers of vertices and triangles.
reads() {
    name=$1
    has "$2" || return
    shift 2
    if "$@" >"reads-$name.log" 2>&1 </dev/null; then
        printf '%-13s reads it\n' "$name"
    else
        printf '%-13s FAILED: %s\n' "$name" "$(tail -n 1 "reads-$name.log")"
        failed=$((failed + 1))
    fi
}

# Whether a file has as many vertices as the part.
same_count() {
    LC_ALL=C head -c 2000 "$1" | LC_ALL=C grep -aq "^element vertex $vertices *\r*$"
}

back_meshlab() {
    $display meshlabserver -i plain.ply -o back-meshlab.ply && same_count back-meshlab.ply
}

back_pcl() {
    pcl_ply2vtk plain.ply back.vtk && grep -q "^POINTS $vertices " back.vtk
}

back_vtk() {
    "$python" -c 'import sys, vtk
r = vtk.vtkPLYReader()
r.SetFileName("plain.ply")
r.Update()
sys.exit(r.GetOutput().GetNumberOfPoints() != int(sys.argv[1]))' "$vertices"
}

back_assimp() {
    assimp info plain.ply | grep -q 'Faces: *[1-9]'
}

passed=0
failed=0
missing=0
"$top/tools/to_ascii" "$top/examples/torus/input.ply" double.ply 2>/dev/null || exit 2
sed 's/^property double/property float/' double.ply >in.ply
row assimp assimp assimp-utils
row meshlab 'meshlabserver xvfb-run' 'meshlab xvfb xauth'
row vtk python:vtk python3-vtk9
row open3d python:open3d python3-open3d
row meshio meshio meshio-tools
row pcl 'pcl_obj2ply assimp' 'pcl-tools assimp-utils'
row cloudcompare CloudCompare cloudcompare
row blender blender blender
row freecad freecadcmd freecad
row rgl 'r:rgl assimp' 'r-cran-rgl assimp-utils'
row matgeom octave:matgeom octave-matgeom
row draco draco_encoder draco
row openctm 'ctmconv assimp' 'openctm-tools assimp-utils'
row edtsurf EDTSurf edtsurf
printf '%d programs passed, %d failed, %d missing\n' "$passed" "$failed" "$missing"

part=$(find . -name part-2.ply | sort | head -n 1)
if [ -n "$part" ]; then
    printf '\nWho reads a part after tools/unscale:\n'
    "$top/tools/unscale" "$part" plain.ply || failed=$((failed + 1))
    vertices=$(awk '/^element vertex/ { print $3; exit }' plain.ply)
    reads meshlab meshlabserver back_meshlab
    reads pcl pcl_ply2vtk back_pcl
    reads vtk python:vtk back_vtk
    reads assimp assimp back_assimp
fi
[ "$failed" -eq 0 ] && [ "$passed" -ge 8 ]
