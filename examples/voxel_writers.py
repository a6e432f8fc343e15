#!/usr/bin/env python3
"""Writes a segmented image as a voxel file by VTK's own legacy writer (Debian: python3-vtk9), in both versions of the format that the
writer knows, runs `lbm voxels` over it, and compares OUT with that over the same image written word by word. Two kinds of files have
to be refused: VTK writes bytes as colours, with fractions, and meshio (Debian: python3-meshio) writes unstructured grids alone.
What is not installed is skipped.

Usage: voxel_writers.py PROGRAM      (crates/lbm/out/lbm)
"""
import subprocess
import sys
import tempfile
from pathlib import Path

SIDES = (6, 5, 4)
CASE = 'set = "D3Q19"\nomega = [5, 4]\nforce = [20, 0, 0]\nlayers = 1\nmap = ["."]\n'


def is_pore(x, y, z):
    """A crooked channel: a value that is not symmetric in any axis, so that an order of cells that is wrong shows."""
    return (x + 2 * y + 3 * z) % 5 != 0


def values():
    nx, ny, nz = SIDES
    return [int(is_pore(x, y, z)) for z in range(nz) for y in range(ny) for x in range(nx)]


def by_hand(name):
    nx, ny, nz = SIDES
    text = f"# vtk DataFile Version 3.0\nby hand\nASCII\nDATASET STRUCTURED_POINTS\nDIMENSIONS {nx} {ny} {nz}\nORIGIN 0 0 0\nSPACING 1 1 1\n"
    text += f"POINT_DATA {nx * ny * nz}\nSCALARS pore int 1\nLOOKUP_TABLE default\n" + "\n".join(map(str, values())) + "\n"
    name.write_text(text)


def by_vtk(name, kind, version):
    from vtkmodules.vtkCommonCore import vtkIntArray, vtkShortArray, vtkUnsignedCharArray
    from vtkmodules.vtkCommonDataModel import vtkStructuredPoints
    from vtkmodules.vtkIOLegacy import vtkStructuredPointsWriter

    array = {"int": vtkIntArray, "short": vtkShortArray, "unsigned_char": vtkUnsignedCharArray}[kind]()
    array.SetName("pore")
    for value in values():
        array.InsertNextValue(value)
    points = vtkStructuredPoints()
    points.SetDimensions(*SIDES)
    points.GetPointData().SetScalars(array)
    writer = vtkStructuredPointsWriter()
    writer.SetFileTypeToASCII()
    writer.SetFileVersion(version)
    writer.SetFileName(str(name))
    writer.SetInputData(points)
    writer.Write()


def by_meshio(name):
    import meshio
    import numpy

    nx, ny, nz = SIDES
    points = numpy.array([(x, y, z) for z in range(nz) for y in range(ny) for x in range(nx)], dtype=float)
    mesh = meshio.Mesh(points, [("vertex", numpy.arange(len(points)).reshape(-1, 1))], point_data={"pore": numpy.array(values())})
    meshio.write(name, mesh, file_format="vtk", binary=False)


def run(program, folder, name):
    """The line, the status and OUT of a run over a voxel file."""
    out = folder / f"{name.stem}_out.vtk"
    done = subprocess.run([program, "voxels", name, folder / "case.toml", "3", out], capture_output=True, text=True, check=False)
    return done.stdout.strip(), done.returncode, out.read_bytes() if out.exists() else None


def main(program):
    program = Path(program).resolve()
    wrong = 0
    with tempfile.TemporaryDirectory() as top:
        folder = Path(top)
        (folder / "case.toml").write_text(CASE)
        by_hand(folder / "hand.vtk")
        wanted = run(program, folder, folder / "hand.vtk")
        print("by hand:", wanted[0])
        wrong += wanted[1] != 0
        try:
            for version in (42, 51):
                for kind in ("int", "short", "unsigned_char"):
                    name = folder / f"{kind}_{version}.vtk"
                    by_vtk(name, kind, version)
                    answer = run(program, folder, name)
                    right = answer[0] == "refused: voxel word 16" if kind == "unsigned_char" else answer == wanted
                    print(f"VTK, version {version / 10}, {kind}:", "the same" if answer == wanted else answer[0])
                    wrong += not right
        except ImportError:
            print("VTK: skipped, it is not installed")
        try:
            by_meshio(folder / "mesh.vtk")
            line = run(program, folder, folder / "mesh.vtk")[0]
            print("meshio:", line)
            wrong += line != "refused: voxel word 1"
        except ImportError:
            print("meshio: skipped, it is not installed")
    return 1 if wrong else 0


if __name__ == "__main__":
    if len(sys.argv) != 2:
        sys.exit(__doc__)
    sys.exit(main(sys.argv[1]))
