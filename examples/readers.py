#!/usr/bin/env python3
"""Reads a file that lbm has written with the readers of VTK and of meshio (Debian: python3-vtk9, python3-meshio), and tells
its dimensions, the names of its arrays, and the sums of their numbers, which are those of lbm's report line.

Usage: readers.py FILE.vtk..
"""
import sys

import meshio
from vtkmodules.util.numpy_support import vtk_to_numpy
from vtkmodules.vtkIOLegacy import vtkStructuredPointsReader


def told(name, dimensions, density, momentum):
    sums = " ".join(str(int(part)) for part in momentum.reshape(-1, 3).sum(axis=0, dtype="int64"))
    print(f"{name}: {dimensions}, density {int(density.sum(dtype='int64'))}, momentum {sums}")


for name in sys.argv[1:]:
    reader = vtkStructuredPointsReader()
    reader.SetFileName(name)
    reader.Update()
    points = reader.GetOutput()
    data = points.GetPointData()
    arrays = [data.GetArrayName(k) for k in range(data.GetNumberOfArrays())]
    told(f"vtk {name} {arrays}", points.GetDimensions(), vtk_to_numpy(data.GetArray("density")), vtk_to_numpy(data.GetArray("momentum")))
    mesh = meshio.read(name)
    told(f"meshio {name} {sorted(mesh.point_data)}", f"{len(mesh.points)} points", mesh.point_data["density"], mesh.point_data["momentum"])
