#!/usr/bin/env python3
"""Tells what a run of lbm comes to: viscosity, velocities, Mach and Reynolds number, permeability, and how much rounding may weigh.
It wants Python alone, 3.11 or later. docs/UNITS.md has the formulas, docs/ACCURACY.md what B means.

    figures.py CASE FILE.vtk [--voxels] [--length CELLS] [--line x|y|z X Y [Z]]

--length gives the length of the Reynolds number. --line prints the velocity along a line of cells through the cell X Y Z, a cell
a row: its place on the line, and the parts of its velocity, in cells a step. Solid cells are left out. --voxels is for a run over a voxel
file: its map is not that of CASE.
"""
import argparse
import math

import flow


def size(vector):
    return math.sqrt(sum(part * part for part in vector))


def mean(vectors, count):
    return [sum(vector[a] for vector in vectors) / count for a in range(3)]


def told(vector):
    return " ".join(f"{part:.6g}" if abs(part) > 1e-12 else "0" for part in vector)


def tell_line(speeds, fields, axis, through):
    place = through + [0] * (3 - len(through))
    for k in range(fields.sides["xyz".index(axis)]):
        place["xyz".index(axis)] = k
        velocity = speeds[fields.cell(*place)]
        if velocity is not None:
            print(k, told(velocity))


def tell(case, speeds, fields, length):
    fluid = [velocity for velocity in speeds if velocity is not None]
    fastest = max(map(size, fluid))
    over_all = mean(fluid, len(speeds))
    densities = [rho / flow.UNIT for rho in fields.density if rho]
    print(f"step                      {fields.step}")
    print(f"viscosity                 {case.viscosity:.6g}")
    print(f"product of the rates      {(case.q / case.p - 0.5) * (case.q / case.m - 0.5):.4f}, walls stand halfway at 0.1875")
    print(f"density                   {min(densities):.6f} to {max(densities):.6f}")
    print(f"greatest velocity         {fastest:.6g}, Mach number {fastest * math.sqrt(3):.3g}")
    print(f"mean velocity, all cells  {told(over_all)}")
    print(f"mean velocity, fluid      {told(mean(fluid, len(fluid)))}")
    if length is not None:
        for kind, speed in (("mean of the fluid", size(mean(fluid, len(fluid)))), ("greatest", fastest), ("wall", size(case.wall_velocity))):
            if speed:
                print(f"Reynolds number           {speed * length / case.viscosity:.4g} by the {kind}")
    push = size(case.acceleration)
    if push:
        along = sum(u * g for u, g in zip(over_all, case.acceleration)) / push
        print(f"permeability              {case.viscosity * along / push:.6g} along the force")
        print(f"B, by the force           {1 / (case.denominator / 3 * size(case.force)):.4f}")
    if any(case.wall):
        print(f"velocity of moving walls  {told(case.wall_velocity)}")
        if length is not None:
            print(f"B, between such plates     {length**2 / (8 * case.viscosity * case.denominator / 6 * size(case.wall)):.4f}")


def main():
    reader = argparse.ArgumentParser(description=__doc__, formatter_class=argparse.RawDescriptionHelpFormatter)
    reader.add_argument("case")
    reader.add_argument("file")
    reader.add_argument("--voxels", action="store_true")
    reader.add_argument("--length", type=float)
    reader.add_argument("--line", nargs="+", metavar="AXIS PLACE")
    words = reader.parse_args()
    case, fields = flow.Case.read(words.case), flow.Fields(words.file)
    if words.voxels:
        case.wall = [0, 0, 0]  # no cell moves
    speeds = flow.velocities(case, fields, words.voxels)
    if words.line is None:
        tell(case, speeds, fields, words.length)
    elif words.line[0] in ("x", "y", "z") and len(words.line) in (3, 4):
        tell_line(speeds, fields, words.line[0], [int(word) for word in words.line[1:]])
    else:
        reader.error("--line wants an axis and the place of a cell")


main()
