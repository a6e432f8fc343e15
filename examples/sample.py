#!/usr/bin/env python3
"""Writes a small porous sample as a voxel file: a box of 20 by 12 by 12 cells, periodic on each axis, with solid balls at places
that a seed gives. It stands in for a segmented scan.

Usage: sample.py > sample.vtk
"""
import random

SIDES = (20, 12, 12)
BALLS = 14
RADIUS = 2.6

places = random.Random(20)
centres = [[places.uniform(0, side) for side in SIDES] for _ in range(BALLS)]


def apart(a, b, side):
    return min(abs(a - b), side - abs(a - b))


def is_solid(*cell):
    return any(sum(apart(x + 0.5, c, side) ** 2 for x, c, side in zip(cell, centre, SIDES)) < RADIUS**2 for centre in centres)


print("# vtk DataFile Version 3.0\nsolid balls in a periodic box\nASCII\nDATASET STRUCTURED_POINTS")
print("DIMENSIONS {} {} {}\nORIGIN 0 0 0\nSPACING 1 1 1".format(*SIDES))
print("POINT_DATA {}\nSCALARS pore int 1\nLOOKUP_TABLE default".format(SIDES[0] * SIDES[1] * SIDES[2]))
for z in range(SIDES[2]):
    for y in range(SIDES[1]):
        print(*(0 if is_solid(x, y, z) else 1 for x in range(SIDES[0])))
