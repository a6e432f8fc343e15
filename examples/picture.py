#!/usr/bin/env python3
"""Paints a run of lbm as a PNG picture: by default the speed of each cell. It wants Python alone, 3.11 or later.

    picture.py CASE FILE.vtk FILE.png [--voxels] [--of speed|x|y|z|density|tracer] [--layer Z] [--width PIXELS]

The first row of the map is at the top, so the picture lies as the case file is written; solid cells are grey. Of a box in space one
layer is painted, by default the middle one. Velocities have half of the force's share added, and are in cells a step. Below the
picture stands the scale, with its least and its greatest value. --voxels is for a run over a voxel file, whose map is not that of CASE. With
`--of tracer` FILE.vtk is the TRACE of `lbm tracer`, and the amounts of its cells are painted.
"""
import argparse
import struct
import zlib

import flow

# the colours of a scale at even distances, from the least value to the greatest: one for sizes, one for values of both signs
SIZES = ("440154", "482878", "3e4989", "31688e", "26828e", "1f9e89", "35b779", "6ece58", "b5de2b", "fde725")
SIGNED = ("053061", "2166ac", "4393c3", "92c5de", "d1e5f0", "f7f7f7", "fddbc7", "f4a582", "d6604d", "b2182b", "67001f")
SHADES = 240
GREY, WHITE, BLACK = SHADES, SHADES + 1, SHADES + 2

# the characters of a number, five rows of three points each
GLYPHS = {
    "0": "###,#.#,#.#,#.#,###", "1": ".#.,##.,.#.,.#.,###", "2": "###,..#,###,#..,###", "3": "###,..#,.##,..#,###",
    "4": "#.#,#.#,###,..#,..#", "5": "###,#..,###,..#,###", "6": "###,#..,###,#.#,###", "7": "###,..#,.#.,.#.,.#.",
    "8": "###,#.#,###,#.#,###", "9": "###,#.#,###,..#,###", "-": "...,...,###,...,...", ".": "...,...,...,...,.#.",
    "e": "...,###,###,#..,###", "+": "...,.#.,###,.#.,...",
}


def palette(colours):
    """The shades of a scale, and grey, white and black."""
    points = [tuple(bytes.fromhex(colour)) for colour in colours]
    shades = []
    for k in range(SHADES):
        place = k * (len(points) - 1) / (SHADES - 1)
        low = min(int(place), len(points) - 2)
        shades.append([round(a + (place - low) * (b - a)) for a, b in zip(points[low], points[low + 1])])
    return bytes(part for shade in shades + [[150, 150, 150], [255, 255, 255], [0, 0, 0]] for part in shade)


def write_png(name, rows, colours):
    """A picture of 256 colours at most: rows of their numbers."""

    def chunk(kind, data):
        return struct.pack(">I", len(data)) + kind + data + struct.pack(">I", zlib.crc32(kind + data))

    head = struct.pack(">IIBBBBB", len(rows[0]), len(rows), 8, 3, 0, 0, 0)
    data = zlib.compress(b"".join(b"\0" + bytes(row) for row in rows), 9)
    with open(name, "wb") as file:
        file.write(b"\x89PNG\r\n\x1a\n" + chunk(b"IHDR", head) + chunk(b"PLTE", palette(colours)) + chunk(b"IDAT", data) + chunk(b"IEND", b""))


def write_number(rows, value, x, y, size, ends=False):
    """Writes a number into the rows from x on, or so that it ends before x."""
    text = f"{value:.3g}"
    left = x - 4 * size * len(text) if ends else x
    for mark in text:
        for row, points in enumerate(GLYPHS[mark].split(",")):
            for column, point in enumerate(points):
                if point == "#":
                    for line in range(y + row * size, y + (row + 1) * size):
                        rows[line][left + column * size : left + (column + 1) * size] = [BLACK] * size
        left += 4 * size


def values_of(case, fields, what, voxels):
    """What is painted of each cell: a number, or None where it is solid."""
    if what == "density":
        return [None if rho == 0 else rho / flow.UNIT for rho in fields.density]
    if what == "tracer":
        return [None if case.is_solid(cell) else amount for cell, amount in enumerate(fields.density)]
    speeds = flow.velocities(case, fields, voxels)
    if what == "speed":
        return [None if v is None else sum(part * part for part in v) ** 0.5 for v in speeds]
    return [None if v is None else v["xyz".index(what)] for v in speeds]


def scale_of(values, what):
    """The least and the greatest value of the scale."""
    known = [value for value in values if value is not None] or [0]
    low, high = min(known), max(known)
    if what in ("speed", "tracer"):
        low = 0
    elif what in "xyz":
        high = max(-low, high)
        low = -high
    return low, high if high > low else low + 1


def painted(values, sides, low, high, width):
    """The rows of the picture, cells as squares, with the scale below."""
    nx, ny = sides
    size = max(1, round(width / nx))
    rows = []
    for y in range(ny):
        row = []
        for value in values[y * nx : (y + 1) * nx]:
            shade = GREY if value is None else round((value - low) / (high - low) * (SHADES - 1))
            row += [shade] * size
        rows += [row] * size
    width = nx * size
    bar = [round(x / max(1, width - 1) * (SHADES - 1)) for x in range(width)]
    letters = max(1, min(3, width // 120))
    blank = [[WHITE] * width for _ in range(7 * letters)]
    write_number(blank, low, letters, letters, letters)
    write_number(blank, high, width, letters, letters, ends=True)
    return rows + [[WHITE] * width] * 8 + [bar] * 12 + blank


def main():
    reader = argparse.ArgumentParser(description=__doc__, formatter_class=argparse.RawDescriptionHelpFormatter)
    reader.add_argument("case")
    reader.add_argument("file")
    reader.add_argument("picture")
    reader.add_argument("--voxels", action="store_true")
    reader.add_argument("--of", default="speed", choices=["speed", "x", "y", "z", "density", "tracer"])
    reader.add_argument("--layer", type=int)
    reader.add_argument("--width", type=int, default=800)
    words = reader.parse_args()
    case, fields = flow.Case.read(words.case), flow.Fields(words.file)
    nx, ny, nz = fields.sides
    layer = nz // 2 if words.layer is None else words.layer
    values = values_of(case, fields, words.of, words.voxels)[layer * nx * ny : (layer + 1) * nx * ny]
    low, high = scale_of(values, words.of)
    colours = SIGNED if words.of in "xyz" else SIZES
    write_png(words.picture, painted(values, (nx, ny), low, high, words.width), colours)
    units = {"density": "units of density", "tracer": "units"}.get(words.of, "cells a step")
    print(f"{words.of} at step {fields.step}, {low:.4g} to {high:.4g} {units}")


main()
