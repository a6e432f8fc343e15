#!/usr/bin/env python3
"""Makes a case file from a picture: dark points become walls, light ones fluid. It wants Python alone.

    map_from_picture.py PICTURE.png [--level 128] [--walls] < SETTINGS > CASE

SETTINGS are the lines of a case file but for its map. PICTURE is a PNG, not interlaced. A point is a cell, and the first row of points
is the first row of the map. A point darker than --level (0 to 255) is a wall; what is transparent is not looked at. --walls puts a row
of walls before the first row and one behind the last.
"""
import argparse
import struct
import sys
import zlib

SAMPLES = {0: 1, 2: 3, 3: 1, 4: 2, 6: 4}  # samples of a point by the kind of colour: grey, red-green-blue, palette, and two with alpha


def chunks(data):
    """The parts of a PNG, those of a kind joined."""
    if data[:8] != b"\x89PNG\r\n\x1a\n":
        sys.exit("this is no PNG")
    found, at = {}, 8
    while at < len(data):
        size, kind = struct.unpack(">I4s", data[at : at + 8])
        found[kind] = found.get(kind, b"") + data[at + 8 : at + 8 + size]
        at += size + 12
    return found


def predicted(kind, left, above, corner):
    """What a filter of PNG adds to a byte."""
    if kind == 4:
        guess = left + above - corner
        return min((left, above, corner), key=lambda near: abs(guess - near))
    return (0, left, above, (left + above) // 2)[kind]


def unfiltered(data, width, height, step):
    """The lines of bytes of a picture, of so many bytes each; `step` bytes are between neighbours."""
    above = bytes(width)
    for y in range(height):
        start = y * (width + 1)
        line = bytearray(data[start + 1 : start + 1 + width])
        for x in range(width):
            left, corner = (line[x - step], above[x - step]) if x >= step else (0, 0)
            line[x] = (line[x] + predicted(data[start], left, above[x], corner)) & 255
        yield line
        above = line


def levels(data):
    """The rows of a PNG, each point from 0, black, to 255."""
    parts = chunks(data)
    width, height, depth, kind, _, _, interlaced = struct.unpack(">IIBBBBB", parts[b"IHDR"])
    if interlaced:
        sys.exit("this PNG is interlaced: save it without")
    count, palette = SAMPLES[kind], parts.get(b"PLTE", b"")
    grey = [sum(palette[3 * k : 3 * k + 3]) // 3 for k in range(len(palette) // 3)]
    bits, top = count * depth, 2**depth - 1
    for line in unfiltered(zlib.decompress(parts[b"IDAT"]), (width * bits + 7) // 8, height, max(1, bits // 8)):
        number = int.from_bytes(line, "big")
        samples = [number >> (8 * len(line) - depth * (k + 1)) & top for k in range(width * count)]
        colours = 3 if kind in (2, 6) else 1
        points = [samples[k : k + colours] for k in range(0, width * count, count)]
        yield [grey[point[0]] if kind == 3 else sum(point) * 255 // (colours * top) for point in points]


def main():
    reader = argparse.ArgumentParser(description=__doc__, formatter_class=argparse.RawDescriptionHelpFormatter)
    reader.add_argument("picture")
    reader.add_argument("--level", type=int, default=128)
    reader.add_argument("--walls", action="store_true")
    words = reader.parse_args()
    with open(words.picture, "rb") as file:
        rows = ["".join("#" if point < words.level else "." for point in row) for row in levels(file.read())]
    if words.walls:
        wall = "#" * len(rows[0])
        rows = [wall] + rows + [wall]
    print(sys.stdin.read().rstrip("\n"))
    print("map = [")
    for row in rows:
        print(f'    "{row}",')
    print("]")


main()
