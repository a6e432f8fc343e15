"""Cases and files of lbm for the scripts beside this one: what a case file says, what a file of a run holds, velocities.

It wants Python alone, 3.11 or later (case files are read by its module tomllib). docs/CASES.md and docs/FORMATS.md say what
the files are; docs/UNITS.md has the formulas.
"""
import hashlib
import struct
import sys

try:
    import tomllib
except ImportError:
    sys.exit("this script wants Python 3.11 or later, which reads TOML")

UNIT = 884736  # the unit of density

# the velocity sets: the denominator of the weights, and the weight of a direction by how many axes it leads along
WEIGHTS = {
    "D2Q9": (36, {0: 16, 1: 4, 2: 1}),
    "D3Q15": (72, {0: 16, 1: 8, 3: 1}),
    "D3Q19": (36, {0: 12, 1: 2, 2: 1}),
    "D3Q27": (216, {0: 64, 1: 16, 2: 4, 3: 1}),
}


def both_ways(*firsts):
    """Rest, and then each of these directions and its reverse."""
    return [(0, 0, 0)] + [tuple(sign * part for part in c) for c in firsts for sign in (1, -1)]


# the directions of each set, in the order of a checkpoint
AXES = ((1, 0, 0), (0, 1, 0), (0, 0, 1))
CORNERS = ((1, 1, 1), (1, 1, -1), (1, -1, 1), (-1, 1, 1))
DIRECTIONS = {
    "D2Q9": [(0, 0, 0), (1, 0, 0), (0, 1, 0), (-1, 0, 0), (0, -1, 0), (1, 1, 0), (-1, 1, 0), (-1, -1, 0), (1, -1, 0)],
    "D3Q15": both_ways(*AXES, *CORNERS),
    "D3Q19": both_ways(*AXES, (1, 1, 0), (1, -1, 0), (1, 0, 1), (1, 0, -1), (0, 1, 1), (0, 1, -1)),
    "D3Q27": both_ways(*AXES, (1, 1, 0), (1, 0, 1), (0, 1, 1), (1, -1, 0), (1, 0, -1), (0, 1, -1), *CORNERS),
}


def weights(name):
    """The denominator of a velocity set, and the weight of each of its directions over it."""
    denominator, by_length = WEIGHTS[name]
    return denominator, [by_length[sum(map(abs, c))] for c in DIRECTIONS[name]]


class Case:
    """What a case file says."""

    def __init__(self, text):
        self.text = text
        keys = tomllib.loads(text.decode() if isinstance(text, bytes) else text)
        self.set = keys["set"]
        self.denominator = WEIGHTS[self.set][0]
        self.p, self.q = keys["omega"]
        self.m = keys.get("omega_minus", self.p)
        self.force = keys.get("force", [0, 0, 0])
        self.wall = keys.get("wall", [0, 0, 0])
        self.density = keys.get("density", UNIT)
        self.digit = keys.get("digit", 0)
        self.momentum = keys.get("momentum", [0, 0, 0])
        self.cells = "".join(keys["map"])
        layers = keys.get("layers", 1)
        self.sides = (len(keys["map"][0]), len(keys["map"]) // layers, layers)

    @classmethod
    def read(cls, name):
        with open(name, "rb") as file:
            return cls(file.read())

    @property
    def viscosity(self):
        """The kinematic viscosity, in cells squared a step."""
        return (self.q / self.p - 0.5) / 3

    @property
    def acceleration(self):
        """What the force adds to the velocity of fluid of one unit of density in a step."""
        return [self.denominator / 3 * part / UNIT for part in self.force]

    @property
    def wall_velocity(self):
        """The velocity of moving walls, in cells a step, at one unit of density."""
        return [self.denominator / 6 * part / UNIT for part in self.wall]

    def is_solid(self, cell):
        return self.cells[cell] in "#="

    def first_density(self, cell):
        """The first density of a cell, which is 0 where it is solid."""
        mark = self.cells[cell]
        return 0 if mark in "#=" else self.density + (0 if mark == "." else int(mark) * self.digit)

    def velocity(self, density, momentum):
        """The velocity of a fluid cell, in cells a step: its momentum with half of what the force adds, over its density."""
        half = self.denominator // 6
        return [(j + half * g) / density for j, g in zip(momentum, self.force)]


class Fields:
    """What a file of a run holds: sides, and the density and momentum of each cell in order (x fastest, then y, then z)."""

    def __init__(self, name):
        with open(name, "rb") as file:
            data = file.read()
        head, _, rest = data.partition(b"LOOKUP_TABLE default\n")
        lines = head.decode().splitlines()
        if len(lines) != 9 or not rest:
            sys.exit(f"{name} is no file of lbm")
        self.step = int(lines[1].split()[-1])
        self.sides = tuple(map(int, lines[4].split()[1:]))
        cells = int(lines[7].split()[1])
        if lines[2] == "BINARY":
            numbers = list(struct.unpack(f">{cells}i", rest[: 4 * cells]))
            start = 4 * cells + len(b"\nVECTORS momentum int\n")
            parts = struct.unpack(f">{3 * cells}i", rest[start : start + 12 * cells])
        else:
            first, _, second = rest.partition(b"VECTORS momentum int\n")
            numbers, parts = list(map(int, first.split())), tuple(map(int, second.split()))
        self.density = numbers
        self.momentum = [parts[k : k + 3] for k in range(0, 3 * cells, 3)]

    def cell(self, x, y, z=0):
        return x + self.sides[0] * (y + self.sides[1] * z)


def velocities(case, fields, voxels=False):
    """The velocity of each cell in order, and None where it is solid. Of a run over a voxel file the case has another map."""
    if case.sides != fields.sides and not voxels:
        sys.exit(f"the case has the sides {case.sides}, and the file of the run {fields.sides}; --voxels is for runs over a voxel file")
    return [None if rho == 0 else case.velocity(rho, j) for rho, j in zip(fields.density, fields.momentum)]


def equilibrium(case, density, momentum):
    """The populations of a fluid cell at equilibrium, rounded down, and at rest what is left of the density."""
    denominator, shares = weights(case.set)
    squares = sum(part * part for part in momentum)
    moving = []
    for c, weight in list(zip(DIRECTIONS[case.set], shares))[1:]:
        along = sum(a * b for a, b in zip(c, momentum))
        numerator = 2 * density * density + 6 * density * along + 9 * along * along - 3 * squares
        moving.append(weight * numerator // (2 * denominator * density))
    return [density - sum(moving)] + moving


def first_populations(case, state):
    """The populations of all cells in the order of a checkpoint, where state(x, y, z) gives the density and the momentum (three whole
    numbers) of a fluid cell. A solid cell gets what its fluid neighbours would just have sent into it."""
    nx, ny, nz = case.sides
    places = [(x, y, z) for z in range(nz) for y in range(ny) for x in range(nx)]
    fluid = {place: equilibrium(case, *state(*place)) for place, mark in zip(places, case.cells) if mark not in "#="}
    populations = []
    for place in places:
        if place in fluid:
            populations += fluid[place]
            continue
        for i, c in enumerate(DIRECTIONS[case.set]):
            behind = tuple((at - part) % side for at, part, side in zip(place, c, case.sides))
            populations.append(fluid[behind][i] if behind in fluid else 0)
    return populations


def write_checkpoint(name, case, step, populations):
    """Writes a checkpoint of a case that was read from a file: `populations` are those of all cells, cell by cell."""
    head = b"LBMCKPT2" + hashlib.sha256(case.text).digest() + struct.pack(">Q3II", step, *case.sides, len(DIRECTIONS[case.set]))
    body = head + struct.pack(f">{len(populations)}i", *populations)
    with open(name, "wb") as file:
        file.write(body + hashlib.sha256(body).digest())
