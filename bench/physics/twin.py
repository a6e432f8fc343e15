"""The rule of lbm in numpy, written from its formulas alone: collision with one or two rates and a force, full-way bounce-back
at walls at rest and moving ones, a periodic box. In double precision it is the twin of the program without its rounding; in whole
numbers it rounds as the program does, and so shows that the twin has the program's rule.
"""
import sys
from pathlib import Path

import numpy

sys.path.insert(0, str(Path(__file__).resolve().parents[2] / "examples"))
import flow


class Twin:
    """The state of a case. `whole` rounds as the program does; else all is computed in double precision.

    Cells are kept with the fluid ones first: `order` has their numbers, and `fluid` is how many they are.
    """

    def __init__(self, case, whole=False):
        self.case, self.whole = case, whole
        self.kind = numpy.int64 if whole else float
        self.c = numpy.array(flow.DIRECTIONS[case.set])
        self.denominator, weights = flow.weights(case.set)
        self.weights = numpy.array(weights, dtype=self.kind)[:, None]
        self.opposite = numpy.array([flow.DIRECTIONS[case.set].index(tuple(-c)) for c in self.c])
        solid = numpy.array([case.is_solid(cell) for cell in range(len(case.cells))])
        self.order = numpy.argsort(solid, kind="stable")
        self.fluid = int((~solid).sum())
        self.place()
        self.push = self.weights * (self.c @ numpy.array(case.force))[:, None]
        self.f = self.first()

    def place(self):
        """Where each population of each kept cell comes from, and what moving walls add."""
        case, count = self.case, len(self.case.cells)
        sides = case.sides[::-1]
        at = numpy.unravel_index(self.order, sides)
        rank = numpy.empty(count, dtype=int)
        rank[self.order] = numpy.arange(count)
        behind = [numpy.ravel_multi_index([(at[2 - a] - c[a]) % case.sides[a] for a in (2, 1, 0)], sides) for c in self.c]
        source = rank[numpy.array(behind)]
        self.gather = source + count * numpy.arange(len(self.c))[:, None]
        moving = numpy.array([mark == "=" for mark in case.cells])[self.order[self.fluid :]]
        ahead_is_fluid = source[self.opposite][:, self.fluid :] < self.fluid
        along = self.weights * (self.c @ numpy.array(case.wall))[:, None]
        self.gain = numpy.where(moving & ahead_is_fluid, along, 0).astype(self.kind)

    def divide(self, a, b):
        return a // b if self.whole else a / b

    def equilibrium_numerator(self, rho, j):
        along = self.c @ j
        return 2 * rho * rho + 6 * rho * along + 9 * along * along - 3 * (j * j).sum(axis=0)

    @staticmethod
    def with_rest(rho, f):
        f[0] = rho - f[1:].sum(axis=0)
        return f

    def first(self, momentum=None):
        """The first state: the equilibrium at the case's densities, and at its momentum or that of each cell, if given."""
        cells = len(self.case.cells)
        rho = numpy.array([self.case.first_density(cell) for cell in self.order[: self.fluid]], dtype=self.kind)
        if momentum is None:
            j = numpy.array(self.case.momentum, dtype=self.kind)[:, None] * numpy.ones_like(rho)
        else:
            j = numpy.array(momentum, dtype=self.kind)[:, self.order[: self.fluid]]
        f = numpy.zeros((len(self.c), cells), dtype=self.kind)
        equilibrium = self.divide(self.weights * self.equilibrium_numerator(rho, j), 2 * self.denominator * rho)
        f[:, : self.fluid] = self.with_rest(rho, equilibrium)
        f[:, self.fluid :] = f.ravel()[self.gather][:, self.fluid :]
        return f

    def step(self):
        case, n = self.case, self.fluid
        f, post = self.f[:, :n], numpy.empty_like(self.f)
        rho, j = f.sum(axis=0), self.c.T @ f
        departure = self.weights * self.equilibrium_numerator(rho, j) - 2 * self.denominator * rho * f
        reverse = departure if case.p == case.m else departure[self.opposite]
        relaxed = case.p * (departure + reverse) + case.m * (departure - reverse)
        post[:, :n] = self.with_rest(rho, f + self.divide(relaxed, 4 * self.denominator * case.q * rho) + self.push)
        post[:, n:] = self.f[:, n:][self.opposite] + self.gain
        self.f = post.ravel()[self.gather]

    def run(self, steps):
        for _ in range(steps):
            self.step()
        return self

    def moments(self):
        """Density and momentum of all cells in order; 0 where a cell is solid."""
        f = numpy.zeros_like(self.f)
        f[:, self.order[: self.fluid]] = self.f[:, : self.fluid]
        return f.sum(axis=0), self.c.T @ f

    def populations(self):
        """All populations in the order of a checkpoint."""
        f = numpy.empty_like(self.f)
        f[:, self.order] = self.f
        return f.T.ravel()

    def velocity(self):
        return velocity(self.case, *self.moments())


def velocity(case, rho, j):
    """The velocity of all cells, three rows, of their densities and momenta; 0 where a cell is solid."""
    half = case.denominator // 6 * numpy.array(case.force)[:, None]
    return numpy.where(rho > 0, (j + half) / numpy.maximum(rho, 1), 0)
