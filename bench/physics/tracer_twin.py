"""A flow with its tracer in numpy, written from the formulas of docs/TRACER.md alone, in whole numbers as the program has them."""
import numpy
from twin import Twin

GREATEST = 16777216  # the greatest amount of a fluid cell in limits


class TracerTwin(Twin):
    """The state of a case and of a tracer in it, which begins in one cell. `rate` is a fraction."""

    def __init__(self, case, amount, cell, rate):
        super().__init__(case, whole=True)
        # The first directions of each velocity set are rest and the neighbours along an axis, which are those of the tracer.
        self.moves, self.tracer_denominator, self.inverse_sound_squared = (5, 6, 3) if case.set == "D2Q9" else (7, 8, 4)
        self.shares = numpy.array([2] + [1] * (self.moves - 1))[:, None]
        self.rate, self.time = rate, 0
        at = self.order.tolist().index(cell)
        self.g = numpy.zeros((self.moves, len(case.cells)), dtype=numpy.int64)
        self.g[:, at] = self.shares[:, 0] * amount // self.tracer_denominator
        self.g[0, at] = amount - self.g[1:, at].sum()

    def least_out_of_limits(self):
        """The least fluid cell whose tracer is out of limits, or None."""
        g = self.g[:, : self.fluid]
        out = self.order[: self.fluid][(g < 0).any(axis=0) | (g.sum(axis=0) > GREATEST)]
        return int(out.min()) if len(out) else None

    def step(self):
        n, f, g = self.fluid, self.f[:, : self.fluid], self.g[:, : self.fluid]
        rho, total, scale = f.sum(axis=0), g.sum(axis=0), self.tracer_denominator * f.sum(axis=0)
        along = self.c[: self.moves] @ (self.c.T @ f)
        below = self.shares * total * (rho + self.inverse_sound_squared * along) - scale * g
        post = numpy.empty_like(self.g)
        post[:, :n] = self.with_rest(total, g + self.rate.numerator * below // (scale * self.rate.denominator))
        post[:, n:] = self.g[:, n:][self.opposite[: self.moves]]
        self.g = post.ravel()[self.gather[: self.moves]]
        super().step()
        self.time += 1

    def line(self, steps):
        """Runs up to a step, and gives the line that the program has to tell. The flow has to stay in its limits."""
        while self.least_out_of_limits() is None and self.time < steps:
            self.step()
        if self.least_out_of_limits() is not None:
            return f"range: tracer step {self.time} cell {self.least_out_of_limits()}"
        return f"step {self.time} mass {self.f.sum()} tracer {self.g.sum()}"

    def amounts(self):
        """The amount of each cell in order; 0 where it is solid."""
        amounts = numpy.zeros(len(self.case.cells), dtype=numpy.int64)
        amounts[self.order[: self.fluid]] = self.g[:, : self.fluid].sum(axis=0)
        return amounts.tolist()
