"""The cases that are measured, as texts of case files, and runs of them by the program."""
import math
import subprocess
import tempfile
from pathlib import Path

import numpy
from twin import Twin, flow, velocity

CASES = Path(__file__).resolve().parents[2] / "crates/lbm_table/data"


def text(rows, rates, force=0, wall=0, set_name="D2Q9"):
    """A case file: rates are p, m and q."""
    p, m, q = rates
    lines = [f'set = "{set_name}"', f"omega = [{p}, {q}]"]
    lines += [f"omega_minus = {m}"] if m != p else []
    lines += [f"force = [{force}, 0, 0]"] if force else []
    lines += [f"wall = [{wall}, 0, 0]"] if wall else []
    return "\n".join(lines + ["map = ["] + [f'    "{row}",' for row in rows] + ["]", ""])


def case_of(*words, **settings):
    return flow.Case(text(*words, **settings).encode())


def channel(height, rates, force):
    """A channel between walls at rest, a column of one cell, since nothing changes along x."""
    return case_of(["#"] + ["."] * height + ["#"], rates, force=force)


def plates(height, rates, wall):
    return case_of(["="] + ["."] * height + ["#"], rates, wall=wall)


def box(height, rates):
    return case_of(["."] * height, rates)


def cavity(side, rates, wall=1024):
    """A square cavity, whose first row of walls slides along x."""
    lid, floor = "#" + "=" * side + "#", "#" * (side + 2)
    return case_of([lid] + ["#" + "." * side + "#"] * side + [floor], rates, wall=wall)


def cylinders(side, fraction, rates, force):
    """A periodic square array: one cylinder in the middle, of the cells whose middles lie in a circle of this share of the square."""
    square = side * side * fraction / math.pi
    off = [place + 0.5 - side / 2 for place in range(side)]
    return case_of(["".join("#" if x * x + y * y < square else "." for x in off) for y in off], rates, force=force)


def slit_time(height, case):
    """The steps in which a flow between walls that are so far apart comes within a part in ten million of its end."""
    return math.ceil(16 * height**2 / (math.pi**2 * case.viscosity))


class Program:
    """The program lbm at a path, run in a folder of its own."""

    def __init__(self, path):
        self.path = str(Path(path).resolve())
        self.updates = 0

    def run(self, case, steps, populations=None):
        """Density and momentum of all cells after so many steps, from the first state or from given populations."""
        with tempfile.TemporaryDirectory() as folder:
            names = {name: str(Path(folder, name)) for name in ("case.toml", "out.vtk", "first.ckpt")}
            Path(names["case.toml"]).write_bytes(case.text)
            words = [self.path, "run", names["case.toml"], str(steps), names["out.vtk"], "--format", "binary"]
            if populations is not None:
                flow.write_checkpoint(names["first.ckpt"], case, 0, populations)
                words += ["--resume", names["first.ckpt"]]
            answer = subprocess.run(words, capture_output=True, text=True, check=False)
            if answer.returncode:
                raise SystemExit(f"{' '.join(words)}: {answer.stdout}{answer.stderr} status {answer.returncode}")
            fields = flow.Fields(names["out.vtk"])
        self.updates += steps * len(case.cells)
        return numpy.array(fields.density), numpy.array(fields.momentum).T

    def velocity(self, case, steps):
        return velocity(case, *self.run(case, steps))


def exact_moments(case, steps):
    """What the program ought to write, by the twin in whole numbers."""
    return Twin(case, whole=True).run(steps).moments()
