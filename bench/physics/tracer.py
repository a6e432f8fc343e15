#!/usr/bin/env python3
"""Checks how a tracer spreads, drifts and leaves its limits in runs of lbm, beside what docs/TRACER.md says. It wants Python alone.

    bench/physics/tracer.py PROGRAM [spreading|limits|twin]

PROGRAM is the built program, crates/lbm/out/lbm. All three are made where none is named. The status is 1 where something is not as expected.

`spreading`: a tracer begins in one cell of a periodic box, in which the flow is at rest or moves as a whole. Between two times its mean
place has to move with the velocity u of the flow, and half of the growth a step of its variance along an axis has to be
(q/p - 1/2) (1/e - u^2) with the rate p/q and with e = 3 in the plane and 4 in space. Both have to be right within two parts in a
thousand, or within 1/50000 where that is more, since what is sent is rounded down; beside each figure stands what is expected.

`limits`: at the greatest rate in whole numbers up to H/(H - 1 + e u), with H = 6 in the plane and 8 in space, a run has to stay in its
limits over 50 steps, and at the least rate above to leave them at step 2; and the same for flows of a speed next to 1/e at rate 1,
where it is step 1.

`twin`: lines and amounts of runs of case files have to be those of a second program (tracer_twin.py), which wants numpy (Debian:
python3-numpy) and is skipped where that is missing.
"""
import importlib.util
import subprocess
import sys
import tempfile
from fractions import Fraction
from pathlib import Path

sys.path.insert(0, str(Path(__file__).resolve().parents[2] / "examples"))
import flow

AMOUNT = 1 << 24
TOP = 1024  # the greatest p and q of a rate


class Box:
    """A periodic box of fluid, its first momentum, and the tracer's constants in it."""

    def __init__(self, set_name, sides, momentum):
        nx, ny, nz = self.sides = sides
        self.set, self.momentum = set_name, momentum
        self.inverse_sound_squared, self.denominator = (3, 6) if set_name == "D2Q9" else (4, 8)
        self.middle = tuple(side // 2 for side in sides)
        self.cell = (self.middle[2] * ny + self.middle[1]) * nx + self.middle[0]
        layers = [] if set_name == "D2Q9" else [f"layers = {nz}"]
        lines = [f'set = "{set_name}"', "omega = [1, 1]", f"momentum = {list(momentum)}", *layers, "map = ["]
        self.text = "\n".join(lines + ['"' + nx * "." + '",'] * (ny * nz) + ["]", ""])


def run(program, box, steps, rate):
    """The line of a run, the amounts of all cells, and the velocity j / rho of the flow, as a fraction along each axis; or the line alone."""
    with tempfile.TemporaryDirectory() as folder:
        case, out, trace = (str(Path(folder, name)) for name in ("case.toml", "out.vtk", "trace.vtk"))
        Path(case).write_text(box.text)
        words = [program, "tracer", case, str(steps), out, trace, str(AMOUNT), str(box.cell), "--rate", f"{rate.numerator},{rate.denominator}"]
        line = subprocess.run(words, capture_output=True, text=True, check=False).stdout.strip()
        if not line.startswith("step"):
            return line, None, None
        fields = flow.Fields(out)
        velocity = [Fraction(part, fields.density[box.cell]) for part in fields.momentum[box.cell]]
        return line, flow.Fields(trace).density, velocity


def spread(box, amounts, centre):
    """The mean place and the variance along each axis, with places counted from the cell of the start, and taken next to a centre."""
    nx, ny, _ = box.sides
    total, means, variances = sum(amounts), [], []
    for axis, side in enumerate(box.sides):
        share = [0] * side
        for cell, amount in enumerate(amounts):
            share[(cell % nx, cell // nx % ny, cell // (nx * ny))[axis]] += amount
        near = [round(centre[axis]) + (k - box.middle[axis] - round(centre[axis]) + side // 2) % side - side // 2 for k in range(side)]
        mean = sum(x * amount for x, amount in zip(near, share)) / total
        means.append(mean)
        variances.append(sum((x - mean) ** 2 * amount for x, amount in zip(near, share)) / total)
    return means, variances


def told(values):
    return " ".join(f"{value:9.6f}" for value in values)


def spreading(program):
    """Whether all tracers drift and spread as expected."""
    plane, space = ("D2Q9", (81, 81, 1), 30, 90), ("D3Q19", (41, 41, 41), 10, 30)
    right = True
    for (set_name, sides, early, late), momentum, rate in [
        (plane, (0, 0, 0), Fraction(1)),
        (plane, (0, 0, 0), Fraction(6, 5)),
        (plane, (0, 0, 0), Fraction(4, 5)),
        (plane, (88474, 0, 0), Fraction(1)),
        (plane, (88474, -44237, 0), Fraction(10, 9)),
        (space, (0, 0, 0), Fraction(1)),
        (space, (88474, 0, -44237), Fraction(1)),
        (space, (0, 44237, 0), Fraction(11, 10)),
    ]:
        box = Box(set_name, sides, momentum)
        axes = 2 if set_name == "D2Q9" else 3
        found = []
        for steps in (early, late):
            line, amounts, velocity = run(program, box, steps, rate)
            if amounts is None or sum(amounts) != AMOUNT or not line.endswith(f" tracer {AMOUNT}"):
                sys.exit(f"{set_name} rate {rate} momentum {momentum}: {line}")
            found.append(spread(box, amounts, [float(part) * steps for part in velocity]))
        velocity = [float(part) for part in velocity[:axes]]
        drift, growth = ([(b - a) / (late - early) for a, b in zip(found[0][k], found[1][k])][:axes] for k in (0, 1))
        wanted = [float(1 / rate - Fraction(1, 2)) * (1 / box.inverse_sound_squared - u * u) for u in velocity]
        print(f"{set_name}, rate {rate}, between steps {early} and {late}")
        print(f"    drift        {told(drift)}    expected {told(velocity)}")
        print(f"    diffusivity  {told(part / 2 for part in growth)}    expected {told(wanted)}")
        pairs = list(zip(drift, velocity)) + [(part / 2, want) for part, want in zip(growth, wanted)]
        right &= all(abs(got - want) <= 0.002 * max(abs(want), 0.01) for got, want in pairs)
    return right


def rates_beside(limit):
    """The greatest rate up to a limit, and the least above it."""
    below = max(Fraction(min(TOP, limit.numerator * q // limit.denominator), q) for q in range(1, TOP + 1))
    above = min(Fraction(p, q) for q in range(1, TOP + 1) if (p := limit.numerator * q // limit.denominator + 1) <= TOP)
    return below, above


def limits(program):
    """Whether runs at the edge stay in their limits and leave them as expected."""
    right = True
    for set_name, sides in (("D2Q9", (9, 9, 1)), ("D3Q19", (9, 9, 9))):
        for momentum in (0, 44237, 88474, 176947):
            box = Box(set_name, sides, (momentum, 0, 0))
            e, h = box.inverse_sound_squared, box.denominator
            velocity = run(program, box, 1, Fraction(1))[2][0]
            limit = h / (h - 1 + e * velocity)
            below, above = rates_beside(limit)
            stays, leaves = (run(program, box, steps, rate)[0] for steps, rate in ((50, below), (50, above)))
            print(f"{set_name}, speed {float(velocity):.6f}, limit {float(limit):.6f}\n    rate {below}: {stays}\n    rate {above}: {leaves}")
            right &= stays.startswith("step 50 ") and leaves.startswith("range: tracer step 2 ")
        top = flow.UNIT // box.inverse_sound_squared
        for momentum in (top - 64, top + 64):
            box = Box(set_name, sides, (momentum, 0, 0))
            line = run(program, box, 50, Fraction(1))[0]
            print(f"{set_name}, speed {momentum / flow.UNIT:.6f}, rate 1: {line}")
            right &= line.startswith("step 50 " if momentum < top else "range: tracer step 1 ")
    return right


def twin(program):
    """Whether the program tells and writes what the second program does."""
    if importlib.util.find_spec("numpy") is None:
        print("twin: skipped: numpy is missing (Debian: python3-numpy)")
        return True
    from tracer_twin import TracerTwin

    right, top = True, Path(__file__).resolve().parents[2]
    for name, cell, steps, rate in [
        ("crates/lbm_table/data/channel.toml", 292, 100, Fraction(1)),
        ("crates/lbm_table/data/cavity.toml", 100, 100, Fraction(6, 5)),
        ("crates/lbm_table/data/porous.toml", 0, 50, Fraction(1, 3)),
        ("crates/lbm_table/data/pipe.toml", 200, 50, Fraction(8, 7)),
        ("examples/tracer.toml", 3740, 60, Fraction(12, 11)),
        ("examples/tracer.toml", 3740, 60, Fraction(3, 2)),
    ]:
        case = flow.Case.read(top / name)
        cell = next(fluid for fluid in range(cell, len(case.cells)) if not case.is_solid(fluid))
        second = TracerTwin(case, AMOUNT, cell, rate)
        with tempfile.TemporaryDirectory() as folder:
            trace = Path(folder, "trace.vtk")
            words = [program, "tracer", top / name, str(steps), Path(folder, "out.vtk"), trace, str(AMOUNT), str(cell)]
            words += ["--rate", f"{rate.numerator},{rate.denominator}"]
            line = subprocess.run(words, capture_output=True, text=True, check=False).stdout.strip()
            amounts = flow.Fields(trace).density if trace.exists() else None
        same = line == second.line(steps) and amounts == (second.amounts() if line.startswith("step") else None)
        print(f"{name}, rate {rate}, from cell {cell}: {line}: {'the same' if same else 'another answer than ' + second.line(steps)}")
        right &= same
    return right


def main(words):
    parts = {"spreading": spreading, "limits": limits, "twin": twin}
    if len(words) not in (2, 3) or not set(words[2:]) <= set(parts):
        sys.exit(__doc__)
    program = str(Path(words[1]).resolve())
    right = [part(program) for name, part in parts.items() if not words[2:] or name in words[2:]]
    print("as expected" if all(right) else "not as expected")
    sys.exit(not all(right))


main(sys.argv)
