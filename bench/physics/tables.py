"""The tables of docs/ACCURACY.md, each made by a function that is given the program."""
import math

import ghia
import numpy
from cases import CASES, Program, box, cavity, channel, cylinders, exact_moments, flow, plates, slit_time
from twin import Twin

__all__ = ["TABLES", "Program"]

MAGIC = (39, 16, 26)  # rates p, m, q at which walls stand halfway; viscosity 1/18
MAGIC_THICK = (5, 16, 10)  # the same at viscosity 1/2
MAGIC_THICKEST = (13, 120, 65)  # the same at viscosity 3/2
SINGLE = (5, 5, 4)  # one rate; viscosity 1/10
UNITY = (1, 1, 1)  # one rate; viscosity 1/6
SLOW = (1, 1, 2)  # one rate below 1; viscosity 1/2


def markdown(head, rows):
    lines = [head, ["---"] * len(head)] + rows
    return "".join("| " + " | ".join(map(str, line)) + " |\n" for line in lines)


def percent(share, digits=2):
    text = f"{100 * share:+.{digits}f} %"
    return text if float(text[:-2]) else text[1:]


def told(rates):
    p, m, q = rates
    return f"{p}/{q}" if p == m else f"{p}/{q}, {m}/{q}"


def walls_apart(rates):
    """The product (q/p - 1/2)(q/m - 1/2), which says where walls stand: halfway at 3/16."""
    p, m, q = rates
    return (q / p - 0.5) * (q / m - 0.5)


def examples_table(program):
    """How many numbers of the case files differ between the program and the twin that rounds."""
    rows, steps = [], 1000
    for path in sorted(CASES.glob("*.toml")):
        case = flow.Case.read(path)
        ours, theirs = program.run(case, steps), exact_moments(case, steps)
        differ = sum(int((a != b).sum()) for a, b in zip(ours, theirs))
        rows.append([path.name, case.set, steps, 4 * len(case.cells), differ])
    return markdown(["Case", "Set", "Steps", "Numbers", "that differ"], rows)


def channel_errors(program, height, rates, force):
    """The error of the flow through a channel, by the program and by the twin, with the steps that were run."""
    case = channel(height, rates, force)
    steps = slit_time(height, case)
    place = numpy.arange(height) + 0.5
    flow_rate = (case.acceleration[0] / (2 * case.viscosity) * place * (height - place)).sum()
    both = program.velocity(case, steps), Twin(case).run(steps).velocity()
    return steps, [u[0].sum() / flow_rate - 1 for u in both]


def channel_table(program):
    rows = []
    for rates, height, force in (
        [(MAGIC, 8, g) for g in (1, 4, 10, 40)] + [(MAGIC, 16, g) for g in (1, 4, 10)] + [(MAGIC, 32, g) for g in (1, 4)]
        + [(SINGLE, 32, g) for g in (1, 4, 10)] + [(UNITY, 8, g) for g in (1, 4, 10, 40)]
    ):
        steps, (ours, twins) = channel_errors(program, height, rates, force)
        rows.append([told(rates), height, force, steps, percent(ours), percent(twins), percent(ours - twins), f"{1 / (12 * force):.4f}"])
    return markdown(["Rates", "Rows", "Force", "Steps", "Error", "Without rounding", "Rounding", "B"], rows)


def slip_table(program):
    rows = []
    for rates, height, force in (
        [(SLOW, h, 40) for h in (8, 16, 32)] + [(MAGIC_THICK, h, 40) for h in (8, 16, 32)]
        + [(UNITY, 8, 40), (SINGLE, 8, 40), (MAGIC, 8, 40), (SINGLE, 16, 10), (SINGLE, 32, 10)]
    ):
        steps, (ours, twins) = channel_errors(program, height, rates, force)
        product = walls_apart(rates)
        formula = (16 * product - 3) / (2 * height**2 + 1)
        rows.append([told(rates), f"{product:.4f}", height, steps, percent(ours), percent(twins), percent(formula)])
    return markdown(["Rates", "Product", "Rows", "Steps", "Error", "Without rounding", "By the formula"], rows)


def plates_table(program):
    rows = []
    for rates, height, wall in (
        [(UNITY, 32, u) for u in (64, 128, 256, 512, 1024)] + [(SINGLE, 32, u) for u in (128, 512, 1024)]
        + [(MAGIC, 32, 1024), (MAGIC, 8, 1024), (SINGLE, 8, 1024), (SINGLE, 8, 256)]
    ):
        case = plates(height, rates, wall)
        steps, speed = slit_time(height, case), case.wall_velocity[0]
        exact = speed * (1 - (numpy.arange(height) + 0.5) / height)
        ours, twins = (u[0][1:-1] for u in (program.velocity(case, steps), Twin(case).run(steps).velocity()))
        share = height**2 / (48 * case.viscosity * wall)
        worst = abs(ours - exact).max() / speed
        rows.append([told(rates), height, wall, steps, percent(ours.sum() / exact.sum() - 1), percent(twins.sum() / exact.sum() - 1),
                     f"{100 * worst:.2f} %", f"{share:.3f}"])
    return markdown(["Rates", "Rows", "Wall", "Steps", "Error", "Without rounding", "Worst row", "B"], rows)


def decay(case, before, after, steps):
    """The viscosity that the decay of a wave shows, over that of the case."""
    height = case.sides[1]
    wave = 2 * math.pi / height
    shape = numpy.sin(wave * numpy.arange(height))
    return -math.log((after[0] * shape).sum() / (before[0] * shape).sum()) / (wave**2 * steps * case.viscosity)


def wave_table(program):
    rows = []
    for rates, height, top in (
        [(UNITY, 64, a) for a in (500, 1000, 2000, 5000, 20000)] + [(SINGLE, 64, a) for a in (500, 5000, 20000)]
        + [(MAGIC, 64, a) for a in (500, 5000, 20000)]
    ):
        case = box(height, rates)
        square = (2 * math.pi / height) ** 2
        steps = round(1 / (case.viscosity * square))
        momentum = numpy.zeros((3, height))
        momentum[0] = top * numpy.sin(2 * math.pi * numpy.arange(height) / height)
        rounded, twin = Twin(case, whole=True), Twin(case)
        rounded.f, twin.f = rounded.first(numpy.rint(momentum)), twin.first(momentum)
        before = rounded.moments()[1], twin.moments()[1]
        after = program.run(case, steps, rounded.populations())[1], twin.run(steps).moments()[1]
        ours, twins = (decay(case, a, b, steps) for a, b in zip(before, after))
        rows.append([told(rates), height, top, steps, f"{ours:.3f}", f"{twins:.3f}", f"{1 / (case.viscosity * square * top):.3f}"])
    return markdown(["Rates", "Length", "Amplitude", "Steps", "Viscosity", "Without rounding", "B"], rows)


def centre_lines(case, u):
    """The velocity along the lid on the upright line from the floor up, and the upward one from left to right, in shares of the lid's."""
    side, speed = case.sides[0] - 2, case.wall_velocity[0]
    along, down = (part.reshape(side + 2, side + 2)[1:-1, 1:-1] / speed for part in u[:2])
    middle = slice(side // 2 - 1, side // 2 + 1)
    return along[:, middle].mean(axis=1)[::-1], -down[middle].mean(axis=0)


def off_ghia(number, lines):
    """How far two centre lines are from Ghia et al., at most."""
    along, upward = lines
    place = numpy.concatenate([[0], (numpy.arange(len(along)) + 0.5) / len(along), [1]])
    worst = []
    for line, end, at, published in ((along, 1, ghia.HEIGHTS, ghia.ALONG[number]), (upward, 0, ghia.PLACES, ghia.UPWARD[number])):
        found = numpy.interp(at, place, numpy.concatenate([[0], line, [end]]))
        worst.append(max(abs(a - b) for a, b in zip(found, published) if b is not None))
    return worst


def cavity_steps(case, number):
    """The steps in which the lid goes past the cavity 12 times at Reynolds number 100, and more often above; in thousands."""
    return round(0.12 * number * (case.sides[0] - 2) / case.wall_velocity[0], -3)


def cavity_table(program):
    rows = []
    for number, side, rates in ((100, 32, (75, 75, 38)), (100, 64, (150, 150, 77)), (400, 64, (300, 300, 151))):
        case = cavity(side, rates)
        steps = int(cavity_steps(case, number))
        both = [centre_lines(case, u) for u in (program.velocity(case, steps), Twin(case).run(steps).velocity())]
        apart = max(abs(a - b).max() for a, b in zip(*both))
        off = [value for lines in both for value in off_ghia(number, lines)]
        rows.append([number, side, told(rates), steps] + [f"{value:.4f}" for value in off + [apart]])
    head = ["Re", "Side", "Rate", "Steps", "Along", "Upward", "Along, no rounding", "Upward, no rounding", "Rounding moves"]
    return markdown(head, rows)


def with_settings(case, force=None, rates=None):
    """A case with another force along x or other rates p, m and q."""
    lines = []
    for line in case.text.decode().splitlines(keepends=True):
        if force is not None and line.startswith("force"):
            line = f"force = [{force}, 0, 0]\n"
        if rates is not None and line.startswith("omega"):
            line = "" if line.startswith("omega_minus") else f"omega = [{rates[0]}, {rates[2]}]\nomega_minus = {rates[1]}\n"
        lines.append(line)
    return flow.Case("".join(lines).encode())


def permeability(case, u):
    """Darcy's permeability along x, in cells squared: viscosity times the mean velocity of all cells, over the acceleration."""
    return case.viscosity * u[0].mean() / case.acceleration[0]


def bodies_table(program):
    rows = []
    for name, steps in (("cylinder", 10000), ("step", 10000), ("grains", 4000)):
        case = flow.Case.read(CASES / f"{name}.toml")
        ours, twins = program.velocity(case, steps), Twin(case).run(steps).velocity()
        worst = abs(ours - twins).max() / abs(twins).max()
        rows.append([f"{name}.toml", steps, f"{ours[0].mean():.6f}", f"{twins[0].mean():.6f}",
                     percent(ours[0].sum() / twins[0].sum() - 1, 3), f"{100 * worst:.3f} %"])
    return markdown(["Case", "Steps", "Mean velocity", "Without rounding", "Rounding", "Worst cell"], rows)


def porous_table(program):
    rows, steps = [], 1000
    example = flow.Case.read(CASES / "porous.toml")
    for rates, force in [(UNITY, g) for g in (1, 4, 16, 64)] + [(MAGIC, g) for g in (1, 4, 16, 64)] + [(MAGIC_THICK, g) for g in (1, 4, 16, 64)]:
        case = with_settings(example, force, rates)
        ours, twins = (permeability(case, u) for u in (program.velocity(case, steps), Twin(case).run(steps).velocity()))
        bare = case.viscosity * program.run(case, steps)[1][0].mean() / flow.UNIT / case.acceleration[0]
        rows.append([told(rates), f"{case.viscosity:.4f}", force, f"{ours:.4f}", f"{twins:.4f}", percent(ours / twins - 1),
                     f"{1 / (12 * force):.4f}", f"{bare:.4f}"])
    return markdown(["Rates", "Viscosity", "Force", "Permeability", "Without rounding", "Rounding", "B", "By bare momentum"], rows)


def drag_series(share):
    """The force on a cylinder of a square array, over viscosity (dynamic), mean velocity and length, by Sangani and Acrivos' series."""
    return 4 * math.pi / (-0.5 * math.log(share) - 0.738 + share - 0.887 * share**2 + 2.038 * share**3)


def array_table(program):
    rows = []
    for fraction in (0.05, 0.1):
        for side, force in ((32, 16), (64, 4), (128, 1)):
            case = cylinders(side, fraction, MAGIC_THICKEST, force)
            steps = math.ceil(side**2 / case.viscosity)
            drags = [side**2 / permeability(case, u) for u in (program.velocity(case, steps), Twin(case).run(steps).velocity())]
            share = sum(map(case.is_solid, range(side**2))) / side**2
            series = drag_series(share)
            rows.append([side, f"{share:.4f}", force, steps] + [f"{drag:.3f}" for drag in drags + [series]] + [percent(drags[0] / series - 1)])
    return markdown(["Side", "Solid share", "Force", "Steps", "Drag", "Without rounding", "Series", "Difference"], rows)


TABLES = {
    "examples": examples_table,
    "channel": channel_table,
    "slip": slip_table,
    "plates": plates_table,
    "wave": wave_table,
    "bodies": bodies_table,
    "porous": porous_table,
    "array": array_table,
    "cavity": cavity_table,
}
