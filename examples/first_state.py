#!/usr/bin/env python3
"""Writes a checkpoint with a first state of one's own, from which lbm goes on with --resume. It wants Python alone, 3.11 or later.

    first_state.py CASE FILE.ckpt AMPLITUDE

The state is a shear wave: the momentum along x is AMPLITUDE times the sine of the place along y, one wave over the box, and the
density is one unit. For another state write another function in the place of `wave`: it is given the place of a fluid cell and
gives its density and its momentum, in whole numbers (docs/UNITS.md).
"""
import math
import sys

import flow


def main(words):
    if len(words) != 4:
        sys.exit(__doc__)
    case, amplitude = flow.Case.read(words[1]), float(words[3])

    def wave(_x, y, _z):
        return flow.UNIT, (round(amplitude * math.sin(2 * math.pi * y / case.sides[1])), 0, 0)

    flow.write_checkpoint(words[2], case, 0, flow.first_populations(case, wave))


main(sys.argv)
