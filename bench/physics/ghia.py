"""Velocities in a driven cavity, in shares of the lid's, by U. Ghia, K. N. Ghia and C. T. Shin, "High-Re solutions for incompressible
flow using the Navier-Stokes equations and a multigrid method", Journal of Computational Physics 48 (1982), 387-411, tables I and II:
the velocity along the lid on the upright line through the middle, from the lid down, and the upward velocity on the level line
through the middle, from right to left, for a lid that moves to the right. At Reynolds number 400 the value -0.23827 at 0.9063 is left
out: it lies far off the curve through its neighbours. The numbers have not been compared with the printed tables since they were typed.
"""

HEIGHTS = [1, 0.9766, 0.9688, 0.9609, 0.9531, 0.8516, 0.7344, 0.6172, 0.5, 0.4531, 0.2813, 0.1719, 0.1016, 0.0703, 0.0625, 0.0547, 0]
PLACES = [1, 0.9688, 0.9609, 0.9531, 0.9453, 0.9063, 0.8594, 0.8047, 0.5, 0.2344, 0.2266, 0.1563, 0.0938, 0.0781, 0.0703, 0.0625, 0]

ALONG = {
    100: [1, 0.84123, 0.78871, 0.73722, 0.68717, 0.23151, 0.00332, -0.13641, -0.20581, -0.21090, -0.15662, -0.10150, -0.06434,
          -0.04775, -0.04192, -0.03717, 0],
    400: [1, 0.75837, 0.68439, 0.61756, 0.55892, 0.29093, 0.16256, 0.02135, -0.11477, -0.17119, -0.32726, -0.24299, -0.14612,
          -0.10338, -0.09266, -0.08186, 0],
}
UPWARD = {
    100: [0, -0.05906, -0.07391, -0.08864, -0.10313, -0.16914, -0.22445, -0.24533, 0.05454, 0.17527, 0.17507, 0.16077, 0.12317,
          0.10890, 0.10091, 0.09233, 0],
    400: [0, -0.12146, -0.15663, -0.19254, -0.22847, None, -0.44993, -0.38598, 0.05186, 0.30174, 0.30203, 0.28124, 0.22965,
          0.20920, 0.19713, 0.18360, 0],
}
