/* A plain double-precision solver: two lattices, BGK collision, periodic box, one thread. D2Q9 where NZ is 1, else D3Q19.
   It is what the speed of lbm is measured against (bench/run, bench/patterns). Usage: yardstick NX NY NZ STEPS */
#include <stdio.h>
#include <stdlib.h>
#include <time.h>

enum { PLANE = 9, BOX = 19 };

static const int plane_c[PLANE][3] = {{0, 0, 0}, {1, 0, 0}, {0, 1, 0}, {-1, 0, 0}, {0, -1, 0},
                                      {1, 1, 0}, {-1, 1, 0}, {-1, -1, 0}, {1, -1, 0}};
static const double plane_w[PLANE] = {16.0 / 36, 4.0 / 36, 4.0 / 36, 4.0 / 36, 4.0 / 36,
                                      1.0 / 36,  1.0 / 36, 1.0 / 36, 1.0 / 36};
static const int box_c[BOX][3] = {{0, 0, 0},  {1, 0, 0},   {-1, 0, 0}, {0, 1, 0},  {0, -1, 0}, {0, 0, 1},  {0, 0, -1},
                                  {1, 1, 0},  {-1, -1, 0}, {1, -1, 0}, {-1, 1, 0}, {1, 0, 1},  {-1, 0, -1}, {1, 0, -1},
                                  {-1, 0, 1}, {0, 1, 1},   {0, -1, -1}, {0, 1, -1}, {0, -1, 1}};
static const double box_w[BOX] = {12.0 / 36, 2.0 / 36, 2.0 / 36, 2.0 / 36, 2.0 / 36, 2.0 / 36, 2.0 / 36,
                                  1.0 / 36,  1.0 / 36, 1.0 / 36, 1.0 / 36, 1.0 / 36, 1.0 / 36, 1.0 / 36,
                                  1.0 / 36,  1.0 / 36, 1.0 / 36, 1.0 / 36, 1.0 / 36};

/* Each cell pulls the populations that reach it, and relaxes them toward the second-order equilibrium. The set is a
   constant where this is called, so that the compiler unrolls its loops. */
static inline __attribute__((always_inline)) void step(int q, const int (*c)[3], const double *weight, int nx, int ny,
                                                       int nz, double omega, const double *restrict from,
                                                       double *restrict to)
{
    for (int z = 0; z < nz; z++)
        for (int y = 0; y < ny; y++)
            for (int x = 0; x < nx; x++) {
                double f[BOX], rho = 0, j[3] = {0, 0, 0};
                for (int i = 0; i < q; i++) {
                    int sx = x - c[i][0], sy = y - c[i][1], sz = z - c[i][2];
                    if (sx < 0) sx += nx; else if (sx >= nx) sx -= nx;
                    if (sy < 0) sy += ny; else if (sy >= ny) sy -= ny;
                    if (sz < 0) sz += nz; else if (sz >= nz) sz -= nz;
                    f[i] = from[(((size_t)sz * ny + sy) * nx + sx) * q + i];
                    rho += f[i];
                    for (int a = 0; a < 3; a++) j[a] += c[i][a] * f[i];
                }
                double ux = j[0] / rho, uy = j[1] / rho, uz = j[2] / rho, square = ux * ux + uy * uy + uz * uz;
                for (int i = 0; i < q; i++) {
                    double u = c[i][0] * ux + c[i][1] * uy + c[i][2] * uz;
                    double equilibrium = weight[i] * rho * (1 + 3 * u + 4.5 * u * u - 1.5 * square);
                    to[(((size_t)z * ny + y) * nx + x) * q + i] = f[i] + omega * (equilibrium - f[i]);
                }
            }
}

static void step_plane(int nx, int ny, const double *from, double *to)
{
    step(PLANE, plane_c, plane_w, nx, ny, 1, 1.0, from, to);
}

static void step_box(int nx, int ny, int nz, const double *from, double *to)
{
    step(BOX, box_c, box_w, nx, ny, nz, 1.0, from, to);
}

int main(int count, char **words)
{
    if (count != 5) {
        fprintf(stderr, "usage: yardstick NX NY NZ STEPS\n");
        return 2;
    }
    int nx = atoi(words[1]), ny = atoi(words[2]), nz = atoi(words[3]), steps = atoi(words[4]);
    if (nx < 1 || ny < 1 || nz < 1) return 1;
    int q = nz == 1 ? PLANE : BOX;
    const double *weight = nz == 1 ? plane_w : box_w;
    size_t cells = (size_t)nx * ny * nz;
    double *now = malloc(cells * q * sizeof *now), *next = malloc(cells * q * sizeof *next);
    if (!now || !next) return 1;
    for (size_t x = 0; x < cells; x++)
        for (int i = 0; i < q; i++) now[x * q + i] = next[x * q + i] = weight[i];
    struct timespec start, end;
    clock_gettime(CLOCK_MONOTONIC, &start);
    for (int t = 0; t < steps; t++) {
        if (nz == 1) step_plane(nx, ny, now, next);
        else step_box(nx, ny, nz, now, next);
        double *swapped = now;
        now = next;
        next = swapped;
    }
    clock_gettime(CLOCK_MONOTONIC, &end);
    double seconds = (end.tv_sec - start.tv_sec) + (end.tv_nsec - start.tv_nsec) / 1e9, mass = 0;
    for (size_t k = 0; k < cells * q; k++) mass += now[k];
    printf("%.2f million cell updates a second, mass %.6f\n", cells * (double)steps / seconds / 1e6, mass);
    return 0;
}
