// The double-precision library Palabos (Debian: libplb-dev) over the same flows as yardstick.c: a fluid at rest in a periodic box,
// BGK collision at rate 1, one process. D2Q9 where NZ is 1, else D3Q19. Usage: palabos NX NY NZ STEPS
// It prints million cell updates a second.
// Its bodies are named one by one: those for grids of several widths do not compile with a compiler of today.
#include "palabos2D.h"
#include "palabos3D.h"
#include "parallelism/headers2D.hh"
#include "parallelism/headers3D.hh"
#include "latticeBoltzmann/headers2D.hh"
#include "latticeBoltzmann/headers3D.hh"
#include "core/headers2D.hh"
#include "core/headers3D.hh"
#include "basicDynamics/headers2D.hh"
#include "basicDynamics/headers3D.hh"
#include "boundaryCondition/headers2D.hh"
#include "boundaryCondition/headers3D.hh"
#include "complexDynamics/headers2D.hh"
#include "complexDynamics/headers3D.hh"
#include "io/headers2D.hh"
#include "io/headers3D.hh"
#include "atomicBlock/headers2D.hh"
#include "atomicBlock/headers3D.hh"
#include "multiBlock/headers2D.hh"
#include "multiBlock/headers3D.hh"
#include "algorithm/headers2D.hh"
#include "algorithm/headers3D.hh"
#include "coProcessors/headers3D.hh"
#include "dataProcessors/headers2D.hh"
#include "dataProcessors/headers3D.hh"
#include "finiteDifference/headers2D.hh"
#include "finiteDifference/headers3D.hh"
#include <cstdio>
#include <cstdlib>
#include <ctime>

using namespace plb;
typedef double T;

template <class Lattice>
static double timed(Lattice &lattice, double cells, int steps)
{
    lattice.collideAndStream();
    clock_t before = clock();
    for (int step = 0; step < steps; step++) lattice.collideAndStream();
    return cells * steps / (double(clock() - before) / CLOCKS_PER_SEC) / 1e6;
}

int main(int count, char **words)
{
    plbInit(&count, &words);
    if (count != 5) {
        fprintf(stderr, "usage: palabos NX NY NZ STEPS\n");
        return 2;
    }
    int nx = atoi(words[1]), ny = atoi(words[2]), nz = atoi(words[3]), steps = atoi(words[4]);
    double cells = double(nx) * ny * nz, speed;
    if (nz == 1) {
        MultiBlockLattice2D<T, descriptors::D2Q9Descriptor> lattice(nx, ny, new BGKdynamics<T, descriptors::D2Q9Descriptor>(1.0));
        lattice.periodicity().toggleAll(true);
        initializeAtEquilibrium(lattice, lattice.getBoundingBox(), (T)1, Array<T, 2>((T)0, (T)0));
        lattice.initialize();
        speed = timed(lattice, cells, steps);
    } else {
        MultiBlockLattice3D<T, descriptors::D3Q19Descriptor> lattice(nx, ny, nz, new BGKdynamics<T, descriptors::D3Q19Descriptor>(1.0));
        lattice.periodicity().toggleAll(true);
        initializeAtEquilibrium(lattice, lattice.getBoundingBox(), (T)1, Array<T, 3>((T)0, (T)0, (T)0));
        lattice.initialize();
        speed = timed(lattice, cells, steps);
    }
    printf("%.2f million cell updates a second\n", speed);
    return 0;
}
