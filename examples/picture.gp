# Paints the speed of each cell of a plane, in cells a step, as a PNG picture on standard output: of a file that lbm has written in
# its ASCII form, with the sides of the plane and the force of its case (0 where it has none). Solid cells stay grey, and the first
# row of the map is at the top, as in the case file.
# Usage: gnuplot -e "file='FILE.vtk'; nx=64; ny=16; gx=2; gy=0" picture.gp > FILE.png
if (!exists("gx")) gx = 0
if (!exists("gy")) gy = 0
set terminal pngcairo size 1000,(100 + 1000 * ny / nx)
set xrange [-0.5:nx-0.5]
set yrange [ny-0.5:-0.5]
set size ratio -1
set object rectangle from graph 0,0 to graph 1,1 fillcolor "#969696" behind
set palette defined (0 "#440154", 0.25 "#3b528b", 0.5 "#21918c", 0.75 "#5ec962", 1 "#fde725")
set title "speed, cells a step"
# a line for each cell: its density, and its momentum along x and y; then the velocity, with half of what the force adds
cells = sprintf("< awk -v n=%d 'NR > 10 && NR <= 10 + n { density[NR - 10] = $1 } NR > 11 + n { print density[NR - 11 - n], $1, $2 }' '%s'", nx * ny, file)
speed(density, jx, jy) = density == 0 ? NaN : sqrt((jx + 6 * gx)**2 + (jy + 6 * gy)**2) / density
plot cells using (int($0) % nx):(int($0) / nx):(speed($1, $2, $3)) with image notitle
