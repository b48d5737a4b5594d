#!/bin/sh
# Writes the plot of examples/profiles.plt: a chart as gnuplot writes it in HP-GL/2, with a dotted grid.
#
#     examples/profiles.sh > examples/profiles.plt          needs Debian's gnuplot-nox
exec gnuplot <<'END'
set terminal pcl5
set title "Damped oscillations"
set xlabel "time / s"
set ylabel "amplitude"
set grid
set samples 300
set xrange [0:12]
set yrange [-1:1]
plot exp(-x/6)*cos(2*x) title "slow", exp(-x/3)*sin(3*x) title "fast", exp(-x/6) title "upper", -exp(-x/6) title "lower"
END
