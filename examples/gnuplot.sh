#!/bin/sh
# Writes the plot of examples/gnuplot.plt: a chart as gnuplot writes it. It fills any page.
#
#     examples/gnuplot.sh > examples/gnuplot.plt          needs Debian's gnuplot-nox
#
# Of gnuplot's instructions the size of characters, SR, is skipped, so its labels are wider than it expects.
exec gnuplot <<'END'
set terminal hpgl 8
set title "Damped oscillations"
set xlabel "time / s"
set ylabel "amplitude"
set grid linetype 5
unset key
set samples 600
set xrange [0:12]
set yrange [-1:1]
set lmargin at screen 0.13
set rmargin at screen 0.95
set bmargin at screen 0.13
set tmargin at screen 0.9
set ytics offset graph -0.05,0
set xtics offset graph 0,-0.02
set title offset graph 0,0.03
set xlabel offset graph 0,-0.05
set ylabel offset graph -0.06,0
plot exp(-x/6)*cos(2*x) with lines linetype 3, exp(-x/3)*sin(3*x) with lines linetype 0, \
     exp(-x/6) with lines linetype 6, -exp(-x/6) with lines linetype 6
END
