#!/bin/sh
# Writes the plot of examples/sensor.plt: a chart as gnuplot writes it in HP-GL/2, with labels in ISO 8859-1 (SD).
#
#     examples/sensor.sh > examples/sensor.plt          needs Debian's gnuplot-nox
iconv -f utf-8 -t iso-8859-1 <<'END' | exec gnuplot
set terminal pcl5
set encoding iso_8859_1
set title "Temperatur am Fühler"
set xlabel "Zeit / µs"
set ylabel "Temperatur / °C"
set key bottom right
set xrange [0:10]
set yrange [19:26]
plot 20+5*(1-exp(-x/2)) title "größter Wert", 24-0.3*x title "Mittel"
END
