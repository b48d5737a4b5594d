#!/bin/sh
# Writes the plot of examples/holder.plt: a drawing of xfig as fig2dev writes it, with labels in ISO 8859-1.
#
#     examples/holder.sh > examples/holder.plt          needs Debian's fig2dev
iconv -f utf-8 -t iso-8859-1 <<'END' | LC_ALL=C fig2dev -L ibmgl
#FIG 3.2
Landscape
Center
Metric
A4
100.00
Single
-2
1200 2
2 2 0 1 0 7 50 -1 -1 0.000 0 0 -1 0 0 5
	 1500 1500 7000 1500 7000 3600 1500 3600 1500 1500
1 3 0 1 0 7 50 -1 -1 0.000 1 0.0000 3000 2550 450 450 3000 2550 3450 2550
4 0 0 50 -1 0 14 0.0000 4 195 1500 1650 1380 Halterung für Prüfkopf\001
4 0 0 50 -1 4 12 0.0000 4 135 1500 3700 2600 Bohrung Ø 8,5 mm ± 0,1\001
4 1 0 50 -1 16 10 1.5708 4 135 1500 1350 2550 Maßstab 1:2\001
END
