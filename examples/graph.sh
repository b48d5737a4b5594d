#!/bin/sh
# Draws docs/graph.png: a plot as `graph` of the GNU plotutils writes it, drawn by plotraster.
#
#     examples/graph.sh          after `make`; needs Debian's plotutils and netpbm
#     examples/graph.sh --plot   prints the plot instead; needs only plotutils
set -e
cd "$(dirname "$0")/.."

# Three damped oscillations, a line each, with blank lines between them.
oscillations() {
    awk 'BEGIN {
        for (damping = 1; damping <= 3; damping++) {
            for (i = 0; i <= 600; i++) {
                t = i / 50
                print t, exp(-t * damping / 12) * cos(2 * t + damping)
            }
            print ""
        }
    }'
}

chart() {
    oscillations |
        HPGL_VERSION=2 graph -T hpgl -C -W 0.003 -m 1 -g 3 -x 0 12 -y -1 1 -f 0.04 -L "Damped oscillations" -X "time / s" -Y "amplitude"
}

if [ "$1" = --plot ]; then
    chart
    exit
fi
chart |
    build/plotraster ppm --width 8128 --height 8128 --dots 500 |
    pamscale -quiet -reduce 5 | pnmcrop -quiet -white | pnmpad -quiet -white -left 12 -right 12 -top 12 -bottom 12 |
    pnmtopng -quiet -compression 9 > docs/graph.png
