#!/bin/sh
# Writes the plot of examples/current.plt: a curve as plotutils' graph writes it, with accents in HP's Roman-8.
#
#     examples/current.sh > examples/current.plt          needs Debian's plotutils
title=$(printf 'Intensit\351 mesur\351e')
unit=$(printf 'dur\351e / \265s')
seq 0 40 | awk '{ t = $1 / 10; print t, 2 * exp(-t / 2) * cos(3 * t) }' |
    HPGL_VERSION=2 graph -T hpgl -F Stick -L "$title" -X "$unit" -Y "mA"
