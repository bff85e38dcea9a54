#!/bin/sh
# The Pareto of the reports of a lot, in the lot's folder: pareto.tsv, its first ten rows on
# standard output, and where gnuplot is installed a drawing of them, pareto.svg.
LOT=$(CDPATH='' cd -- "$(dirname -- "$0")" && pwd) || exit 1
export LOT
sqlite3 :memory: <"$LOT/pareto.sql" || exit 1
head -n 11 pareto.tsv | cut -c 1-110
if command -v gnuplot >/dev/null; then
    gnuplot "$LOT/pareto.gp"
else
    echo 'not drawn: gnuplot is not installed' >&2
fi
