# Draws the first fifteen rows of pareto.tsv: a bar for the votes of each, and a line for their
# share of all votes.
set terminal svg size 900,520 font "sans,12" background "white"
set output "pareto.svg"
set datafile separator tab
set title "Sites over the dies of a lot"
set boxwidth 0.8
set style fill solid 0.8
set xtics rotate by -40 nomirror noenhanced
set ytics nomirror
set y2tics 0, 20, 100
set ylabel "dies (a die's vote is shared by its best sites)"
set y2label "per cent of all votes"
set yrange [0:*]
set y2range [0:105]
set key off
label(sites) = strlen(sites) > 28 ? substr(sites, 1, 26) . ".." : sites
plot "<cut -c 1-120 pareto.tsv" every ::1::15 using 1:2:xtic(label(stringcolumn(5))) with boxes linecolor "#0072b2", \
    "" every ::1::15 using 1:4 axes x1y2 with linespoints linecolor "#d55e00" pointtype 7
