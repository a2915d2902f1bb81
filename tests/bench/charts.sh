#!/bin/sh
# Draws docs/ratios.svg and docs/growth.svg by gnuplot, from the tables of docs/BENCHMARKS.md between the lines
# '<!-- ratios -->' and '<!-- growth -->' and those that end them.
#
#     tests/bench/charts.sh [FOLDER]    draws them there
set -eu
cd "$(dirname "$0")/../.."
to=${1-docs}
room=$(mktemp -d)
trap 'rm -rf "$room"' EXIT

# The rows of a table, with tabs between the cells; of its head those of the second argument on.
table() {
    sed -n "/^<!-- $1 -->$/,/^<!-- end $1 -->$/s/^| \(.*\) |$/\1/p" docs/BENCHMARKS.md | sed 's/ | /\t/g' > "$room/$1"
}

# The different cells of a column, but for its head.
cells() {
    sed 1d "$room/$1" | cut -f"$2" | awk '!seen[$0]++' | tr '\n' ' '
}

table ratios
table growth
gnuplot <<END
room = "$room/"; to = "$to/"
keys = "$(sed -n '1s/ keys,.*//p' "$room/ratios")"
kinds = "$(cells ratios 1)"; lines = "$(cells growth 2)"
of(file, column, name) = sprintf("< awk -F '\\\\t' 'NR == 1 || \$%d == \"%s\"' %s%s", column, name, room, file)
set datafile separator tab; set datafile missing "-"; set datafile columnheaders
set terminal svg noenhanced size 960,560 font "sans-serif,12" background "#ffffff"
set style fill solid noborder; set border lc "#59636e"; set tics nomirror
set linetype 1 lc "#0969da"; set linetype 2 lc "#bf8700"; set linetype 3 lc "#1a7f37"

# For each kind of keys a bar from 1 to each ratio, with the ratio at its end.
set output to . "ratios.svg"
set multiplot layout 1, words(kinds) title "Time and memory, as a ratio to std's ordered map: " . keys . " keys"
set logscale x 2; set xrange [1/8.:16]; set key below
set xtics ("1/8" .125, "1/4" .25, "1/2" .5, "1" 1, "2" 2, "4" 4, "8" 8); set grid xtics lc "#d8dee4" lt 1
low(v) = v < 1 ? v : 1; high(v) = v > 1 ? v : 1; at(row, i) = -row - .25 * (i - 4)
do for [kind in kinds] {
    set title kind; set yrange [-words("$(cells ratios 2)") + .5:.5]
    plot for [i = 3:5] of("ratios", 1, kind) using (1):(at(\$0, i)):(low(column(i))):(high(column(i))):(at(\$0, i) - .11) \\
             :(at(\$0, i) + .11):ytic(2) with boxxyerror lt i - 2 title columnheader(i), \\
         for [i = 3:5] "" using (high(column(i))):(at(\$0, i)):(sprintf("%.2f", column(i))) with labels \\
             font ",9" offset char 2, 0 notitle
}
unset multiplot

# For each line a frame, with the figures of the map and of std's over the number of keys.
set output to . "growth.svg"
set multiplot layout 2, 3 title "How time and memory grow with the number of titles"
unset logscale; set logscale x 10; set xrange [*:*]; set yrange [0:*]; set xtics auto; set format x "%.0s%c"
do for [line in lines] {
    set title line . (line eq "memory" ? ", bytes a key" : line eq "scan" ? ", nanoseconds an entry" : \\
        ", nanoseconds a call")
    plot for [i = 3:4] of("growth", 2, line) using 1:(column(i)) with linespoints pt 7 ps .5 lt i - 2 \\
        title columnheader(i)
}
unset multiplot
END
