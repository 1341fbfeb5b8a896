# Draws the answer of a fetch of one series, in rows.csv, into rows.png:
#
#     echo 'fetch AVERAGE 60 0 600 boiler,site=north temp' | nc -N 127.0.0.1 8095 > rows.csv
#     gnuplot plot.gp
#
# A row that isn't known is a gap.
set datafile separator comma
set xdata time
set timefmt "%s"
set format x "%H:%M"
set grid
set terminal pngcairo size 900,400
set output "rows.png"
plot "rows.csv" using 2:(strcol(3) eq "U" ? NaN : $3) with linespoints pointtype 7 notitle
