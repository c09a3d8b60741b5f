#!/usr/bin/env bash
# Draws how an engine that is served answers before, during and after a move.
#
#   bash bench/serve_picture.sh FOLDER > serve.svg
#
# FOLDER has the series that bench/serve.sh leaves there: NAME.series, as bench/load.c writes them. Each has a panel, from half a second
# before its move to half a second after it: how many answers came in each 10 milliseconds, as a rate, and of how long these jobs had
# waited the median, the 99th in a hundred and the longest, by a logarithm. Panels of one row have moves of one form, in two pairs: of the
# hotter half of a partition, and of half of all families. At the left of a pair as many jobs are posted as the engine takes, and at the
# right half as many as it answered so. A form without a series, as on demand alone where no build was given for it, has no panel.
set -eu
export LC_ALL=C
folder=${1:?'bash bench/serve_picture.sh FOLDER'}

# The forms, with the names of their series in the order of the columns.
rows='chunks of 8 KiB|full-8k half-8k many-8k many-8k-half
chunks of 64 KiB|full-64k half-64k many-64k many-64k-half
chunks of 1 MiB|full-1m half-1m many-1m many-1m-half
64 KiB, no job while rows move|full-stop half-stop many-stop many-stop-half
64 KiB, on demand alone|full-demand half-demand many-demand many-demand-half
64 KiB, in several stages|full-stages half-stages
64 KiB, four pumps|full-pumps half-pumps'

panel='
function y_of_rate(count) { return bottom - int(height * (count > most ? most : count) / most + 0.5) }
function y_of_wait(micros) {
    if (micros < 10) micros = 10
    if (micros > 1e7) micros = 1e7
    return bottom - int(height * log(micros / 10) / log(1e6) + 0.5)
}
function x_of(ms) { return left + int(width * (ms - begin) / (end - begin) + 0.5) }
# A line to there from where the pen was, which is there then.
function to(x, y,    words) { words = (x - pen_x) (y < pen_y ? "" : " ") (y - pen_y) " "; pen_x = x; pen_y = y; return words }
# The intervals from one to another, in each of which jobs were answered: between the medians and the longest times, and the 99th parts.
function join(from, until,    i) {
    pen_x = x_of(ms[from]); pen_y = y_of_wait(longest[from])
    band = band "M" pen_x " " pen_y "l"
    for (i = from; i <= until; i++) band = band to(x_of(ms[i] + 5), y_of_wait(longest[i]))
    for (i = until; i >= from; i--) band = band to(x_of(ms[i] + 5), y_of_wait(median[i]))
    band = band "Z"
    pen_x = x_of(ms[from]); pen_y = y_of_wait(wait[from])
    line = line "M" pen_x " " pen_y "l"
    for (i = from; i <= until; i++) line = line to(x_of(ms[i] + 5), y_of_wait(wait[i]))
}
FNR == 1 { moved_from = $2; moved_to = $3; begin = moved_from - 500; end = moved_to + 500; n = 0; next }
$1 * 10 >= begin && $1 * 10 + 10 <= end { ms[n] = $1 * 10; count[n] = $2; median[n] = $3; wait[n] = $4; longest[n] = $5; n++ }
END {
    span = x_of(moved_to) - x_of(moved_from)
    printf "<g><rect class=\"move\" x=\"%d\" y=\"%d\" width=\"%d\" height=\"%d\"/>\n", x_of(moved_from), bottom - height, span < 2 ? 2 : span, height
    for (at = 0; at <= 3; at++) {
        y = bottom - height * at / 3
        printf "<path class=\"grid\" d=\"M%d %dh%d\"/>", left, y, width
        if (column % 2 == 0) printf "<text class=\"soft\" x=\"%d\" y=\"%d\" text-anchor=\"end\">%s</text>", left - 8, y + 6,
            at == 0 ? "0" : most * at / 30 "k"
        else printf "<text class=\"soft\" x=\"%d\" y=\"%d\">%s</text>", left + width + 8, y + 6,
            at == 0 ? "10 us" : at == 1 ? "1 ms" : at == 2 ? "100 ms" : "10 s"
    }
    printf "\n<path class=\"rate\" d=\"M%d %d", x_of(ms[0]), bottom
    for (i = 0; i < n; i++) if (i == n - 1 || count[i] != count[i + 1]) printf "V%dH%d", y_of_rate(count[i]), x_of(ms[i] + 10)
    printf "V%dZ\"/>\n", bottom
    for (i = 0; i < n; i = next_one + 1) {
        for (next_one = i; next_one < n && count[next_one] > 0; next_one++);
        if (next_one > i) join(i, next_one - 1)
    }
    printf "<path class=\"band\" d=\"%s\"/>\n<path class=\"wait\" d=\"%s\"/>\n", band, line
    printf "<path class=\"axis\" d=\"M%d %dh%d\"/>", left, bottom, width
    for (step = 500; (end - begin) / step > 5; step *= 2);
    for (tick = 0; tick <= end - moved_from; tick += step)
        printf "<text class=\"soft\" x=\"%d\" y=\"%d\" text-anchor=\"middle\">%s</text>", x_of(moved_from + tick), bottom + 20,
            tick == 0 ? "0" : sprintf("+%.1f s", tick / 1000)
    print "</g>"
}'

# The most answers of an interval that a panel shows: those of 300,000, 600,000 .. a second of which all stay below, but for one interval
# in twenty.
most=$(for series in "$folder"/*.series; do tail -n +2 "$series"; done | cut -d ' ' -f 2 | sort -n |
    awk '{ counts[NR] = $1 } END { most = counts[int(NR * 0.95) + 1]; print most <= 3000 ? 3000 : 3000 * int((most + 2999) / 3000) }')
lefts=(70 430 940 1300) width=330 height=120
# Each form that has a series takes a row.
tall=130
while IFS='|' read -r form names; do
    for name in $names; do
        if [ -f "$folder/$name.series" ]; then tall=$((tall + 185)); break; fi
    done
done <<< "$rows"
cat <<END
<svg xmlns="http://www.w3.org/2000/svg" viewBox="0 0 1720 $tall" width="1032" height="$((tall * 3 / 5))" font-family="system-ui, sans-serif" font-size="18">
<rect class="back" width="1720" height="$tall"/>
END
cat <<'END'
<style>
.back { fill: #fcfcfb } .ink { fill: #0b0b0b } .soft { fill: #52514e }
.grid { stroke: #e1e0d9; stroke-width: 1.5 } .axis { stroke: #a09f95; stroke-width: 2 }
.rate { fill: #2a78d6; fill-opacity: 0.35 } .band { fill: #eb6834; fill-opacity: 0.3 }
.wait { fill: none; stroke: #eb6834; stroke-width: 2; stroke-linejoin: round; stroke-linecap: round } .move { fill: #52514e; fill-opacity: 0.2 }
@media (prefers-color-scheme: dark) {
.back { fill: #1a1a19 } .ink { fill: #ffffff } .soft { fill: #c3c2b7 }
.grid { stroke: #2c2c2a } .axis { stroke: #73726b }
.rate { fill: #3987e5 } .band { fill: #d95926 } .wait { stroke: #d95926 } .move { fill: #c3c2b7 }
}
</style>
<path class="rate" d="M70 28h40v14h-40Z"/><text class="ink" x="120" y="42">answers a second, at the left</text>
<path class="wait" d="M430 35h40"/><text class="ink" x="480" y="42">99 of 100 had waited no longer, at the right</text>
<path class="band" d="M940 28h40v14h-40Z"/><text class="ink" x="990" y="42">from the median to the longest wait</text>
<path class="move" d="M1350 28h40v14h-40Z"/><text class="ink" x="1400" y="42">rows move</text>
<text class="ink" x="70" y="84">the hotter half of a partition moves, of 100,000 families</text>
<text class="ink" x="940" y="84">half of 999,000 families move</text>
<text class="soft" x="70" y="110">as many jobs as it takes</text><text class="soft" x="430" y="110">half as many</text>
<text class="soft" x="940" y="110">as many jobs as it takes</text><text class="soft" x="1300" y="110">half as many</text>
END
bottom=275
while IFS='|' read -r form names; do
    column=0 drawn=
    for name in $names; do
        if [ -f "$folder/$name.series" ]; then
            awk -v left="${lefts[column]}" -v bottom="$bottom" -v width="$width" -v height="$height" -v most="$most" -v column="$column" "$panel" "$folder/$name.series"
            if [ $((column % 2)) = 0 ]; then echo "<text class=\"ink\" x=\"${lefts[column]}\" y=\"$((bottom - height - 12))\">$form</text>"; fi
            drawn=1
        fi
        column=$((column + 1))
    done
    if [ -n "$drawn" ]; then bottom=$((bottom + 185)); fi
done <<< "$rows"
echo '</svg>'
