#!/usr/bin/env bash
# Draws how an engine answers while half of its families move, beside stop-and-copy.
#
#   bash bench/half_moves.sh FOLDER > docs/half-moves.svg
#
# FOLDER has many-64k-half.series and many-stop-half.series, as bench/serve.sh leaves them; of each line the number of the interval, the
# answers and the 99th part are looked at. Each curve begins half a second before its move was asked for and ends half a second after the
# move: in 50 milliseconds the answers, as a rate, and the highest of the 99th parts of five intervals of 10.
#
# bench/half-moves has the two series of 1 December 2026 that docs/half-moves.svg is drawn from.
set -eu
export LC_ALL=C
folder=${1:?'bash bench/half_moves.sh FOLDER'}
cat <<'END'
<svg xmlns="http://www.w3.org/2000/svg" viewBox="0 0 1600 860" width="960" height="516" font-family="system-ui, sans-serif" font-size="26">
<style>
.back { fill: #fcfcfb } .ink { fill: #0b0b0b } .soft { fill: #52514e }
.grid { stroke: #e1e0d9; stroke-width: 1.5 } .axis { stroke: #a09f95; stroke-width: 2 }
.moving, .stopped { fill: none; stroke-width: 4; stroke-linejoin: round }
.moving { stroke: #2a78d6 } .stopped { stroke: #eb6834; stroke-dasharray: 14 7 }
.move { fill: #2a78d6; fill-opacity: 0.12 }
@media (prefers-color-scheme: dark) {
.back { fill: #1a1a19 } .ink { fill: #ffffff } .soft { fill: #c3c2b7 }
.grid { stroke: #2c2c2a } .axis { stroke: #73726b }
.moving { stroke: #3987e5 } .stopped { stroke: #d95926 }
.move { fill: #3987e5 }
}
</style>
<rect class="back" width="1600" height="860"/>
END
awk '
function x_of(ms) { return 630 + ms }
function rate_y(thousands) { return 390 - int(240 * (thousands > 1000 ? 1000 : thousands) / 1000 + 0.5) }
function wait_y(ms) { return 720 - int(240 * (ms > 200 ? 200 : ms) / 200 + 0.5) }
function text(x, y, anchor, class, words) { printf "<text class=\"%s\" x=\"%d\" y=\"%d\" text-anchor=\"%s\">%s</text>\n", class, x, y, anchor, words }
FNR == 1 { run++; from[run] = $2; to[run] = $3 - $2; next }
{ bin = int(($1 * 10 - from[run] + 500) / 50); count[run, bin] += $2; lines[run, bin]++; if ($4 > wait[run, bin]) wait[run, bin] = $4; if (bin > last[run]) last[run] = bin }
END {
    printf "<path class=\"move\" d=\"M%d 150H%dV390H%dZM%d 480H%dV720H%dZ\"/>\n", x_of(0), x_of(to[1]), x_of(0), x_of(0), x_of(to[1]), x_of(0)
    for (at = 0; at <= 4; at++) {
        printf "<path class=\"grid\" d=\"M130 %dH1530M130 %dH1530\"/>\n", rate_y(at * 250), wait_y(at * 50)
        text(114, rate_y(at * 250) + 9, "end", "soft", at == 0 ? "0" : at * 250 "k")
        text(114, wait_y(at * 50) + 9, "end", "soft", at * 50)
    }
    for (at = -500; at <= 500; at += 500) text(x_of(at), 766, "middle", "soft", at == 0 ? "0" : sprintf("%.1f", at / 1000))
    text(830, 820, "middle", "ink", "seconds since the move was asked for")
    text(130, 44, "start", "ink", "Half of all families move, with half of the jobs that the engine can answer")
    text(130, 136, "start", "soft", "answers a second")
    text(130, 466, "start", "soft", "milliseconds in which 99 of 100 were answered")
    printf "<path class=\"moving\" d=\"M130 81H194\"/>"; text(210, 90, "start", "ink", "answered on")
    printf "<path class=\"move\" d=\"M430 64H494V90H430Z\"/>"; text(510, 90, "start", "ink", sprintf("while rows move, %.2f s", to[1] / 1000))
    printf "<path class=\"stopped\" d=\"M880 81H944\"/>"; text(960, 90, "start", "ink", sprintf("stop-and-copy, rows move for %.2f s", to[2] / 1000))
    for (run = 1; run <= 2; run++) {
        class = run == 1 ? "moving" : "stopped"
        rates = ""; waits = ""; open = 0
        for (bin = 0; bin < last[run]; bin++) {
            x = x_of(bin * 50 - 500); end = x_of(bin * 50 - 450)
            rates = rates sprintf(bin == 0 ? "M%d %dH%d" : "%.0sV%dH%d", x, rate_y(count[run, bin] / lines[run, bin] / 10), end)
            if (count[run, bin] == 0) { open = 0; continue }
            waits = waits sprintf(open ? "%.0sV%dH%d" : "M%d %dH%d", x, wait_y(wait[run, bin] / 1000), end)
            open = 1
        }
        printf "<path class=\"%s\" d=\"%s\"/>\n<path class=\"%s\" d=\"%s\"/>\n", class, rates, class, waits
    }
    print "<path class=\"axis\" d=\"M130 390H1530M130 720H1530\"/>"
}' "$folder/many-64k-half.series" "$folder/many-stop-half.series"
echo '</svg>'
