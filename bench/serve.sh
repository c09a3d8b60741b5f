#!/usr/bin/env bash
# What a move costs those who use an engine that is served.
#
#   SQUALL=PROGRAM bash bench/serve.sh FOLDER
#
# writes into FOLDER the tables serve.md, the series of the runs (NAME.series) and the pictures serve.svg (bench/serve_picture.sh) and
# half-moves.svg (bench/half_moves.sh), in a minute. bench/load.c says what is posted and what the figures are. There are four partitions; a job adds one to a number.
#
# First, a hot partition: half of the jobs are for root keys of partition 0, by a Zipf law, and in the middle the hotter half of
# its root keys goes to the other partitions. There are ROOTS families (100000 if left out); a third of JOBS jobs (1200000) is
# posted before the move, and a third after it. Each form of the move is made twice: while as many jobs are posted as the engine
# takes, of which at most 16384 have no answer, and at half the rate that it answered before the first of these moves. The forms:
# chunks of 8 KiB, 64 KiB and 1 MiB; 64 KiB in several stages, with four pumps, and with a stop: then no job is posted while rows
# move.
#
# Then jobs for any root key, of MANY families (999000, since a header has a million lines at most), half of which move, in the same two
# ways; in chunks of 8 KiB, 64 KiB and 1 MiB, and with a stop.
#
# The program is crates/squall/out/squall, which `rt run` leaves in crates/squall; SQUALL=PATH takes another. It has a pump at least. With
# DEMAND=PATH of a build whose `serve` takes `--pumps 0` (in crates/sq_command/src/serve.rt `0` for `1` in `counted` and `number_of`) both
# moves are made by that build too, in the same two ways: with a pump, and on demand alone. Jobs then go where the new plan says as soon as
# the move is asked for, since only a job that comes where its rows aren't yet asks for them. Without a pump, where rows are left once JOBS
# / 3 jobs are posted after that, one is posted for each root key that moves (the sweep). Leaves are so wide that each of the three ranges
# that move is one segment with root keys in each of its 32 leaves. A move on demand alone that isn't done in 10 seconds is given up, and
# its waiting times are those until then.
# A C compiler, cc, has to be there.
set -eu
export LC_ALL=C
top=$(cd "$(dirname "$0")/.." && pwd)
squall=${SQUALL:-$top/crates/squall/out/squall}
folder=${1:?'bash bench/serve.sh FOLDER'}
roots=${ROOTS:-100000}
many=${MANY:-999000}
jobs=${JOBS:-1200000}
mkdir -p "$folder"
room=$(mktemp -d)
trap 'rm -r "$room"' EXIT
cc -O2 -o "$room/load" "$top/bench/load.c" -lm -lpthread

# run NAME WORD..: a run, whose three lines go into $room/NAME, and whose series goes into $room/NAME.series. Load ends with 3 where a move
# was given up.
run() {
    local status=0
    echo "$1: ${*:2}" >&2
    timeout 60 "$room/load" "$squall" "${@:2}" "series=$room/$1.series" > "$room/$1" || status=$?
    if [ "$status" != 0 ] && [ "$status" != 3 ]; then return "$status"; fi
}

# rate_of NAME PHASE: answers a second in a phase of a run.
rate_of() { awk -v phase="$2" '$1 == phase { print $4 }' "$room/$1"; }

# half_of RATE: half of it, as a whole number.
half_of() { awk -v rate="$1" 'BEGIN { print int(rate / 2) }'; }

# The forms of the move, with what the table calls them.
forms='8k|chunks of 8 KiB|chunk=8192
64k|chunks of 64 KiB|chunk=65536
1m|chunks of 1 MiB|chunk=1048576
stages|64 KiB, in several stages|chunk=65536 stages=1
pumps|64 KiB, four pumps|chunk=65536 pumps=4
stop|64 KiB, no job while rows move|chunk=65536 manner=stop'

# table NAME..: the rows of a table of these runs, each of which has its form's name behind a colon. A figure has a place for each phase.
table() {
    local each
    echo '| Move | Thousand answers a second | Seconds of the move | Median | 99 of 100 | Longest | Without an answer |'
    echo '|---|---|---|---|---|---|---|'
    for each in "$@"; do
        awk -v form="${each#*:}" '
            function ms(time) { return sprintf(time >= 10 ? "%.0f" : time >= 1 ? "%.1f" : "%.2f", time) }
            function add(at, word) { figure[at] = figure[at] (figure[at] == "" ? "" : ", ") word }
            { add(1, sprintf("%.0f", $4 / 1000)); for (at = 5; at <= 7; at++) add(at, $7 == 0 ? "-" : ms($at)); add(8, ms($8)) }
            $1 != "before" && $1 != "after" { add(2, sprintf($1 == "unmoved" ? "over %.0f" : "%.2f", $2)) }
            END { printf "| %s | %s | %s | %s | %s | %s | %s |\n", form, figure[1], figure[2], figure[5], figure[6], figure[7], figure[8] }
            ' "$room/${each%%:*}"
    done
}

# range COLUMN PHASES NAME..: the lowest and the highest figure of a column in these phases of runs.
range() {
    local names=("${@:3}")
    awk -v column="$1" -v phases=" $2 " '
        index(phases, " " $1 " ") { if (!count++ || $column < low) low = $column; if ($column > high) high = $column }
        END { printf high < 1000 ? "%.1f to %.1f" : "%d to %d", low, high }' "${names[@]/#/$room/}"
}

# share_of NAME: the answers a second in the move of a run, in a hundred of those before it.
share_of() { awk '$1 == "before" { base = $4 } $1 == "during" { printf "%.0f", 100 * $4 / base }' "$room/$1"; }

# goal WORDS FIGURE WANTED: a line of the goals.
goal() { echo "| $1 | $2 | $3 |"; }

full=() slow=()
while IFS='|' read -r name form words; do
    # shellcheck disable=SC2086
    run "full-$name" "roots=$roots" "jobs=$jobs" $words
    full+=("full-$name:$form")
done <<< "$forms"
rate=$(half_of "$(rate_of full-8k before)")
while IFS='|' read -r name form words; do
    # shellcheck disable=SC2086
    run "half-$name" "roots=$roots" "jobs=$jobs" "rate=$rate" $words
    slow+=("half-$name:$form")
done <<< "$forms"
many_words=("roots=$many" "jobs=$jobs" hot=0 moves=half)
run many-8k "${many_words[@]}" chunk=8192
run many-64k "${many_words[@]}" chunk=65536
run many-1m "${many_words[@]}" chunk=1048576
many_rate=$(half_of "$(rate_of many-64k before)")
run many-8k-half "${many_words[@]}" chunk=8192 "rate=$many_rate"
run many-64k-half "${many_words[@]}" chunk=65536 "rate=$many_rate"
run many-1m-half "${many_words[@]}" chunk=1048576 "rate=$many_rate"
run many-stop "${many_words[@]}" chunk=65536 manner=stop
run many-stop-half "${many_words[@]}" chunk=65536 manner=stop "rate=$many_rate"

# Both moves by the other build.
demand=()
if [ -n "${DEMAND:-}" ]; then
    squall=$DEMAND
    hot_words=("roots=$roots" "jobs=$jobs" "width=$(((roots / 24 + 31) / 32))" ahead=1)
    alone=(pumps=0 sweep=1 limit=10)
    run full-pump "${hot_words[@]}"
    run full-demand "${hot_words[@]}" "${alone[@]}"
    run half-pump "${hot_words[@]}" "rate=$rate"
    run half-demand "${hot_words[@]}" "rate=$rate" "${alone[@]}"
    run many-pump "${many_words[@]}" ahead=1
    run many-demand "${many_words[@]}" ahead=1 "${alone[@]}"
    run many-pump-half "${many_words[@]}" ahead=1 "rate=$many_rate"
    run many-demand-half "${many_words[@]}" ahead=1 "rate=$many_rate" "${alone[@]}"
    demand=('full-pump:a hot partition, a pump' 'full-demand:a hot partition, on demand'
        "half-pump:$rate a second, a pump" "half-demand:$rate a second, on demand"
        'many-pump:half of all families, a pump' 'many-demand:half of all families, on demand'
        "many-pump-half:$many_rate a second, a pump" "many-demand-half:$many_rate a second, on demand")
fi

# The runs by what moves and by the rate; those with a stop stand last.
hot=("${full[@]%%:*}") hot_half=("${slow[@]%%:*}")
all=(many-8k many-64k many-1m many-stop) all_half=(many-8k-half many-64k-half many-1m-half many-stop-half)
{
    echo "# What a move costs those who use an engine"
    echo
    echo "Waiting times and the longest time without an answer are in milliseconds. Waiting times are those of the jobs that became due"
    echo "before, during and after the move; answers are counted when they were read."
    echo
    echo "## A hot partition, $roots families, as many jobs as the engine takes"
    echo
    table "${full[@]}"
    echo
    echo "## The same at $rate jobs a second"
    echo
    table "${slow[@]}"
    echo
    echo "## Half of $many families move, as many jobs as the engine takes"
    echo
    table 'many-8k:chunks of 8 KiB' 'many-64k:chunks of 64 KiB' 'many-1m:chunks of 1 MiB' 'many-stop:64 KiB, no job while rows move'
    echo
    echo "## The same at $many_rate jobs a second"
    echo
    table 'many-8k-half:chunks of 8 KiB' 'many-64k-half:chunks of 64 KiB' 'many-1m-half:chunks of 1 MiB' 'many-stop-half:64 KiB, no job while rows move'
    if [ "${#demand[@]}" != 0 ]; then
        echo
        echo "## Both moves by a build that takes no pump, chunks of 64 KiB"
        echo
        table "${demand[@]}"
    fi
    echo
    echo "## Goals"
    echo
    echo '| What | Here | Goal |'
    echo '|---|---|---|'
    goal 'answers a second at rest' "$(range 4 'before after' "${hot[@]}" "${all[@]}")" 500000
    goal "answers a second while half of $many families move, of those before, 8 KiB, 64 KiB and 1 MiB" \
        "$(share_of many-8k) %, $(share_of many-64k) %, $(share_of many-1m) %" '60 %'
    goal 'no answer for, at rest, a hot partition' \
        "$(range 8 'before after' "${hot[@]}"), $(range 8 'before after' "${hot_half[@]}") at half the rate" '100 ms'
    goal "the same, $many families" "$(range 8 'before after' "${all[@]}"), $(range 8 'before after' "${all_half[@]}") at half the rate" '100 ms'
    goal 'in moves, a hot partition' "$(range 8 during "${hot[@]:0:5}"), $(range 8 during "${hot_half[@]:0:5}") at half the rate" '100 ms'
    goal "the same, half of $many families" "$(range 8 during "${all[@]:0:3}"), $(range 8 during "${all_half[@]:0:3}") at half the rate" '100 ms'
    goal '99 of 100 waiting times in a move at half the rate, a hot partition' "$(range 6 during "${hot_half[@]:0:5}")" '5 ms'
    goal "the same, half of $many families" "$(range 6 during "${all_half[@]:0:3}")" '5 ms'
} > "$folder/serve.md"

# The pictures, from the series that stay beside them.
cp "$room"/*.series "$folder"
bash "$top/bench/serve_picture.sh" "$folder" > "$folder/serve.svg"
bash "$top/bench/half_moves.sh" "$folder" > "$folder/half-moves.svg"
