#!/usr/bin/env bash
# Times seven scripts: transactions on a database at rest, a move in chunks, a move one by one, transactions that wait for
# their rows and are resumed, empty lines, a root key with very many rows, and very many root keys. Fails where an output
# isn't the wanted one.
#
#   bash bench/run.sh [SEED]      (a seed from 1 to 2147483646; 1 if left out)
#
# Prints for each script the seconds, the lines a second, the most memory that the program took, and the multiple of the
# time that `LC_ALL=C wc -lw` takes on the same input, which is a measure that every machine has. Then it prints
# how the time of a transaction and of a chunk grows with the database, and that of a transaction with the rows of its root
# key: the ratio of the time at many to that at 1,000, and the ratio of the instructions, where valgrind is there to count
# them (a log has no room for as many transactions of one operation as could be timed beside so many rows, so these are
# counted alone); and what a fold of nearly 100,000 families takes. These are differences of an input with the steps and one
# without them. Each of these times is processor time. At last come live runs with 4,096 jobs, whose partitions each give
# all their root keys to the next one: how many jobs are answered in a second that passes, and the ratio to a run of one
# partition. Each time is the best of several (RUNS=COUNT, 5 if left out).
#
# The program is crates/squall/out/squall, which `rt run` leaves in crates/squall; SQUALL=PATH takes another.
set -eu
export LC_ALL=C
top=$(cd "$(dirname "$0")/.." && pwd)
squall=${SQUALL:-$top/crates/squall/out/squall}
runs=${RUNS:-5}
seed=${1:-1}
if [ ! -x "$squall" ]; then
    echo "bench: no program at $squall: run 'rt run -- run < stdin' in crates/squall first" >&2
    exit 1
fi
room=$(mktemp -d)
trap 'rm -r "$room"' EXIT

. "$top/bench/inputs.sh"

# Runs a subcommand of the program, `run` if none is named, on the input, and compares what it writes with what is wanted.
check() {
    local status=0
    "$squall" "${2:-run}" < "$room/input" > "$room/output" || status=$?
    if [ "$status" != 0 ] || ! cmp -s "$room/output" "$room/wanted"; then
        echo "bench: $1: status $status, and the output isn't the wanted one; its last lines:" >&2
        tail -n 3 "$room/output" | cut -c 1-200 >&2
        exit 1
    fi
}

# best COUNT WORD..: the least processor time in microseconds that a command takes on the input, of COUNT in sequence.
best() {
    local count=$1 least= taken run i
    local TIMEFORMAT='%3U %3S'
    shift
    for ((run = 0; run < runs; run++)); do
        taken=$({ time for ((i = 0; i < count; i++)); do "$@" < "$room/input" > "$room/output"; done; } 2>&1)
        taken=$(awk -v count="$count" '{ printf "%.0f", ($1 + $2) * 1000000 / count }' <<< "$taken")
        if [ -z "$least" ] || [ "$taken" -lt "$least" ]; then least=$taken; fi
    done
    echo "$least"
}

# elapsed WORD..: the least time in microseconds that passes while a command runs on the input.
elapsed() {
    local least= from taken run
    for ((run = 0; run < runs; run++)); do
        from=$(date +%s%N)
        "$@" < "$room/input" > "$room/output"
        taken=$((($(date +%s%N) - from) / 1000))
        if [ -z "$least" ] || [ "$taken" -lt "$least" ]; then least=$taken; fi
    done
    echo "$least"
}

# The most memory that the program takes on the input, in kilobytes.
memory() {
    /usr/bin/time -f %M -o "$room/memory" "$squall" run < "$room/input" > "$room/output"
    cat "$room/memory"
}

# measure NAME PROGRAM NAME=VALUE..: times one script.
measure() {
    local name=$1 ours yardstick
    shift
    generate "$@"
    check "$name"
    ours=$(best 1 "$squall" run)
    yardstick=$(best 10 wc -lw)
    awk -v name="$name" -v ours="$ours" -v yardstick="$yardstick" -v memory="$(memory)" '
END {
    seconds = ours / 1000000
    printf "%s: %d lines, %.3f seconds, %.0f lines a second, %.1f MB, %.2f times wc -lw\n", name, NR, seconds, NR / seconds, memory / 1024, ours / yardstick
}' "$room/input"
}

# The instructions that the program takes on the input, by valgrind.
instructions() {
    valgrind --tool=callgrind --callgrind-out-file=/dev/null "$squall" run < "$room/input" 2>&1 > "$room/output" |
        awk '/Collected/ { print $NF }'
}

# taken COUNT: what the program takes on the input in the unit of this moment, `nanoseconds` of the processor, the least of
# COUNT runs in sequence, or `instructions`.
taken() {
    if [ "$unit" = instructions ]; then instructions; else echo $(($(best "$1" "$squall" run) * 1000)); fi
}

# script_cost COUNT NAME PROGRAM PARTS NAME=VALUE..: what one part of a script takes, which is COUNT times run in sequence.
script_cost() {
    local runs_each=$1 name=$2 program=$3 parts=$4
    shift 4
    difference "$runs_each" "$name" "$program" "$parts" count=0 count="$parts" "$@"
}

# difference COUNT NAME PROGRAM PARTS WITHOUT WITH NAME=VALUE..: what a script takes more with one setting than with
# another, divided by PARTS.
difference() {
    local runs_each=$1 name=$2 program=$3 parts=$4 less=$5 more=$6 without with
    shift 6
    generate "$program" "$@" "$less"
    check "$name"
    without=$(taken "$runs_each")
    generate "$program" "$@" "$more"
    check "$name"
    with=$(taken "$runs_each")
    echo $(((with - without) / parts))
}

# counted COMMAND..: does it in instructions, where valgrind is there to count them.
counted() {
    unit=instructions
    if command -v valgrind > /dev/null; then "$@"; fi
    unit=nanoseconds
}

# timed_and_counted COMMAND..: does it in nanoseconds, and then in instructions.
timed_and_counted() {
    "$@"
    counted "$@"
}

# say_growth NAME WHAT FEW MANY COUNT: what a part of a script takes at 1,000 of something and at COUNT.
say_growth() {
    awk -v name="$1" -v what="$2" -v few="$3" -v many="$4" -v count="$5" -v unit="$unit" 'BEGIN {
    printf "%s: %d %s at 1,000 %s, %d at %s, which is %.2f times\n", name, few, unit, what, many, count, many / few
}'
}

# grows NAME PROGRAM FEW MANY ROOTS SAID: how what a part of a script takes grows with the database, where the scripts have
# so many parts at 1,000 families and at ROOTS.
grows() {
    local name=$1 program=$2 few many
    few=$(script_cost 40 "$name" "$program" "$3" roots=1000 moved=500 most_number=10)
    many=$(script_cost 1 "$name" "$program" "$4" roots="$5" moved="$4" most_number=10)
    say_growth "$name" families "$few" "$many" "$6"
}

# grows_with_rows OPERATIONS COUNT: how what a transaction of so many operations takes grows with the rows of its root key,
# where the scripts have COUNT of them.
grows_with_rows() {
    local settings="operations=$1 writes=1" few many
    few=$(script_cost 5 "rows of one root key" "$rows_of_one" "$2" many=1000 $settings)
    many=$(script_cost 1 "rows of one root key" "$rows_of_one" "$2" many=900000 $settings)
    say_growth "a transaction of $1 operation$([ "$1" = 1 ] || echo s)" "rows of its root key" "$few" "$many" 900,000
}

# What the first write of a root key takes, which copies the rows that the log starts from.
first_write() {
    local many
    many=$(difference 1 "the first write" "$rows_of_one" 900000 writes=0 writes=1 many=900000 operations=60 count=0)
    echo "the first write of a root key with 900,000 rows: $many nanoseconds a row"
}

# What a fold takes, as the difference of a script with it and one without it.
folding() {
    local without with yardstick
    generate "$folds" fold=0
    check "a script without a fold"
    without=$(best 1 "$squall" run)
    generate "$folds" fold=1
    check "a fold"
    with=$(best 1 "$squall" run)
    yardstick=$(best 10 wc -lw)
    awk -v without="$without" -v with="$with" -v yardstick="$yardstick" 'BEGIN {
    printf "a fold of 99999 families with 10 transactions each: %.3f seconds, %.2f times wc -lw on its script\n", (with - without) / 1000000, (with - without) / yardstick
}'
}

# lively PARTITIONS [RATE]: times a live run. Leaves how many jobs it answers a second in `rate`, and prints the ratio to
# another rate, where one is named.
lively() {
    generate "$jobs" roots=4096 parts="$1" count=4096
    check "live run of $1 partitions" live
    rate=$((4096 * 1000000 / $(elapsed "$squall" live)))
    awk -v parts="$1" -v rate="$rate" -v other="${2:-$rate}" 'BEGIN {
    printf "a live run of %d partition%s: %d jobs a second, %.2f times as many as of one\n", parts, parts == 1 ? "" : "s", rate, rate / other
}'
}

measure transactions "$transactions" roots=10000 count=100000
measure "move in chunks" "$chunks" roots=50000
measure "move one by one" "$one_by_one"
measure "resumed transactions" "$resumes" segments=32
measure "empty lines" "$empty_lines"
measure "a root key with many rows" "$rows_of_one" many=900000 count=4000 operations=60 writes=1
measure "many root keys" "$transactions" roots=900000 count=50000
unit=nanoseconds
timed_and_counted grows "a transaction" "$transactions" 2000 90000 900000 900,000
timed_and_counted grows "a chunk" "$growing_chunks" 500 100000 400000 400,000
counted grows_with_rows 1 4000
timed_and_counted grows_with_rows 60 4000
first_write
folding
lively 1
one=$rate
lively 4 "$one"
lively 16 "$one"
