#!/usr/bin/env bash
# Counts the instructions that the program takes on four inputs, and fails if one takes over 3 % more than the table
# bench/instructions.txt says (a live run over 10 %), or if an output isn't the wanted one.
#
#   bash bench/instructions.sh            compares with the table
#   bash bench/instructions.sh --write    writes the table anew
#
# The inputs are made from a seed (bench/inputs.sh), and valgrind counts. How many turns without work the threads of a live run take
# depends on the machine, so a live run may take more: the least count of seven runs stands, or the first that the table allows. Nothing
# is counted if valgrind isn't there, or if SKIP=instructions is set.
#
# The program is the proved one, which `rt ci` leaves in crates/squall/out; SQUALL=PATH takes another.
set -eu
export LC_ALL=C
top=$(cd "$(dirname "$0")/.." && pwd)
squall=${SQUALL:-$top/crates/squall/out/squall}
table=$top/bench/instructions.txt
seed=1
if [ "${SKIP:-}" = instructions ]; then
    echo 'instructions: not counted, by SKIP'
    exit 0
fi
if ! command -v valgrind > /dev/null; then
    echo "instructions: not counted, since valgrind isn't there"
    exit 0
fi
if [ ! -x "$squall" ]; then
    echo "instructions: no program at $squall: run 'rt ci' at the top first" >&2
    exit 1
fi
room=$(mktemp -d)
trap 'rm -r "$room"' EXIT
. "$top/bench/inputs.sh"

# counted WORD: the instructions that a subcommand takes on the input; its output must be the wanted one.
counted() {
    valgrind --tool=callgrind --callgrind-out-file=/dev/null "$squall" "$1" < "$room/input" 2> "$room/log" > "$room/output" || true
    if ! cmp -s "$room/output" "$room/wanted"; then
        echo "instructions: the output of 'squall $1' isn't the wanted one; its last line: $(tail -n 1 "$room/output")" >&2
        return 1
    fi
    awk '/Collected/ { print $NF }' "$room/log"
}

# count NAME WORD TIMES PERCENT PROGRAM SETTING..: the least count of TIMES runs of a subcommand on an input goes into $room/counts, or is
# compared with the table's, which it may exceed by PERCENT. Then the first one that isn't too large ends the runs.
count() {
    local least= time instructions stored most=0 percent=$4
    generate "$5" "${@:6}"
    if [ -z "$writes" ]; then
        stored=$(awk -v name="$1" '$1 == name { print $2 }' "$table")
        most=$((${stored:-0} * (100 + percent) / 100))
    fi
    for ((time = 0; time < $3; time++)); do
        instructions=$(counted "$2")
        if [ -z "$least" ] || [ "$instructions" -lt "$least" ]; then least=$instructions; fi
        if [ "$least" -le "$most" ]; then break; fi
    done
    echo "$1 $least" >> "$room/counts"
    if [ -n "$writes" ]; then return; fi
    echo "instructions of $1: $least, and ${stored:-none} in the table"
    if [ "$least" -gt "$most" ]; then
        echo "instructions: $1 takes over $percent % more" >&2
        failed=1
    fi
}

writes=
failed=0
if [ "${1:-}" = --write ]; then writes=1; fi
count transactions run 1 3 "$transactions" roots=2000 count=20000
count move-in-chunks run 1 3 "$chunks" roots=10000
count resumed-transactions run 1 3 "$resumes" segments=8
count live-run live 7 10 "$jobs" roots=4096 parts=4 count=4096
if [ -n "$writes" ]; then
    { echo '# Instructions by input, as bench/instructions.sh --write wrote them.'; cat "$room/counts"; } > "$table"
fi
[ "$failed" = 0 ]
