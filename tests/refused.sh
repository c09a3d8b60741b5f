#!/usr/bin/env bash
# Refused allocations: runs of `squall run`, in each of which one allocation fails, each one of the run in turn.
#
#   tests/refused.sh
#
# The program is the proved one, which `rt ci` leaves in crates/squall/out; SQUALL=PATH takes another. The C compiler (cc, or
# the one that CC names) makes of tests/programs/refuse.c what lets an allocation fail.
#
# Where an allocation of the command line is refused, nothing is written, and the status is 2. Where an allocation in the header is
# refused, the fault 222 is all that is written. A step whose allocation is refused answers 222 and changes nothing: it goes when
# it is given again, and the other answers and the dump are as if it was given once less. Lines that take no memory ask for none.
set -eu
. "$(dirname "$0")/lib.sh"
squall=${SQUALL:-$top/crates/squall/out/squall}
room=$(mktemp -d)
trap 'rm -r "$room"' EXIT

# The steps with their answers. Those that take memory are given twice: after the line stands the answer to the first
# that goes, and then the answer to the second. The transactions that commit count in the dump.
steps() {
    cat "$tests/programs/refused_steps"
}

header() {
    echo 'old {"version":1,"partitions":2,"ranges":[[0,4294967296,0]]}'
    echo 'new {"version":1,"partitions":2,"ranges":[[0,4,0],[4,8,1],[8,4294967296,0]]}'
    echo 'config 1 64 1'
    printf 'row %s\n' '5 0 0 10 -' '5 1 7 3 6869' '9 0 0 1 -'
}

# The input: each step that takes memory is given twice.
input() {
    local line again
    header
    steps | while IFS='|' read -r line _ again; do
        echo "$line"
        if [ -n "$again" ]; then echo "$line"; fi
    done
}

# output STEP: what is to be written where the allocation of this step, counted from 1, is refused; 0: of none.
output() {
    local line first second step=0 changes=2 puts=2 resumes=2
    case $1 in
        1 | 2) changes=1 ;;
        3 | 4) puts=1 ;;
        11 | 12 | 19 | 20) resumes=1 ;;
    esac
    while IFS='|' read -r line first second; do
        step=$((step + 1))
        if [ "$step" = "$1" ]; then printf 'refused 222\n%s\n' "$first"; step=$((step + 1)); continue; fi
        echo "$first"
        if [ -z "$second" ]; then continue; fi
        # One that wasn't let in to wait isn't resumed.
        if [ "$line" = 'resume 1' ] && [ "$1" != 20 ] && [ "$resumes" = 1 ]; then second='refused 223'; fi
        step=$((step + 1))
        if [ "$step" = "$1" ]; then echo 'refused 222'; else echo "$second"; fi
    done < <(steps)
    printf '%s\n' 'end moving' 'at 0 9 0 0.0=1/-'
    echo "at 1 5 $((changes + resumes)) 0.0=$((10 - 3 * changes))/- 1.7=3/6869 1.8=4/ff"
    printf '%s\n' 'way 0 1 1 0 1 6 8 last 1' "in 6 $puts 0.0=1/61"
}

# run_refused NUMBER: runs the program where the allocation of this number is refused. Leaves what it wrote, its status in
# `ended`, and the file $room/refused where there was such an allocation.
run_refused() {
    rm -f "$room/refused"
    ended=0
    REFUSE=$1 REFUSED=$room/refused LD_PRELOAD=$room/refuse.so "$squall" run < "$room/in" > "$room/out" \
        2> "$room/err" || ended=$?
}

# judge_refused NUMBER: counts what was written where the allocation of this number was refused, and notes what it was for. An
# allocation that isn't needed changes nothing where it is refused.
judge_refused() {
    local got step why=
    got=$(cat "$room/out")
    step=$(grep -n -m 1 -x 'refused 222' "$room/out" | cut -d : -f 1 || true)
    if [ -z "$got" ] && [ "$ended" = 2 ]; then
        step=words
    elif [ "$got" = 'fault 222' ] && [ "$ended" = 2 ]; then
        step=header
    elif [ "$got" != "$(output "${step:-0}")" ] || [ "$ended" != 0 ]; then
        why="status $ended, and not the wanted output (<) but: $(diff <(output "${step:-0}") "$room/out" | head -n 4)"
    fi
    met[${step:-none}]=1
    count "allocation $1" "$why"
}

# Lines that take no memory, whether they are refused or not.
free_lines() {
    printf '%s\n' '' x 'prepare 0' 'prepare 1' start 'split 0 1' 'claim 0 2 2' 'status 0 1' 'push 0 1' 'pop 0 1' 'load 0 1' 'complete 0 2 2' \
        'resume 1' 'report 1' next finish 'fold 0' 'fold 1'
}

# With many lines that take no memory, and a long one, a run asks for as many allocations as with few. All of them are read at once, since
# the program keeps what it read last to say what is wrong in a line, in a buffer that grows.
try_free_lines() {
    local number=1 time
    { header; free_lines; } > "$room/in"
    run_refused "$number"
    while [ -e "$room/refused" ]; do
        number=$((number + 1))
        run_refused "$number"
    done
    { header; for ((time = 0; time < 100; time++)); do free_lines; done; head -c 30000 /dev/zero | tr '\0' a; echo; } > "$room/in"
    run_refused "$number"
    count 'lines that take no memory' "$(if [ -e "$room/refused" ]; then echo 'they ask for some'; fi
        if [ "$(grep -vc '^at ' "$room/out")" != 1802 ]; then echo 'not each is answered'; fi)"
    run_refused $((number - 1))
    count 'lines before them' "$(if [ ! -e "$room/refused" ]; then echo 'they ask for fewer allocations'; fi)"
}

if [ ! -x "$squall" ]; then
    echo "tests: no program at $squall: run 'rt ci' at the top first" >&2
    exit 1
fi
"${CC:-cc}" -shared -fPIC -o "$room/refuse.so" "$tests/programs/refuse.c" -ldl
input > "$room/in"
declare -A met
number=1
run_refused "$number"
while [ -e "$room/refused" ]; do
    judge_refused "$number"
    number=$((number + 1))
    run_refused "$number"
done

# What takes memory: the command line, the header and these steps; an allocation of each was refused in some run.
for step in words header 1 2 3 4 9 11 13 17 19 20 21; do
    if [ -z "${met[$step]:-}" ]; then count "step $step" 'no allocation of it was refused'; fi
done
try_free_lines
echo "$passed refused allocations passed, $failed failed"
[ "$failed" = 0 ]
