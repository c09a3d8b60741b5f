#!/usr/bin/env bash
# Refused allocations of calls of the library: runs in each of which one allocation fails, each one of a call in turn.
#
#   tests/refused_calls.sh
#
# The program is the proved one, which `rt ci` leaves in crates/sq_refusals/out; CALLS=PATH takes another. Its input is the letter of
# a call, and for a call on a stored run the lines of that run. The C compiler (cc, or the one that CC names) makes of
# tests/programs/refuse.c what lets an allocation fail: in the first run the first one, in the next run the second one, and so on up
# to a run that asks for fewer allocations. With KEEP=FOLDER the output of each run stays there.
#
#   steps        each step by `World::step`; one that answers 222 is made once more
#   list         all steps by `run_world`; an opening that comes back is used once more
#   input        the whole text by `run`
#   vec          `apply`, `take` and `give` of a `VecStore`, with all families after each; one that is refused is called once more
#   block        the same of a `SlabStore`
#   nodes        a tree and a link without nodes, and two pulls of a leaf, the second of which is under way at the end
#   two_stages   a move in two stages with a fold between them
#   folds        the same, with a fold in threads
#   engine       an engine: a client of three jobs at rest, the end of an epoch, a move with a client, a move back with a client that
#                posts nothing, and the end, with the verdict
#   chain        an engine: a move in two stages with a job that is posted in each, a move back, and the end, with the verdict
#
# All print first that they start. If an allocation outside the calls that are tried is refused, the last line of the run says so.
#
# A step that answers 222 changes nothing: it is made once more, and it and all later ones answer as if nothing was refused, with the
# same dump. Of a list at most one step is refused, and the rest is what the rules say of the script without it. Of an input the same,
# or the fault 222 is all that is written.
#
# The runs of `nodes`, `two_stages` and `folds` are stepped by hand. If an allocation is refused of a tree, of a link, or of what a
# run opens with (its trees, links, queues, nodes and pumps), it is opened once more. A step whose allocation is refused says so, and
# a later turn does its work; so is a turn that has no room for its receipts. A gathering, a fold and a next stage return what they
# were given if an allocation of theirs is refused, and are called once more with it, and so are the calls of an engine, which they
# leave in force. So what is left in the end is always the same.
#
# The workers of `engine` and `chain` run in threads, so an allocation of the same number isn't always of the same call, and two
# runs may ask for different numbers of allocations.
set -eu
. "$(dirname "$0")/lib.sh"
program=${CALLS:-$top/crates/sq_refusals/out/sq_refusals}
room=$(mktemp -d)
trap 'rm -r "$room"' EXIT
outputs=${KEEP:-$room/outputs}

# How many runs are made before it is looked at whether an allocation failed in each.
batch=40

# The calls that are tried, each with the stored run that it is called on and with what takes memory in it. tests/refused.sh refuses
# allocations of the program `squall`.
tries() {
    cat "$tests/programs/refused_calls/tries"
}

# The letter of a call, and the stored run that it is called on.
input_of() {
    printf '%s' "${1:0:1}"
    cat "$(stored "$tests/cases/run/$2/in")"
}

# run_batch NAME FIRST: runs the program on $room/in where the allocation of this number fails, and so the next ones, four at once.
# Leaves what each wrote in $outputs/NAME.NUMBER, with a line `died` if it ended by a signal or not in time, and a file
# $room/refused.NUMBER where there was such an allocation.
run_batch() {
    # shellcheck disable=SC2016
    seq "$2" $(($2 + batch - 1)) | xargs -P 4 -I NUMBER bash -c '
        ended=0
        REFUSE=NUMBER REFUSED=$1/refused.NUMBER LD_PRELOAD=$1/refuse.so timeout 60 "$2" < "$1/in" > "$3.NUMBER" 2> /dev/null || ended=$?
        if [ "$ended" -gt 1 ]; then echo died >> "$3.NUMBER"; fi' run "$room" "$program" "$outputs/$1"
}

# try_all NAME: runs the program on $room/in where each allocation fails in turn. Leaves the number of the first run that had none that
# failed in `last`.
try_all() {
    local first=1
    last=
    while [ -z "$last" ]; do
        run_batch "$1" "$first"
        for ((last = first; last < first + batch; last++)); do
            if [ ! -e "$room/refused.$last" ]; then rm -f "$room"/refused.*; return; fi
        done
        first=$last
        last=
    done
}

# --- what is wanted of steps, a list and a store ---

# list_without STEP: what the shortest whole move comes to where this step of it is refused for want of memory.
list_without() {
    local step=$1
    awk -v step="$step" 'NR < step' "$tests/cases/run/moves_four_keys/out"
    echo 'refused 222'
    case $step in
        5) printf 'refused %s\n' 209 211 213 215 227 218 218 ;;
        6) printf 'refused %s\n' 211 213 215 216 218 218 ;;
        9) printf 'refused %s\n' 216 218 218 ;;
        *) echo "step $step takes no memory"; return ;;
    esac
    printf '%s\n' 'waits 9 0 1' 'end moving'
    case $step in
        9) printf '%s\n' 'way 0 1 0 0 1 4 8 last 1' 'in 5 0 0.0=10/-' ;;
        *) echo 'at 0 5 0 0.0=10/-' ;;
    esac
}

# The calls of a store, each with its answer, and the families after it.
calls() {
    cat "$tests/programs/refused_calls/calls"
}

# of_store CALL: what is to be written by the calls of a store where the call of this number, counted from 1, is refused; 0:
# of none.
of_store() {
    local name answer after before= number=0
    printf '%s\n' starts opened
    while IFS='|' read -r name answer after; do
        number=$((number + 1))
        if [ "$number" = "$1" ]; then
            echo "refused $name"
            if [ "$name" = give ]; then echo 'back 5'; fi
            if [ -n "$before" ]; then tr ';' '\n' <<< "$before"; fi
        fi
        echo "$answer"
        tr ';' '\n' <<< "$after"
        before=$after
    done < <(calls)
}

# wanted CALL RUN STEP: what is to be written by a call on a stored run where its step of this number is refused; 0: of none.
wanted() {
    local out=$tests/cases/run/$2/out
    case $1 in
        steps)
            printf '%s\n' starts opened
            if [ "$3" = 0 ]; then cat "$out"; else awk -v step="$3" 'NR == step { print "refused 222" } { print }' "$out"; fi
            ;;
        list | input) printf '%s\n' starts opened; if [ "$3" = 0 ]; then cat "$out"; else list_without "$3"; fi ;;
        vec | block) of_store "$3" ;;
    esac
}

# --- what is wanted of nodes and engines ---

# of_nodes CALL: what a call writes if nothing is refused.
of_nodes() {
    cat "$tests/programs/refused_calls/${1/folds/two_stages}.out"
}

# --- judging ---

# refused_call: the number of the call of a store that was refused: one more than the calls that answered before it.
refused_call() {
    awk '/^refused / { print calls + 1; exit } /^(commit|took|gave)/ { calls++ }'
}

# matches WANTED GOT WORD: says WORD if the output is the wanted one, and else that it is wrong.
matches() {
    if [ "$1" = "$2" ]; then echo "$3"; else echo "wrong: not the wanted output (<) but: $(diff <(echo "$1") <(echo "$2") | head -n 4)"; fi
}

# is_outside WHOLE GOT: whether the output says that an allocation was refused that is of no call that is tried, and is the beginning
# of the whole output up to there.
is_outside() {
    [[ $2 = *$'\nno memory' && $1$'\n' = "${2%no memory}"* ]]
}

# judge_steps CALL RUN GOT: says of which step of steps, a list, an input or a store an allocation was refused: `none`; `outside` of
# what is tried; or that the output is wrong.
judge_steps() {
    local got=$3 step word=none
    if is_outside "$(wanted "$1" "$2" 0)" "$got"; then echo outside; return; fi
    if [ "$1,$got" = $'input,starts\nopened\nfault 222' ]; then echo header; return; fi
    if [ "$1" = list ] && [ "$(grep -n -x back <<< "$got")" = 3:back ]; then
        word=back
        got=$(grep -v -x back <<< "$got")
    fi
    case $1 in
        vec | block)
            step=$(refused_call <<< "$got")
            if [ -n "$step" ]; then word=$(calls | sed -n "${step}s/|.*//p"); fi
            ;;
        *)
            step=$(grep -n -m 1 -x 'refused 222' <<< "$got" | cut -d : -f 1 || true)
            if [ -n "$step" ]; then
                step=$((step - 2))
                word=$(grep -v -E '^(old|new|config|row) ' "$tests/cases/run/$2/in" | sed -n "${step}s/ .*//p")
            fi
            ;;
    esac
    matches "$(wanted "$1" "$2" "${step:-0}")" "$got" "$word"
}

# judge_nodes CALL GOT: says the same of an output of the other calls.
judge_nodes() {
    local got=$2 whole refused
    whole=$(of_nodes "$1")
    # Outside are reading the header, the jobs and the plans, posting by hand, and the text.
    if is_outside "$whole" "$got"; then echo outside; return; fi
    refused=$(sed -n 's/^refused //p' <<< "$got")
    matches "$whole" "$(grep -v '^refused ' <<< "$got")" "${refused:-none}"
}

# judge CALL RUN GOT: says what was refused, by the output.
judge() {
    case $1 in
        nodes | two_stages | folds | engine | chain) judge_nodes "$1" "$3" ;;
        *) judge_steps "$@" ;;
    esac
}

# judge_run CALL RUN NUMBER: counts a run, and leaves in `word` what was refused in it. An output that came before is judged as it was.
judge_run() {
    local got
    IFS= read -r -d '' got < "$outputs/$1.$2.$3" || true
    got=${got%$'\n'}
    if [ -z "${judged[$got.]:-}" ]; then judged[$got.]=$(judge "$1" "$2" "$got"); fi
    word=${judged[$got.]}
    case $word in
        wrong*) count "$1 of $2, allocation $3" "$word" ;;
        *) count "$1" '' ;;
    esac
}

# judge_all CALL RUN: refuses each allocation in turn, and judges the runs. Leaves what was refused in `met`; in the last run nothing was.
judge_all() {
    local call=$1 run=$2 number word last
    try_all "$call.$run"
    for ((number = 1; number < last; number++)); do
        judge_run "$call" "$run" "$number"
        case $word in wrong*) ;; *) met[$word]=1 ;; esac
    done
    judge_run "$call" "$run" "$last"
    if [ "$word" != none ]; then count "$call of $run" "without an allocation that fails: $word"; fi
    echo "$call of $run: $((last - 1)) allocations"
}

# lacks_one WORDS..: whether `met` lacks one of these.
lacks_one() {
    local what
    for what in "$@"; do
        if [ -z "${met[$what]:-}" ]; then return 0; fi
    done
    return 1
}

# check CALL RUN WORDS..: judges all runs of a call. An allocation of each word was refused in some run, and of nothing else. If
# runs in threads missed one, all runs are made again, twice at most.
check() {
    local call=$1 run=$2 what
    shift 2
    declare -A met=() judged=()
    input_of "$call" "$run" > "$room/in"
    judge_all "$call" "$run"
    if lacks_one "$@"; then judge_all "$call" "$run"; fi
    if lacks_one "$@"; then judge_all "$call" "$run"; fi
    for what in "$@"; do
        if [ -z "${met[$what]:-}" ]; then count "$call of $run" "no allocation of $what was refused"; fi
        unset "met[$what]"
    done
    unset 'met[none]' 'met[outside]'
    for what in "${!met[@]}"; do count "$call of $run" "$what isn't to be refused memory, and was"; done
}

if [ ! -x "$program" ]; then
    echo "tests: no program at $program: run 'rt ci' at the top first" >&2
    exit 1
fi
mkdir -p "$outputs"
"${CC:-cc}" -shared -fPIC -o "$room/refuse.so" "$tests/programs/refuse.c" -ldl
while read -r call run words; do
    # shellcheck disable=SC2086
    check "$call" "$run" $words
done < <(tries)
echo "$passed refused allocations of calls passed, $failed failed"
[ "$failed" = 0 ]
