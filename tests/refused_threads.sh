#!/usr/bin/env bash
# Refused threads and allocations of runs in threads: `squall serve` on examples/engine.txt and `squall live` on
# examples/live-move.txt, each with one thread or allocation refused, with no more threads or no more memory from some number on, or
# with no memory for a second from some number on; and `squall serve` with full queues, with no more threads from some number on.
#
#   tests/refused_threads.sh [PATTERN]          some 150 of these runs
#   tests/refused_threads.sh --all [PATTERN]    all numbers of allocations, 64 of threads, and engines with little memory
#
# With a PATTERN only those are made whose command and kind has it, as `serve allocations`, `full threads`, `faults` and `memory`.
#
# The program is the proved one, which `rt ci` leaves in crates/squall/out; SQUALL=PATH takes another. The C compiler (cc, or
# the one that CC names) makes of tests/programs/refuse.c and no_thread.c what refuses. LANES=COUNT says how many runs go side by
# side, 16 if left out, since they sleep for most of their time. MOST=SECONDS says how long each may take, 10 if left out: more on a
# machine that has other work, since workers count turns until they give up. With KEEP=FOLDER what each run wrote stays there, in a
# folder of its own.
#
# Each run ends in time: one that finds no memory any more some 3 seconds after that. Its last line is the one that it has if nothing is
# refused, with all answers before it, or `fault 222` with the status 2 (with the line, in an engine's header), or, if an allocation was
# refused, that of a live run which isn't done (`stopped`), with the status 3. A run whose command line is refused memory writes nothing.
# No answer is a wrong one. If the status isn't 0, standard error says why: of a live run without a thread, that the system grants fewer
# threads. Some of the runs that find no memory for a second go on and end as if nothing was refused. An input with a fault starts no
# thread, but the one that reads for an engine.
set -eu
. "$(dirname "$0")/lib.sh"
squall=${SQUALL:-$top/crates/squall/out/squall}
lanes=${LANES:-16}
room=$(mktemp -d)
trap 'rm -r "$room"' EXIT
runs=${KEEP:-$room/runs}
seconds=${MOST:-10}

# What is written if nothing is refused: what an engine answers each job and at the end, and the line of a live run. Jobs 1 and 2 both add
# 1 to the row of root key 5, in either order.
engine_answers=$'abort 4 0 small\ncommit 1 11\ncommit 2 12\ncommit 3 20/-'
engine_answers_too=$'abort 4 0 small\ncommit 1 12\ncommit 2 11\ncommit 3 20/-'
engine_end='sound 2 families 3 committed'
live_end=$(cat "$examples/live-move.out")

# --- runs ---

# try_one COMMAND KIND NUMBER: one run of `squall COMMAND`, or of `squall serve` on the input of full queues. KIND is what is refused: an
# `allocation` or a `thread` alone, the `allocations` or `threads` from this number on, or for a `second` the allocations from this number
# on. What it writes goes into a folder, with its status and the milliseconds that it took.
try_one() {
    local folder=$runs/$1-$2-$3 words=(serve) input=$examples/engine.txt status=0 since=${EPOCHREALTIME/./}
    case $1 in
        live) words=(live) input=$examples/live-move.txt ;;
        full) words=(serve --pumps 2) input=$room/full ;;
    esac
    mkdir -p "$folder"
    case $2 in
        allocation) set -- "$1" "REFUSE=$3" "REFUSED=$folder/refused" "LD_PRELOAD=$room/refuse.so" ;;
        allocations) set -- "$1" "REFUSE_FROM=$3" "REFUSED=$folder/refused" "LD_PRELOAD=$room/refuse.so" ;;
        second) set -- "$1" "REFUSE_FROM=$3" REFUSE_FOR=1000 "REFUSED=$folder/refused" "LD_PRELOAD=$room/refuse.so" ;;
        thread) set -- "$1" "NO_THREAD=$3" "REFUSED=$folder/refused" "LD_PRELOAD=$room/no_thread.so" ;;
        threads) set -- "$1" "THREADS=$(($3 - 1))" "REFUSED=$folder/refused" "LD_PRELOAD=$room/no_thread.so" ;;
    esac
    timeout -k 1 "$seconds" env "${@:2}" "$squall" "${words[@]}" < "$input" > "$folder/out" 2> "$folder/err" || status=$?
    echo "$status" > "$folder/status"
    echo $(((${EPOCHREALTIME/./} - since) / 1000)) > "$folder/milliseconds"
}

# try_each COMMAND KIND NUMBER..: such a run with each number, as many side by side as there are lanes. They are judged once all that
# were begun have ended (`judge_all`).
try_each() {
    local number
    for number in "${@:3}"; do
        if [ "$running" -ge "$lanes" ]; then
            wait -n || true
            running=$((running - 1))
        fi
        try_one "$1" "$2" "$number" &
        running=$((running + 1))
        begun+=("$1 $2 $number")
    done
}

# judge_all: waits for the runs that were begun, and judges them.
judge_all() {
    local command kind number
    wait
    running=0
    if [ "${#begun[@]}" = 0 ]; then return; fi
    while read -r command kind number; do
        count "$command, $kind $number refused" "$("judge_$command" "$runs/$command-$kind-$number")"
    done < <(printf '%s\n' "${begun[@]}")
    begun=()
}

# try_all_allocations COMMAND KIND: such runs with each number in turn, until none in a round is reached. How many there are varies with
# the threads.
try_all_allocations() {
    local from=1 most=$((lanes * 8))
    while :; do
        try_each "$1" "$2" $(seq "$from" $((from + most - 1)))
        judge_all
        if [ -z "$(refused_runs "$1" "$2" $(seq "$from" $((from + most - 1))))" ]; then break; fi
        from=$((from + most))
    done
}

# refused_runs COMMAND KIND NUMBER..: the folders of the runs with these numbers that were refused an allocation.
refused_runs() {
    local number
    for number in "${@:3}"; do
        if [ -e "$runs/$1-$2-$number/refused" ]; then echo "$runs/$1-$2-$number"; fi
    done
}

# judge_seconds COMMAND: one of the runs that found no memory for a second went on, and ended as if nothing was refused.
judge_seconds() {
    local folder why='no run goes on'
    for folder in "$runs/$1"-second-*; do
        if [ -e "$folder/refused" ] && [ "$(cat "$folder/status")" = 0 ]; then why=; fi
    done
    count "$1, without memory for a second" "$why"
}

# The input of full queues: jobs come to all of six partitions on root keys of the first, so that more answers are due there than its
# ring holds; and other root keys move.
full_input() {
    local old new
    old='[0,1000,0],[1000,2000,1],[2000,3000,2],[3000,4000,3],[4000,5000,4],[5000,4294967296,5]'
    new='[0,1000,0],[1000,2000,2],[2000,3000,3],[3000,4000,4],[4000,5000,5],[5000,6000,1],[6000,4294967296,5]'
    printf '%s\n' "plan {\"version\":1,\"partitions\":6,\"ranges\":[$old]}" 'config 64 64 1'
    seq -f 'row %.0f 0 0 1 -' 0 5999
    seq 1 90000 | awk '{ print "txn", $1 % 6, $1, $1 * 7919 % 1000, "add 0 0 1" }'
    echo "move {\"version\":1,\"partitions\":6,\"ranges\":[$new]}"
    seq 90001 100000 | awk '{ print "txn", $1 % 6, $1, $1 * 7919 % 1000, "add 0 0 1" }'
}

# --- judging ---

# judge_serve FOLDER: what is wrong with a run of the engine; nothing if all is right.
judge_serve() {
    local last answers wrong
    last=$(tail -n 1 "$1/out")
    answers=$(grep -E '^(commit|abort) ' "$1/out" | sort || true)
    wrong=$(grep -vxE 'abort 4 0 small|commit [12] 1[12]|commit 3 20/-' <<< "$answers" || true)
    case $(cat "$1/status"),$last in
        "0,$engine_end")
            case $answers in
                "$engine_answers" | "$engine_answers_too") ;;
                *) echo "sound, but its answers are: ${answers//$'\n'/; }" ;;
            esac
            ;;
        *)
            if [ -n "$wrong" ]; then echo "its answers are: ${answers//$'\n'/; }"; fi
            judge_end "$1" "$last"
            ;;
    esac
}

# judge_full FOLDER: the same of an engine whose queues are full. No job has two answers.
judge_full() {
    local last answered
    last=$(tail -n 1 "$1/out")
    answered=$(grep -c '^commit ' "$1/out" || true)
    case $(cat "$1/status"),$last in
        '0,sound 6000 families 100000 committed')
            if [ "$answered" != 100000 ]; then echo "sound, but it answered $answered jobs"; fi ;;
        *) judge_end "$1" "$last" ;;
    esac
    awk '$1 == "commit" && seen[$2]++ { print "job " $2 " has two answers" }' "$1/out" | head -n 1
}

# judge_live FOLDER: the same of a live run.
judge_live() {
    case $1,$(cat "$1/status"),$(cat "$1/out") in
        *",0,$live_end") ;;
        *-thread-*,2,'fault 222' | *-threads-*,2,'fault 222')
            grep -q 'the system grants fewer threads' "$1/err" || echo "standard error is: $(head -n 1 "$1/err")" ;;
        *-thread-*,3,* | *-threads-*,3,*) echo "status 3, and it says: $(cat "$1/out")" ;;
        *) judge_end "$1" "$(tail -n 1 "$1/out")" ;;
    esac
}

# judge_end FOLDER LINE: the same of a run that isn't done, by its last line.
judge_end() {
    local status
    status=$(cat "$1/status")
    case $status,$2 in
        2, | '2,fault 222' | '2,fault 222 '[1-4] | '3,stopped '*) ;;
        124,* | 137,*) echo "it hasn't ended after $seconds seconds; its last line is: $2"; return ;;
        *) echo "status $status, and its last line is: $2"; return ;;
    esac
    if [ ! -s "$1/err" ]; then echo "status $status, and standard error is empty"; fi
}

# --- faults ---

# try_faults COMMAND THREADS CASE..: `squall COMMAND` ends with the fault of each of these inputs of live runs, and writes the same if it
# has no thread but these: it starts no other one.
try_faults() {
    local case=
    for case in "${@:3}"; do
        give_fault "$1" "$room/wanted" "$tests/cases/live/$case/in"
        rm -f "$room/refused"
        THREADS=$2 REFUSED=$room/refused LD_PRELOAD=$room/no_thread.so give_fault "$1" "$room/got" "$tests/cases/live/$case/in"
        count "$1 of $case, $2 threads" "$(difference "$room/wanted" "$room/got"
            grep -q '^fault .*' "$room/wanted" || echo 'it has no fault'
            if [ -e "$room/refused" ]; then echo 'it asks for a thread'; fi)"
    done
}

# give_fault COMMAND FILE INPUT: what `squall COMMAND` writes of an input, and its status.
give_fault() {
    { timeout -k 1 "$seconds" "$squall" "$1" < "$3" 2>&1; echo "status $?"; } > "$2" || true
}

# The cases of live runs that end with a fault.
faulty_cases() {
    (cd "$tests/cases/live" && grep -lx 2 ./*/status | cut -d / -f 2)
}

# --- little memory ---

# Engines with so little memory that it may run out before all jobs are answered.
try_little_memory() {
    local kilobytes folder status since
    {
        head -n 4 "$examples/engine.txt"
        seq 1 400000 | awk '{ print "txn 0", $1, "5 add 0 0 1" }'
    } > "$room/jobs"
    for kilobytes in 60000 120000 160000 180000 190000 230000 240000 250000 260000 310000 370000; do
        folder=$runs/serve-memory-$kilobytes
        mkdir -p "$folder"
        status=0
        since=${EPOCHREALTIME/./}
        (ulimit -v "$kilobytes" && exec timeout -k 1 60 "$squall" serve < "$room/jobs") \
            > "$folder/out" 2> "$folder/err" || status=$?
        echo $(((${EPOCHREALTIME/./} - since) / 1000)) > "$folder/milliseconds"
        echo "$status" > "$folder/status"
        count "serve, $kilobytes kB of memory" "$(judge_memory "$folder")"
    done
}

# judge_memory FOLDER: what is wrong with a run of such an engine; nothing if all is right.
judge_memory() {
    local last answered
    last=$(tail -n 1 "$1/out")
    answered=$(grep -c '^commit ' "$1/out" || true)
    case $(cat "$1/status"),$last in
        '0,sound 2 families 400000 committed')
            if [ "$answered" != 400000 ]; then echo "sound, but it answered $answered jobs"; fi ;;
        124,* | 137,*) echo "it hasn't ended after 60 seconds and $answered answers; its last line is: $last" ;;
        *) judge_end "$1" "$last" ;;
    esac
}

if [ ! -x "$squall" ]; then
    echo "tests: no program at $squall: run 'rt ci' at the top first" >&2
    exit 1
fi
for name in refuse no_thread; do
    "${CC:-cc}" -shared -fPIC -o "$room/$name.so" "$tests/programs/$name.c" -ldl
done
# The numbers that are tried of a kind without --all.
some_of() {
    case $1 in
        thread*) seq 7 ;;
        allocation) echo 1; seq 9 31 500 ;;
        allocations) echo 1; seq 20 60 320; seq 340 10 440; echo 500 ;;
        second) echo 1; seq 40 60 280; seq 300 20 340; seq 350 5 450; seq 460 20 520 ;;
    esac
}

# try_kind COMMAND KIND: the runs of this kind, some or all, are begun, or judged too.
try_kind() {
    # shellcheck disable=SC2046
    case $every,$2 in
        all,thread*) try_each "$1" "$2" $(seq 64) ;;
        all,*) try_all_allocations "$1" "$2" ;;
        *) try_each "$1" "$2" $(some_of "$2") ;;
    esac
}

# The faults of inputs without a thread, and that a sound input asks for one.
try_all_faults() {
    # shellcheck disable=SC2046
    try_faults live 0 $(faulty_cases)
    try_faults serve 1 a_bad_row header_without_config unknown_stages
    for command in serve live; do
        try_one "$command" threads 1
        count "$command, without a thread" "$([ -e "$runs/$command-threads-1/refused" ] || echo 'it asks for none')"
    done
}

every=
if [ "${1:-}" = --all ]; then
    every=all
    shift
fi
pattern=${1:-}
running=0
begun=()
for command in serve live; do
    for kind in thread threads allocation allocations second; do
        if has_pattern "$command $kind "; then try_kind "$command" "$kind"; fi
    done
done
if has_pattern 'full threads '; then
    full_input > "$room/full"
    # shellcheck disable=SC2046
    try_each full threads $(if [ -n "$every" ]; then seq 10 32; else echo 11 15 18 20 22; fi)
fi
judge_all
for command in serve live; do
    if has_pattern "$command second"; then judge_seconds "$command"; fi
done
if has_pattern faults; then try_all_faults; fi
if [ -n "$every" ] && has_pattern memory; then try_little_memory; fi
longest=$(cat "$runs"/*/milliseconds | sort -n | tail -n 1)
echo "$passed runs with something refused passed, $failed failed; the longest took $longest milliseconds"
[ "$failed" = 0 ]
