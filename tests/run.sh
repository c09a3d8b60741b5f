#!/usr/bin/env bash
# Stored runs: whole inputs of `squall run`, `squall ranges` and `squall live`, command lines, and all that is written for
# them.
#
#   tests/run.sh [PATTERN]
#
# Gives the program each case of tests/cases, and those that tests/made.sh and tests/limits.sh make; what it writes on
# standard output and on standard error must be what is stored, byte for byte, and so must its exit status. tests/lib.sh says
# what a case is. What needs more than words and an input comes then, each kind by a function below: streams that fail, memory
# that runs out, a session, a live run at a terminal, live runs whose threads go in another order each time, and the scripts of
# whole moves.
#
# With a PATTERN only the cases and kinds whose name has it are tried: `tests/run.sh live/`, `tests/run.sh streams`.
#
# The programs are those that `rt ci` leaves in crates/squall/out: squall, as LLVM builds it, and squall.by-rattle, as
# Rattle's own compiler does. SQUALL=PATH takes another one.
set -eu
. "$(dirname "$0")/lib.sh"
. "$(dirname "$0")/serving.sh"
. "$(dirname "$0")/files.sh"
pattern=${1:-}
built=$top/crates/squall/out/squall
room=$(mktemp -d)
trap 'rm -r "$room"' EXIT

# give INPUT WORD..: runs the program with these words on this input. Leaves what it wrote, and its status in `ended`.
give() {
    local input=$1
    shift
    ended=0
    timeout 120 "$squall" "$@" < "$input" > "$room/out" 2> "$room/err" || ended=$?
}

# run_case FOLDER CASE: gives a case to the program.
run_case() {
    local words
    mapfile -t words < <(words_of "$1" "$2")
    give "$(stored "$1/$2/in")" "${words[@]}"
    judge_case "$1" "$2"
}

# still_running: the processes that run the program.
still_running() {
    find /proc -mindepth 2 -maxdepth 2 -name exe -lname "$squall" 2> /dev/null || true
}

# compare NAME INPUT STATUS LINE [WORD]: gives an input to a subcommand, `run` if none is named; what it is to write lies in
# $room/wanted, and ends with a fault that belongs to this line.
compare() {
    give "$2" "${5:-run}"
    said "$(sed -n '$s/^fault //p' "$room/wanted")" "$4" > "$room/said"
    judge "$1" "$3" "$room/wanted" "$room/said"
}

# The texts of a number are of one table: those of faults in tests/texts, and what 'squall explain' writes of each number
# alone. The case usage/explain has the whole table.
try_numbers() {
    local number text
    give /dev/null explain
    cp "$room/out" "$room/all"
    : > "$room/one_by_one"
    while read -r number _; do
        give /dev/null explain "$number"
        cat "$room/out" >> "$room/one_by_one"
    done < <(grep '^[0-9]' "$room/all")
    count numbers_one_by_one "$(difference "$room/all" "$room/one_by_one")"
    grep '^[0-9]' "$room/all" > "$room/meanings"
    while read -r number text; do
        case $text in
            plan*) text="a $text" ;;
            'a line of the header has more'*) text="a line has more${text#*has more}" ;;
        esac
        if grep -qxF "$number $text" "$room/meanings"; then text=; fi
        count "meaning of $number" "$text"
    done < "$tests/texts"
}

# Texts of tests/plans, each behind the number of its fault, or behind 0 where it is a plan. Given as the only line of a
# header, a plan is followed by the fault of the line that is missing.
try_plans() {
    local line number
    while IFS= read -r line; do
        number=${line%% *}
        if [ "$number" = 0 ]; then number=121; fi
        echo "old ${line#* }" > "$room/plan"
        echo "fault $number" > "$room/wanted"
        give "$room/plan" run
        count "plan ${line#* }" "$(difference "$room/wanted" "$room/out"; if [ "$ended" != 2 ]; then echo "status $ended"; fi)"
    done < "$tests/plans"
}

# Two ways to give an input that come to the same: a file with --echo, and plans in files where there are no rows.
try_pairs() {
    local case=$room/cases/parts/moves_four_keys
    give "$examples/first-move.txt" run --echo
    cp "$room/out" "$room/wanted"
    give /dev/null run "$examples/first-move.txt" --echo
    judge run_of_a_file_with_echo 0 "$room/wanted" /dev/null
    grep -v '^row ' "$tests/cases/run/moves_four_keys/in" > "$room/whole"
    give "$room/whole" run
    cp "$room/out" "$room/wanted"
    give "$case/in" run --old "$case/old.json" --new "$case/new.json"
    judge plans_in_files_and_no_rows 0 "$room/wanted" /dev/null
}

# The help text of each subcommand has at most 80 columns.
try_helps() {
    local word count=0
    give /dev/null help
    cp "$room/out" "$room/help"
    for word in $(sed -n '/^Commands:$/,/^$/s/^  \([a-z]*\) .*/\1/p' "$room/help" | grep -vx help); do
        give /dev/null help "$word"
        count "columns of the help of $word" "$(awk 'length > 80' "$room/out" | head -n 1; [ -s "$room/out" ] || echo none)"
        count=$((count + 1))
    done
    count columns_of_the_help "$(awk 'length > 80' "$room/help" | head -n 1; [ "$count" -ge 8 ] || echo "$count subcommands")"
}

# What tools/ makes of the help texts: the manual page has each subcommand with its options, and bash completes them.
try_tools() {
    local word
    bash "$top/tools/manual.sh" "$squall" > "$room/manual"
    bash "$top/tools/completions.sh" "$squall" > "$room/completions"
    give /dev/null help
    for word in $(sed -n '/^Commands:$/,/^$/s/^  \([a-z]*\) .*/\1/p' "$room/out" | grep -vx help); do
        give /dev/null help "$word"
        sed -n '/^Options:$/,/^$/s/^  \(    \|-., \)\(--[a-z-]*\).*/\2/p' "$room/out" > "$room/wanted"
        sed -n "/^\.SS squall $word\$/,/^\.SS /s/^\.B \(\\\\-., \)*\(\\\\-\\\\-[a-z\\-]*\).*/\2/p" "$room/manual" | tr -d '\\' > "$room/got"
        count "manual page of $word" "$(difference "$room/wanted" "$room/got"; [ -s "$room/got" ] || echo none)"
        count "completions of $word" "$(completed "$word" -- > "$room/got"; difference "$room/wanted" "$room/got")"
    done
    count 'completion of a subcommand' "$(completed ru | grep -vx run; completed help ru | grep -vx run)"
    count 'completion of a number' "$(completed live --pumps ''; completed explain '')"
    count 'completion of a file' "$(completed live --old '' | grep -vx -e '-o default'; completed run x | grep -vx -e '-o default')"
    count 'completion of a folder' "$(completed demo --stages x | grep -vx -e '-o dirnames')"
}

# completed WORD..: what bash completes behind the name of the program, or by which option it takes the names of files.
completed() {
    (
        compopt() { COMPREPLY=("$*"); }
        # shellcheck disable=SC1091
        . "$room/completions"
        # shellcheck disable=SC2034
        COMP_WORDS=(squall "$@") COMP_CWORD=$#
        _squall
        if [ ${#COMPREPLY[@]} != 0 ]; then printf '%s\n' "${COMPREPLY[@]}"; fi
    )
}

# An input without end ends the run, a directory can't be read, and a full device can't be written.
try_streams() {
    local four_keys=$tests/cases/run/moves_four_keys/in jobs=$tests/cases/live/move_without_jobs/in
    echo "fault 122" > "$room/wanted"
    compare endless_input <(head -n 4 "$four_keys"; tr '\0' a < /dev/zero) 2 5
    compare live_without_end <(head -n 4 "$jobs"; tr '\0' a < /dev/zero) 2 5 live
    echo "fault 123" > "$room/wanted"
    compare input_that_is_not_read "$room" 2 1
    compare plans_that_are_not_read "$room" 2 1 ranges
    compare live_that_is_not_read "$room" 2 1 live
    said 124 > "$room/said"
    write_nowhere output_that_is_not_written "$four_keys" run
    write_nowhere listing_that_is_not_written "$tests/cases/ranges/the_last_key/in" ranges
    write_nowhere live_that_is_not_written "$jobs" live
    write_nowhere steps_that_are_not_written "$jobs" steps
    write_nowhere help_that_is_not_written /dev/null --help
    write_to_no_one output_that_no_one_reads "$four_keys" run
    write_to_no_one live_that_no_one_reads "$jobs" live
    write_to_no_one steps_that_no_one_reads "$jobs" steps
    write_to_no_one numbers_that_no_one_reads /dev/null explain
    write_to_no_one help_that_no_one_reads /dev/null --help
}

# write_nowhere NAME INPUT WORD: gives an input to the program, whose standard output is full.
write_nowhere() {
    ended=0
    timeout 120 "$squall" "$3" < "$2" > /dev/full 2> "$room/err" || ended=$?
    : > "$room/out"
    judge "$1" 2 /dev/null "$room/said"
}

# write_to_no_one NAME INPUT WORD: gives an input to the program, whose standard output is a pipe that no one reads. It says
# nothing of that.
write_to_no_one() {
    mkfifo "$room/unread"
    exec 9<> "$room/unread" 8> "$room/unread"
    exec 9>&-
    ended=0
    (trap '' PIPE; exec timeout 120 "$squall" "$3" < "$2" >&8 2> "$room/err" 8>&-) || ended=$?
    exec 8>&-
    rm "$room/unread"
    : > "$room/out"
    judge "$1" 2 /dev/null /dev/null
}

# After a failed write nothing more is written. The output is a file that is as long as it may be, and is emptied once a write
# has failed. Standard error is a full pipe, so that the program waits there until that is done.
try_late_write() {
    local running state= looks=0
    head -c 1024 /dev/zero > "$room/answers"
    mkfifo "$room/late"
    exec 9<> "$room/late" 6< "$room/late"
    dd if=/dev/zero of="$room/late" bs=4096 oflag=nonblock 2> /dev/null || true
    (
        ulimit -f 1
        trap '' XFSZ
        exec "$squall" run < "$tests/cases/run/empty_input/in" >> "$room/answers" 2>&9 6<&- 9>&-
    ) &
    running=$!
    while [ "$state" != S ] && [ "$looks" -lt 600 ]; do
        sleep 0.1
        if [ "/proc/$running/exe" -ef "$squall" ]; then
            state=$(cut -d ' ' -f 3 "/proc/$running/stat" 2> /dev/null || true)
        fi
        looks=$((looks + 1))
    done
    : > "$room/answers"
    tr -d '\0' <&6 9>&- > "$room/err" &
    ended=0
    wait "$running" || ended=$?
    exec 9>&-
    wait "$!"
    exec 6<&-
    cp "$room/answers" "$room/out"
    rm "$room/answers" "$room/late"
    if [ "$state" != S ]; then echo 'it has not waited' >> "$room/err"; fi
    said 124 > "$room/said"
    judge output_that_is_written_no_more 2 /dev/null "$room/said"
}

# give_in_16_mib INPUT WORD: gives an input to a subcommand in a program that has no more than 16 MiB.
give_in_16_mib() {
    (
        ulimit -v 16384
        give "$1" "$2"
        echo "$ended" > "$room/ended"
    )
    ended=$(cat "$room/ended")
}

# What the program takes doesn't grow with its input, here of 40 MB. Where there is no memory for a row of the header,
# that is all that is written.
try_memory() {
    local line='txn 0 1 9 check 0 0 1 get 0 0 get 0 0 get 0 0'
    { head -n 4 "$tests/cases/run/moves_four_keys/in"; yes "$line" | head -n 900000; } > "$room/large.in"
    { yes 'abort 1 0 absent' | head -n 900000; printf '%s\n' 'end idle' 'at 0 5 0 0.0=10/-'; } > "$room/wanted"
    give_in_16_mib "$room/large.in" run
    judge memory_that_does_not_grow 0 "$room/wanted" /dev/null
    { head -n 3 "$tests/cases/run/moves_four_keys/in"; seq -f 'row %.0f 0 0 1 -' 0 499999; } > "$room/large.in"
    echo 'fault 222' > "$room/wanted"
    said 222 > "$room/said"
    give_in_16_mib "$room/large.in" run
    judge memory_that_runs_out_in_the_header 2 "$room/wanted" "$room/said"
    give_in_16_mib "$room/large.in" live
    judge memory_that_runs_out_before_the_jobs 2 "$room/wanted" "$room/said"
}

# Live runs in two partitions without a thread, or with one: the pump takes one, and the second partition another. They end after
# some seconds, on a busy machine within a minute, and say why. With two threads all is done, and a single partition needs none.
try_threads() {
    local threads begun
    "${CC:-cc}" -shared -fPIC -o "$room/no_thread.so" "$tests/programs/no_thread.c" -ldl
    echo 'fault 222' > "$room/wanted"
    echo 'squall: fault 222: the system grants fewer threads than the run has partitions, or no memory for one' > "$room/said"
    for threads in 0 1; do
        begun=$SECONDS
        THREADS=$threads LD_PRELOAD=$room/no_thread.so give "$tests/cases/live/moves_while_jobs_run/in" live
        judge "live run with $threads threads" 2 "$room/wanted" "$room/said"
        count "seconds of a live run with $threads threads" "$([ $((SECONDS - begun)) -lt 60 ] || echo $((SECONDS - begun)))"
    done
    THREADS=2 LD_PRELOAD=$room/no_thread.so give "$tests/cases/live/moves_while_jobs_run/in" live
    judge 'live run with 2 threads' 0 "$tests/cases/live/moves_while_jobs_run/out" /dev/null
    echo 'sound 0 families 0 committed' > "$room/wanted"
    printf '%s\n' 'old {"version":1,"partitions":1,"ranges":[[0,4294967296,0]]}' \
        'new {"version":1,"partitions":1,"ranges":[[0,4294967296,0]]}' 'config 1 64 1' > "$room/alone"
    THREADS=0 LD_PRELOAD=$room/no_thread.so give "$room/alone" live
    judge 'live run of one partition without threads' 0 "$room/wanted" /dev/null
}

# One who types at the program sees each answer before the next line.
try_session() {
    local answer why=
    coproc session { exec timeout 120 "$squall" run 2> /dev/null; }
    head -n 4 "$tests/cases/run/moves_four_keys/in" >&"${session[1]}"
    for line in 'prepare 0=ok' 'x=refused 230' 'prepare 1=ok' 'start=ok' 'status 0 1=is free not-started'; do
        echo "${line%%=*}" >&"${session[1]}"
        answer=
        read -r -t 60 answer <&"${session[0]}" || true
        if [ "$answer" != "${line#*=}" ]; then why="$line, and not $answer"; fi
    done
    kill "$session_PID" 2> /dev/null || true
    wait "$session_PID" 2> /dev/null || true
    count session "$why"
}

# One who types a header at the program reads of a line's fault before the next line: of plans that can't be, of a size, of
# the first row and of a later one.
try_header_session() {
    typed run
    typed live
}

# typed WORD: types headers at a subcommand.
typed() {
    local fault lines running
    mkfifo "$room/typed"
    while IFS='|' read -r fault lines; do
        timeout 60 "$squall" "$1" < "$room/typed" > "$room/out" 2> "$room/err" &
        running=$!
        exec 9> "$room/typed"
        tr ';' '\n' <<< "$lines" >&9
        wait "$running" || true
        exec 9>&-
        echo "fault $fault" > "$room/wanted"
        count "header of $1 typed up to fault $fault" "$(difference "$room/wanted" "$room/out")"
    done < <(
        old='old {"version":1,"partitions":2,"ranges":[[0,4294967296,0]]}'
        new='new {"version":1,"partitions":2,"ranges":[[0,4096,1],[4096,4294967296,0]]}'
        echo "101|old {"
        echo "121|$old;$old"
        echo "111|$old;${new/2/3};config 8 64 1"
        echo "112|$old;$new;config 0 64 1"
        echo "114|$old;$new;config 65536 1 1"
        echo "115|$old;$new;config 65536 64 0"
        echo "132|$old;$new;config 65536 64 1;row 4294967296 0 0 1 -"
        echo "121|$old;$new;config 65536 64 1;row 5 0 0 1"
        echo "136|$old;$new;config 65536 64 1;row 5 0 0 1 -;row 6 0 0 1 61;row 5 0 0 2 -"
        echo "137|$old;$new;config 65536 64 1;row 5 0 0 1 -;row 6 1 0 1 -"
    )
    rm "$room/typed"
}

# At a terminal a live run says how far it is: when it begins, then ten times a second at most, and when it ends,
# never less than before, on one line that is blank before the run's own line is written. A carriage return stands before each.
try_terminal() {
    local jobs=42 segments=4 lines why= began=$SECONDS
    script -qefc "exec '$squall' live < '$examples/live-move.txt'" /dev/null < /dev/null | tr '\r' '\n' > "$room/terminal"
    grep " jobs, " "$room/terminal" > "$room/got" || true
    lines=$(wc -l < "$room/got")
    if [ "$lines" -gt $(((SECONDS - began + 1) * 10 + 3)) ]; then why="$lines lines of progress"; fi
    if ! awk '$1 < jobs || $5 < families || $8 < segments { exit 1 } { jobs = $1; families = $5; segments = $8 }' "$room/got"; then why='less than before'; fi
    if [ "$(head -n 1 "$room/got")" != "0 of $jobs jobs, 0 families moved, 0 of $segments segments" ]; then why='another first line'; fi
    # Each of the 20 root keys that move has its row from the beginning.
    if [ "$(tail -n 1 "$room/got")" != "$jobs of $jobs jobs, 20 families moved, $segments of $segments segments" ]; then why='no line of the whole'; fi
    printf '%72s\n%s\n' '' 'sound 21 families 41 committed' > "$room/wanted"
    tail -n 3 "$room/terminal" | head -n 2 > "$room/ends"
    count progress_at_a_terminal "$why$(difference "$room/wanted" "$room/ends")"
    typed_input run_that_is_typed 'old PLAN' run
    typed_input sizes_that_are_typed 'config W L C' ranges --old "$tests/cases/ranges/stages_in_a_file_of_version_1/new.json" \
        --new "$tests/cases/ranges/stages_in_a_file_of_version_1/new.json"
}

# typed_input NAME FIRST WORD..: at a terminal a subcommand without a file says that it reads standard input, and with which
# line that begins.
typed_input() {
    timeout 60 script -qefc "exec '$squall' ${*:3}" /dev/null < /dev/null > "$room/terminal" || true
    head -n 1 "$room/terminal" | tr -d '\r' > "$room/got"
    echo "squall: reading standard input up to its end (Ctrl-D); it begins with the line '$2'" > "$room/wanted"
    count "$1" "$(difference "$room/wanted" "$room/got")"
}

# counted: a summary without what depends on the threads: in how many chunks keys moved, at which partition a job was answered
# and whether it had waited there, and the times. A job that waited was answered.
counted() {
    sed -E 's/^( *[0-9]+ -> [0-9]+ +[0-9]+ +[0-9]+) +[1-9][0-9]*$/\1 chunks/; s/[0-9]+\.[0-9]{3}/TIME/g' "$room/err" | awk '
        inside && NF == 4 && $1 == parts { parts++; committed += $2; aborted += $3; if ($4 > $2 + $3) print "more waited"; next }
        inside { print parts " partitions, " committed + 0 " committed, " aborted + 0 " aborted"; inside = 0 }
        /^partition / { inside = 1 }
        { print }'
}

# summary NAME LINKS COUNTS [OPTION]: the summary of a stored live run has these lines of links, and this of all partitions.
summary() {
    local case=$tests/cases/live/$1
    {
        echo 'link        root keys    families      chunks'
        if [ -n "$2" ]; then echo "$2"; fi
        echo 'partition   committed     aborted      waited'
        echo "$3"
        echo 'milliseconds: reading TIME, threads TIME, audits TIME'
    } > "$room/said"
    give "$case/in" live --summary "${@:4}"
    counted > "$room/counted"
    cp "$room/counted" "$room/err"
    judge "live --summary $1 ${*:4}" 0 "$case/out" "$room/said"
}

# many_stages: an input whose move has 16 stages, each of one segment.
many_stages() {
    awk 'BEGIN {
        print "old {\"version\":2,\"partitions\":17,\"stages\":\"one\",\"ranges\":[[0,4294967296,0]]}"
        printf "new {\"version\":2,\"partitions\":17,\"stages\":\"auto\",\"ranges\":["
        for (part = 1; part <= 16; part++) printf "[%d,%d,%d],", part - 1, part, part
        print "[16,4294967296,0]]}"
        print "config 1 64 1"
    }'
}

# starts_in CHART STAGES: what is wrong with the starts of stages in a chart, of which there are so many. The first one is where the axis
# begins; a name begins after the one before it, and ends within the chart, with 11 units for each letter; each other one is a tick.
starts_in() {
    awk -v stages="$2" '
        /class="stage" d="/ {
            at = $0; sub(/.* d="M/, "", at); sub(/ .*/, "", at); name = $0; sub(/.*font-size="20">/, "", name); sub(/<.*/, "", name)
            if (!named++ && (at != 130 || name != "stage 0")) print name " at " at
            if (at + 0 < free) print name " at " at " is before " free
            free = at + 11 * length(name)
            if (free > 1600) print name " ends at " free
        }
        /class="axis" d="M[0-9]+ 160V174/ { ticks = gsub(/160V174/, "") }
        END { if (named + ticks != stages) print named " names and " ticks " ticks" }' "$1"
}

# waits_in CHART: what is wrong with the curve of the jobs that wait: it begins at the bottom, goes on to the right, and its highest point is
# what its name says.
waits_in() {
    awk '
        /jobs waiting, up to / { most = $0; sub(/.*up to /, "", most); sub(/<.*/, "", most) }
        /jobs answered, of / { jobs = $0; sub(/.*answered, of /, "", jobs); sub(/<.*/, "", jobs) }
        /class="waiting" d="M130 760H/ {
            curves++; gsub(/.*M130 760H|H1530"\/>/, ""); count = split($0, points, "H"); top = 760
            for (i = 1; i <= count; i++) {
                split(points[i], point, "V")
                if (point[1] < x || point[1] > 1530 || point[2] > 760) print "point " points[i]
                x = point[1]; if (point[2] < top) top = point[2]
            }
        }
        END { if (curves != 1 || 760 - top != int(600 * most / jobs)) print curves " curves, up to " top " for " most " of " jobs }' "$1"
}

# What a live run reports besides its line: a summary, and a timeline of jobs and segments. Nothing of a fault.
try_reports() {
    local links why chart stages=$tests/cases/live/jobs_of_each_stage
    summary no_jobs_and_no_move '' '1 partitions, 0 committed, 0 aborted'
    summary moves_while_jobs_run ' 0 -> 1             4           1 chunks' '2 partitions, 3 committed, 1 aborted'
    links=$(printf '%s\n' ' 0 -> 1             8           3 chunks' ' 0 -> 2             4           2 chunks')
    summary jobs_of_each_stage "$links" '3 partitions, 21 committed, 0 aborted'
    summary jobs_of_each_stage "$links" '3 partitions, 21 committed, 0 aborted' --fold
    try_figures "$stages"
    give "$stages/in" live --timeline "$room/moments.csv"
    judge 'live --timeline moments.csv' 0 "$stages/out" /dev/null
    # One more job or segment on each line, no sooner than on the line before. An answer has its job, posted as the first thread starts, from
    # which time is counted.
    why=$(awk -F, 'NR == 1 { if ($0 != "milliseconds,jobs,segments,partition,id,microseconds_since_post,waited,microseconds_waited") print "heading " $0; next }
        NF != 8 || $1 + 0 < at + 0 || $1 !~ /^[0-9]+\.[0-9][0-9][0-9]$/ || $2 + $3 != NR - 1 || $2 < jobs || $3 < segments { print "line " NR ": " $0 }
        $2 > jobs && ($4 !~ /^[012]$/ || seen[$5]++ || $6 !~ /^[0-9]+$/ || $1 != sprintf("%.3f", $6 / 1000) || ($7 == "yes" ? $8 !~ /^[0-9]+$/ || $8 > $6 + 0 : $7 $8 != "no")) { print "answer " $0 }
        $2 == jobs && $4 $5 $6 $7 $8 != "" { print "segment " $0 }
        { at = $1; jobs = $2 + 0; segments = $3 + 0 }
        END { if (jobs != 21 || segments != 3 || NR != 25) print "ends with " $0 }' "$room/moments.csv")
    count moments_of_a_run "$why"
    awk '$1 == "txn" { print $3 }' "$stages/in" | sort > "$room/wanted"
    awk -F, 'NR > 1 && $5 != "" { print $5 }' "$room/moments.csv" | sort > "$room/got"
    count jobs_of_a_timeline "$(difference "$room/wanted" "$room/got")"
    give "$stages/in" live --timeline "$room/moments.svg"
    judge 'live --timeline moments.svg' 0 "$stages/out" /dev/null
    chart=$(cat "$room/moments.svg")
    why=
    case $chart in '<svg xmlns='*'A live run of 21 jobs while 3 segments move<'*'>stage 0<'*'jobs answered, of 21<'*'segments complete, of 3<'*'jobs waiting, up to '*'</svg>') ;; *) why='another chart' ;; esac
    # Both curves have a step for each moment.
    if [ "$(grep -E 'class="(jobs|segments)"' "$room/moments.svg" | grep -oE 'H[0-9]+V[0-9]+' | wc -l)" != 48 ]; then why='another number of steps'; fi
    count chart_of_a_run "$why$(starts_in "$room/moments.svg" 2)"
    count jobs_that_wait_in_a_chart "$(waits_in "$room/moments.svg")"
    many_stages > "$room/many_stages"
    give "$room/many_stages" live --timeline "$room/many.svg"
    count chart_of_many_stages "$([ "$ended" = 0 ] || echo "status $ended; ")$(starts_in "$room/many.svg" 16)"
    give "$stages/in" live --timeline "$room/nowhere/moments.csv"
    echo "squall: the file '$room/nowhere/moments.csv' can't be written: No such file or directory (os error 2)" > "$room/said"
    judge 'live --timeline in no folder' 2 /dev/null "$room/said"
    give "$stages/in" live --timeline /dev/full
    echo "squall: the file '/dev/full' can't be written: No space left on device (os error 28)" > "$room/said"
    judge 'live --timeline on a full device' 2 "$stages/out" "$room/said"
    give "$tests/cases/live/an_id_twice/in" live --summary --timeline "$room/fault.csv"
    judge 'live --summary of a fault' 2 "$tests/cases/live/an_id_twice/out" "$tests/cases/live/an_id_twice/err"
    count no_moments_of_a_fault "$(ls "$room/fault.csv" 2> /dev/null || true)"
}

# try_figures CASE: the longer account of the live run of jobs in each stage, as JSON and as text. How many chunks there were,
# where a job was answered, which had waited and how long they took depends on the threads.
try_figures() {
    local why
    give "$1/in" live --summary-out "$room/figures.json"
    judge 'live --summary-out figures.json' 0 "$1/out" /dev/null
    # Of 5, 6 and 13 that go to partition 1, and of 9 and 11 that go to 2, each has one row without a note: 32 and 24 bytes.
    echo '{"links":[{"bytes":168,"chunks":C,"dst":1,"families":3,"keys":8,"rows":3,"src":0,"stage":0},{"bytes":112,"chunks":C,"dst":2,"families":2,"keys":4,"rows":2,"src":0,"stage":1}]' > "$room/wanted"
    sed -E 's/"chunks":[1-9][0-9]*/"chunks":C/g; s/,"microseconds":\{"audits":[0-9]+,"reading":[0-9]+,"threads":[0-9]+\},"partitions":\[.*\],"whole":true\}$//' \
        "$room/figures.json" > "$room/got"
    count figures_of_links "$(difference "$room/wanted" "$room/got")"
    # Of each partition: aborted, the longest, median and 99th of all, committed, its number, those that waited, the same of these,
    # and of their waits.
    why=$(sed 's/.*"partitions"//; s/p99/p/g; s/null/{"longest":0,"median":0,"p":0}/g; s/"aborted"/\n&/g' "$room/figures.json" | sed -E '1d; s/[^0-9]+/ /g' |
        awk 'NF != 13 || $6 != NR - 1 || $3 > $4 || $4 > $2 || $9 > $10 || $10 > $8 || $8 > $2 || $12 > $13 || $13 > $11 || $11 > $8 || $12 > $9 || $7 > $1 + $5 || ($2 > 0) != ($1 + $5 > 0) || ($8 > 0) != ($7 > 0) { print "partition " $0 }
        { committed += $5; aborted += $1 }
        END { if (NR != 3 || committed != 21 || aborted != 0) print NR " partitions, " committed " committed, " aborted " aborted" }')
    count figures_of_partitions "$why"
    give "$1/in" live --summary-out "$room/figures.txt"
    judge 'live --summary-out figures.txt' 0 "$1/out" /dev/null
    {
        echo 'stage  link        root keys    families        rows         bytes      chunks'
        printf '%5d  %2d -> %-3d%12d%12d%12d%14d chunks\n' 0 0 1 8 3 3 168 1 0 2 4 2 2 112
        echo 'partition   committed     aborted      waited'
        echo 'microseconds from post to answer'
        echo 'partition      median   99 of 100     longest'
        echo 'of those that waited'
        echo 'partition      median   99 of 100     longest'
        echo 'microseconds for which these waited for rows'
        echo 'partition      median   99 of 100     longest'
        echo 'milliseconds: reading TIME, threads TIME, audits TIME'
    } > "$room/wanted"
    sed -E '/^ *[0-9]+ +[0-9]+ +[0-9]+ +[0-9]+$/d; s/^(.* -> .*[^ ]) +[1-9][0-9]*$/\1 chunks/; s/[0-9]+\.[0-9]{3}/TIME/g' "$room/figures.txt" > "$room/got"
    count figures_as_text "$(difference "$room/wanted" "$room/got")"
    echo "squall: the file '$room/nowhere/figures.json' can't be written: No such file or directory (os error 2)" > "$room/said"
    give "$1/in" live --summary-out "$room/nowhere/figures.json"
    judge 'live --summary-out in no folder' 2 /dev/null "$room/said"
    echo "squall: --timeline names the file '$room/figures.txt', which another option names too" > "$room/said"
    give "$1/in" live --summary-out "$room/figures.txt" --timeline "$room/figures.txt"
    judge 'live --summary-out and --timeline into one file' 2 /dev/null "$room/said"
    give "$tests/cases/live/an_id_twice/in" live --summary-out "$room/fault.json"
    judge 'live --summary-out of a fault' 2 "$tests/cases/live/an_id_twice/out" "$tests/cases/live/an_id_twice/err"
    count no_figures_of_a_fault "$(ls "$room/fault.json" 2> /dev/null || true)"
}

# Rows that go to another partition, some of them back, and then there again, in three live runs, each from the rows that the
# one before left: they answer their jobs as one script answers them, and leave the rows that the script leaves. Of a move that
# hasn't ended the rows are written too.
try_results() {
    local at folder=$room/results
    rm -rf "$folder"
    mkdir "$folder"
    chain_plans "$folder"
    for at in 1 2 3; do
        chain_jobs "$at" > "$folder/jobs$at"
        give "$folder/jobs$at" live --old "$folder/$((at - 1)).json" --new "$folder/$at.json" --rows "$folder/rows$((at - 1))" \
            --replies "$folder/replies$at" --rows-out "$folder/rows$at"
        echo 'sound 10 families 10 committed' > "$room/wanted"
        judge "live run $at of a chain" 0 "$room/wanted" /dev/null
    done
    { cat "$folder/jobs1"; sed 1d "$folder/jobs2"; sed 1d "$folder/jobs3"; } > "$folder/script"
    give "$folder/script" run --old "$folder/0.json" --new "$folder/0.json" --rows "$folder/rows0" --rows-out "$folder/rows"
    sed '/^end /,$d' "$room/out" > "$room/wanted"
    cat "$folder"/replies[123] > "$room/got"
    count replies_of_a_chain "$(difference "$room/wanted" "$room/got")"
    count rows_of_a_chain "$(difference "$folder/rows" "$folder/rows3")"
    give "$tests/cases/run/chunks_in_each_place/in" run --rows-out "$folder/moving"
    grep '^row ' "$tests/cases/run/chunks_in_each_place/in" > "$room/wanted"
    count rows_in_each_place "$(difference "$room/wanted" "$folder/moving")"
    try_tables_of_rows "$folder"
    try_chain_of_scripts "$folder"
    try_results_with_folds "$folder"
    try_bad_outputs "$folder"
    try_other_outputs "$folder"
    try_clashes "$folder"
    try_broken_writes "$folder"
    count no_part_of_a_file "$(find "$folder" -name '*.squall-part')"
}

# try_tables_of_rows FOLDER: rows as a table of values, with a note of each kind, by a script and by a live run. A run that reads
# the table leaves the rows of the lines.
try_tables_of_rows() {
    local plans=(--old "$1/0.json" --new "$1/0.json")
    printf '%s\n' 'row 5 0 0 10 -' 'row 5 1 7 -3 612c20226222' 'row 6 0 0 4 6865783a' 'row 7 0 0 1 c3bc' 'row 8 0 0 2 00ff' \
        'row 9 0 0 3 610a62' > "$1/given"
    printf '%s\n' 'root,table,sub,number,note' '5,0,0,10,' '5,1,7,-3,"a, ""b"""' '6,0,0,4,hex:6865783a' '7,0,0,1,ü' \
        '8,0,0,2,hex:00ff' '9,0,0,3,hex:610a62' > "$room/wanted"
    echo 'config 1 64 1' > "$1/sizes"
    give "$1/sizes" run "${plans[@]}" --rows "$1/given" --rows-out "$1/table.csv"
    count table_of_a_script "$(difference "$room/wanted" "$1/table.csv")"
    give "$1/sizes" live "${plans[@]}" --rows "$1/table.csv" --rows-out "$1/live.CSV"
    count table_of_a_live_run "$(difference "$room/wanted" "$1/live.CSV")"
    give "$1/sizes" run "${plans[@]}" --rows "$1/live.CSV" --rows-out "$1/back"
    count table_read_again "$(difference "$1/given" "$1/back")"
}

# chain_plans FOLDER: the plans and the rows that a chain of runs begins with.
chain_plans() {
    local at=0 root ranges
    for ranges in '[0,4294967296,0]' '[0,8,1],[8,4294967296,0]' '[0,4,0],[4,16,1],[16,4294967296,0]' \
        '[0,16,1],[16,4294967296,0]'; do
        echo "{\"version\":1,\"partitions\":2,\"ranges\":[$ranges]}" > "$1/$at.json"
        at=$((at + 1))
    done
    for root in 0 1 2 3 4 5 6 7 8 9; do
        echo "row $root 0 0 $((root * 100)) -"
        echo "row $root 2 4294967295 -$((root + 1)) 00ff6869"
    done > "$1/rows0"
}

# chain_jobs RUN: the sizes, and a job on each root key, which has a sum of its own in each run. All are posted to partition 0.
chain_jobs() {
    local root
    echo 'config 1 64 1'
    for root in 9 8 7 6 5 4 3 2 1 0; do
        echo "txn 0 $1$root $root add 0 0 $1 put 1 $1 $root 0a$1$1 get 2 4294967295 check 0 0 1"
    done
}

# try_chain_of_scripts FOLDER: the chain in three scripts: in each the same transactions run where their keys are, before all
# moves by the steps that `steps` writes. They leave the same rows.
try_chain_of_scripts() {
    local at words
    cp "$1/rows0" "$1/script_rows0"
    for at in 1 2 3; do
        words=(--old "$1/$((at - 1)).json" --new "$1/$at.json" --rows "$1/script_rows$((at - 1))")
        # The keys from 0 to 7 are at partition 1 before the second move, and those from 4 on before the third.
        chain_jobs "$at" | awk -v at="$at" '$1 == "txn" { $2 = at == 1 ? 0 : at == 2 ? ($4 < 8) : ($4 >= 4) } { print }' > "$1/script$at"
        give "$1/script$at" steps "${words[@]}"
        cat "$room/out" >> "$1/script$at"
        give "$1/script$at" run --strict "${words[@]}" --rows-out "$1/script_rows$at"
        count "script $at of a chain" "$(if [ "$ended" != 0 ]; then echo "status $ended"; fi
            grep -c '^commit ' "$room/out" | grep -vx 10; grep -qx 'end ended' "$room/out" || echo 'the move has not ended')"
    done
    count rows_of_a_chain_of_scripts "$(difference "$1/rows" "$1/script_rows3")"
}

# try_results_with_folds FOLDER: answers and rows of a run that folds its logs between two stages, in whatever order its jobs run.
# Two of them abort.
try_results_with_folds() {
    local case=$tests/cases/live/aborts_in_two_stages_folded
    give "$case/in" live --fold --replies "$1/replies_with_folds" --rows-out "$1/rows_with_folds"
    judge 'live --fold --replies --rows-out' 0 "$case/out" /dev/null
    printf '%s\n' 'abort 1 0 small' 'abort 2 0 small' 'commit 3 21' 'commit 4 11' > "$room/wanted"
    count replies_with_folds "$(difference "$room/wanted" "$1/replies_with_folds")"
    printf '%s\n' 'row 5 0 0 11 -' 'row 9 0 0 21 -' > "$room/wanted"
    count rows_with_folds "$(difference "$room/wanted" "$1/rows_with_folds")"
}

# try_clashes FOLDER: an output that is the file of standard input, and outputs beside which a file would be written first that the
# run reads, or that another option names. A file that is only standard input isn't read where the input has a name.
try_clashes() {
    local plans=(--old "$1/0.json" --new "$1/1.json")
    chain_jobs 1 > "$1/jobs"
    cp "$1/jobs" "$1/given"
    echo "squall: --rows-out names the file '$1/given', which the run reads" > "$room/said"
    give "$1/given" live "${plans[@]}" --rows "$1/rows0" --rows-out "$1/given"
    judge 'live --rows-out over standard input' 2 /dev/null "$room/said"
    count standard_input_stays "$(difference "$1/jobs" "$1/given")"
    echo 'sound 10 families 10 committed' > "$room/wanted"
    give "$1/given" live "${plans[@]}" --rows "$1/rows0" --rows-out "$1/given" "$1/jobs"
    judge 'live --rows-out over what is not read' 0 "$room/wanted" /dev/null
    cp "$1/rows0" "$1/kept.squall-part"
    echo "squall: --replies writes the file '$1/kept.squall-part' first, which the run reads" > "$room/said"
    give "$1/jobs" live "${plans[@]}" --rows "$1/kept.squall-part" --replies "$1/kept"
    judge 'live --replies beside its rows' 2 /dev/null "$room/said"
    count rows_beside_an_output "$(difference "$1/rows0" "$1/kept.squall-part")"
    rm -f "$1/kept.squall-part"
    echo "squall: --rows-out writes the file '$1/beside.squall-part' first, which another option names too" > "$room/said"
    give "$1/jobs" live "${plans[@]}" --rows "$1/rows0" --rows-out "$1/beside" --replies "$1/beside.squall-part"
    judge 'live --rows-out beside its replies' 2 /dev/null "$room/said"
}

# give_with_short_files INPUT WORD..: gives an input to the program, which can write no more than 1 KiB into a file.
give_with_short_files() {
    (
        ulimit -f 1
        trap '' XFSZ
        give "$@"
        echo "$ended" > "$room/ended"
    )
    ended=$(cat "$room/ended")
}

# try_broken_writes FOLDER: a write that fails in the middle leaves the file as it was, and none beside it.
try_broken_writes() {
    local option
    {
        head -n 3 "$tests/cases/live/move_without_jobs/in"
        seq -f 'row %.0f 0 0 1 -' 100 199
        seq -f 'txn 0 %.0f 150 get 0 0' 100 199
    } > "$1/long"
    echo 'sound 100 families 100 committed' > "$room/wanted"
    echo "squall: the file '$1/stands' can't be written: File too large (os error 27)" > "$room/said"
    for option in rows-out replies; do
        echo before > "$1/stands"
        give_with_short_files "$1/long" live "--$option" "$1/stands"
        judge "live --$option into a file that may not be so long" 2 "$room/wanted" "$room/said"
        count "file that stands after --$option" "$(cat "$1/stands" | grep -vx before; ls "$1" | grep '^stands\.')"
    done
}

# refuses_output FOLDER NAME WHY WORD..: the words name an output that is refused before the jobs are read, for this reason.
refuses_output() {
    echo "squall: $3" > "$room/said"
    give "$1/jobs" "${@:4}"
    judge "$2" 2 /dev/null "$room/said"
}

# try_other_outputs FOLDER: outputs that are no files of their own: the name of standard input, a pipe, a device, a folder, and the
# file that is standard output. A timeline may be a device.
try_other_outputs() {
    local option name words=(--old "$1/0.json" --new "$1/1.json" --rows "$1/rows0")
    chain_jobs 1 > "$1/jobs"
    mkdir -p "$1/folder"
    mkfifo "$1/pipe"
    for option in rows-out replies summary-out timeline; do
        refuses_output "$1" "live --$option -" "--$option names '-', and an output is a file" live "${words[@]}" "--$option" -
        refuses_output "$1" "live --$option that is standard output" "--$option names '$room/out', which is standard output" \
            live "${words[@]}" "--$option" "$room/out"
    done
    for option in rows-out replies summary-out; do
        for name in "$1/pipe" "$1/folder" /dev/full /dev/null; do
            refuses_output "$1" "live --$option in place of $name" "--$option names '$name', which is no file" \
                live "${words[@]}" "--$option" "$name"
        done
    done
    refuses_output "$1" 'run --rows-out -' "--rows-out names '-', and an output is a file" run --rows-out -
    refuses_output "$1" 'run --rows-out /dev/full' "--rows-out names '/dev/full', which is no file" run --rows-out /dev/full
    refuses_output "$1" 'run --rows-out that is standard output' "--rows-out names '$room/out', which is standard output" run --rows-out "$room/out"
    count outputs_that_stay "$([ -p "$1/pipe" ] || echo "it's no pipe any more"
        [ -d "$1/folder" ] || echo "it's no folder any more"; ls -d ./- ./*.squall-part "$1"/*.squall-part "$1"/folder/* 2> /dev/null)"
    echo 'sound 10 families 10 committed' > "$room/wanted"
    give "$1/jobs" live "${words[@]}" --timeline /dev/null
    judge 'live --timeline /dev/null' 0 "$room/wanted" /dev/null
}

# try_bad_outputs FOLDER: a file that can't be written, a file that the run reads, by this name or by another, and one that two
# options name; and jobs without an answer.
try_bad_outputs() {
    local words=(--old "$1/0.json" --new "$1/1.json" --rows "$1/rows0")
    chain_jobs 1 > "$1/jobs"
    echo 'sound 10 families 10 committed' > "$room/wanted"
    echo "squall: the file '$1/nowhere/rows' can't be written: No such file or directory (os error 2)" > "$room/said"
    give "$1/jobs" live "${words[@]}" --rows-out "$1/nowhere/rows"
    judge 'live --rows-out in no folder' 2 /dev/null "$room/said"
    echo "squall: the file '$1/jobs/rows' can't be written: Not a directory (os error 20)" > "$room/said"
    give "$1/jobs" live "${words[@]}" --rows-out "$1/jobs/rows"
    judge 'live --rows-out in a file' 2 /dev/null "$room/said"
    cp "$1/rows0" "$1/rows_before"
    echo "squall: --rows-out names the file '$1/../results/rows0', which the run reads" > "$room/said"
    give "$1/jobs" live "${words[@]}" --rows-out "$1/../results/rows0"
    judge 'live --rows-out over its rows' 2 /dev/null "$room/said"
    count rows_that_are_read "$(difference "$1/rows_before" "$1/rows0")"
    ln "$1/rows0" "$1/linked_rows"
    echo "squall: --timeline names the file '$1/linked_rows', which the run reads" > "$room/said"
    give "$1/jobs" live "${words[@]}" --timeline "$1/linked_rows"
    judge 'live --timeline over a hard link of its rows' 2 /dev/null "$room/said"
    count linked_rows_that_are_read "$(difference "$1/rows_before" "$1/rows0")"
    echo "squall: --timeline names the file '$1/jobs', which the run reads" > "$room/said"
    give /dev/null live "${words[@]}" --timeline "$1/jobs" "$1/jobs"
    judge 'live --timeline over its input' 2 /dev/null "$room/said"
    echo "squall: --rows-out names the file '$1/../results/both', which another option names too" > "$room/said"
    give "$1/jobs" live "${words[@]}" --replies "$1/both" --rows-out "$1/../results/both"
    judge 'live --replies and --rows-out into one file' 2 /dev/null "$room/said"
    { cat "$tests/cases/live/one_turn_for_two_jobs/err"; echo 'squall: jobs without an answer: 1'; } > "$room/said"
    give "$tests/cases/live/one_turn_for_two_jobs/in" live --turns 1 --replies "$1/answered"
    judge 'live --replies of a run that stops' 3 "$tests/cases/live/one_turn_for_two_jobs/out" "$room/said"
    echo 'commit 1 ok' > "$room/wanted"
    count replies_of_a_run_that_stops "$(difference "$room/wanted" "$1/answered")"
}

# most_threads PUMPS: the most threads that a live run of two partitions with so many pumps has at once, as far as it is
# looked at.
most_threads() {
    local running most=0 threads
    "$squall" live --pumps "$1" --turns 1000000000 < "$tests/cases/live/as_many_segments_as_there_may_be/in" > /dev/null &
    running=$!
    threads=("/proc/$running/task"/*)
    while [ -e "${threads[0]}" ]; do
        if [ "${#threads[@]}" -gt "$most" ]; then most=${#threads[@]}; fi
        threads=("/proc/$running/task"/*)
    done
    wait "$running" || true
    echo "$most"
}

# A live run has as many pumps as its option asks for: with two partitions some run of a hundred is seen to have a thread for
# each of them and for each pump at once, and none has more.
try_pumps() {
    local pumps times most
    for pumps in 1 3 16; do
        times=0
        most=0
        while [ "$most" -lt $((pumps + 2)) ] && [ "$times" -lt 100 ]; do
            most=$(most_threads "$pumps")
            times=$((times + 1))
        done
        count "live --pumps $pumps" "$(if [ "$most" != $((pumps + 2)) ]; then echo "$most threads"; fi)"
    done
}

# The longest live run in one stage a hundred times, since threads may go in another order each time.
try_again() {
    local times=0 words
    mapfile -t words < "$tests/cases/live/four_partitions_round/words"
    while [ "$times" -lt 100 ]; do
        give "$tests/cases/live/four_partitions_round/in" "${words[@]}"
        judge 'four_partitions_round again' 0 "$tests/cases/live/four_partitions_round/out" /dev/null
        times=$((times + 1))
    done
}

# The script that `steps` writes makes the whole move of a header: behind it no step is refused, the move has ended, and as many
# chunks are cut as `ranges --sizes` says. The headers are those of live runs.
try_steps() {
    local case why cuts chunks
    for case in "$tests"/cases/live/*; do
        if [ -e "$case/status" ] || [ -e "$case/old.json" ]; then continue; fi
        grep -v '^txn ' "$case/in" > "$room/header"
        give "$room/header" steps
        why=$(if [ "$ended" != 0 ]; then echo "status $ended"; fi)
        cat "$room/header" "$room/out" > "$room/whole"
        give "$room/whole" run
        why+=$(if [ "$ended" != 0 ]; then echo "status $ended of the run"; fi; grep '^refused' "$room/out" || true
            grep -qx 'end ended' "$room/out" || echo 'the move has not ended')
        count "steps of ${case##*/}" "$why"
        cuts=$(grep -c '^cut ' "$room/out" || true)
        give "$room/header" ranges --sizes
        chunks=$(awk '$1 == "stage" { sum += $NF } END { print sum + 0 }' "$room/out")
        why=; if [ "$cuts" != "$chunks" ]; then why="$cuts chunks are cut, and $chunks listed"; fi
        count "chunks of ${case##*/}" "$why"
    done
}

# demo_of NAME WORD..: makes the files of an input to begin with in a folder of this name, which is to write the two commands that
# run them.
demo_of() {
    local files=$room/demo/$1
    give /dev/null demo "${@:2}" "$files"
    printf 'squall %s --old %s/old.json --new %s/new.json --rows %s/rows.txt %s/jobs.txt\n' \
        'ranges --sizes' "$files" "$files" "$files" "$files" live "$files" "$files" "$files" "$files" > "$room/wanted"
    judge "demo $1" 0 "$room/wanted" /dev/null
}

# try_demo_of NAME PARTITIONS ROOTS ROWS JOBS HOT SEED [WORD]: an input to begin with has these sizes, its move is one that
# 'ranges' lists, which proposes the sizes that it has, and its live run is sound and answers each job once, with this number of rows at
# the end.
try_demo_of() {
    local files=$room/demo/$1 families=$3 why
    demo_of "$1" --partitions "$2" --roots "$3" --rows-per-root "$4" --jobs "$5" --hot "$6" --seed "$7" ${8:+"$8"}
    why=$(grep -q "\"partitions\":$2," "$files/old.json" || echo 'other partitions'
        [ "$(grep -c '^row ' "$files/rows.txt")" = $(($3 * $4)) ] || echo 'other rows'
        [ "$(grep -c '^txn ' "$files/jobs.txt")" = "$5" ] || echo 'other jobs')
    count "sizes of demo $1" "$why"
    give "$files/jobs.txt" ranges --old "$files/old.json" --new "$files/new.json"
    count "moves of demo $1" "$(grep -q '^range .* 0 1$' "$room/out" || echo 'no range goes from 0 to 1')"
    give "$files/jobs.txt" ranges --sizes --old "$files/old.json" --new "$files/new.json" --rows "$files/rows.txt"
    count "sizes that suit demo $1" "$(cmp <(tail -n 1 "$room/out") <(head -n 1 "$files/jobs.txt") 2>&1)"
    echo "sound $families families $5 committed" > "$room/wanted"
    give "$files/jobs.txt" live --old "$files/old.json" --new "$files/new.json" --rows "$files/rows.txt" \
        --replies "$files/replies" --rows-out "$files/rows" --timeline "$files/moments.csv"
    judge "live run of demo $1" 0 "$room/wanted" /dev/null
    # No job begins to wait in the microsecond in which it is posted.
    count "waits of demo $1" "$(awk -F, '$7 == "yes" && ($8 !~ /^[0-9]+$/ || $8 + 0 >= $6 + 0)' "$files/moments.csv" | head -n 1)"
    count "replies of demo $1" "$(awk '{ print $2 }' "$files/replies" | sort -n | cmp - <(seq 0 $(($5 - 1))) 2>&1)"
    count "rows of demo $1" "$(cat "$files/rows" | awk -v sum=$((100 * $3 + $5)) \
        '$3 == 0 { got += $5 } END { if (got + 0 != sum) print got " in place of " sum }')"
}

# An input to begin with, of several sizes and seeds: of one seed it is the same one, of another one its jobs are others; a small one is
# stored (tests/demo). A hot key's jobs are as many of a hundred as are asked for: all of them, and with 0 as many as others have. No file
# is written where one of the four is there, and no input has too many lines.
try_demo() {
    local file
    rm -rf "$room/demo"
    mkdir "$room/demo"
    try_demo_of least 2 1 1 0 0 0
    try_demo_of small 2 16 1 100 100 1
    try_demo_of stages 5 400 3 1000 70 7 --stages
    try_demo_of most 16 3000 2 4096 30 4294967295 --stages
    try_demo_of large 2 2000 50 100 50 3
    count 'chunks of a large demo' "$(head -n 1 "$room/demo/large/jobs.txt" | grep -vx 'config 1 2048 4')"
    demo_of again --partitions 5 --roots 400 --rows-per-root 3 --jobs 1000 --hot 70 --seed 7 --stages
    demo_of other --partitions 5 --roots 400 --rows-per-root 3 --jobs 1000 --hot 70 --seed 8 --stages
    demo_of stored --partitions 3 --roots 20 --rows-per-root 2 --jobs 8 --hot 40 --seed 9 --stages
    for file in old.json new.json rows.txt jobs.txt; do
        count "$file of one seed" "$(difference "$room/demo/stages/$file" "$room/demo/again/$file")"
        count "$file as it is stored" "$(difference "$tests/demo/$file" "$room/demo/stored/$file")"
    done
    count 'jobs of another seed' "$(if cmp -s "$room/demo/again/jobs.txt" "$room/demo/other/jobs.txt"; then echo 'the same'; fi)"
    # The hot keys of 16 on 2 partitions: an eighth of the 8 of partition 0, which is key 0.
    count 'all jobs hot' "$(awk '$1 == "txn" && $4 != 0' "$room/demo/small/jobs.txt" | head -n 1)"
    try_demo_in_a_quoted_folder
    try_bad_demos
}

# The commands that are printed run in a shell, whatever the name of the folder is.
try_demo_in_a_quoted_folder() {
    local files="$room/demo/it's \$HOME; a \"shop\""
    give /dev/null demo --roots 16 --jobs 100 "$files"
    cp "$room/out" "$room/commands"
    ended=0
    (PATH=${squall%/*}:$PATH sh "$room/commands") > "$room/out" 2> "$room/err" || ended=$?
    count 'commands of a demo in a quoted folder' "$(if [ "$ended" != 0 ]; then echo "status $ended"; fi; head -n 1 "$room/err"
        tail -n 1 "$room/out" | grep -vx 'sound 16 families 100 committed'; grep -q '^range ' "$room/out" || echo 'no range')"
}

# Inputs to begin with that aren't written.
try_bad_demos() {
    local files=$room/demo/bad
    mkdir "$files"
    echo mine > "$files/rows.txt"
    echo "squall: the file '$files/rows.txt' can't be written: entity already exists" > "$room/said"
    give /dev/null demo "$files"
    judge 'demo over a file' 2 /dev/null "$room/said"
    count 'a file of a folder that stays' "$(cat "$files"/* | grep -vx mine; ls "$files" | grep -vx rows.txt)"
    echo "squall: the folder '' can't be made: invalid filename" > "$room/said"
    give /dev/null demo ''
    judge 'demo in a folder without a name' 2 /dev/null "$room/said"
    echo "squall: the folder '$files/rows.txt/under' can't be made: Not a directory (os error 20)" > "$room/said"
    give /dev/null demo "$files/rows.txt/under"
    judge 'demo below a file' 2 /dev/null "$room/said"
    echo 'squall: the files would have 1000003 lines, and may have 1000000' > "$room/said"
    give /dev/null demo --roots 1000000 --rows-per-root 1 --jobs 0 "$files/large"
    judge 'demo of too many lines' 2 /dev/null "$room/said"
    count 'no folder of too many lines' "$(ls "$files" | grep -x large)"
}

# A move of five partitions in four stages under as many jobs as there may be, a hundred times: with one pump and with 16,
# with folds and without.
try_rounds() {
    local times=0 id pumps fold
    sed '/^txn /d' "$tests/cases/live/five_partitions_in_four_stages/in" > "$room/jobs.in"
    for ((id = 0; id < 4096; id++)); do
        echo "txn $((id % 5)) $id $((2 * (id * 37 % 100))) add 0 0 1"
    done >> "$room/jobs.in"
    echo 'sound 100 families 4096 committed' > "$room/wanted"
    while [ "$times" -lt 25 ]; do
        for pumps in 1 16; do
            for fold in '' --fold; do
                give "$room/jobs.in" live --turns 1000000000 --pumps "$pumps" ${fold:+"$fold"}
                judge "live round with $pumps pumps $fold" 0 "$room/wanted" /dev/null
            done
        done
        times=$((times + 1))
    done
}

programs=("${SQUALL:-$built}")
if [ -z "${SQUALL:-}" ] && [ -x "$built.by-rattle" ]; then programs+=("$built.by-rattle"); fi
make_cases
if has_pattern pages; then try_pages; fi
for program in "${programs[@]}"; do
    if [ ! -x "$program" ]; then
        echo "tests: no program at $program: run 'rt ci' at the top first" >&2
        exit 1
    fi
    echo "$program"
    # Each runs under one name, which it gives in its help texts.
    squall=$(mktemp -d "$room/program.XXXX")/squall
    cp "$program" "$squall"
    for_cases run_case
    for kind in $kinds; do
        if has_pattern "$kind"; then
            "try_$kind"
            count "runs that go on after $kind" "$(still_running)"
        fi
    done
done
echo "$passed stored runs passed, $failed failed"
[ "$failed" = 0 ]
