# What a client of `squall serve` sees. tests/run.sh sources it.

# The plan of an engine with two partitions, by which all root keys are in partition 0, and one that gives four of them away.
all_at_0='{"version":1,"partitions":2,"ranges":[[0,4294967296,0]]}'
four_at_1='{"version":1,"partitions":2,"ranges":[[0,4,0],[4,8,1],[8,4294967296,0]]}'

# opening: the header of such an engine, with two rows.
opening() {
    printf '%s\n' "plan $all_at_0" 'config 64 64 1' 'row 5 0 0 10 -' 'row 9 0 0 20 -'
}

# begin_engine WORD..: starts an engine with these words, that a client talks with by the descriptors 7 and 8.
begin_engine() {
    mkfifo "$room/asked" "$room/answered"
    if [ ! -p "$room/err" ]; then : > "$room/err"; fi
    (trap '' PIPE; exec timeout 60 "$squall" serve "$@" < "$room/asked" > "$room/answered" 2>> "$room/err" 7>&- 8>&-) &
    engine=$!
    exec 8> "$room/asked" 7< "$room/answered"
    rm "$room/asked" "$room/answered"
    why=
    refused=0
}

# ask LINES ANSWER..: sends a line, or several at once; the next lines that come are to be these, and none comes where the engine has
# ended.
ask() {
    local answer wanted
    echo "$1" > "$room/asking"
    cat "$room/asking" >&8 || true
    for wanted in "${@:2}"; do
        answer=
        read -r -t 30 answer <&7 || true
        if [ "$answer" != "$wanted" ]; then why="$why$1: $answer, and not $wanted; "; fi
    done
}

# count_said LINES: what standard error says at the end if so many lines were refused.
count_said() {
    case $1 in
        0) ;;
        1) echo 'squall: 1 line was refused' ;;
        *) echo "squall: $1 lines were refused" ;;
    esac
}

# end_engine NAME LINE..: ends the input of an engine, which then writes these lines and no more, says nothing on standard
# error but how many lines were refused, as `refused` has it, and ends with the status 0.
end_engine() {
    exec 8>&-
    cat <&7 > "$room/out"
    exec 7<&-
    ended=0
    wait "$engine" || ended=$?
    printf '%s\n' "${@:2}" > "$room/wanted"
    if [ "$ended" != 0 ]; then why="${why}status $ended; "; fi
    count_said "$refused" > "$room/said"
    count "$1" "$why$(difference "$room/wanted" "$room/out")$(difference "$room/said" "$room/err")"
}

# Each answer comes before the next line is sent: of jobs, of moves, of folds, and of the plan in force.
served_session() {
    begin_engine
    opening >&8
    ask 'txn 0 1 5 add 0 0 1' 'commit 1 11'
    ask 'txn 1 2 9 get 0 0' 'commit 2 20/-'
    ask 'status' 'at rest, 0 jobs open'
    ask "move $four_at_1" 'moving 1' 'moved 1'
    ask 'txn 0 3 5 add 0 0 1' 'commit 3 12'
    ask 'plan' 'plan {"partitions":2,"ranges":[[0,4,0],[4,8,1],[8,4294967296,0]],"version":1}'
    ask 'fold' 'folded 3'
    ask 'txn 0 3 5 check 0 0 99' 'abort 3 0 small'
    ask "move $four_at_1" 'moving 0' 'moved 0'
    ask "move $all_at_0" 'moving 1' 'moved 1'
    ask 'fold' 'folded 4'
    end_engine 'serve: a session' 'sound 2 families 3 committed'
}

# said_so_far LINE..: standard error has these lines so far; it is emptied.
said_so_far() {
    printf '%s\n' "$@" > "$room/said"
    why="$why$(difference "$room/said" "$room/err")"
    : > "$room/err"
}

# miscounted JOBS ANSWERS: which answers to `status` don't have the number of the jobs in the lines before it that are answered behind it.
miscounted() {
    awk 'NR == FNR { jobs += $1 == "txn"; if ($1 == "status") before[++asked] = jobs; next }
        $1 == "commit" || $1 == "abort" { answered_jobs++ }
        match($0, /[0-9]+ jobs open/) {
            split(substr($0, RSTART), word, " ")
            if (answered_jobs + word[1] != before[++answered]) print answered_jobs + 0, "answers, and then: " $0
            jobs_at = 0
            if (match($0, /; open .*$/)) {
                parts = split(substr($0, RSTART + 7), open_at, ", ")
                for (i = 1; i <= parts; i++) { split(open_at[i], words_of, " "); jobs_at += words_of[1] }
            }
            if (jobs_at != word[1]) print jobs_at, "jobs of partitions: " $0
        }
        END { if (answered != asked) print answered + 0, "of", asked, "are answered" }' "$1" "$2"
}

# At rest too `status` says how many jobs have no answer, and of which partitions they are.
served_status() {
    local most
    {
        opening
        seq 1 5000 | awk '{ print "txn 0", $1, "5 add 0 0 1" } $1 % 100 == 0 { print "status" }'
    } > "$room/jobs"
    give "$room/jobs" serve
    most=$(sed -n 's/^at rest, \([0-9]*\) jobs open; open \1 at 0$/\1/p' "$room/out" | sort -n | tail -n 1)
    if [ "${most:-0}" = 0 ]; then why='no job is open; '; else why=; fi
    count 'serve: jobs that are open at rest' "$why$(miscounted "$room/jobs" "$room/out")"
}

# next_said LINE: the next line on standard error, which takes nothing more, is this one.
next_said() {
    local line=
    while read -r -t 30 line <&9; do
        case $line in x*) ;; *) break ;; esac
    done
    if [ "$line" != "$1" ]; then why="$why$line, and not $1; "; fi
}

# fill_errors: standard error takes nothing more.
fill_errors() { dd if="$room/filler" of="$room/err" bs=4096 oflag=nonblock 2> /dev/null || true; }

# What was written goes out before the engine does what may take long. Here it saves rows, and waits until it can say on standard error
# that this failed: meanwhile the outcome of the audit before is there.
served_before_a_stop() {
    local unsaved="squall: the file '$room/none/rows' can't be written: No such file or directory (os error 2)"
    head -c 1048576 /dev/zero | tr '\0' x | fold -w 4095 > "$room/filler"
    rm -f "$room/err"
    mkfifo "$room/err"
    exec 9<> "$room/err"
    fill_errors
    begin_engine
    opening >&8
    ask 'txn 0 1 5 add 0 0 1' 'commit 1 11'
    ask $'fold\nrows '"$room/none/rows" 'folded 1'
    next_said "$unsaved"
    ask 'status' 'refused 124' 'at rest, 0 jobs open'
    exec 9>&-
    rm "$room/err"
    : > "$room/err"
    end_engine 'serve: before it stops for something' 'sound 2 families 1 committed'
}

# A plan of version 1 that has `stages` is read as it was, and standard error says of each that they aren't: of the first line, of lines that
# ask for a move, whole or in pieces, and of a plan in a file of its own. Of a plan of version 2 it says nothing.
served_unread_stages() {
    local staged=',"stages":"one",' unread="'stages' isn't read in version 1: write \"version\":2"
    begin_engine
    opening | sed "1s/,/$staged/" >&8
    ask "move ${four_at_1/,/$staged}" 'moving 1' 'moved 1'
    ask 'txn 0 1 5 add 0 0 1' 'commit 1 11'
    printf mo >&8
    sleep 0.2
    ask "ve ${all_at_0/,/$staged}" 'moving 1' 'moved 1'
    ask "move $four_at_1" 'moving 1' 'moved 1'
    ask "move $(sed "s/,/$staged/; s/1/2/" <<< "$all_at_0")" 'moving 1' 'moved 1'
    ask "move $staged" 'refused 101'
    said_so_far "squall: line 1: $unread" "squall: line 5: $unread" "squall: line 7: $unread" \
        "squall: line 10: refused 101: a plan isn't JSON" "squall: line 10: it isn't JSON at its line 1, column 1"
    refused=1
    end_engine 'serve: stages that are not read' 'sound 2 families 1 committed'
    echo "${all_at_0/,/$staged}" > "$room/plan.json"
    opening | tail -n 2 > "$room/rows.txt"
    begin_engine --plan "$room/plan.json" --rows "$room/rows.txt"
    echo 'config 64 64 1' >&8
    ask "move ${four_at_1/,/$staged}" 'moving 1' 'moved 1'
    said_so_far "squall: $room/plan.json: $unread" "squall: line 2: $unread"
    end_engine 'serve: stages that are not read, of a plan in a file' 'sound 2 families 0 committed'
}

# The rows, by rising root key, as jobs and moves leave them; in a file, which they replace whole. A file that the engine reads or
# that can't be written is refused, and a name that is no text.
served_rows() {
    echo "$all_at_0" > "$room/plan.json"
    echo 'an older text' > "$room/rows.out"
    begin_engine --plan "$room/plan.json"
    opening | tail -n +2 >&8
    ask 'rows' 'row 5 0 0 10 -' 'row 9 0 0 20 -' 'rows 2'
    ask 'txn 0 1 9 add 0 0 -3' 'commit 1 17'
    ask 'txn 0 2 7 put 0 0 1 ab' 'commit 2 ok'
    ask "rows $room/rows.out" 'rows 3'
    printf '%s\n' 'row 5 0 0 10 -' 'row 7 0 0 1 ab' 'row 9 0 0 17 -' > "$room/wanted"
    why="$why$(difference "$room/wanted" "$room/rows.out")"
    ask "move $four_at_1" 'moving 1' 'moved 1'
    ask 'rows' 'row 5 0 0 10 -' 'row 7 0 0 1 ab' 'row 9 0 0 17 -' 'rows 3'
    ask "rows $room/plan.json" 'refused 124'
    ask "rows $room/none/rows" 'refused 124'
    ask $'rows \xff' 'fault 126 12'
    said_so_far "squall: the file '$room/plan.json' can't be written: the engine reads it" \
        "squall: line 10: refused 124: the output can't be written" \
        "squall: the file '$room/none/rows' can't be written: No such file or directory (os error 2)" \
        "squall: line 11: refused 124: the output can't be written" "squall: line 12: fault 126: $no_line"
    refused=3
    echo "$all_at_0" > "$room/wanted"
    why="$why$(difference "$room/wanted" "$room/plan.json")$(ls "$room" | grep squall-part || true)"
    ask 'txn 0 3 7 del 0 0' 'commit 3 ok'
    ask 'rows' 'row 5 0 0 10 -' 'row 9 0 0 17 -' 'rows 2'
    end_engine 'serve: rows' 'sound 2 families 3 committed'
}

# Rows as tables of values: of a line, and at the end, after which a table holds what the last jobs left. No line has them saved in
# the file of the end.
served_tables() {
    begin_engine --rows-out "$room/end.csv"
    opening >&8
    ask "rows $room/rows.csv" 'rows 2'
    printf '%s\n' 'root,table,sub,number,note' '5,0,0,10,' '9,0,0,20,' > "$room/wanted"
    why="$why$(difference "$room/wanted" "$room/rows.csv")"
    ask "rows $room/end.csv" 'refused 124'
    said_so_far "squall: the file '$room/end.csv' can't be written: a report is to be in it" \
        "squall: line 6: refused 124: the output can't be written"
    refused=1
    ask 'txn 0 1 9 put 1 3 -4 68692c' 'commit 1 ok'
    end_engine 'serve: rows as tables' 'sound 2 families 1 committed'
    printf '%s\n' 'root,table,sub,number,note' '5,0,0,10,' '9,0,0,20,' '9,1,3,-4,"hi,"' > "$room/wanted"
    count 'serve: rows at the end as a table' "$(difference "$room/wanted" "$room/end.csv")"
    give <(opening) serve --rows-out "$room/end.txt"
    opening | grep '^row ' > "$room/wanted"
    count 'serve: rows at the end' "$(difference "$room/wanted" "$room/end.txt")"
    give <(echo 'plan {}') serve --rows-out "$room/end.none"
    count 'serve: no rows after a fault' "$(ls "$room/end.none" 2> /dev/null || true)"
}

# Who owns a root key by the plan in force, before a move and after it. A number that is no root key is a fault.
served_owners() {
    begin_engine
    opening >&8
    ask 'owner 5' 'owner 5 0'
    ask "move $four_at_1" 'moving 1' 'moved 1'
    ask $'owner 3\nowner 4\nowner 7\nowner 8' 'owner 3 0' 'owner 4 1' 'owner 7 1' 'owner 8 0'
    ask 'owner 4294967295' 'owner 4294967295 0'
    ask 'owner 4294967296' 'fault 126 12'
    ask 'owner' 'fault 126 13'
    said_so_far "squall: line 12: fault 126: $no_line" "squall: line 13: fault 126: $no_line"
    refused=2
    ask "move $all_at_0" 'moving 1' 'moved 1'
    ask 'owner 4' 'owner 4 0'
    end_engine 'serve: owners' 'sound 2 families 0 committed'
}

# While rows move, and once a line before asked for a move, they aren't written, and nothing changes.
served_rows_in_a_move() {
    local plan='{"version":1,"partitions":2,"ranges":[[0,50000,OWNER],[50000,4294967296,0]]}'
    begin_engine
    {
        printf '%s\n' "plan ${plan/OWNER/0}" 'config 64 64 1'
        seq -f 'row %.0f 0 0 1 -' 0 49999
    } >&8
    ask 'txn 0 1 5 get 0 0' 'commit 1 1/-'
    ask "move ${plan/OWNER/1}"$'\nrows' 'refused 217' 'moving 25' 'moved 25'
    ask "rows $room/rows.out" 'rows 50000'
    seq -f 'row %.0f 0 0 1 -' 0 49999 > "$room/wanted"
    why="$why$(difference "$room/wanted" "$room/rows.out")"
    said_so_far "squall: line 50005: $rows_move" 'squall: line 50005: a line before it asks for a move'
    refused=1
    end_engine 'serve: rows while rows move' 'sound 50000 families 1 committed'
}

# A line that is refused while rows move says which move is under way, and one that asks for too many segments how many they are.
served_refused_moves() {
    local plan='{"version":1,"partitions":2,"ranges":[[0,50000,OWNER],[50000,4294967296,0]]}'
    local few="there would be 1563 segments, and 256 is the most: the width of a leaf is to be 7 at least ('config 7 ..'); "
    few+='1563 segments are of the range from 0 to 50000, in which keys without rows count too'
    begin_engine
    printf '%s\n' "plan ${plan/OWNER/0}" 'config 1 64 1' >&8
    ask "move ${plan/OWNER/1}" 'refused 113'
    said_so_far "squall: line 3: refused 113: $(sed -n 's/^113 //p' "$tests/texts")" \
        "squall: line 3: $few"
    refused=1
    end_engine 'serve: a move of too many segments' 'sound 0 families 0 committed'
    begin_engine
    {
        printf '%s\n' "plan ${plan/OWNER/0}" 'config 64 64 1'
        seq -f 'row %.0f 0 0 1 -' 0 49999
    } >&8
    ask 'pause' 'paused'
    ask "move ${plan/OWNER/1}" 'moving 25'
    ask 'rows' 'refused 217'
    said_so_far "squall: line 50005: $rows_move" 'squall: line 50005: a move of 25 segments is under way'
    ask 'resume' 'resumed' 'moved 25'
    refused=1
    end_engine 'serve: a line while rows move' 'sound 50000 families 0 committed'
}

# While an engine is paused its pumps claim nothing, and a job still pulls the keys that it waits for. The segment has four leaves; one of
# them moves with a job, and the others once the pumps go on.
served_pause() {
    local rate='s/, [0-9]+ families a second/, N families a second/'
    begin_engine
    { printf '%s\n' "plan $all_at_0" 'config 1 64 1' 'row 4 0 0 1 -' 'row 5 0 0 10 -' 'row 6 0 0 2 -' 'row 7 0 0 3 -'; } >&8
    ask 'pause' 'paused'
    ask 'status' 'at rest, 0 jobs open, paused'
    ask "move $four_at_1" 'moving 1'
    ask 'status' 'moving 0 of 1 segments, 0 jobs open, paused; in all 0 of 1 segments, moved 0 families and 0 bytes, 0 families a second'
    ask 'txn 1 1 5 add 0 0 1' 'commit 1 11'
    ask_masked "$rate" 'status' 'moving 0 of 1 segments, 0 jobs open, paused; in all 0 of 1 segments, moved 1 families and 56 bytes, N families a second'
    ask 'rows' 'refused 217'
    said_so_far "squall: line 13: $rows_move" 'squall: line 13: a move of 1 segments is under way'
    ask 'resume' 'resumed' 'moved 1'
    ask 'status' 'at rest, 0 jobs open'
    ask 'pumps 0' 'pumps 0'
    ask "move $all_at_0" 'moving 1'
    ask 'txn 0 2 5 get 0 0' 'commit 2 11/-'
    ask_masked "$rate" 'status' 'moving 0 of 1 segments, 0 jobs open, paused; in all 0 of 1 segments, moved 1 families and 56 bytes, N families a second'
    ask 'pumps 1' 'pumps 1' 'moved 1'
    ask 'pumps 2' 'fault 126 21'
    ask 'pumps -1' 'fault 126 22'
    ask 'pumps' 'fault 126 23'
    said_so_far "squall: line 21: fault 126: $no_line" "squall: line 22: fault 126: $no_line" "squall: line 23: fault 126: $no_line"
    ask 'pumps 0' 'pumps 0'
    ask 'resume' 'resumed'
    ask "move $four_at_1" 'moving 1' 'moved 1'
    refused=4
    end_engine 'serve: pumps that rest' 'sound 4 families 2 committed'
}

# A line sets the most bytes of a chunk for the moves of later lines, which end as ever; those before it keep theirs. Limits that chunks
# can't have, and what is no number, are faults.
served_chunks() {
    local no_limit
    no_limit="fault 114: $(sed -n 's/^114 //p' "$tests/texts")"
    begin_engine
    opening >&8
    ask 'pause' 'paused'
    ask "move $four_at_1" 'moving 1'
    ask 'chunk 4096' 'chunk 4096'
    ask "move $all_at_0" 'queued 1'
    ask 'chunk 63' 'fault 114 9'
    ask 'chunk 1048577' 'fault 114 10'
    ask 'chunk x' 'fault 126 11'
    ask 'chunk' 'fault 126 12'
    said_so_far "squall: line 9: $no_limit" "squall: line 10: $no_limit" "squall: line 11: fault 126: $no_line" \
        "squall: line 12: fault 126: $no_line"
    ask 'resume' 'resumed' 'moved 1' 'moving 1' 'moved 1'
    ask 'chunk 64' 'chunk 64'
    ask 'chunk 1048576' 'chunk 1048576'
    ask "move $four_at_1" 'moving 1' 'moved 1'
    refused=4
    end_engine 'serve: chunks of another limit' 'sound 2 families 0 committed'
}

# A move that is asked for while rows move waits, and begins after those before it, in their order; the last one is dropped. A plan that
# doesn't fit is refused when its turn comes, and one with a fault of its own at once. At most 16 wait.
served_queue() {
    local number ends=('moved 1')
    begin_engine
    opening >&8
    ask 'drop' 'nothing queued'
    ask 'pause' 'paused'
    ask "move $four_at_1" 'moving 1'
    ask "move $all_at_0" 'queued 1'
    ask "move ${all_at_0/2/3}" 'queued 2'
    ask "move $four_at_1" 'queued 3'
    ask "move $all_at_0" 'queued 4'
    ask 'move {' 'refused 101'
    ask 'drop' 'dropped 3'
    ask 'plan' 'plan {"partitions":2,"ranges":[[0,4294967296,0]],"version":1}'
    ask 'resume' 'resumed' 'moved 1' 'moving 1' 'moved 1' 'refused 111' 'moving 1' 'moved 1'
    ask 'plan' 'plan {"partitions":2,"ranges":[[0,4,0],[4,8,1],[8,4294967296,0]],"version":1}'
    said_so_far "squall: line 12: refused 101: a plan isn't JSON" \
        'squall: line 12: its JSON ends too soon, at its line 1, column 1' \
        'squall: line 9: refused 111: the old and the new plan have different numbers of partitions' \
        'squall: line 9: its plan has 3 partitions, and the plan in force 2'
    ask 'pause' 'paused'
    ask "move $all_at_0" 'moving 1'
    for number in 1 2 3 4 5 6 7 8 9 10 11 12 13 14 15 16; do
        if [ $((number % 2)) = 1 ]; then ask "move $four_at_1" "queued $number"; else ask "move $all_at_0" "queued $number"; fi
        ends+=('moving 1' 'moved 1')
    done
    ask "move $four_at_1" 'refused 217'
    said_so_far "squall: line 35: $rows_move" 'squall: line 35: a move of 1 segments is under way'
    ask 'drop' 'dropped 15'
    ask "move $all_at_0" 'queued 16'
    refused=3
    end_engine 'serve: moves that wait' "${ends[@]}" 'sound 2 families 0 committed'
}

# Lines that ask nothing are reported with their numbers and the ids of their jobs, and the engine runs on: one that is none, one that
# is too long, a partition and a table that aren't there, a job without all of its words and one without an id, a text that is no plan,
# and a plan for three partitions. Standard error says why. An id is used again once its job is answered. The last line needs no end.
served_faults() {
    begin_engine
    opening >&8
    ask 'txn 0 1 5 get 0 0' 'commit 1 10/-'
    ask 'mov' 'fault 126 6'
    ask "$(head -c 65537 /dev/zero | tr '\0' a)" 'fault 231 7'
    ask 'txn 0 1 5 get 0 0' 'commit 1 10/-'
    ask 'txn 2 2 5 get 0 0' 'fault 219 9 id 2'
    ask 'txn 0 2 5 get 99 0' 'fault 133 10 id 2'
    ask 'txn 0 2 5 get 0' 'fault 126 11 id 2'
    ask 'txn x 2' 'fault 126 12'
    ask 'move {' 'refused 101'
    ask "move ${all_at_0/2/3}" 'refused 111'
    ask '' 'fault 126 15'
    ask 'txn 0 2 5 get 0 0' 'commit 2 10/-'
    said_so_far "squall: line 6: fault 126: $no_line" 'squall: line 7: fault 231: a line has more than 65536 bytes' \
        'squall: line 9: fault 219: there is no such partition (id 2)' "squall: line 9: word 2 is '2'" \
        "squall: line 10: fault 133: a table isn't in the schema (id 2)" "squall: line 10: word 6 is '99', and tables are 0 to 7" \
        "squall: line 11: fault 126: $no_line (id 2)" \
        'squall: line 11: word 7 is missing: a sub key, a number up to 4294967295 in decimal digits without a leading zero' \
        "squall: line 12: fault 126: $no_line" \
        "squall: line 12: word 2, 'x', isn't a number up to 18446744073709551615, in decimal digits without a leading zero" \
        "squall: line 13: refused 101: a plan isn't JSON" 'squall: line 13: its JSON ends too soon, at its line 1, column 1' \
        'squall: line 14: refused 111: the old and the new plan have different numbers of partitions' \
        'squall: line 14: its plan has 3 partitions, and the plan in force 2' \
        "squall: line 15: fault 126: $no_line"
    refused=9
    printf 'status' >&8 || true
    end_engine 'serve: lines that ask nothing' 'at rest, 0 jobs open' 'sound 2 families 3 committed'
}

# With --strict the engine ends after the first line that is refused: what was asked before is done, and the status is 3.
served_strictly() {
    { opening; printf '%s\n' 'txn 0 1 5 add 0 0 1' 'txn 2 2 5 get 0 0' 'txn 0 3 5 add 0 0 1'; } > "$room/jobs"
    give "$room/jobs" serve --strict
    sort "$room/out" > "$room/got" && mv "$room/got" "$room/out"
    printf '%s\n' 'commit 1 11' 'fault 219 6 id 2' 'sound 2 families 1 committed' > "$room/wanted"
    printf 'squall: %s\n' 'line 6: fault 219: there is no such partition (id 2)' "line 6: word 2 is '2'" '1 line was refused' \
        > "$room/said"
    judge 'serve --strict' 3 "$room/wanted" "$room/said"
    sed '6d' "$room/jobs" > "$room/sound"
    give "$room/sound" serve --strict
    printf '%s\n' 'commit 1 11' 'commit 3 12' 'sound 2 families 2 committed' > "$room/wanted"
    judge 'serve --strict without a refusal' 0 "$room/wanted" /dev/null
}

# Lines are counted from the first of the file that they stand in, also if the plan and the rows have files of their own.
served_places() {
    local table_form="'ROOT,TABLE,SUB,NUMBER,NOTE', as in '5,0,0,10,': root key, table, sub key, number, note"
    echo "$all_at_0" > "$room/plan.json"
    opening | grep '^row ' > "$room/rows.txt"
    printf '%s\n' 'config 64 64 1' 'txn 0 1 5 add 0 0 5' mov > "$room/begin"
    printf '%s\n' mov 'txn 9 4 5 get 0 0' > "$room/more"
    give "$room/more" serve --plan "$room/plan.json" --rows "$room/rows.txt" "$room/begin"
    sort "$room/out" > "$room/got" && mv "$room/got" "$room/out"
    printf '%s\n' 'commit 1 15' 'fault 126 1' 'fault 126 3' 'fault 219 2 id 4' 'sound 2 families 1 committed' > "$room/wanted"
    printf 'squall: %s\n' "$room/begin: line 3: fault 126: $no_line" "line 1: fault 126: $no_line" \
        'line 2: fault 219: there is no such partition (id 4)' "line 2: word 2 is '9'" '3 lines were refused' > "$room/said"
    judge 'serve: lines of two files and standard input' 0 "$room/wanted" "$room/said"
    place_of_row rows.txt 4 "$(form 4)" "it isn't a row" 'row 5 0 0 10 -' '' '# no row' 'rows 9 0 0 20 -' 'row 9 0 0 20 -'
    place_of_row rows.txt 2 "$(form 4)" "$no_note" 'row 5 0 0 10 -' 'row 9 0 0 20'
    place_of_row rows.csv 3 "$table_form" 'column 4 is empty' root,table,sub,number,note 5,0,0,10, 9,0,0,
    place_of_row rows.csv 2 "$table_form" "column 5 begins with a quote that isn't closed before the file ends" \
        5,0,0,10, '9,0,0,20,"ab'
    { opening; echo; } > "$room/begin"
    give /dev/null serve "$room/begin"
    echo 'fault 121 5' > "$room/wanted"
    printf "squall: $room/begin: line 5%s\n" ": fault 121: $empty_word" " is to be $(form 4)" > "$room/said"
    judge 'serve: a line of the file that is no row' 2 "$room/wanted" "$room/said"
    place_of_fault rows.txt 2 132 "word 2 is '4294967296'" 'row 5 0 0 10 -' 'row 4294967296 0 0 20 -'
    place_of_fault rows.txt 4 136 'words 2 to 4 are those of line 2' '' 'row 5 0 0 10 -' '# again' 'row 5 0 0 10 -'
    place_of_fault rows.csv 2 136 'columns 1 to 3 are those of line 1' 5,0,0,10, 5,0,0,20,
    place_of_fault rows.csv 2 132 "column 1 is '4294967296'" 5,0,0,10, 4294967296,0,0,20,
}

# place_of_row FILE LINE FORM MISFIT LINES..: in this file of rows, which has these lines, this one is no row, and standard error says so,
# and what doesn't fit in it.
place_of_row() {
    printf '%s\n' "${@:5}" > "$room/$1"
    give <(echo 'config 64 64 1'; echo status) serve --plan "$room/plan.json" --rows "$room/$1"
    echo "fault 121 $2" > "$room/wanted"
    printf "squall: $room/$1: line $2%s\n" ": fault 121: $4" " is to be $3" > "$room/said"
    judge "serve: line $2 of $1 is no row, $4" 2 "$room/wanted" "$room/said"
}

# place_of_fault FILE LINE FAULT MISFIT LINES..: the same of a row with this fault.
place_of_fault() {
    printf '%s\n' "${@:5}" > "$room/$1"
    give <(echo 'config 64 64 1'; echo status) serve --plan "$room/plan.json" --rows "$room/$1"
    echo "fault $3 $2" > "$room/wanted"
    printf "squall: $room/$1: line $2: %s\n" "fault $3: $(sed -n "s/^$3 //p" "$tests/texts")" "$4" > "$room/said"
    judge "serve: line $2 of $1 has fault $3" 2 "$room/wanted" "$room/said"
}

# A header has as many rows as there are, also more than a portion of the input has lines: none is lost. A line among them that is no row
# is its fault, wherever it is, and nothing is served.
served_many_rows() {
    local end
    echo "$all_at_0" > "$room/plan.json"
    seq -f 'row %.0f 0 0 1 -' 0 1099999 > "$room/rows.txt"
    printf '%s\n' 'commit 7 2' 'sound 1100000 families 1 committed' > "$room/wanted"
    { printf '%s\n' "plan $all_at_0" 'config 64 64 1'; cat "$room/rows.txt"; } > "$room/header"
    give <(cat "$room/header"; echo 'txn 0 7 1099999 add 0 0 1') serve
    judge 'serve: 1,100,000 rows' 0 "$room/wanted" /dev/null
    give <(printf '%s\n' 'config 64 64 1' 'txn 0 7 1099999 add 0 0 1') serve --plan "$room/plan.json" --rows "$room/rows.txt"
    judge 'serve: 1,100,000 rows in a file' 0 "$room/wanted" /dev/null
    for end in '' 'row 5' 'row 7 0 0 1 -'; do
        echo 'fault 121 1100003' > "$room/wanted"
        if [ "$end" = 'row 7 0 0 1 -' ]; then echo 'fault 136 1100003' > "$room/wanted"; fi
        give <(cat "$room/header"; echo "$end"; echo status) serve
        count "serve: '$end' behind 1,100,000 rows" "$([ "$ended" = 2 ] || echo "status $ended; ")$(difference "$room/wanted" "$room/out")"
    done
}

# The example, whose answers come in any order.
served_example() {
    give "$examples/engine.txt" serve
    grep -v ' jobs open' "$room/out" | sort > "$room/got"
    printf '%s\n' 'abort 4 0 small' 'commit 1 11' 'commit 2 12' 'commit 3 20/-' 'moved 1' 'moving 1' \
        'sound 2 families 3 committed' > "$room/wanted"
    count 'serve: the example' "$(difference "$room/wanted" "$room/got")"
}

# An input that ends in the midst of a move: it goes to its end, and each job is answered.
served_end_in_a_move() {
    {
        opening
        echo "move $four_at_1"
        seq -f 'txn 0 %.0f 5 add 0 0 1' 1 100
    } > "$room/jobs"
    give "$room/jobs" serve
    sed 's/^commit .*/commit/' "$room/out" | sort | uniq -c | sed 's/^ *//' > "$room/got"
    printf '%s\n' '100 commit' '1 moved 1' '1 moving 1' '1 sound 2 families 100 committed' > "$room/wanted"
    count 'serve: an end in a move' "$([ "$ended" = 0 ] || echo "status $ended; ")$(difference "$room/wanted" "$room/got")"
}

# Jobs on one root key that moves there and back: each is answered once, and the numbers are 1, 2, 3 ..
served_moves() {
    local owner from=1 plan='{"version":1,"partitions":2,"ranges":[[0,8,OWNER],[8,4294967296,0]]}'
    {
        printf '%s\n' "plan ${plan/OWNER/0}" 'config 64 64 1' 'row 5 0 0 0 -'
        for owner in 1 0 1 0; do
            seq -f 'txn 0 %.0f 5 add 0 0 1' "$from" $((from + 499))
            echo "move ${plan/OWNER/$owner}"
            from=$((from + 500))
        done
    } > "$room/jobs"
    give "$room/jobs" serve
    grep '^commit ' "$room/out" | cut -d ' ' -f 3 | sort -n > "$room/numbers"
    seq 1 2000 > "$room/wanted"
    count 'serve: numbers of a root key that moves' "$(difference "$room/wanted" "$room/numbers")"
    tail -n 1 "$room/out" > "$room/end"
    echo 'sound 1 families 2000 committed' > "$room/wanted"
    count 'serve: the end of its moves' "$([ "$ended" = 0 ] || echo "status $ended; ")$(difference "$room/wanted" "$room/end")"
}

# The file is read first, and then standard input; the plan and the rows may have files of their own, and the rows a table.
served_files() {
    opening > "$room/begin"
    echo 'txn 0 1 5 add 0 0 5' >> "$room/begin"
    echo 'txn 0 2 5 add 0 0 5' > "$room/more"
    give "$room/more" serve "$room/begin"
    printf '%s\n' 'commit 1 15' 'commit 2 20' 'sound 2 families 2 committed' > "$room/wanted"
    judge 'serve: a file and standard input' 0 "$room/wanted" /dev/null
    echo "$all_at_0" > "$room/plan.json"
    opening | grep '^row ' > "$room/rows.txt"
    printf '%s\n' '5,0,0,10,' '9,0,0,20,' > "$room/rows.csv"
    printf '%s\n' 'config 64 64 1' 'txn 0 1 5 add 0 0 5' > "$room/more"
    printf '%s\n' 'commit 1 15' 'sound 2 families 1 committed' > "$room/wanted"
    for rows in rows.txt rows.csv; do
        give "$room/more" serve --plan "$room/plan.json" --rows "$room/$rows"
        judge "serve: the plan in a file, and $rows" 0 "$room/wanted" /dev/null
    done
    give "$room/more" serve --plan "$room/plan.json" "$room/rows.none"
    : > "$room/wanted"
    echo "squall: the file '$room/rows.none' can't be read: No such file or directory (os error 2)" > "$room/said"
    judge 'serve: a file that is not there' 2 "$room/wanted" "$room/said"
}

# A header's last line needs no end.
served_rest() {
    give <(printf 'plan %s\nconfig 64 64 1\nrow 5 0 0 10 -' "$all_at_0") serve
    echo 'sound 1 families 0 committed' > "$room/wanted"
    judge 'serve: a last row without an end' 0 "$room/wanted" /dev/null
}

# said_of_header FAULT LINE MISFIT: what standard error says of a header with this fault in this line of the input.
said_of_header() {
    local form text
    case $2 in
        1) form="'plan PLAN', as in 'plan {\"version\":1,\"partitions\":2,\"ranges\":[[0,4294967296,0]]}'" ;;
        2) form=$(form 3) ;;
        *) form=$(form 4) ;;
    esac
    text=$(sed -n "s/^$1 plan/a plan/p; s/^$1 //p" "$tests/texts")
    if [ "$1" = 121 ]; then
        printf 'squall: line %s\n' "$2: fault 121: $3" "$2 is to be $form"
        return
    fi
    printf "squall: line $2: %s\n" "fault $1: $text" "$3"
}

# Headers that have a fault: standard error says what `squall run` does of it, and which word or which place of the plan it is.
served_headers() {
    local fault line misfit text mark=$'\xef\xbb\xbf' carriage=$'\r'
    local number='a number up to 18446744073709551615, in decimal digits without a leading zero'
    while IFS='|' read -r fault line misfit text; do
        tr ';' '\n' <<< "$text" > "$room/header"
        give "$room/header" serve
        echo "fault $fault $line" > "$room/wanted"
        said_of_header "$fault" "$line" "$misfit" > "$room/said"
        judge "serve: a header with fault $fault in line $line, $misfit" 2 "$room/wanted" "$room/said"
    done <<END
121|1|$empty_word|
121|1|word 1 is 'config'|config 1 64 1
121|1|word 2 is missing: a plan|plan
121|1|it begins with a byte order mark (the bytes EF BB BF)|${mark}plan $all_at_0
121|2|word 4 is missing: $number|plan $all_at_0;config 1 64
121|2|word 1, 'row', isn't 'config'|plan $all_at_0;row 5 0 0 1 -
121|2|word 3, '064', isn't $number|plan $all_at_0;config 1 064 1
121|3|$empty_word|plan $all_at_0;config 1 64 1;;row 5 0 0 1 -
121|4|$empty_word|plan $all_at_0;config 1 64 1;row 5 0 0 1 -;;row 9 0 0 1 -;status
121|4|word 1, 'moved', isn't 'row'|plan $all_at_0;config 1 64 1;row 5 0 0 1 -;moved;status
121|3|$no_note|plan $all_at_0;config 1 64 1;row 5 0 0 1
121|3|a carriage return (the byte 0D) stands before its end|plan $all_at_0;config 1 64 1;row 5 0 0 1 -$carriage
101|1|its JSON ends too soon, at its line 1, column 1|plan {
102|1|it has no field 'version'|plan {}
105|1|its range 2 begins at 9 instead of 8|plan {"version":1,"partitions":2,"ranges":[[0,8,0],[9,4294967296,0]]}
106|1|its range 1 belongs to partition 2 of 2, which are numbered from 0|plan {"version":1,"partitions":2,"ranges":[[0,4294967296,2]]}
112|2|word 2 is '0'|plan $all_at_0;config 0 64 1
114|2|word 3 is '63'|plan $all_at_0;config 1 63 1
115|2|word 4 is '0'|plan $all_at_0;config 1 64 0
132|3|word 2 is '4294967296'|plan $all_at_0;config 1 64 1;row 4294967296 0 0 1 -
133|3|word 3 is '8', and tables are 0 to 7|plan $all_at_0;config 1 64 1;row 5 8 0 1 -
136|4|word 2 is '5'|plan $all_at_0;config 1 64 1;row 5 0 0 1 -;row 5 0 0 1 -
END
    give <(echo "plan $all_at_0") serve
    echo 'fault 121 2' > "$room/wanted"
    said_of_header 121 2 'the input ends before it' > "$room/said"
    judge 'serve: a header without sizes' 2 "$room/wanted" "$room/said"
    give /dev/null serve
    echo 'fault 121 1' > "$room/wanted"
    said_of_header 121 1 'the input ends before it' > "$room/said"
    judge 'serve: an empty input' 2 "$room/wanted" "$room/said"
    served_plan_files
}

# A fault of a plan in a file of its own is told by its line and column there; one of the line of the sizes, by that line of its own file.
served_plan_files() {
    printf '%s\n' '{"version":1,' '"partitions":2,,' > "$room/plan.json"
    echo 'config 64 64 1' > "$room/begin"
    give /dev/null serve --plan "$room/plan.json" "$room/begin"
    echo 'fault 101 1' > "$room/wanted"
    printf "squall: $room/plan.json: %s\n" "fault 101: a plan isn't JSON" "it isn't JSON at its line 2, column 16" > "$room/said"
    judge 'serve: a plan in a file that is not JSON' 2 "$room/wanted" "$room/said"
    echo "$all_at_0" > "$room/plan.json"
    echo 'config 0 64 1' > "$room/begin"
    give /dev/null serve --plan "$room/plan.json" "$room/begin"
    echo 'fault 112 1' > "$room/wanted"
    printf "squall: $room/begin: line 1: %s\n" "fault 112: the width of a leaf isn't from 1 to 65536" "word 2 is '0'" > "$room/said"
    judge 'serve: sizes behind a plan in a file' 2 "$room/wanted" "$room/said"
}

# An input that breaks off: a line without an end, and one that can't be read further. What was read before is done.
served_broken_input() {
    give <(opening; echo 'txn 0 1 5 add 0 0 5'; tr '\0' a < /dev/zero) serve
    printf '%s\n' 'commit 1 15' 'fault 122 6' 'sound 2 families 1 committed' > "$room/wanted"
    sort "$room/out" > "$room/got"
    count 'serve: an input without end' "$([ "$ended" = 2 ] || echo "status $ended; ")$(difference "$room/wanted" "$room/got")"
    { opening; echo 'txn 0 1 5 add 0 0 5'; } > "$room/begin"
    ended=0
    timeout 60 "$squall" serve "$room/begin" < "$room" > "$room/out" 2> "$room/err" || ended=$?
    printf '%s\n' 'commit 1 15' 'fault 123 1' 'sound 2 families 1 committed' > "$room/wanted"
    sort "$room/out" > "$room/got" && mv "$room/got" "$room/out"
    printf 'squall: %s\n' "line 1: fault 123: the input can't be read" '1 line was refused' > "$room/said"
    judge 'serve: an input that is not read further' 2 "$room/wanted" "$room/said"
}

# More lines than a portion of the input has: each is answered, with its number.
served_many_lines() {
    { opening; yes status | head -n 1100000; echo mov; } > "$room/jobs"
    give "$room/jobs" serve
    { yes 'at rest, 0 jobs open' | head -n 1100000; printf '%s\n' 'fault 126 1100005' 'sound 2 families 0 committed'; } > "$room/wanted"
    count 'serve: more than a million lines' "$([ "$ended" = 0 ] || echo "status $ended; ")$(cmp "$room/wanted" "$room/out" 2>&1)"
}

# A client that sends jobs, most of them to one partition, and reads no answer until all are sent, or the engine has stood for a
# while: nothing is lost or doubled.
served_slow_client() {
    begin_engine
    {
        opening
        seq 1 40000 | awk '{ if ($1 % 8 == 0) print "txn 1", $1, "4000000000 check 0 0 1"; else print "txn 0", $1, "5 add 0 0 1" }'
    } >&8 &
    exec 8>&-
    sleep 1
    ended=0
    cat <&7 > "$room/out"
    exec 7<&-
    wait "$engine" || ended=$?
    { seq 1 40000 | awk '{ print $1 % 8 == 0 ? "abort" : "commit", $1 }'; echo 'sound 2'; } | sort > "$room/wanted"
    cut -d ' ' -f 1,2 "$room/out" | sort > "$room/got"
    count 'serve: a client that reads late' "$([ "$ended" = 0 ] || echo "status $ended; ")$(difference "$room/wanted" "$room/got")$(cat "$room/err")"
}

# Jobs for a partition whose queue is full wait beside it, while those of the other one are answered. In a move of 50,000 chunks far more
# jobs have no answer than that queue (4,096) and the list of jobs that wait for rows (1,024) hold, and the engine still takes lines.
served_full_queue() {
    local open plan='{"version":1,"partitions":2,"ranges":[[0,50000,OWNER],[50000,4294967296,0]]}'
    {
        printf '%s\n' "plan ${plan/OWNER/0}" 'config 64 64 1'
        seq -f 'row %.0f 0 0 1 -' 0 49999
        echo 'row 60000 0 0 0 -'
        echo "move ${plan/OWNER/1}"
        seq 1 30000 | awk '{ print "txn 1", $1, $1 * 7919 % 50000, "get 0 0" }'
        echo 'status'
        seq -f 'txn 0 %.0f 60000 add 0 0 1' 30001 30100
    } > "$room/jobs"
    give "$room/jobs" serve
    open=$(sed -n 's/^moving [0-9]* of 25 segments, \([0-9]*\) jobs open; in all .*/\1/p' "$room/out")
    if [ "${open:-0}" -le 20000 ]; then why="$open jobs open; "; else why=; fi
    {
        grep -n -x -e 'commit 30100 100' -e 'moved 25' "$room/out" | cut -d : -f 2
        sed 's/^commit [0-9]* .*/commit/; s/^moving [0-9]* of .*/so far/' "$room/out" | sort | uniq -c | sed 's/^ *//'
    } > "$room/got"
    printf '%s\n' 'commit 30100 100' 'moved 25' '30100 commit' '1 moved 25' '1 moving 25' '1 so far' \
        '1 sound 50001 families 30100 committed' > "$room/wanted"
    count 'serve: a full queue' "$why$(miscounted "$room/jobs" "$room/out")$([ "$ended" = 0 ] || echo "status $ended; ")$(difference "$room/wanted" "$room/got")"
}

# Of 300,000 jobs for one partition 65,536 may wait beside its queue, which holds 4,096, and no line is taken while so many do: so half of
# them are answered before the line behind them is read. All are answered.
served_full_sides() {
    local open plan='{"version":1,"partitions":2,"ranges":[[0,50000,OWNER],[50000,4294967296,0]]}'
    {
        printf '%s\n' "plan ${plan/OWNER/0}" 'config 64 64 1'
        seq -f 'row %.0f 0 0 1 -' 0 49999
        echo "move ${plan/OWNER/1}"
        seq 1 300000 | awk '{ print "txn 1", $1, $1 * 7919 % 50000, "get 0 0" }'
        echo 'status'
    } > "$room/jobs"
    give "$room/jobs" serve
    open=$(sed -n -E 's/^(moving [0-9]* of 25 segments|at rest), ([0-9]*) jobs open.*/\2/p' "$room/out")
    if [ "${open:-150000}" -ge 150000 ]; then why="$open jobs open; "; else why=; fi
    grep -c '^commit ' "$room/out" > "$room/got" || true
    tail -n 1 "$room/out" >> "$room/got"
    printf '%s\n' 300000 'sound 50000 families 300000 committed' > "$room/wanted"
    count 'serve: no more wait beside queues than there is room for' \
        "$why$(miscounted "$room/jobs" "$room/out")$([ "$ended" = 0 ] || echo "status $ended; ")$(difference "$room/wanted" "$room/got")"
}

# With only some threads, counted over all its epochs, the engine does all, or ends with the fault 222 behind answers that it would have
# given anyway; it never waits for ever. Without a thread it can't even read, and with 60 it does all.
served_without_threads() {
    local threads last
    "${CC:-cc}" -shared -fPIC -o "$room/no_thread.so" "$tests/programs/no_thread.c" -ldl
    { opening; echo "move $four_at_1"; echo 'txn 0 1 5 add 0 0 1'; echo 'txn 0 2 9 get 0 0'; } > "$room/jobs"
    printf '%s\n' 'commit 1 11' 'commit 2 20/-' 'moved 1' 'moving 1' 'sound 2 families 2 committed' > "$room/all"
    for threads in 0 1 2 3 4 6 11 60; do
        (
            ended=0
            THREADS=$threads LD_PRELOAD=$room/no_thread.so timeout 300 "$squall" serve < "$room/jobs" \
                > "$room/out.$threads" 2> "$room/err" || ended=$?
            echo "$ended $(tail -n 1 "$room/out.$threads")" > "$room/end.$threads"
        ) &
    done
    wait
    for threads in 0 1 2 3 4 6 11 60; do
        last=$(tail -n 1 "$room/out.$threads")
        grep -v -x "$last" "$room/out.$threads" | sort > "$room/got" || true
        if [ "$threads" = 0 ]; then
            echo 'fault 222' > "$room/wanted"
            count 'serve: without a thread' "$(difference "$room/wanted" "$room/out.0")"
        elif [ "$threads" = 60 ]; then
            sort "$room/out.60" > "$room/got"
            count 'serve: with 60 threads' "$(difference "$room/all" "$room/got")"
        else
            case $(cat "$room/end.$threads") in
                '2 fault 222' | '0 sound 2 families 2 committed') why= ;;
                *) why="$(cat "$room/end.$threads"); " ;;
            esac
            count "serve: with $threads threads" "$why$(comm -23 "$room/got" "$room/all")"
        fi
    done
}

# The figures of a move that stands still, and of one that is done, and JSON of both: only the numbers that no time changes are compared.
served_figures() {
    local plan='{"version":1,"partitions":2,"ranges":[[0,2000,OWNER],[2000,4294967296,0]]}'
    local masked='s/"(memory_bytes|microseconds)":[1-9][0-9]*/"\1":N/g
        s/"waits":(null|\{"longest":[0-9]*,"median":[0-9]*,"p99":[0-9]*\})/"waits":W/'
    begin_engine
    {
        printf '%s\n' "plan ${plan/OWNER/0}" 'config 64 64 1'
        seq -f 'row %.0f 0 0 1 -' 0 1999
    } >&8
    ask 'txn 0 1 5 get 0 0' 'commit 1 1/-'
    ask pause paused
    ask "move ${plan/OWNER/1}" 'moving 1'
    ask status 'moving 0 of 1 segments, 0 jobs open, paused; in all 0 of 1 segments, moved 0 families and 0 bytes, 0 families a second'
    ask_masked "$masked" 'status json' '{"aborted":0,"bytes_moved":0,"committed":1,"families_moved":0,"memory_bytes":N,"microseconds":N,"move":{"bytes_moved":0,"families_a_second":0,"families_moved":0,"left":null,"segments":1,"segments_complete":0,"stage_segments":1,"stage_segments_complete":0},"moves_done":0,"open":0,"open_at":[0,0],"pumps":0,"state":"moving","waits":W}'
    ask resume resumed 'moved 1'
    ask status 'at rest, 0 jobs open'
    ask_masked "$masked" 'status json' '{"aborted":0,"bytes_moved":112000,"committed":1,"families_moved":2000,"memory_bytes":N,"microseconds":N,"move":null,"moves_done":1,"open":0,"open_at":[0,0],"pumps":1,"state":"at rest","waits":W}'
    end_engine 'serve: figures' 'sound 2000 families 1 committed'
}

# ask_masked MASK LINE ANSWER: sends a line; the next line that comes is to be this one once sed has masked it.
ask_masked() {
    local answer=
    echo "$2" >&8 || true
    read -r -t 30 answer <&7 || true
    answer=$(sed -E "$1" <<< "$answer")
    if [ "$answer" != "$3" ]; then why="$why$2: $answer, and not $3; "; fi
}

# The file of figures is written while the engine runs and at its end, by each second whole; a folder that isn't there is told once, and
# tried again. It never goes over what is read.
served_metrics() {
    local tries
    mkdir "$room/figures"
    begin_engine --metrics "$room/figures/now"
    opening >&8
    ask 'txn 0 1 5 add 0 0 1' 'commit 1 11'
    for tries in 1 2 3 4 5 6 7 8 9 10 11 12 13 14 15; do
        if grep -q -x 'squall_jobs_committed_total 1' "$room/figures/now" 2> /dev/null; then break; fi
        sleep 0.2
    done
    if [ "$tries" = 15 ]; then why="${why}no figures of a commit; "; fi
    rm -r "$room/figures"
    sleep 2.5
    said_so_far "squall: the file '$room/figures/now' can't be written: No such file or directory (os error 2)"
    mkdir "$room/figures"
    sleep 1.5
    if [ ! -e "$room/figures/now" ]; then why="${why}no figures after a failed write; "; fi
    ask "move $four_at_1" 'moving 1' 'moved 1'
    ask 'txn 0 2 5 check 0 0 99' 'abort 2 0 small'
    end_engine 'serve: figures in a file' 'sound 2 families 1 committed'
    grep -v '^#' "$room/figures/now" | grep -v -e '^squall_wait_seconds' -e '^squall_memory_bytes' -e '^squall_served_seconds' > "$room/got"
    printf '%s\n' 'squall_jobs_committed_total 1' 'squall_jobs_aborted_total 1' 'squall_moves_total 1' 'squall_families_moved_total 1' \
        'squall_bytes_moved_total 56' 'squall_jobs_open{partition="0"} 0' 'squall_jobs_open{partition="1"} 0' 'squall_moving 0' \
        'squall_segments 0' 'squall_segments_complete 0' 'squall_families_per_second 0' 'squall_pumps 0' > "$room/wanted"
    count 'serve: figures at the end' "$(difference "$room/wanted" "$room/got")$(ls "$room/figures" | grep -v -x now || true)"
    awk '/^# TYPE / { typed[$3]++; next } /^# HELP / { helped[$3]++; next } { sub(/[{ ].*/, ""); if (typed[$0] != 1 || helped[$0] != 1) print }' \
        "$room/figures/now" > "$room/got"
    count 'serve: each figure in a file has its type' "$(difference /dev/null "$room/got")"
    rm -r "$room/figures"
    opening > "$room/begin"
    give /dev/null serve --metrics "$room/begin" "$room/begin"
    : > "$room/wanted"
    echo "squall: --metrics names the file '$room/begin', which the run reads" > "$room/said"
    judge 'serve: figures over what is read' 2 "$room/wanted" "$room/said"
}

# At a terminal an engine whose output goes elsewhere says how far it is, on one line that is blank at the end.
served_progress() {
    { opening; echo 'txn 0 1 5 add 0 0 1'; } > "$room/begin"
    timeout 60 script -qefc "(cat '$room/begin'; sleep 1) | '$squall' serve > '$room/out'" /dev/null < /dev/null | tr '\r' '\n' > "$room/terminal"
    grep -x '[01] jobs answered, [01] open' "$room/terminal" | tail -n 1 > "$room/got"
    tail -n 1 "$room/terminal" >> "$room/got"
    printf '1 jobs answered, 0 open\n%72s\n' '' > "$room/wanted"
    count 'serve: progress at a terminal' "$(difference "$room/wanted" "$room/got")"
}

# What an engine did: each answer is in one interval, and each of the 2,000 families, of 56 bytes each; the account has the same. No
# report is written over what is read, standard input too, nor over another one.
served_reports() {
    local longest text
    {
        echo 'plan {"version":1,"partitions":2,"ranges":[[0,4294967296,0]]}'
        echo 'config 64 64 1'
        seq -f 'row %.0f 0 0 1 -' 0 1999
        seq -f 'txn 0 %.0f 5 add 0 0 1' 1 100
        echo 'txn 0 101 5 check 0 0 999'
        echo 'move {"version":1,"partitions":2,"ranges":[[0,2000,1],[2000,4294967296,0]]}'
    } > "$room/jobs"
    give "$room/jobs" serve --timeline "$room/line.csv" --summary-out "$room/account"
    awk -F, 'NR == 1 { print; last = -1; next }
        NF != 8 || $1 % 10 != 0 || $1 <= last || $3 > $4 || $4 > $5 || ($2 > 0) != ($5 != "") { print "line " NR ": " $0 }
        { last = $1; answered += $2; families += $6; bytes += $7 }
        END { print answered, families, bytes }' "$room/line.csv" > "$room/got"
    longest=$(awk -F, 'NR > 1 && $5 > most { most = $5 } END { print most + 0 }' "$room/line.csv")
    sed 's/^epochs: [0-9]*, longest pause [0-9]* us, all pauses [0-9]* us$/epochs/
        s/from [0-9]* to [0-9]* us, committed [0-9]*, aborted [0-9]*, longest wait [0-9]* us$/.. us/' "$room/account" >> "$room/got"
    printf '%s\n' 'milliseconds,answered,median,p99,longest,families,bytes,segments' '101 2000 112000' \
        "jobs: committed 100, aborted 1, longest wait $longest us" 'epochs' \
        'move: segments 1, families 2000, bytes 112000, .. us' > "$room/wanted"
    count 'serve: reports' "$([ "$ended" = 0 ] || echo "status $ended; ")$(difference "$room/wanted" "$room/got")"
    : > "$room/wanted"
    for text in "$room/jobs" /dev/null; do
        give "$text" serve --timeline "$room/jobs" $([ "$text" = "$room/jobs" ] || echo "$room/jobs")
        echo "squall: --timeline names the file '$room/jobs', which the run reads" > "$room/said"
        judge "serve: a report over what is read, ${text##*/}" 2 "$room/wanted" "$room/said"
    done
    give "$room/jobs" serve --timeline "$room/both" --summary-out "$room/both"
    echo "squall: --timeline names the file '$room/both', which another option names too" > "$room/said"
    judge 'serve: two reports in one file' 2 "$room/wanted" "$room/said"
    for text in summary-out timeline; do
        give "$room/jobs" serve "--$text" -
        echo "squall: --$text names '-', and an output is a file" > "$room/said"
        judge "serve --$text -" 2 "$room/wanted" "$room/said"
        give "$room/jobs" serve "--$text" /dev/full
        echo "squall: --$text names '/dev/full', which is no file" > "$room/said"
        judge "serve --$text /dev/full" 2 "$room/wanted" "$room/said"
        give "$room/jobs" serve "--$text" "$room/out"
        echo "squall: --$text names '$room/out', which is standard output" > "$room/said"
        judge "serve --$text that is standard output" 2 "$room/wanted" "$room/said"
    done
    give "$room/jobs" serve --timeline "$room/none/line.csv"
    echo "squall: the file '$room/none/line.csv' can't be written: No such file or directory (os error 2)" > "$room/said"
    count 'serve: a report that can not be written' "$([ "$ended" = 2 ] || echo "status $ended; ")$(difference "$room/said" "$room/err")"
}

# Moves of one family there and back, and one of none, each of which may be over before a job is wanted: each has its line.
served_short_moves() {
    begin_engine --timeline "$room/line.csv" --summary-out "$room/account"
    opening >&8
    ask "move $four_at_1" 'moving 1' 'moved 1'
    ask "move $four_at_1" 'moving 0' 'moved 0'
    ask "move $all_at_0" 'moving 1' 'moved 1'
    end_engine 'serve: short moves' 'sound 2 families 0 committed'
    sed -n 's/, from .*//p' "$room/account" > "$room/got"
    awk -F, 'NR > 1 { families += $6; bytes += $7 } END { print families, bytes }' "$room/line.csv" >> "$room/got"
    printf '%s\n' 'move: segments 1, families 1, bytes 56' 'move: segments 0, families 0, bytes 0' \
        'move: segments 1, families 1, bytes 56' '2 112' > "$room/wanted"
    count 'serve: reports of short moves' "$(difference "$room/wanted" "$room/got")"
}

# A closed output ends the engine at once, also while its input is silent; and so does a full device.
served_closed_output() {
    begin_engine
    opening >&8
    ask 'txn 0 1 5 get 0 0' 'commit 1 10/-'
    exec 7<&-
    echo 'txn 0 2 5 get 0 0' >&8
    ended=0
    wait "$engine" || ended=$?
    exec 8>&-
    count 'serve: a closed output' "$why$([ "$ended" = 2 ] || echo "status $ended; ")$(cat "$room/err")"
    said 124 > "$room/said"
    write_nowhere 'serve: a full device' "$examples/engine.txt" serve
}

try_serve() {
    local engine why rows refused rows_move="refused 217: rows move, and it is to be asked again once they don't"
    local empty_word='word 1 is empty, where one space stands between two words and none at an end'
    local no_note="word 6 is missing: a note, '-' or two digits from 0-9 and a-f for each byte"
    local no_line='the line is no job, and none of move, drop, pause, resume, pumps, chunk, fold, status, plan, owner and rows'
    trap '' PIPE
    served_session
    served_before_a_stop
    served_unread_stages
    served_rows
    served_tables
    served_owners
    served_rows_in_a_move
    served_faults
    served_refused_moves
    served_pause
    served_chunks
    served_queue
    served_short_moves
    served_figures
    served_metrics
    served_progress
    served_closed_output
    trap - PIPE
    served_example
    served_end_in_a_move
    served_moves
    served_files
    served_places
    served_strictly
    served_headers
    served_rest
    served_many_rows
    served_broken_input
    served_many_lines
    served_slow_client
    served_full_queue
    served_full_sides
    served_status
    served_without_threads
    served_reports
}
