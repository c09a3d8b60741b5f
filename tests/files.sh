# What is left of files that `squall` writes: whole or not at all, with their modes and behind their links, all or none of several,
# and none after a run that is killed. tests/run.sh sources it.
kinds="$kinds files"

# small_jobs: a live run of two rows, with a job for each. The plans are those of tests/serving.sh.
small_jobs() {
    printf '%s\n' "old $all_at_0" "new $four_at_1" 'config 64 64 1' 'row 5 0 0 10 -' 'row 9 0 0 20 -' \
        'txn 0 1 5 add 0 0 1' 'txn 0 2 9 get 0 0'
}

# The files that such a run writes: its rows at the end, and what its jobs were answered.
small_rows() { printf '%s\n' 'row 5 0 0 11 -' 'row 9 0 0 20 -'; }
small_replies() { printf '%s\n' 'commit 1 11' 'commit 2 20/-'; }

try_files() {
    local room_of_files=$room/files
    rm -rf "$room_of_files"
    mkdir "$room_of_files"
    small_jobs > "$room_of_files/jobs"
    head -n 5 "$room_of_files/jobs" > "$room_of_files/script"
    opening > "$room_of_files/served"
    try_file_modes "$room_of_files"
    try_linked_files "$room_of_files"
    try_unwritable_folders "$room_of_files"
    try_several_files "$room_of_files"
    try_served_files "$room_of_files"
    try_served_forms "$room_of_files"
    try_synced_files "$room_of_files"
    try_killed_runs "$room_of_files"
}

# holds FILE MODE TEXT: whether a file has this mode and this text; says what is otherwise.
holds() {
    if [ "$(stat -c %a "$1")" != "$2" ]; then echo "mode $(stat -c %a "$1") of ${1##*/}, and not $2; "; fi
    if [ "$(cat "$1")" != "$3" ]; then echo "${1##*/} has another text; "; fi
}

# left_beside FOLDER: the files that a run has left beside others.
left_beside() { find "$1" -name '*.squall-part'; }

# try_file_modes FOLDER: a file that is replaced keeps its mode, also one by which its owner can't write; one that isn't there gets that
# of the mask.
try_file_modes() {
    local mode why
    for mode in 600 640 444 755; do
        for name in rows replies moments.csv figures; do
            rm -f "$1/$name"
            echo before > "$1/$name"
            chmod "$mode" "$1/$name"
        done
        give "$1/jobs" live --rows-out "$1/rows" --replies "$1/replies" --timeline "$1/moments.csv" --summary-out "$1/figures"
        why=$(holds "$1/rows" "$mode" "$(small_rows)"; sort -o "$1/sorted" "$1/replies"
            if [ "$(cat "$1/sorted")" != "$(small_replies)" ]; then echo 'other replies; '; fi
            for name in replies moments.csv figures; do
                if [ "$(stat -c %a "$1/$name")" != "$mode" ]; then echo "mode $(stat -c %a "$1/$name") of $name; "; fi
            done)
        count "live: files of mode $mode" "$why$([ "$ended" = 0 ] || echo "status $ended; ")$(left_beside "$1")"
    done
    echo before > "$1/script_rows"
    chmod 600 "$1/script_rows"
    give "$1/script" run --rows-out "$1/script_rows"
    count 'run: a file of mode 600' "$(holds "$1/script_rows" 600 "$(printf '%s\n' 'row 5 0 0 10 -' 'row 9 0 0 20 -')")"
    rm -f "$1/new_rows"
    (umask 027; give "$1/jobs" live --rows-out "$1/new_rows")
    count 'live: a file that is not there' "$(holds "$1/new_rows" 640 "$(small_rows)")"
}

# try_linked_files FOLDER: a link stays, and the file that it leads to is replaced, with nothing beside either of them; a link that
# leads nowhere is refused before anything is read.
try_linked_files() {
    local option name
    mkdir "$1/elsewhere"
    for option in rows-out replies timeline summary-out; do
        name=$1/elsewhere/$option.csv
        echo before > "$name"
        ln -s "elsewhere/$option.csv" "$1/link.$option"
        ln -s "link.$option" "$1/link.of.link.$option"
        give "$1/jobs" live "--$option" "$1/link.of.link.$option"
        count "live --$option by a link" "$([ "$ended" = 0 ] || echo "status $ended; "
            [ -L "$1/link.$option" ] && [ -L "$1/link.of.link.$option" ] || echo 'a link is gone; '
            if [ "$(cat "$name")" = before ]; then echo 'the file is as before; '; fi; left_beside "$1")"
        ln -s nowhere "$1/dangling.$option"
        echo "squall: --$option names '$1/dangling.$option', a link that leads to no file" > "$room/said"
        give "$1/jobs" live "--$option" "$1/dangling.$option"
        judge "live --$option by a link that leads nowhere" 2 /dev/null "$room/said"
        count "--$option: a link that leads nowhere" "$([ -L "$1/dangling.$option" ] || echo 'it is gone')"
    done
}

# try_unwritable_folders FOLDER: a folder in which no file can be made is refused before anything is read. A name may be so long that
# none can be made beside it. A file that is there stays.
try_unwritable_folders() {
    local option long refused='Permission denied (os error 13)'
    if (: > /sys/rows) 2>&1 | grep -q 'Read-only'; then refused='Read-only file system (os error 30)'; fi
    long=$1/$(printf 'x%.0s' {1..250})
    echo before > "$long"
    for option in rows-out replies timeline summary-out; do
        echo "squall: the file '$long' can't be written: File name too long (os error 36)" > "$room/said"
        give "$1/jobs" live "--$option" "$long"
        judge "live --$option with a name of 250 bytes" 2 /dev/null "$room/said"
        count "--$option with a name of 250 bytes" "$(holds "$long" "$(stat -c %a "$long")" before)"
        echo "squall: the file '/sys/rows' can't be written: $refused" > "$room/said"
        give "$1/jobs" live "--$option" /sys/rows
        judge "live --$option in a folder of the system" 2 /dev/null "$room/said"
    done
    echo "squall: the file '/sys/rows' can't be written: $refused" > "$room/said"
    give "$1/script" run --rows-out /sys/rows
    judge 'run --rows-out in a folder of the system' 2 /dev/null "$room/said"
    for option in timeline summary-out; do
        give "$1/served" serve "--$option" /sys/rows
        judge "serve --$option in a folder of the system" 2 /dev/null "$room/said"
    done
    echo "squall: --timeline names '$1', which is no file" > "$room/said"
    give "$1/jobs" live --timeline "$1"
    judge 'live --timeline that is a folder' 2 /dev/null "$room/said"
    count 'files beside names that are refused' "$(left_beside "$1")"
}

# try_several_files FOLDER: where one of several texts can't be written, no file is replaced.
try_several_files() {
    local name
    {
        head -n 5 "$1/jobs"
        seq -f 'txn 0 %.0f 5 get 0 0' 1 200
    } > "$1/many"
    for name in rows replies moments.csv; do
        rm -f "$1/$name"
        echo before > "$1/$name"
    done
    echo 'sound 2 families 200 committed' > "$room/wanted"
    echo "squall: the file '$1/moments.csv' can't be written: File too large (os error 27)" > "$room/said"
    give_with_short_files "$1/many" live --rows-out "$1/rows" --timeline "$1/moments.csv"
    judge 'live: one of two files may not be so long' 2 "$room/wanted" "$room/said"
    echo "squall: the file '$1/replies' can't be written: File too large (os error 27)" > "$room/said"
    give_with_short_files "$1/many" live --rows-out "$1/rows" --replies "$1/replies" --summary-out "$1/figures.json"
    judge 'live: one of three files may not be so long' 2 "$room/wanted" "$room/said"
    count 'none of several files is new' "$(for name in rows replies moments.csv; do
        if [ "$(cat "$1/$name")" != before ]; then echo "$name is; "; fi
    done; ls "$1/figures.json" 2> /dev/null; left_beside "$1")"
    # The folders of `demo`: what isn't written leaves nothing.
    mkdir "$1/demo"
    give_with_short_files /dev/null demo --roots 100 --jobs 10 "$1/demo"
    count 'demo: one of four files may not be so long' "$([ "$ended" = 2 ] || echo "status $ended; "; ls "$1/demo")"
}

# try_served_files FOLDER: why an engine saves no rows in a file: one that it reads, one of a report, one beside a report, the file
# that its answers go into, a device, a folder, and a link that leads nowhere. A link that leads to a file stays.
try_served_files() {
    local name lines=()
    rm -f "$1/report"
    for name in "$1/served" "$1/report" "$1/report.squall-part" "$room/out" /dev/full "$1/elsewhere" "$1/dangling.replies" "$1/link.replies"; do
        lines+=("rows $name")
    done
    printf '%s\n' "${lines[@]}" > "$1/lines"
    cp "$1/served" "$1/served.before"
    {
        for name in 1 2 3 4 5 6 7; do echo 'refused 124'; done
        printf '%s\n' 'rows 2' 'sound 2 families 0 committed'
    } > "$room/wanted"
    {
        echo "squall: the file '$1/served' can't be written: the engine reads it"
        echo "squall: the file '$1/report' can't be written: a report is to be in it"
        echo "squall: the file '$1/report.squall-part' can't be written: a report is to be in it"
        echo "squall: the file '$room/out' can't be written: it is standard output"
        echo "squall: the file '/dev/full' can't be written: it is no file"
        echo "squall: the file '$1/elsewhere' can't be written: it is no file"
        echo "squall: the file '$1/dangling.replies' can't be written: it is a link that leads to no file"
    } > "$room/said"
    give "$1/lines" serve --summary-out "$1/report" "$1/served"
    grep '^squall: the file' "$room/err" > "$room/kept" || true
    mv "$room/kept" "$room/err"
    judge 'serve: files in which no rows are saved' 0 "$room/wanted" "$room/said"
    count 'serve: rows by a link' "$([ -L "$1/link.replies" ] || echo 'it is gone; '
        if [ "$(cat "$1/link.replies")" != "$(printf '%s\n' 'row 5 0 0 10 -' 'row 9 0 0 20 -')" ]; then echo 'another text; '; fi
        difference "$1/served.before" "$1/served"; left_beside "$1")"
}

# try_served_forms FOLDER: the reports of an engine have the form that their names ask for, as those of a live run.
try_served_forms() {
    local chart why=
    {
        cat "$1/served"
        seq -f 'txn 0 %.0f 5 add 0 0 1' 1 20
        echo 'txn 0 21 5 check 0 0 999'
        echo "move $four_at_1"
    } > "$1/moving"
    give "$1/moving" serve --summary-out "$1/account.json" --timeline "$1/course.svg"
    # One segment moves, with the one family of root key 5, a row without a note: 32 bytes on a link, 56 in all.
    printf '%s\n' '{"epochs":{"all_pauses":T,"count":T,"longest_pause":T},"jobs":{"aborted":1,"committed":20,"longest_wait":T},"moves":[{"began":T,"bytes":56,"done":T,"families":1,"jobs":{"aborted":N,"committed":N,"longest_wait":T},"segments":1}],"whole":true}' > "$room/wanted"
    sed -E 's/"(all_pauses|count|longest_pause|longest_wait|began|done)":[0-9]+/"\1":T/g
        s/"jobs":\{"aborted":[0-9]+,"committed":[0-9]+,"longest_wait":T\},"segments"/"jobs":{"aborted":N,"committed":N,"longest_wait":T},"segments"/' "$(stored "$1/account.json")" > "$room/got"
    count 'serve: an account as JSON' "$([ "$ended" = 0 ] || echo "status $ended; ")$(difference "$room/wanted" "$room/got")"
    chart=$(cat "$(stored "$1/course.svg")")
    case $chart in
        '<svg xmlns='*'An engine that answers 21 jobs while 1 segments move<'*'jobs in each '*'>move 0<'*'jobs answered, of 21<'*'segments complete, of 1<'*'</svg>') ;;
        *) why='another chart' ;;
    esac
    # Both curves end at the top, on the right.
    if [ "$(grep -cE 'class="(jobs|segments)" d="M130 760(H[0-9]+V[0-9]+)*H1530V160H1530"' "$(stored "$1/course.svg")")" != 2 ]; then
        why="$why, curves that don't end at the top"
    fi
    count 'serve: a timeline as a chart' "$why"
    give "$1/moving" serve --summary-out "$1/account.txt" --timeline "$1/course.csv"
    count 'serve: reports as text and as a table' "$(head -n 1 "$(stored "$1/course.csv")" | grep -vx 'milliseconds,answered,median,p99,longest,families,bytes,segments'
        grep -q '^jobs: committed 20, aborted 1, longest wait [0-9]* us$' "$(stored "$1/account.txt")" || echo 'no jobs')"
}

# try_synced_files FOLDER: one thread has each text on the disk before it replaces the first file, and then its folder. Needs strace,
# which writes a call on two lines if another thread makes one meanwhile: only the first line counts.
try_synced_files() {
    if ! strace -o /dev/null true 2> /dev/null; then return; fi
    timeout 60 strace -f --seccomp-bpf -o "$1/calls" -e trace=fsync,rename,renameat,renameat2 "$squall" live --rows-out "$1/rows" --replies "$1/replies" \
        --timeline "$1/moments.csv" < "$1/jobs" > /dev/null 2>&1 || true
    sed -nE 's/^([0-9]+) +(fsync|rename)[a-z0-9]*\(.*/\1 \2/p' "$1/calls" > "$room/begun"
    cut -d ' ' -f 2 "$room/begun" | uniq -c | awk '{ print $1, $2 }' > "$room/got"
    printf '%s\n' '3 fsync' '1 rename' '1 fsync' '1 rename' '1 fsync' '1 rename' '1 fsync' > "$room/wanted"
    count 'files are on the disk before they take their places' "$(difference "$room/wanted" "$room/got"
        cut -d ' ' -f 1 "$room/begun" | sort -u | sed 1d | sed 's/^/and by thread /')"
}

# try_killed_runs FOLDER: after a run that is killed at some moment a file is as it was, or it is whole.
try_killed_runs() {
    local times=0 torn=0 new=0 micros whole after running
    {
        head -n 5 "$1/jobs"
        seq -f 'txn 0 %.0f 5 get 0 0' 1 4000
    } > "$1/busy"
    give "$1/busy" live --timeline "$1/killed.svg"
    if [ "$ended" != 0 ]; then count 'a run to be killed' "status $ended"; return; fi
    whole=$(tail -c 7 "$1/killed.svg")
    micros=$( { TIMEFORMAT=%R; time give "$1/busy" live --timeline "$1/killed.svg"; } 2>&1 | tr -d .)000
    while [ "$times" -lt 50 ]; do
        echo before > "$1/killed.svg"
        after=$(awk -v most="$micros" -v at="$times" 'BEGIN { printf "%.6f", most * (at + 1) / 40000000 }')
        "$squall" live --timeline "$1/killed.svg" < "$1/busy" > /dev/null 2>&1 &
        running=$!
        sleep "$after"
        kill -KILL "$running" 2> /dev/null || true
        wait "$running" 2> /dev/null || true
        if [ "$(head -c 7 "$1/killed.svg")" != "before" ]; then
            new=$((new + 1))
            if [ "$(tail -c 7 "$1/killed.svg")" != "$whole" ]; then torn=$((torn + 1)); fi
        fi
        times=$((times + 1))
    done
    count 'a file of runs that are killed' "$([ "$torn" = 0 ] || echo "$torn of $new are torn")"
}
