#!/usr/bin/env bash
# Makes the cases at the limits, in the folder that is named. They are too large, or too much alike from line to line, to be
# stored.
#
#   tests/limits.sh FOLDER
set -eu
. "$(dirname "$0")/lib.sh"
cd "$1"

# Plans by which the root keys 4 to 7 go from partition 0 to partition 1, sizes, and a family that moves.
old='old {"version":1,"partitions":2,"ranges":[[0,4294967296,0]]}'
new='new {"version":1,"partitions":2,"ranges":[[0,4,0],[4,8,1],[8,4294967296,0]]}'

header() { printf '%s\n' "$old" "$new" 'config 1 64 1' 'row 5 0 0 10 -'; }
start() { printf '%s\n' 'prepare 0' 'prepare 1' 'start'; }
started() { repeat 3 ok; }
dump() { printf '%s\n' "end $1" 'at 0 5 0 0.0=10/-'; }

# repeat COUNT LINE: a line this often.
repeat() { yes "$2" | head -n "$1"; }

# letters COUNT: letters without a line end.
letters() { head -c "$1" /dev/zero | tr '\0' a; }

# input NAME [WORD]: makes a case for this subcommand, run if none is named; its input is read.
input() {
    mkdir "$1"
    echo "${2:-run}" > "$1/words"
    cat > "$1/in"
}

# output NAME: the output that is read is what a case is to write.
output() { cat > "$1/out"; }

# ends_with_fault NAME NUMBER LINE [MISFIT]: the run of a case ends with this fault, which belongs to this line, in which this
# doesn't fit.
ends_with_fault() {
    said "$2" "$3" "${4:-}" > "$1/err"
    echo 2 > "$1/status"
}

# fault NAME NUMBER LINE [MISFIT]: the same, and nothing else is to be written.
fault() {
    echo "fault $2" | output "$1"
    ends_with_fault "$@"
}

# An input may have any number of bytes: these are the header, 300 long lines and a rest.
{ header; repeat 300 "$(letters 65535)"; printf x; } | input input_of_20_megabytes
{ repeat 301 'refused 230'; dump idle; } | output input_of_20_megabytes

# An input has at most 1,000,000 lines, of which these are four for the header.
{ header; repeat 999996 ''; } | input most_lines
{ repeat 999996 'refused 230'; dump idle; } | output most_lines
{ cat most_lines/in; printf x; } | input more_than_1000000_lines
{ repeat 999996 'refused 230'; echo 'fault 122'; } | output more_than_1000000_lines
ends_with_fault more_than_1000000_lines 122 1000001

# A line has at most 65,536 bytes.
{ header; start; letters 65536; echo; letters 65537; echo; echo start; } | input long_lines
{ started; printf '%s\n' 'refused 230' 'refused 231' 'refused 217'; dump moving; } | output long_lines
{ header; letters 65537; echo; echo 'row 6 0 0 1 -'; } | input long_line_after_the_header
{ printf '%s\n' 'refused 231' 'refused 230'; dump idle; } | output long_line_after_the_header

# The lines of a header too: spaces behind a plan are JSON's.
{ printf '%-65536s\n' "$old"; header | tail -n 3; } | input longest_line_of_a_header
dump idle | output longest_line_of_a_header
{ printf '%-65537s\n' "$old"; header | tail -n 3; } | input plan_line_over_65536_bytes
fault plan_line_over_65536_bytes 231 1
{ printf 'old '; letters 65532; echo; } | input longest_line_that_is_no_plan
fault longest_line_that_is_no_plan 101 1 "it isn't JSON at its line 1, column 1"
{ header; printf 'row '; letters 65532; echo; } | input row_of_65536_bytes
fault row_of_65536_bytes 121 5 \
    "word 2, 'aaaaaaaaaaaaaaaaaaaaaaaaaaaaaaaaaaaaaaaa..', isn't a number up to 18446744073709551615, in decimal digits without a leading zero"
{ header; printf 'row '; letters 65533; echo; } | input row_over_65536_bytes
fault row_over_65536_bytes 231 5
{ header; printf 'row '; letters 1048573; echo; } | input row_without_end
fault row_without_end 231 5
{ printf 'old '; letters 1048577; } | input plan_line_without_end
fault plan_line_without_end 231 1
{ header; printf rows; letters 65533; echo; } | input long_line_like_a_row
{ echo 'refused 231'; dump idle; } | output long_line_like_a_row

# So has a rest in the header; in the script it is refused whatever it holds.
{ printf 'old '; letters 65532; } | input rest_of_65536_bytes
fault rest_of_65536_bytes 121 1 'it has no line end (the byte 0A)'
{ printf 'old '; letters 65533; } | input rest_over_65536_bytes
fault rest_over_65536_bytes 231 1
{ header; printf 'row '; letters 65533; } | input rest_of_a_row_over_65536_bytes
fault rest_of_a_row_over_65536_bytes 231 5

# At most 1,048,576 bytes come without a line end.
{ header; start; letters 1048576; } | input longest_rest
{ started; echo 'refused 230'; dump moving; } | output longest_rest
{ header; start; letters 1048576; echo; echo start; } | input longest_line_that_is_skipped
{ started; printf '%s\n' 'refused 231' 'refused 217'; dump moving; } | output longest_line_that_is_skipped
{ header; start; letters 1048577; echo; echo start; } | input line_without_end
{ started; echo 'fault 122'; } | output line_without_end
ends_with_fault line_without_end 122 8

# A plan has at most 16 partitions and 256 ranges: plan PARTITIONS RANGES.
plan() {
    local range
    printf '{"version":1,"partitions":%d,"ranges":[' "$1"
    for ((range = 1; range < $2; range++)); do printf '[%d,%d,0],' $((range - 1)) "$range"; done
    printf '[%d,4294967296,0]]}\n' $(($2 - 1))
}
{ echo "old $(plan 16 256)"; echo "new $(plan 16 1)"; echo 'config 1 64 1'; } | input plan_of_16_partitions_and_256_ranges
echo 'end idle' | output plan_of_16_partitions_and_256_ranges
echo "old $(plan 16 257)" | input plan_of_257_ranges
fault plan_of_257_ranges 107 1
echo "old $(plan 17 256)" | input plan_of_17_partitions_and_256_ranges
fault plan_of_17_partitions_and_256_ranges 104 1
echo "old $(plan 17 257)" | input plan_of_17_partitions_and_257_ranges
fault plan_of_17_partitions_and_257_ranges 104 1
echo "old $(plan 0 1)" | input plan_of_0_partitions_and_a_range
fault plan_of_0_partitions_and_a_range 104 1

# So has one of version 2, but for its 64 partitions; its ranges are looked at before its text for stages, and behind the
# form of all fields: second PARTITIONS RANGES FIELDS.
second() { plan "$1" "$2" | sed "s/\"version\":1/\"version\":2/; s/\\]}\$/]$3}/"; }
{
    echo "old $(second 64 256 ',"stages":"auto"')"
    echo "new $(second 64 1 ',"stages":"one"')"
    echo 'config 1 64 1'
} | input plan_of_64_partitions_and_256_ranges
echo 'end idle' | output plan_of_64_partitions_and_256_ranges
echo "old $(second 64 257 ',"stages":"both"')" | input plan_of_257_ranges_before_its_stages
fault plan_of_257_ranges_before_its_stages 107 1
echo "old $(second 65 257 ',"stages":"both"')" | input plan_of_65_partitions_and_257_ranges
fault plan_of_65_partitions_and_257_ranges 104 1
echo "old $(second 64 257 '')" | input plan_of_257_ranges_without_stages
fault plan_of_257_ranges_without_stages 102 1 "it has no field 'stages'"

# JSON's arrays stand in one another at most 127 times. Those here are no plan.
nested() { yes "$1" | head -n "$2" | tr -d '\n'; }
echo "old $(nested '[' 127)$(nested ']' 127)" | input arrays_in_127_arrays
fault arrays_in_127_arrays 102 1 "it isn't an object"
echo "old $(nested '[' 128)$(nested ']' 128)" | input arrays_in_128_arrays
fault arrays_in_128_arrays 101 1 "it isn't JSON at its line 1, column 129"

# A log holds at most 4,096 transactions. Beyond it each is refused where the key runs, whatever its operations.
{
    header
    repeat 4096 'txn 0 1 5 get 0 0'
    printf '%s\n' 'txn 0 2 5 get 0 0' 'txn 0 3 5 check 0 0 99' 'txn 0 4 6 get 0 0' 'txn 1 5 5 get 0 0' 'txn 0 6 5 get 8 0'
} | input full_log
{
    repeat 4096 'commit 1 10/-'
    printf '%s\n' 'refused 221' 'refused 221' 'commit 4 none' 'moved 5 0' 'refused 133'
    printf '%s\n' 'end idle' 'at 0 5 4096 0.0=10/-' 'at 0 6 1'
} | output full_log

# The steps that move the whole segment, and their answers.
move() { printf '%s\n' 'claim 0 1 2' 'begin 0 1 2' 'cut 0 1' 'push 0 1' 'pop 0 1' 'load 0 1' 'complete 0 1 2' 'report 1' 'finish'; }
is_moved() { printf '%s\n' ok ok 'cut 0 0 1 4 8 last 1' ok ok 'load 0 0 1 4 8 last 1' ok ok ok; }

# A full log that is folded has room for as many again.
{
    header
    start
    move
    repeat 4096 'txn 1 9 5 get 0 0'
    printf '%s\n' 'txn 1 9 5 get 0 0' 'fold 1'
    repeat 4096 'txn 1 9 5 get 0 0'
    printf '%s\n' 'txn 1 9 5 get 0 0' 'fold 0' 'txn 1 9 5 get 0 0' 'fold 1' 'txn 1 9 5 get 0 0'
} | input full_log_that_is_folded
{
    started
    is_moved
    repeat 4096 'commit 9 10/-'
    printf '%s\n' 'refused 221' ok
    repeat 4096 'commit 9 10/-'
    printf '%s\n' 'refused 221' ok 'refused 221' ok 'commit 9 10/-' 'end ended' 'at 1 5 1 0.0=10/-'
} | output full_log_that_is_folded

# A transaction that waits with a full log can be resumed once the log is folded, and those behind it.
{
    header
    repeat 4096 'txn 0 1 5 get 0 0'
    start
    echo 'txn 1 2 5 add 0 0 1'
    move
    printf '%s\n' 'resume 1' 'txn 1 3 5 get 0 0' 'fold 0' 'resume 1' 'fold 1' 'resume 1' 'txn 1 4 5 get 0 0'
    repeat 3 'resume 1'
} | input resumes_once_a_full_log_is_folded
{
    repeat 4096 'commit 1 10/-'
    started
    echo 'waits 2 0 1'
    is_moved
    printf '%s\n' 'refused 221' 'waits 3 0 1' ok 'refused 221' ok 'commit 2 11' 'waits 4 0 1'
    printf '%s\n' 'commit 3 11/-' 'commit 4 11/-' 'refused 223' 'end ended' 'at 1 5 3 0.0=11/-'
} | output resumes_once_a_full_log_is_folded

# At most 1,024 transactions wait at a partition.
{
    header
    start
    repeat 1024 'txn 1 1 5 get 0 0'
    printf '%s\n' 'txn 1 2 6 get 0 0' 'txn 1 3 9 get 0 0' 'resume 1' 'txn 0 4 5 get 0 0'
} | input full_waiting_list
{
    started
    repeat 1024 'waits 1 0 1'
    printf '%s\n' 'refused 220' 'moved 3 0' 'refused 223' 'commit 4 10/-' 'end moving' 'at 0 5 1 0.0=10/-'
} | output full_waiting_list

# Each that is resumed leaves room for another one, which waits behind those on its root key and runs after them.
{
    header
    start
    repeat 1024 'txn 1 1 5 add 0 0 1'
    printf '%s\n' 'claim 0 1 2' 'begin 0 1 2' 'cut 0 1' 'push 0 1' 'pop 0 1' 'load 0 1'
    printf '%s\n' 'txn 1 2 5 get 0 0' 'txn 1 3 6 get 0 0' 'resume 1' 'txn 1 4 5 get 0 0'
    repeat 1024 'resume 1'
    printf '%s\n' 'resume 1' 'txn 1 5 5 get 0 0'
} | input waiting_list_that_empties
{
    started
    repeat 1024 'waits 1 0 1'
    printf '%s\n' ok ok 'cut 0 0 1 4 8 last 1' ok ok 'load 0 0 1 4 8 last 1'
    printf '%s\n' 'refused 220' 'commit 3 none' 'commit 1 11' 'waits 4 0 1'
    printf 'commit 1 %d\n' $(seq 12 1034)
    printf '%s\n' 'commit 4 1034/-' 'refused 223' 'commit 5 1034/-'
    printf '%s\n' 'end moving' 'at 1 5 1026 0.0=1034/-' 'at 1 6 1'
} | output waiting_list_that_empties

# A transaction whose log is full is passed over, and still waits.
{
    header
    repeat 4096 'txn 0 1 5 get 0 0'
    start
    printf '%s\n' 'txn 1 2 5 get 0 0' 'txn 1 3 6 put 0 0 3 -' 'resume 1'
    printf '%s\n' 'claim 0 1 2' 'begin 0 1 2' 'cut 0 1' 'push 0 1' 'pop 0 1' 'load 0 1'
    printf '%s\n' 'resume 1' 'resume 1' 'txn 1 4 5 get 0 0' 'txn 1 5 6 get 0 0' 'resume 1'
} | input resumes_past_a_full_log
{
    repeat 4096 'commit 1 10/-'
    started
    printf '%s\n' 'waits 2 0 1' 'waits 3 0 2' 'refused 223'
    printf '%s\n' ok ok 'cut 0 0 1 4 8 last 1' ok ok 'load 0 0 1 4 8 last 1'
    printf '%s\n' 'commit 3 ok' 'refused 221' 'waits 4 0 1' 'commit 5 3/-' 'refused 221'
    printf '%s\n' 'end moving' 'at 1 5 4096 0.0=10/-' 'at 1 6 2 0.0=3/-'
} | output resumes_past_a_full_log

# A link's queue holds at most 64 chunks: of 66 chunks with a family each the 65th stays at the source.
families=$(seq 0 65)
{
    echo "$old"
    echo 'new {"version":1,"partitions":2,"ranges":[[0,128,1],[128,4294967296,0]]}'
    echo 'config 4 64 64'
    printf 'row %d 0 0 1 -\n' $families
    start
    printf '%s\n' 'claim 0 1 2' 'begin 0 1 2'
    for chunk in $(seq 0 64); do printf '%s\n' 'cut 0 1' 'push 0 1'; done
} | input queue_of_64_chunks
{
    started
    repeat 2 ok
    for chunk in $(seq 0 63); do printf '%s\n' "cut $chunk 0 1 $chunk $((chunk + 1)) more 1" ok; done
    printf '%s\n' 'cut 64 0 1 64 65 more 1' 'refused 212' 'end moving' 'at 0 65 0 0.0=1/-'
    for chunk in $(seq 0 64); do
        printf '%s\n' "way 0 1 $chunk 0 1 $chunk $((chunk + 1)) more 1" "in $chunk 0 0.0=1/-"
    done
} | output queue_of_64_chunks

# The steps that move a whole segment, which has one family, and their answers: pass SEG SRC DST, and
# is_passed SEG SRC DST NUMBER LO HI FAMILIES.
pass() {
    printf '%s\n' "claim $1 1 2" "begin $1 1 2" "cut $2 $3" "push $2 $3" "pop $2 $3" "load $2 $3" "complete $1 1 2"
}
is_passed() {
    printf '%s\n' ok ok "cut $4 $1 1 $5 $6 last $7" ok ok "load $4 $1 1 $5 $6 last $7" ok
}
prepare() { for part in $(seq 0 $(($1 - 1))); do echo "prepare $part"; done; }

# Of 64 partitions each gives four root keys to the one behind it, and the last one to the first. Each of them gives keys
# to one other, so there is one stage.
owned=
given=
for part in $(seq 0 63); do
    owned+="[$((4 * part)),$((4 * part + 4)),$part],"
    given+="[$((4 * part)),$((4 * part + 4)),$(((part + 1) % 64))],"
done
{
    echo "old {\"version\":2,\"partitions\":64,\"ranges\":[$owned[256,4294967296,0]],\"stages\":\"one\"}"
    echo "new {\"version\":2,\"partitions\":64,\"ranges\":[$given[256,4294967296,0]],\"stages\":\"auto\"}"
    echo 'config 1 64 1'
    for part in $(seq 0 63); do echo "row $((4 * part + 1)) 0 0 $part -"; done
    prepare 64
    echo start
    for part in $(seq 0 63); do
        pass "$part" "$part" $(((part + 1) % 64))
        echo "report $(((part + 1) % 64))"
    done
    printf '%s\n' next finish
} | input moves_round_64_partitions
{
    repeat 65 ok
    for part in $(seq 0 63); do
        is_passed "$part" "$part" $(((part + 1) % 64)) 0 $((4 * part)) $((4 * part + 4)) 1
        echo ok
    done
    printf '%s\n' 'refused 225' ok 'end ended' 'at 0 253 0 0.0=63/-'
    for part in $(seq 1 63); do echo "at $part $((4 * part - 3)) 0 0.0=$((part - 1))/-"; done
} | output moves_round_64_partitions

# One partition gives four root keys to each of 63 others, one after another in 63 stages. A transaction on a key of a
# stage that is still to come runs at the source.
given=
for stage in $(seq 0 62); do given+="[$((4 * stage)),$((4 * stage + 4)),$((stage + 1))],"; done
{
    echo 'old {"version":2,"partitions":64,"ranges":[[0,4294967296,0]],"stages":"one"}'
    echo "new {\"version\":2,\"partitions\":64,\"ranges\":[$given[252,4294967296,0]],\"stages\":\"auto\"}"
    echo 'config 1 64 1'
    for stage in $(seq 0 62); do echo "row $((4 * stage)) 0 0 $stage -"; done
    prepare 64
    echo start
    for stage in $(seq 0 62); do
        echo "txn $((stage + 1)) 1 $((4 * stage)) get 0 0"
        pass "$stage" 0 $((stage + 1))
        printf '%s\n' "resume $((stage + 1))" 'txn 63 2 248 get 0 0' next "report $((stage + 1))" finish next
    done
    printf '%s\n' 'resume 63' finish next
} | input moves_in_63_stages
{
    repeat 65 ok
    for stage in $(seq 0 61); do
        echo "waits 1 $stage 0"
        is_passed "$stage" 0 $((stage + 1)) 0 $((4 * stage)) $((4 * stage + 4)) 1
        printf '%s\n' "commit 1 $stage/-" 'moved 2 0' 'refused 218' ok 'refused 218' ok
    done
    echo 'waits 1 62 0'
    is_passed 62 0 63 0 248 252 1
    printf '%s\n' 'commit 1 62/-' 'commit 2 62/-' 'refused 225' ok ok 'refused 201'
    printf '%s\n' 'refused 223' 'refused 201' 'refused 201' 'end ended'
    for part in $(seq 1 62); do echo "at $part $((4 * part - 4)) 1 0.0=$((part - 1))/-"; done
    echo 'at 63 248 2 0.0=62/-'
} | output moves_in_63_stages

# All of 1,024 segments move.
{
    echo "$old"
    echo 'new {"version":2,"partitions":2,"ranges":[[0,2147483648,1],[2147483648,4294967296,0]],"stages":"one"}'
    printf '%s\n' 'config 65536 64 1' 'row 0 0 0 1 -' 'row 2147483647 0 0 2 -' 'row 2147483648 0 0 3 -'
    start
    for seg in $(seq 0 1023); do pass "$seg" 0 1; done
    printf '%s\n' 'claim 1024 1 2' 'report 1' 'finish' 'status 1023 1' 'status 1024 1'
} | input moves_1024_segments
{
    started
    for seg in $(seq 0 1023); do
        families=0
        if [ "$seg" = 0 ] || [ "$seg" = 1023 ]; then families=1; fi
        is_passed "$seg" 0 1 "$seg" $((2097152 * seg)) $((2097152 * seg + 2097152)) "$families"
    done
    printf '%s\n' 'refused 202' ok ok 'is complete 2 complete' 'refused 202' 'end ended'
    printf '%s\n' 'at 0 2147483648 0 0.0=3/-' 'at 1 0 0 0.0=1/-' 'at 1 2147483647 0 0.0=2/-'
} | output moves_1024_segments

# A live run has at most 4,096 jobs, and a line of at most 65,536 bytes.
header_of_a_live_run() { head -n 4 "$tests/cases/live/move_without_jobs/in"; }
{ header_of_a_live_run; seq -f 'txn 0 %.0f 9 get 0 0' 1 4096; } | input live_with_4096_jobs live
echo 'sound 2 families 4096 committed' | output live_with_4096_jobs
{ cat live_with_4096_jobs/in; echo 'txn 9 1 9'; } | input live_with_4097_jobs live
fault live_with_4097_jobs 125 4101
{ header_of_a_live_run; letters 65537; echo; } | input live_with_a_line_of_65537_bytes live
echo 'fault 231' | output live_with_a_line_of_65537_bytes
echo 2 > live_with_a_line_of_65537_bytes/status
echo 'squall: line 5: fault 231: a line has more than 65536 bytes' > live_with_a_line_of_65537_bytes/err

# A line that repeats an earlier one says which, unless that was read long ago from standard input.
far_row() { header; seq -f 'row %.0f 0 0 1 -' 6 9999; echo 'row 5 0 0 11 -'; }
far_job() { header_of_a_live_run; seq -f 'txn 0 %.0f 9 get 0 0' 1 4000; echo 'txn 0 1 9 get 0 0'; }
far_row | input row_far_from_its_double
fault row_far_from_its_double 136 9999 "word 2 is '5'"
far_job | input job_far_from_its_double live
fault job_far_from_its_double 127 4005 "word 3 is '1'"
input row_of_a_file_far_from_its_double < /dev/null
far_row > row_of_a_file_far_from_its_double/script
echo limits/row_of_a_file_far_from_its_double/script >> row_of_a_file_far_from_its_double/words
fault row_of_a_file_far_from_its_double 136 9999 'words 2 to 4 are those of line 4'
input job_of_a_file_far_from_its_double live < /dev/null
far_job > job_of_a_file_far_from_its_double/jobs
echo limits/job_of_a_file_far_from_its_double/jobs >> job_of_a_file_far_from_its_double/words
fault job_of_a_file_far_from_its_double 127 4005 "word 3 is '1', as in line 5"
