#!/usr/bin/env bash
# What a move costs the jobs that run beside it.
#
#   bash bench/under_load.sh [PARTITIONS]      (4 if left out)
#
# There are 65,536 families of one row with a note of 40 bytes, as many in each partition, and each partition gives all its
# families to the next one. Beside it run 4,096 jobs of 64 operations, each on one of the families, by chance; they are posted to
# the partition that has it before the move. One pump claims.
#
# For each limit of a chunk there are several rounds (ROUNDS=COUNT, 9 if left out). A round has three runs, one after the other:
# the jobs alone, which take J milliseconds to the last answer; the move alone, which takes M; and both at once. Of each column
# the median over the rounds is printed, so that a round in which the machine did something else says little:
#   - J and M;
#   - the milliseconds of the whole run of both, and its multiple of J + M, one after the other;
#   - the milliseconds until all has moved, and how many jobs are answered until then;
#   - the share: how many jobs are answered in a millisecond until then, of those that are with the jobs alone;
#   - the greatest share that could be, J / (J + M): processors that are always busy, and do no other work, leave so much of
#     the time until all has moved to the jobs, whichever of the two goes first;
#   - when the last job is answered, and the share until then;
#   - how many jobs waited for their rows, and the longest time without an answer.
# Times are those of the threads alone.
#
# The program is crates/squall/out/squall, which `rt run` leaves in crates/squall; SQUALL=PATH takes another.
set -eu
export LC_ALL=C
top=$(cd "$(dirname "$0")/.." && pwd)
squall=${SQUALL:-$top/crates/squall/out/squall}
rounds=${ROUNDS:-9}
parts=${1:-4}
room=$(mktemp -d)
trap 'rm -r "$room"' EXIT

# The input: what moves, if anything does, how many jobs there are, and the limit of a chunk. Where nothing moves a range
# without a family does, since a run reports its segments. Numbers by chance are those of Park and Miller.
input='
function random(below) { state = (state * 16807) % 2147483647; return state % below }
function range(from, to, part) { return "[" from "," to "," part "]" }
function plan(shift, last,   text, part) {
    text = "{\"version\":1,\"partitions\":" parts ",\"ranges\":["
    for (part = 0; part < parts; part++) text = text range(part * size, (part + 1) * size, (part + shift) % parts) ","
    return text last "]}"
}
function operation(id,   kind) {
    kind = random(3)
    if (kind == 0) return " get 0 0"
    if (kind == 1) return " put 1 " random(64) " " id " -"
    return " add 0 0 1"
}
BEGIN {
    state = 3; end = "4294967296"; before = "4294967264"; families = 65536; size = int(families / parts)
    rest = range(parts * size, end, 0)
    print "old " plan(0, rest)
    if (moves) print "new " plan(1, rest)
    else print "new " plan(0, range(parts * size, before, 0) "," range(before, end, 1))
    print "config " (size > 32 * 512 ? int(size / 32) + 1 : 512) " " limit " 16"
    note = "ab"; while (length(note) < 80) note = note "ab"
    for (root = 0; root < size * parts; root++) print "row " root " 0 0 1 " note
    for (id = 0; id < jobs; id++) {
        root = random(size * parts)
        line = "txn " int(root / size) " " id " " root
        for (op = 0; op < 64; op++) line = line operation(id)
        print line
    }
}'

# What a timeline shows: the milliseconds of the threads, those until all has moved, how many jobs are answered until then, the
# longest time without an answer, when the last job is answered, and how many waited. The threads start so many milliseconds
# before its last line.
tell='
{ at[NR] = $1; answered[NR] = $2; complete[NR] = $3 }
END {
    start = at[NR] - threads
    for (i = 1; i <= NR; i++) {
        if (answered[i] > answered[i - 1]) {
            if (at[i] - start - last > silence) silence = at[i] - start - last
            last = at[i] - start
        }
        if (moved == "" && complete[i] == complete[NR]) { moved = at[i] - start; inside = answered[i] }
    }
    print threads, moved, inside + 0, silence + 0, last + 0, waited
}'

# make NAME MOVES JOBS LIMIT: an input.
make() { awk -v parts="$parts" -v moves="$2" -v jobs="$3" -v limit="$4" "$input" > "$room/$1"; }

# run NAME: the figures of a run of an input.
run() {
    local threads waited
    "$squall" live --turns 1000000000 --summary --timeline "$room/timeline.csv" "$room/$1" > "$room/line" 2> "$room/summary"
    grep -q '^sound ' "$room/line" || { cat "$room/line" "$room/summary" >&2; exit 1; }
    threads=$(sed -n 's/.*, threads \([0-9.]*\),.*/\1/p' "$room/summary")
    waited=$(awk '$1 == "milliseconds:" { exit } listed { sum += $4 } /waited$/ { listed = 1 } END { print sum + 0 }' "$room/summary")
    tail -n +2 "$room/timeline.csv" | awk -F , -v threads="$threads" -v waited="$waited" "$tell"
}

# Of lines of numbers the median of each column.
medians='
{ for (i = 1; i <= NF; i++) cell[NR, i] = $i; columns = NF }
END {
    for (i = 1; i <= columns; i++) {
        for (j = 1; j <= NR; j++) sorted[j] = cell[j, i] + 0
        for (j = 2; j <= NR; j++) {
            one = sorted[j]
            for (k = j - 1; k >= 1 && sorted[k] > one; k--) sorted[k + 1] = sorted[k]
            sorted[k + 1] = one
        }
        printf "%s%s", sorted[int((NR + 1) / 2)], i < columns ? " " : "\n"
    }
}'

# A round, from the figures of the jobs alone, of the move alone, and of both.
line='{
    J = $5; M = $7; whole = $13; moved = $14; inside = $15; last = $17; rate = 4096 / J
    print J, M, whole, whole / (J + M), moved, inside, inside / moved / rate, J / (J + M), last, 4096 / last / rate, $18, $16
}'

make jobs 0 4096 4096
echo "$parts partitions"
echo '  limit  jobs J  move M   both  of J + M  moved  answered  share  at most  last answer  share till it  waited  silence'
for limit in 1024 4096 16384 65536 1048576; do
    make move 1 0 "$limit"
    make both 1 4096 "$limit"
    for ((round = 0; round < rounds; round++)); do
        echo "$(run jobs) $(run move) $(run both)" | awk "$line"
    done | awk "$medians" | awk -v limit="$limit" '{
        printf "%7d %7.1f %7.1f %6.1f %9.2f %6.1f %9d %6.2f %8.2f %12.1f %14.2f %7d %8.2f\n",
            limit, $1, $2, $3, $4, $5, $6, $7, $8, $9, $10, $11, $12
    }'
done
