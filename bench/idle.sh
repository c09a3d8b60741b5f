#!/usr/bin/env bash
# What an engine at rest takes: for 2, 16 and 64 partitions how much of a processor, over five seconds, and how long a job waits for its
# answer that comes to it at rest, one every five milliseconds, 300 in all (bench/idle.c).
#
#   bash bench/idle.sh
#
# prints a table in half a minute. The program is crates/squall/out/squall; SQUALL=PATH takes another. A C compiler, cc, has to be there.
set -eu
export LC_ALL=C
top=$(cd "$(dirname "$0")/.." && pwd)
squall=${SQUALL:-$top/crates/squall/out/squall}
room=$(mktemp -d)
trap 'rm -r "$room"' EXIT
cc -O2 -o "$room/idle" "$top/bench/idle.c"

echo '| Partitions | Of a processor at rest | Median wait of a job | 99 of 100 |'
echo '|---|---|---|---|'
for parts in 2 16 64; do
    "$room/idle" "$squall" "$parts" 5 300 5 | awk -v parts="$parts" '{ print "| " parts " | " $1 " % | " $2 " us | " $3 " us |" }'
done
