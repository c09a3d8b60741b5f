#!/usr/bin/env bash
# The commands of docs/guide/start.md: each is run in a folder that begins empty, and what it writes must be what the page shows.
#
#   tests/guide.sh [PROGRAM]
#
# A block 'sh' is run, and the block 'text' behind it is what it is to write, on standard output and standard error; where none
# stands there it is to write nothing. Without a PROGRAM those that 'rt ci' leaves are tried, as by tests/run.sh.
set -eu
export LC_ALL=C
top=$(cd "$(dirname "$0")/.." && pwd)
built=$top/crates/squall/out/squall
room=$(mktemp -d)
trap 'rm -r "$room"' EXIT

# Takes the page apart: the commands of block N into N.sh, what they are to write into N.text.
take_apart() {
    awk -v room="$room" '
        /^```sh$/ { number++; into = room "/" number ".sh"; next }
        /^```text$/ { into = room "/" number ".text"; next }
        /^```/ { into = ""; next }
        into != "" { print > into }' "$top/docs/guide/start.md"
}

# follow PROGRAM: runs the blocks in their order, and counts those that write something else.
follow() {
    local number=1
    rm -rf "$room/bin" "$room/work"
    mkdir "$room/bin" "$room/work"
    ln -s "$1" "$room/bin/squall"
    while [ -e "$room/$number.sh" ]; do
        touch "$room/$number.text"
        (cd "$room/work" && PATH=$room/bin:$PATH timeout 120 bash "$room/$number.sh" > "$room/got" 2>&1) || true
        if diff "$room/$number.text" "$room/got" > "$room/difference"; then
            passed=$((passed + 1))
        else
            failed=$((failed + 1))
            echo "guide: $(head -n 1 "$room/$number.sh")"
            head -n 5 "$room/difference"
        fi
        number=$((number + 1))
    done
}

passed=0
failed=0
take_apart
programs=("$(readlink -f "${1:-${SQUALL:-$built}}")")
if [ -z "${1:-${SQUALL:-}}" ] && [ -x "$built.by-rattle" ]; then programs+=("$built.by-rattle"); fi
for program in "${programs[@]}"; do
    if [ ! -x "$program" ]; then
        echo "guide: no program at $program: run 'rt ci' at the top first" >&2
        exit 1
    fi
    follow "$program"
done
echo "$passed blocks of the guide passed, $failed failed"
[ "$passed" -gt 0 ] && [ "$failed" = 0 ]
