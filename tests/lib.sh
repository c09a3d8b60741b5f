# What tests/run.sh and tests/quick.sh share with those who make cases, tests/made.sh and tests/limits.sh. They source it.
#
# A case is a folder KIND/NAME with these files, none of which has to be there:
#
#   words    the words of the command line, one a line; without it the KIND is the only word
#   in       standard input; without it there is none
#   out      what is wanted on standard output, byte for byte; without it nothing
#   err      what is wanted on standard error; without it nothing
#   status   the exit status that is wanted; without it 0
#
# Another file is one that the words name, as KIND/NAME/FILE, since a case is run in the folder above its KIND.
#
# Stored cases are in tests/cases. Others are made of them, or are too large to store. tests/serving.sh has what a client of
# `squall serve` tries.
export LC_ALL=C
tests=$(cd "$(dirname "${BASH_SOURCE[0]}")" && pwd)
top=$(dirname "$tests")
examples=$top/examples

# What is tried without a case, since it needs more than words and an input: each KIND by try_KIND in tests/run.sh.
kinds='numbers plans pairs helps tools streams late_write memory threads session header_session terminal reports results serve pumps again rounds steps demo'

# --- cases ---

# has_pattern NAME: whether the name of a case or a kind has the pattern that was asked for.
has_pattern() {
    # shellcheck disable=SC2053
    [[ $1 = *${pattern:-}* ]]
}

# make_cases: makes the cases that aren't stored, in $room/cases.
make_cases() {
    mkdir -p "$room/cases/limits"
    bash "$tests/limits.sh" "$room/cases/limits"
    bash "$tests/made.sh" "$room/cases"
}

# for_cases FUNCTION: calls FUNCTION FOLDER KIND/NAME for each case whose name has the pattern, in the folder above its KIND.
for_cases() {
    local folder case
    for folder in "$tests/cases" "$room/cases"; do
        cd "$folder"
        for case in */*; do
            if has_pattern "$case"; then "$1" "$folder" "$case"; fi
        done
    done
    cd "$top"
}

# words_of FOLDER CASE: the words of a case.
words_of() {
    if [ -e "$1/$2/words" ]; then cat "$1/$2/words"; else echo "${2%%/*}"; fi
}

# stored FILE: the file, or one that is empty where it isn't there.
stored() {
    if [ -e "$1" ]; then echo "$1"; else echo /dev/null; fi
}

# --- comparing ---

passed=0
failed=0

# count NAME WHY: counts a run, which has failed where there is a reason.
count() {
    if [ -z "$2" ]; then
        passed=$((passed + 1))
    else
        failed=$((failed + 1))
        printf '%s: %s\n' "$1" "$2" | cut -c 1-300
    fi
}

# difference WANTED GOT: how a file differs from the wanted one, in a few lines; nothing where it doesn't.
difference() {
    if cmp -s "$1" "$2"; then return; fi
    diff -a --speed-large-files "$1" "$2" > "$room/difference" 2>&1 || true
    head -n 5 "$room/difference"
}

# judge NAME STATUS OUTPUT ERRORS: counts a run by its exit status, which stands in `ended`, and by what it wrote, which lies
# in $room/out and $room/err.
judge() {
    local output errors why=
    output=$(difference "$3" "$room/out")
    errors=$(difference "$4" "$room/err")
    if [ "$ended" != "$2" ]; then why="status $ended, and not $2"; fi
    if [ -n "$errors" ]; then why="standard error (>) isn't the wanted one (<): $errors"; fi
    if [ -n "$output" ]; then why="the output (>) isn't the wanted one (<): $output"; fi
    count "$1" "$why"
}

# judge_case FOLDER CASE: counts the run of a case.
judge_case() {
    local status=0
    if [ -e "$1/$2/status" ]; then read -r status < "$1/$2/status"; fi
    judge "$2" "$status" "$(stored "$1/$2/out")" "$(stored "$1/$2/err")"
}

# --- faults ---

# form LINE: the form of a line of the header, as it is said where the line isn't of it.
form() {
    case $1 in
        1) echo "'old PLAN', as in 'old {\"version\":1,\"partitions\":2,\"ranges\":[[0,4294967296,0]]}'" ;;
        2) echo "'new PLAN', as in 'new {\"version\":1,\"partitions\":2,\"ranges\":[[0,8,1],[8,4294967296,0]]}'" ;;
        3) echo "'config W L C', as in 'config 1 64 1': root keys in a leaf, bytes in a chunk, chunks on a link" ;;
        *) echo "'row ROOT T S N NOTE', as in 'row 5 0 0 10 -': root key, table, sub key, number, note" ;;
    esac
}

# said NUMBER [LINE [MISFIT]]: what is to be said on standard error of the fault of this number, which belongs to this line
# of the input, in which this doesn't fit. Its text stands in tests/texts. The text of a plan's fault begins with 'plan';
# which plan it is stands before it. What doesn't fit the form of a line comes first, and then the form.
said() {
    local number text line=${2:+line $2: }
    if [ "$1" = 121 ] && [ -n "${3:-}" ]; then
        printf 'squall: line %s\n' "$2: fault 121: $3" "$2 is to be $(form "$2")"
        return
    fi
    while read -r number text; do
        case $text in
            plan*) if [ "${2:-}" = 1 ]; then text="the old $text"; else text="the new $text"; fi ;;
        esac
        if [ "$number" = "$1" ]; then echo "squall: ${line}fault $number: $text"; fi
    done < "$tests/texts"
    if [ "$1" = 121 ]; then echo "squall: line $2 is to be $(form "$2")"; fi
    if [ -n "${3:-}" ]; then echo "squall: line $2: $3"; fi
}

# --- pages ---

# The pages quote what is stored: this needs no program.
try_pages() {
    try_tour
    try_readme
    try_library
    try_drawings
    try_names
}

# The walk of the tour is a case: the lines of its blocks that begin with '> ' are the input, and the others the output.
try_tour() {
    local page=$top/docs/guide/tour.md
    sed -n 's/^    > //p' "$page" > "$room/in"
    sed -n '/^    > /d; s/^    //p' "$page" > "$room/out"
    count tour_as_in_its_case \
        "$(difference "$tests/cases/run/tour/in" "$room/in"; difference "$tests/cases/run/tour/out" "$room/out")"
}

# The answers in the README are those of its first example.
try_readme() {
    sed -n '/^    ok$/,/^    at /s/^    //p' "$top/README.md" > "$room/got"
    count answers_as_in_the_example "$(difference "$examples/first-move.out" "$room/got")"
}

# Each block of code in docs/guide/library.md is in a caller of the library: the first in that of a world, the second in that of an
# engine.
try_library() {
    try_block 1 code_as_in_its_caller crates/sq_examples/src/world.rt
    try_block 2 code_of_an_engine_as_in_its_caller crates/sq_examples/src/engine.rt
}

# try_block NUMBER NAME FILE: whether the block of this number isn't empty and stands in the file, line by line.
try_block() {
    awk -v wanted="$1" '/^```rust$/ { block++; inside = 1; next } /^```$/ { inside = 0 } inside && block == wanted' \
        "$top/docs/guide/library.md" > "$room/got"
    if [ -s "$room/got" ] && [[ $'\n'$(< "$top/$3")$'\n' = *$'\n'"$(< "$room/got")"$'\n'* ]]; then
        count "$2" ""
    else
        count "$2" "the block isn't in $3"
    fi
}

# What the pages of docs/proof name is defined.
try_names() {
    count names_as_they_are_defined "$(bash "$tests/page_names.sh" > "$room/got" || head -n 1 "$room/got")"
}

# The pictures in docs: of the crates, as they are drawn; of what moves, as it is stored, of the example.
try_drawings() {
    bash "$tests/crates_graph.sh" > "$room/picture"
    count crates_as_they_are_drawn "$(difference "$top/docs/crates.svg" "$room/picture")"
    count moves_as_they_are_drawn "$(difference "$tests/cases/pictures/two_ranges_svg/out" "$top/docs/moves.svg")"
    count moves_of_the_example "$(difference "$examples/ranges.txt" "$tests/cases/pictures/two_ranges_svg/in")"
}
