#!/usr/bin/env bash
# The quick test, which proves nothing: stored runs, and the test functions of the three crates that have nothing else.
#
#   tests/quick.sh [PATTERN]
#
# `rt try` builds the program without a proof, under a sanitizer. This script keeps what it built, and gives it each case, as
# tests/run.sh does with the proved program. (`rt try --cases` would take two seconds and a half of its own for each case.) Beside it
# the test functions are built and run, of as many crates at once as there are processors and memory left. What needs more than a case,
# and a case of more than a megabyte, is left to tests/run.sh. At a terminal one line says how far it is, else a line a minute.
#
# With a PATTERN only the cases and the crates of tests whose name has it are tried: `tests/quick.sh live/`, `tests/quick.sh sq_tests`.
# A case or a test function that takes more than 300 seconds has failed; LIMIT=SECONDS sets another limit.
set -eu
. "$(dirname "$0")/lib.sh"
pattern=${1:-}
limit=${LIMIT:-300}
processors=$(nproc)
room=$(mktemp -d)
running=()
trap clean_up EXIT
trap 'exit 130' INT
trap 'exit 143' TERM HUP

# What is taken for the seconds to go until it is measured: the build of the program, a case, the build and the run of a crate's tests.
of_build=180
of_case=0.1
of_crate=120
# The most kilobytes that one build takes.
of_memory=4000000
crates_of_tests='sq_tests sq_thread_tests sq_engine_tests'
# A case whose input or output has more bytes takes up to a minute.
most=1000000
left=0
tried=()
declare -A large

clean_up() {
    if [ ${#running[@]} != 0 ]; then
        kill "${running[@]}" 2> /dev/null || true
        wait "${running[@]}" 2> /dev/null || true
    fi
    rm -rf "$room" 2> /dev/null || { sleep 1 && rm -rf "$room"; }
}

# --- the cases ---

# take FOLDER CASE: adds a case to those that are tried, unless its input or output is too large.
take() {
    if [ -n "${large[$1/$2]:-}" ]; then
        left=$((left + 1))
    else
        tried+=("$1" "$2")
    fi
}

# end_hint PROCESS: ends the check that this `rt try` runs beside its build. It takes as long as the build, and only looks for names
# that a later check refuses.
end_hint() {
    while kill -0 "$1" 2> /dev/null; do
        if pkill -P "$1" -x rattle; then return; fi
        sleep 0.5
    done
}

# build_program: builds the program, and leaves it as $room/bin/squall. `rt try` removes it after its run, which therefore waits for
# its input until the program has a second name.
build_program() {
    local building feeding=
    mkdir "$room/build" "$room/bin"
    mkfifo "$room/input"
    (cd "$top/crates/squall" && TMPDIR=$room/build exec rt try --steps 1 --seconds "$limit" -- run "$room/input") \
        > "$room/written" 2> "$room/log" < /dev/null &
    building=$!
    # (rt ends what it started once it is told to)
    trap 'kill $building $feeding; exit 143' TERM
    end_hint $building
    while kill -0 $building 2> /dev/null; do
        if [ -z "$feeding" ]; then
            find "$room/build" -name program -type f -perm -100 -exec ln {} "$room/bin/squall" \; -quit 2> /dev/null || true
            if [ -x "$room/bin/squall" ]; then
                cat "$examples/first-move.txt" > "$room/input" &
                feeding=$!
            fi
        fi
        sleep 0.2
    done
    if [ -n "$feeding" ]; then kill $feeding 2> /dev/null || true; fi
    wait $building && [ -x "$room/bin/squall" ]
}

# run_lane NUMBER: gives the program each of its share of the cases, and writes a line for each.
run_lane() {
    local at lane=$room/lane$1 words trying squall=$room/bin/squall
    room=$lane
    for ((at = 2 * $1; at < ${#tried[@]}; at += 2 * case_lanes)); do
        cd "${tried[at]}"
        mapfile -t words < <(words_of "${tried[at]}" "${tried[at + 1]}")
        ended=0
        timeout "$limit" "$squall" "${words[@]}" < "$(stored "${tried[at + 1]}/in")" > "$room/out" 2> "$room/err" &
        trying=$!
        trap 'kill $trying; exit 143' TERM
        wait $trying || ended=$?
        if [ "$ended" = 124 ]; then echo "${tried[at + 1]}: the run did not finish within $limit seconds"; fi
        judge_case "${tried[at]}" "${tried[at + 1]}"
        echo "$passed $failed" >> "$room/counts"
    done
}

# run_cases: builds the program, and gives it all cases.
run_cases() {
    local lane runners=()
    if ! build_program; then
        touch "$room/unbuilt"
        return
    fi
    touch "$room/is_built"
    for ((lane = 0; lane < case_lanes; lane++)); do
        run_lane "$lane" > "$room/lane$lane/said" &
        runners+=($!)
    done
    trap 'kill "${runners[@]}"; exit 143' TERM
    wait "${runners[@]}" || true
}

# count_cases: takes the counts of the lanes.
count_cases() {
    read -r passed failed < <(tail -qn 1 "$room"/lane*/counts | awk '{ passed += $1; failed += $2 } END { print passed + 0, failed + 0 }')
    judged=$((passed + failed))
    if [ "$built_at" = 0 ] && [ -e "$room/is_built" ]; then built_at=$SECONDS; fi
}

# --- the test functions ---

# run_tests: builds and runs the test functions of the crates that no other lane has begun, one crate after another.
run_tests() {
    local crate testing
    for crate in "${test_crates[@]}"; do
        if ! mkdir "$room/$crate.begun" 2> /dev/null; then continue; fi
        (cd "$top/crates/$crate" && exec rt try --test --seconds "$limit") > "$room/$crate" 2>&1 < /dev/null &
        testing=$!
        trap 'kill $testing; exit 143' TERM
        end_hint $testing
        if wait $testing; then echo passed; else echo failed; fi > "$room/$crate.part"
        mv "$room/$crate.part" "$room/$crate.ended"
    done
}

# count_tests: writes of each crate whose tests ended since the last time how many passed.
count_tests() {
    local crate
    for crate in "${test_crates[@]}"; do
        if [ ! -e "$room/$crate.ended" ] || [ -e "$room/$crate.counted" ]; then continue; fi
        touch "$room/$crate.counted"
        crates_done=$((crates_done + 1))
        if grep -q passed "$room/$crate.ended"; then
            echo "$crate: $(grep '^test result' "$room/$crate")"
        else
            echo "$crate: FAILED"
            grep -v '\.\.\. ok$' "$room/$crate" | tail -n 20
            tests_failed=$((tests_failed + 1))
        fi
    done
}

# --- how far it is ---

# to_go: about how many seconds are left: of the program and its cases, or of all that the lanes share, whichever is longer.
to_go() {
    awk -v passed=$SECONDS -v built="$built_at" -v cases=$cases -v judged="$judged" -v crates=${#test_crates[@]} \
        -v ended="$crates_done" -v lanes="$lanes" -v build=$of_build -v each=$of_case -v crate=$of_crate '
        function most(one, other) { return one > other ? one : other }
        BEGIN {
            if (!cases) build = 0
            else if (built) {
                # A busy machine takes longer for all.
                crate *= built / build
                each *= built / build
                if (judged > 10) each = (passed - built) / judged
                build = built
            }
            # What takes longer than was taken for it needs a fifth of that more.
            late = passed / 5
            of_cases = !cases ? 0 : (built ? 0 : most(build - passed, late)) + (cases - judged) * each
            of_all = (build + cases * each + crates * crate) / lanes - passed
            if (ended == crates) of_all = 0
            else of_all = most(of_all, late)
            print int(most(of_cases, of_all))
        }'
}

# show: writes how far it is, in place of the last line at a terminal.
show() {
    local what line seconds
    what=
    if [ ${#test_crates[@]} != 0 ]; then what="$crates_done of ${#test_crates[@]} crates of tests, "; fi
    if [ $cases != 0 ] && [ "$built_at" = 0 ]; then
        what+="building the program for $cases cases, "
    elif [ $cases != 0 ]; then
        what+="$judged of $cases cases, "
    fi
    seconds=$(to_go)
    line="$what$((failed + tests_failed)) failed; about $((seconds / 60)) min $((seconds % 60)) s to go"
    if [ -t 2 ]; then printf '\r\033[K%s' "$line" >&2; else echo "$line" >&2; fi
}

# is_running: whether something is left to wait for.
is_running() {
    local process
    for process in "${running[@]}"; do
        if kill -0 "$process" 2> /dev/null; then return; fi
    done
    return 1
}

# --- all together ---

judged=0
built_at=0
crates_done=0
tests_failed=0
test_crates=()
make_cases
while read -r file; do large[${file%/*}]=yes; done < <(find "$tests/cases" "$room/cases" -size +"${most}c")
for_cases take
cases=$((${#tried[@]} / 2))
for crate in $crates_of_tests; do
    if has_pattern "$crate"; then test_crates+=("$crate"); fi
done
if [ $cases = 0 ] && [ ${#test_crates[@]} = 0 ] && ! has_pattern pages; then
    echo "tests: no case and no crate of tests has '$pattern' in its name" >&2
    exit 2
fi
case_lanes=$((processors > 1 ? (processors + 1) / 2 : 1))
for ((lane = 0; lane < case_lanes; lane++)); do
    mkdir "$room/lane$lane"
    : > "$room/lane$lane/counts"
    : > "$room/lane$lane/said"
done
: > "$room/log"
# How many builds run side by side. The first lane builds the program.
lanes=$((${#test_crates[@]} + (cases != 0)))
if [ "$lanes" -gt "$processors" ]; then lanes=$processors; fi
room_for=$(awk -v each=$of_memory '/^MemAvailable/ { print int($2 / each) }' /proc/meminfo)
if [ "$lanes" -gt "$room_for" ]; then lanes=$((room_for > 0 ? room_for : 1)); fi
for ((lane = 0; lane < lanes; lane++)); do
    {
        if [ $lane = 0 ] && [ $cases != 0 ]; then run_cases; fi
        run_tests
    } &
    running+=($!)
done
shown=-60
while is_running; do
    if [ -t 2 ]; then printf '\r\033[K' >&2; fi
    count_tests
    count_cases
    if [ -t 2 ] || [ $((SECONDS - shown)) -ge 60 ]; then
        show
        shown=$SECONDS
    fi
    sleep 1
done
wait "${running[@]}" || true
running=()
if [ -t 2 ]; then printf '\r\033[K' >&2; fi
count_tests
count_cases
cat "$room"/lane*/said
tests_failed=$((tests_failed + ${#test_crates[@]} - crates_done))
if has_pattern pages; then try_pages; fi
if [ -e "$room/unbuilt" ]; then
    tail -n 20 "$room/log"
    if grep -q '^run=ended' "$room/log"; then
        echo 'The program was built, but not left in the folder of temporary files that rt try was given.'
    else
        echo "The program wasn't built: see the lines above."
    fi
fi
echo "$passed stored runs passed, $failed failed, $((cases - judged)) not tried; $tests_failed crates of tests failed"
rest=
for kind in $kinds; do
    if has_pattern "$kind"; then rest+=" $kind"; fi
done
if [ "$left" != 0 ] || [ -n "$rest" ]; then echo "left to tests/run.sh: $left large cases, and these kinds:${rest:- none}"; fi
if grep -q 'did not finish within' "$room"/lane*/said "$room"/sq_* 2> /dev/null; then
    echo "Something took more than the limit of $limit seconds. On a busy machine try it alone, by its name, with a higher limit:"
    echo "LIMIT=$((3 * limit)) tests/quick.sh NAME"
fi
echo "$((SECONDS / 60)) min $((SECONDS % 60)) s"
[ $((failed + tests_failed + cases - judged)) = 0 ]
