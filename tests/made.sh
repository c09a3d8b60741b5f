#!/usr/bin/env bash
# Makes cases of what is stored, in the folder that is named: of cases, of examples/ and of the help texts. tests/lib.sh says
# what a case is.
#
#   tests/made.sh FOLDER
set -eu
. "$(dirname "$0")/lib.sh"
cd "$1"
four_keys=$tests/cases/run/moves_four_keys

# make CASE WORD..: a case with these words.
make() {
    mkdir -p "$1"
    printf '%s\n' "${@:2}" > "$1/words"
}

# alike CASE OTHER WORD..: a case that has all that a stored one has, but its words.
alike() {
    mkdir -p "${1%/*}"
    cp -r "$tests/cases/$2" "$1"
    make "$1" "${@:3}"
}

# fails CASE ERRORS: the case is to end with status 2, and to say this.
fails() {
    echo 2 > "$1/status"
    echo "$2" > "$1/err"
}

# --- examples ---

# example NAME WORD [OPTION]: the example of this name in examples/, given to this subcommand, with this option.
example() {
    local case=examples/$1${3:-}
    make "$case" "${@:2}"
    cp "$examples/$1.txt" "$case/in"
    cp "$examples/$1.out" "$case/out"
}

# help_example WORD: the example in a subcommand's help text, pasted: the lines up to END are given, and those behind
# 'writes' are wanted.
help_example() {
    local case=examples/help_of_$1 text=$tests/cases/usage/help_of_$1/out
    make "$case" "$1"
    sed -n "/<<'END'\$/,/^END\$/p" "$text" | sed '1d;$d' > "$case/in"
    sed -n '/^writes$/,/^Exit status:$/p' "$text" | sed '1,2d;$d' | sed '$d' > "$case/out"
}

make_examples() {
    local word
    for word in first-move reactive-move split-node; do example "$word" run; done
    example ranges ranges
    example live-move live
    example staged-live-move live
    example staged-live-move live --fold
    for word in run ranges live; do help_example "$word"; done
}

# --- other words ---

# A text that is asked for by other words is the same one.
make_usage() {
    local word
    alike usage/help_by_h usage/help -h
    alike usage/help_by_its_word usage/help help
    for word in run ranges live steps owner demo serve; do
        alike "usage/help_of_${word}_by_h" "usage/help_of_$word" "$word" -h
        alike "usage/help_of_${word}_by_its_word" "usage/help_of_$word" help "$word"
    done
    alike usage/help_of_explain_by_its_word usage/help_of_explain help explain
    alike usage/version_by_v usage/version -V
    alike usage/old_and_rows_without_new usage/old_without_new run --old old.json --rows rows.txt
}

# A fault of `ranges` is the same with --json and with --svg; faults of rows are those of --sizes alone.
make_faults_of_ranges() {
    local status name option
    for status in "$tests"/cases/ranges/*/status; do
        name=$(basename "$(dirname "$status")")
        if grep -qsx -e --sizes "${status%/*}/words"; then continue; fi
        for option in json svg; do alike "faults_of_ranges/${name}_$option" "ranges/$name" ranges "--$option"; done
    done
}

# A fault of a header is the same for `steps`, which writes nothing else.
make_faults_of_steps() {
    local status case
    for status in "$tests"/cases/run/*/status; do
        case=${status%/*}
        if [ -e "$case/words" ] || [ "$(wc -l < "$case/out")" != 1 ]; then continue; fi
        alike "faults_of_steps/${case##*/}" "run/${case##*/}" steps
    done
}

# Folds between the stages of a live run change no line.
make_folds() {
    local name words
    for name in as_many_segments_as_there_may_be five_partitions_in_four_stages jobs_of_each_stage moves_in_three_stages \
        moves_in_two_stages sixty_four_partitions_and_16_pumps; do
        mapfile -t words < <(words_of "$tests/cases" "live/$name")
        alike "folds/$name" "live/$name" "${words[@]}" --fold
    done
}

# --- echoes ---

# echoed INPUT OUTPUT: the output of a run with --echo: each line of the script stands before its answer, and what a refusal
# means behind its number; all else is as without it. The script has no line without an end.
echoed() {
    awk 'NR > 3 && (past || !/^row /) { past = 1; print }' "$1" > script
    awk -v meanings=meanings -v script=script -v steps="$(wc -l < script)" '
        BEGIN {
            while ((getline text < meanings) > 0) { number = text; sub(/ .*/, "", number); sub(/^[0-9]+ /, "", text); meaning[number] = text }
            while ((getline line < script) > 0) lines[++count] = line
        }
        NR > steps { print; next }
        /^refused / { $0 = $0 ": " meaning[$2] }
        { print lines[NR] " -> " $0 }' "$2"
}

# Each stored run with --echo, but for faults, for scripts that end in a line without an end, which have a test of their own, for plans in
# files of their own, and for JSON.
make_echoes() {
    local case name
    grep '^[0-9]' "$tests/cases/usage/explain/out" > meanings
    for case in "$tests"/cases/run/*; do
        name=${case##*/}
        if [ -e "$case/status" ] || [ -n "$(tail -c 1 "$case/in" | tr -d '\n')" ]; then continue; fi
        if [ -e "$case/old.json" ] || [[ $name = *_as_json ]]; then continue; fi
        alike "echoes/$name" "run/$name" run --echo
        echoed "$case/in" "$case/out" > "echoes/$name/out"
    done
    rm script meanings
    make echoes/a_line_without_an_end run --echo
    { head -n 4 "$four_keys/in"; printf 'start\nrest'; } > echoes/a_line_without_an_end/in
    printf '%s\n' "start -> refused 228: a partition isn't prepared" "rest -> refused 230: a line is of no step's form" \
        'end idle' 'at 0 5 0 0.0=10/-' > echoes/a_line_without_an_end/out
    make echoes/a_fault run --echo
    head -n 3 "$four_keys/in" | sed 's/^config .*/config/' > echoes/a_fault/in
    echo 'fault 121' > echoes/a_fault/out
    fails echoes/a_fault "$(said 121 3 "word 2 is missing: a number up to 18446744073709551615, in decimal digits without a leading zero")"
}

# --- ends ---

# end_at TEXT: the input ends behind this text, within its first three lines: a fault of the line where it ends.
end_at() {
    local case=ends/${#1} misfit='it has no line end (the byte 0A)' ended_lines=${1//[!$'\n']/}
    make "$case" run
    printf %s "$1" > "$case/in"
    case $1 in '' | *$'\n') misfit='the input ends before it' ;; esac
    echo 'fault 121' > "$case/out"
    fails "$case" "$(said 121 $((${#ended_lines} + 1)) "$misfit")"
}

# Behind the first three lines an end is no fault, unless it is within a row.
make_ends() {
    local length header
    header=$(head -n 3 "$four_keys/in"; echo .)
    header=${header%.}
    for ((length = 0; length < ${#header}; length++)); do end_at "${header:0:length}"; done
    make ends/in_a_row run
    { head -n 3 "$four_keys/in"; printf 'row 5'; } > ends/in_a_row/in
    echo 'fault 121' > ends/in_a_row/out
    fails ends/in_a_row "$(said 121 4 'it has no line end (the byte 0A)')"
    make ends/behind_the_sizes run
    head -n 3 "$four_keys/in" > ends/behind_the_sizes/in
    echo 'end idle' > ends/behind_the_sizes/out
    make ends/in_what_may_be_a_row run
    { head -n 3 "$four_keys/in"; printf ro; } > ends/in_what_may_be_a_row/in
    printf '%s\n' 'refused 230' 'end idle' > ends/in_what_may_be_a_row/out
}

# --- files ---

# of_a_file NAME EXAMPLE WORD..: the input is a file, which is named behind these words.
of_a_file() {
    local case=files/$1
    make "$case" "${@:3}" "$case/$2.txt"
    cp "$examples/$2.txt" "$case/"
    cp "$examples/$2.out" "$case/out"
}

# An input may be a file that is named; where one can't be read, the message has its name.
make_files() {
    local word case
    of_a_file run first-move run
    of_a_file ranges ranges ranges
    of_a_file live staged-live-move live --fold
    for word in run ranges live; do
        case=files/${word}_of_no_file
        make "$case" "$word" "$case/nothing"
        cp "$examples/first-move.txt" "$case/in"
        fails "$case" "squall: the file '$case/nothing' can't be read: No such file or directory (os error 2)"
        case=files/${word}_of_a_folder
        make "$case" "$word" "$case"
        cp "$examples/first-move.txt" "$case/in"
        cp "$examples/first-move.txt" "$case/file"
        fails "$case" "squall: the file '$case' can't be read: is a directory"
    done
}

# --- parts ---

# parts CASE OTHER WORD: a case that gives a stored one's input in parts: its plans over many lines in old.json and new.json,
# its rows in rows.txt without the end of the last line, and the rest as the input.
parts() {
    local whole=$tests/cases/$2/in
    make "$1" "$3" --old "$1/old.json" --new "$1/new.json" --rows "$1/rows.txt"
    sed -n '1s/^old //p' "$whole" | sed 's/,/ ,\n  /g' > "$1/old.json"
    sed -n '2s/^new //p' "$whole" | sed 's/,/ ,\n  /g' > "$1/new.json"
    awk 'NR > 3 && (past || !/^row /) { past = 1 } NR > 3 && !past' "$whole" | head -c -1 > "$1/rows.txt"
    awk 'NR == 3; NR > 3 && (past || !/^row /) { past = 1; print }' "$whole" > "$1/in"
}

# in_parts OTHER: a stored case in parts has the output of the whole, also if the rest is a file too.
in_parts() {
    local case=parts/${1#*/}
    parts "$case" "$1" "${1%/*}"
    cp "$tests/cases/$1/out" "$case/"
    case=${case}_in_files
    parts "$case" "$1" "${1%/*}"
    cp "$tests/cases/$1/out" "$case/"
    mv "$case/in" "$case/main.txt"
    echo "$case/main.txt" >> "$case/words"
}

# fault_in_parts CASE NUMBER PLACE TEXT [MISFIT]: wants of parts this fault, which is said of this place with this text, and
# with what doesn't fit there.
fault_in_parts() {
    echo "fault $2" > "$1/out"
    fails "$1" "squall: $3: fault $2: $4${5:+$'\n'squall: $3: $5}"
}

# A fault in a part is said of its file.
make_faults_in_parts() {
    local case
    case=parts/gap_in_the_file_of_a_plan
    parts "$case" run/moves_four_keys run
    sed -i 's/\[8/[9/' "$case/new.json"
    fault_in_parts "$case" 105 "$case/new.json" \
        "the new plan's ranges don't follow one another from 0 to 4294967296, each nonempty" 'its range 3 begins at 9 instead of 8'
    case=parts/word_in_the_file_of_a_plan
    parts "$case" run/moves_four_keys run
    printf '{\n"version": 1,\n "partitions": two}' > "$case/old.json"
    fault_in_parts "$case" 101 "$case/old.json" "the old plan isn't JSON" "it isn't JSON at its line 3, column 16"
    case=parts/version_in_the_file_of_a_plan
    parts "$case" run/moves_four_keys ranges
    echo '{"version":3}' > "$case/old.json"
    fault_in_parts "$case" 103 "$case/old.json" "the old plan's version isn't 1 or 2"
    case=parts/file_of_a_plan_that_is_too_long
    parts "$case" run/moves_four_keys run
    head -c 65533 /dev/zero | tr '\0' ' ' > "$case/old.json"
    fault_in_parts "$case" 231 "$case/old.json" 'a line of the header has more than 65536 bytes'
    case=parts/file_of_a_plan_without_end
    parts "$case" run/moves_four_keys run
    make "$case" run --old /dev/zero --new "$case/new.json"
    fault_in_parts "$case" 231 /dev/zero 'a line of the header has more than 65536 bytes'
    case=parts/sizes_without_a_line_end
    parts "$case" run/moves_four_keys run
    printf 'config 1 64 1' > "$case/in"
    fault_in_parts "$case" 121 'standard input: line 1' "it has no line end (the byte 0A)"
    echo "squall: standard input: line 1 is to be $(form 3)" >> "$case/err"
    case=parts/sizes_of_the_main_part
    parts "$case" run/moves_four_keys live
    sed -i 's/^config [0-9]*/config 0/' "$case/in"
    fault_in_parts "$case" 112 'standard input: line 1' "the width of a leaf isn't from 1 to 65536" "word 2 is '0'"
    case=parts/row_in_a_file
    parts "$case" run/moves_four_keys run
    printf '\nrow 6 0 0 1 -\nrow 7 99 0 1 -' >> "$case/rows.txt"
    fault_in_parts "$case" 133 "$case/rows.txt: line 3" "a table isn't in the schema" "word 3 is '99', and tables are 0 to 7"
    case=parts/open_quote_before_many_rows
    parts "$case" run/moves_four_keys run
    sed -i 's/rows\.txt/rows.csv/' "$case/words"
    { printf '5,0,0,10,\n6,0,0,1,"'; yes '7,0,0,1,' | head -n 300000; } > "$case/rows.csv"
    fault_in_parts "$case" 135 "$case/rows.csv: line 2" 'a note has more than 255 bytes' \
        "column 5 begins with a quote that isn't closed within 516 bytes"
    case=parts/row_in_the_main_part
    parts "$case" run/moves_four_keys run
    sed -i '1a row 6 0 0 1 -\nrow 7 99 0 1 -' "$case/in"
    fault_in_parts "$case" 133 'standard input: line 3' "a table isn't in the schema" "word 3 is '99', and tables are 0 to 7"
    case=parts/job_in_the_main_part
    parts "$case" live/moves_in_two_stages live
    echo 'txn 0 1' >> "$case/in"
    fault_in_parts "$case" 126 "standard input: line $(wc -l < "$case/in")" 'a line behind the header is no transaction' \
        'word 4 is missing: a number up to 18446744073709551615, in decimal digits without a leading zero'
}

# Where a part can't be read, the message has its name.
make_missing_parts() {
    local word name case
    for word in run ranges live; do
        for name in old.json new.json rows.txt; do
            case=parts/${word}_without_$name
            parts "$case" run/moves_four_keys "$word"
            rm "$case/$name"
            fails "$case" "squall: the file '$case/$name' can't be read: No such file or directory (os error 2)"
        done
    done
}

# The plans and the rows may stand in files of their own.
make_parts() {
    local name
    for name in run/moves_four_keys run/tour run/tour_in_stages run/three_partitions run/stages_of_the_new_plan \
        ranges/the_last_key live/moves_in_two_stages live/four_partitions_round; do
        in_parts "$name"
    done
    # Rows in the main part stand behind those of the file.
    parts parts/rows_in_both_parts run/moves_four_keys run
    sed -i '1a row 5 1 3 7 -' parts/rows_in_both_parts/in
    sed 's,0\.0=10/-,& 1.3=7/-,' "$four_keys/out" > parts/rows_in_both_parts/out
    make_faults_in_parts
    make_missing_parts
}

make_examples
make_usage
make_faults_of_ranges
make_faults_of_steps
make_folds
make_echoes
make_ends
make_files
make_parts
