#!/usr/bin/env bash
# Proves the program and all crates below it, and installs it.
#
#   tools/install.sh [FOLDER]
#
# FOLDER, ~/.local/bin if left out, gets `squall`. The manual page and what bash completes, both made from the help texts, go into
# FOLDER/../share if FOLDER is named `bin`, else into FOLDER too. A file of these names that this script did not write stays, and
# nothing is installed.
#
# `rt ci` proves the crates side by side, as many as processors and memory allow (RT_JOBS=N: N at a time), in a copy among the
# temporary files. It takes what it proved on this machine before, and keeps each crate that it proves: after an interruption the
# script goes on from there. It leaves out the crates of tests and the edits that must fail, which .ci/run tries.
#
# Exit status: 0: installed; 1: a crate isn't proved; 2: it can't begin, or something can't be written.
set -eu
export LC_ALL=C
top=$(cd "$(dirname "$0")/.." && pwd)
# A crate's proof takes up to so many MB, and a line of code so many milliseconds of a processor.
least=5000
pace=140
# How often the proofs are looked at, and how often at least a line is written if standard error is no terminal, in seconds.
look=2
silence=300
room=
prover=
trap clean_up EXIT
trap 'exit 130' INT
trap 'exit 143' TERM HUP

# shellcheck disable=SC2317
clean_up() {
    if [ -n "$prover" ]; then
        kill "$prover" 2> /dev/null || true
        wait "$prover" 2> /dev/null || true
    fi
    # What the prover started ends a moment after it.
    if [ -n "$room" ]; then rm -rf "$room" 2> /dev/null || { sleep 1 && rm -rf "$room"; }; fi
}

stop() {
    echo "install: $1" >&2
    exit "${2:-2}"
}

# --- what has to be there ---

# free_memory: the MB that are free, by the machine and by the control group.
free_memory() {
    local of=/sys/fs/cgroup limit
    awk '/^MemAvailable:/ { print int($2 / 1024) }' /proc/meminfo
    limit=$(cat $of/memory.max 2> /dev/null || echo max)
    if [ "$limit" != max ]; then echo $(((limit - $(cat $of/memory.current)) >> 20)); fi
}

look_for_toolchain() {
    local version wanted
    command -v rt > /dev/null || stop "no command rt: install the Rattle toolchain, and put its rt on your PATH"
    version=$(rt version) || stop "'rt version' fails: the Rattle toolchain isn't whole"
    wanted=$(sed -n 's/.*rt version. prints .\(rattle-kit[-a-z0-9 ]*\).*/\1/p' "$top/README.md")
    if [ "$version" != "$wanted" ]; then
        echo "install: note: this is $version. The proofs are made for $wanted, and may fail" >&2
    fi
}

# look_at_file FILE MARK: stops if there is such a file, and it doesn't have the mark of what this script wrote.
look_at_file() {
    if [ -d "$1" ]; then stop "$1 is a folder"; fi
    if [ -e "$1" ] && ! grep -aqF "$2" "$1"; then stop "$1 is another's: remove it, or name another folder"; fi
    mkdir -p "${1%/*}" 2> /dev/null || stop "the folder ${1%/*} can't be made"
    if [ ! -w "${1%/*}" ]; then stop "the folder ${1%/*} can't be written"; fi
}

# --- the proofs ---

# crates_below: the lines of crates.txt of the program and of all crates below it.
crates_below() {
    awk '
        /^[^#]/ { name = $1; sub(/:$/, "", name); line[name] = $0; sub(/^[^:]*:/, ""); needs[name] = $0; order[++count] = name }
        function take(name, below, number, at) {
            if (name in taken || !(name in line)) return
            taken[name]
            number = split(needs[name], below, " ")
            for (at = 1; at <= number; at++) take(below[at])
        }
        END { take("squall"); for (at = 1; at <= count; at++) if (order[at] in taken) print line[order[at]] }' "$top/crates.txt"
}

# copy_crates: copies what is to be proved, without what the gate alone tries, as a repository of its own.
copy_crates() {
    local crate part
    # (a folder .git makes it the top of a repository)
    mkdir -p "$room/squall/.git" "$room/squall/crates"
    cp "$top/HANDLES" "$room/squall"
    crates_below > "$room/squall/crates.txt"
    sed 's/[ :].*//' "$room/squall/crates.txt" > "$room/crates"
    while read -r crate; do
        mkdir "$room/squall/crates/$crate"
        for part in "$top/crates/$crate"/*; do
            case ${part##*/} in
                must-fail | edits | out) ;;
                *) cp -r "$part" "$room/squall/crates/$crate" ;;
            esac
        done
        echo "$crate $(find "$room/squall/crates/$crate/src" -name '*.rt' -exec cat {} + | wc -l)"
    done < "$room/crates" > "$room/lines"
    every=$(wc -l < "$room/crates")
}

# read_log: which crates have ended, and how, by what the prover wrote so far.
read_log() {
    sed -n 's/^rt: \([a-z_]*\) is kept: .*/\1 kept/p; s/^rt: \([a-z_]*\) proved$/\1 proved/p; s/^rt: \([a-z_]*\) NOT PROVED.*/\1 failed/p' \
        "$room/log" > "$room/ended"
    count=$(wc -l < "$room/ended")
}

# seconds_left PASSED: about how many seconds the crates that are left take, after so many: their lines by the pace so far, but no
# less than the longest chain of crates that wait for one another.
seconds_left() {
    awk -v passed="$1" -v pace="$pace" -v lanes="${RT_JOBS:-$(nproc)}" '
        FILENAME ~ /lines$/ { lines[$1] = $2; next }
        FILENAME ~ /ended$/ { ended[$1] = $2; next }
        { name = $1; sub(/:$/, "", name); sub(/^[^:]*:/, ""); needs[name] = $0 }
        function chain(name, below, number, at, most) {
            if (!(name in lines)) return 0
            if (name in known) return known[name]
            number = split(needs[name], below, " ")
            for (at = 1; at <= number; at++) if (chain(below[at]) > most) most = chain(below[at])
            return known[name] = most + (name in ended ? 0 : lines[name])
        }
        END {
            for (name in lines) {
                if (!(name in ended)) left += lines[name]
                else if (ended[name] == "proved") proved += lines[name]
                if (chain(name) > longest) longest = chain(name)
            }
            seconds = left * (proved > 2000 ? passed / proved : pace / 1000 / lanes)
            print int(seconds > longest * pace / 1000 ? seconds : longest * pace / 1000)
        }' "$room/lines" "$room/ended" "$room/squall/crates.txt"
}

# progress SECONDS: a line on how far the proofs are, if they take so many seconds more.
progress() {
    local crate now='' kept
    kept=$(grep -c ' kept$' "$room/ended" || true)
    while read -r crate; do
        if [ -d "$room/squall/crates/$crate/out" ] && ! grep -q "^$crate " "$room/ended"; then now+=" $crate"; fi
    done < "$room/crates"
    if [ "$count$now" = 0 ]; then
        echo "reading $every crates; then about $((($1 + 59) / 60)) min"
    elif [ "$count" = "$every" ]; then
        echo "all $every crates are proved; the program is tried"
    else
        echo "$((every - count)) of $every crates left ($kept kept from earlier runs), about $((($1 + 59) / 60)) min; now$now"
    fi
}

# show LINE: writes the line in place of the last one at a terminal, else below it.
show() {
    if [ -t 2 ]; then
        printf '\r\033[K%s' "$(cut -c "1-$(($(tput cols 2> /dev/null || echo 80) - 1))" <<< "$1")" >&2
    else
        echo "$1" >&2
    fi
}

# prove: proves the crates of the copy, and shows how far it is. Without a terminal it writes what changed, twice a minute at most.
prove() {
    local before=-1 left=0 at=0 said=-1000 status=0
    : > "$room/log"
    (cd "$room/squall" && exec rt ci) > "$room/log" 2>&1 < /dev/null &
    prover=$!
    while kill -0 "$prover" 2> /dev/null; do
        read_log
        if grep -q ' failed$' "$room/ended"; then break; fi
        if [ "$count" != "$before" ]; then
            before=$count
            left=$(seconds_left $SECONDS)
            at=$SECONDS
        fi
        if [ -t 2 ] || [ $((SECONDS - said)) -ge $silence ] || { [ "$at" -gt "$said" ] && [ $((SECONDS - said)) -ge 30 ]; }; then
            show "$(progress $((left + at - SECONDS > 60 ? left + at - SECONDS : 60)))"
            said=$SECONDS
        fi
        sleep $look
    done
    read_log
    if [ -t 2 ]; then echo >&2; fi
    if grep -q ' failed$' "$room/ended"; then say_why; fi
    wait "$prover" || status=$?
    prover=
    if [ "$status" != 0 ] || [ ! -x "$built" ]; then say_why; fi
    echo "proved: $every crates, $(grep -c ' kept$' "$room/ended" || true) of them in earlier runs, in $((SECONDS / 60)) min $((SECONDS % 60)) s" >&2
}

# say_why: ends the script after proofs that failed: which crate isn't proved, what was said of it, and where the rest is.
say_why() {
    local log lost
    log=$(mktemp "${TMPDIR:-/tmp}/squall-install-XXXXXX")
    cp "$room/log" "$log"
    # What stands on a crate that isn't proved has a reason behind its line.
    lost=$(sed -n 's/^rt: \([a-z_]*\) NOT PROVED$/\1/p' "$log" | head -n 1)
    if [ -n "$lost" ]; then
        sed -n "/^== $lost\$/,/^rt: $lost NOT PROVED\$/p" "$log" | grep -a -e error -e '^fn .*: no' -e '^rt: ' | head -n 6 >&2
        stop "$lost isn't proved, so nothing is installed. All that the prover wrote: $log" 1
    fi
    tail -n 3 "$log" >&2
    stop "the proofs failed, so nothing is installed. All that the prover wrote: $log" 1
}

# --- the files ---

# put FILE MADE MODE: puts what was made in the place of a file, at once.
put() {
    local part
    part=$(mktemp "$1.XXXXXX") || stop "$1 can't be written"
    if ! { cat "$2" > "$part" && chmod "$3" "$part" && mv -fT "$part" "$1"; }; then
        rm -f "$part"
        stop "$1 can't be written"
    fi
    echo "$1"
}

# (a function is read whole before it begins, so that the script may change while it runs)
main() {
    local folder manual completions memory
    case ${1:-} in
        -h | --help)
            sed -n '2,/^set/s/^# \{0,1\}//p' "$0"
            return
            ;;
        -*) stop "no option $1: tools/install.sh [FOLDER]" ;;
    esac
    if [ $# -gt 1 ]; then stop 'one folder at most: tools/install.sh [FOLDER]'; fi
    folder=$(realpath -m -- "${1:-${HOME:?}/.local/bin}")
    if [ "${folder##*/}" = bin ]; then
        manual=${folder%/*}/share/man/man1/squall.1
        completions=${folder%/*}/share/bash-completion/completions/squall
    else
        manual=$folder/squall.1
        completions=$folder/squall.bash
    fi
    look_for_toolchain
    memory=$(free_memory | sort -n | head -n 1)
    if [ "$memory" -lt $least ]; then stop "$memory MB of memory are free, and the largest crate's proof takes $least"; fi
    look_at_file "$folder/squall" 'squall explain lists all numbers'
    look_at_file "$manual" 'Made by tools/manual.sh of Squall'
    look_at_file "$completions" 'Made by tools/completions.sh of Squall'

    room=$(mktemp -d)
    built=$room/squall/crates/squall/out/squall
    copy_crates
    prove
    bash "$top/tools/manual.sh" "$built" > "$room/manual" < /dev/null
    bash "$top/tools/completions.sh" "$built" > "$room/completions" < /dev/null
    put "$folder/squall" "$built" 755
    put "$manual" "$room/manual" 644
    put "$completions" "$room/completions" 644
    case :$PATH: in
        *:"$folder":*) ;;
        *) echo "install: note: $folder isn't on your PATH" >&2 ;;
    esac
}

main "$@"
exit
