#!/usr/bin/env bash
# Whether tests/plants.txt lists all that `rt plant` still proves: wrong bodies under a crate's contracts, each with why no
# clause refuses it.
#
#   bash tests/plants.sh            plants in each crate that has changed since it was listed
#   bash tests/plants.sh CRATE..    plants in these
#   bash tests/plants.sh --changed  only names the crates that have changed, since then and since the wrong bodies that were
#                                   written by hand were tried in them
#
# A crate is as it was where the checksum of its code and definitions, without comments, imports and blanks, stands under its
# heading. A crate takes from one minute to an hour. Prints what isn't listed, and what is listed and isn't proved any more,
# and for each crate the line that belongs under its heading; at the end how many crates passed. Fails where something
# isn't listed.
set -eu
export LC_ALL=C
top=$(cd "$(dirname "$0")/.." && pwd)
list=$top/tests/plants.txt
room=$(mktemp -d)
trap 'rm -r "$room"' EXIT
passed=0
failed=0

# The checksum of a crate's code and definitions, without comments and imports (a word of a definition has one meaning in all
# crates), and blind to blanks and ends of lines.
checksum() {
    (
        cd "$top/crates/$1"
        {
            find src -type f | sort | xargs sed -E '/^ *\/\//d; /^ *((pub|ghost) )?use [^;]*;/d; /^ *((pub|ghost) )?use /,/;/d'
            find specs -type f 2> "$room/missing" | sort | xargs -r sed -E '/^ *--/d; /^ *(pub )?(use|mod) /d'
        } | tr -d ' \n' | sha256sum | cut -c 1-12
    )
}

# What stands under a crate's heading.
section() {
    awk -v heading="## $1" '/^## / { inside = $0 == heading; next } inside' "$list"
}

# changed HOW: the crates whose code isn't that of the line with this word, 'of the sources' where the tool planted, or 'by hand'.
changed() {
    local name
    for name in $(grep -oE '^[a-z_]+' "$top/crates.txt"); do
        case $name in sq_tests | sq_*_tests | sq_trial | sq_million | sq_refusals | sq_examples) continue ;; esac
        section "$name" | grep "$1" | grep -q "$(checksum "$name")" || echo "$name"
    done
}

# Plants in a crate, and compares what is proved with what is listed.
plant() {
    local name=$1
    if ! (cd "$top/crates/$name" && rt plant --minutes 180 --max 10000) > "$room/log" 2>&1; then
        tail -n 5 "$room/log"
        return 1
    fi
    sed -nE 's/^(proves|no-ensures) +src\/[^ ]* (.*)$/\2/p' "$room/log" | sort -u > "$room/proved"
    section "$name" | sed -nE 's/^- `([^`]*)`.*$/\1/p' | sort -u > "$room/listed"
    echo "$name: $(sed -nE 's/^plants crate=[a-z_]+ //p' "$room/log" | sed -E 's/ [a-z-]+=0//g'), of the sources $(checksum "$name")"
    comm -13 "$room/listed" "$room/proved" | sed 's/^/    not listed: /'
    comm -23 "$room/listed" "$room/proved" | sed 's/^/    listed, and not proved any more: /'
    [ -z "$(comm -13 "$room/listed" "$room/proved")" ] && ! grep -q 'not-run=[1-9]' "$room/log"
}

if [ "${1:-}" = --changed ]; then
    echo "changed since the tool planted in them: $(changed 'of the sources' | tr '\n' ' ')"
    echo "changed since wrong bodies were planted by hand: $(changed 'by hand' | tr '\n' ' ')"
    exit
fi
if [ $# = 0 ]; then set -- $(changed 'of the sources'); fi
for name; do
    if plant "$name"; then passed=$((passed + 1)); else failed=$((failed + 1)); fi
done
echo "$passed passed, $failed failed"
[ "$failed" = 0 ]
