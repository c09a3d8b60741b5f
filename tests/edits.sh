#!/usr/bin/env bash
# Further wrong bodies, which `rt ci` doesn't try: crates/NAME/edits/*.edit, in the form of crates/NAME/must-fail/*.edit.
# The prover must refuse each.
#
#   tests/edits.sh                     tries those of all crates
#   tests/edits.sh NAME..              tries those of these crates
#   tests/edits.sh [NAME..] --old-texts  only looks whether each old text still stands once in its file, in seconds
#
# They are tried in a copy of the repository, by `rt must-fail`, which begins with what `rt check` kept on this machine. An
# edit takes 10 to 80 seconds of the processor, and each crate one more check. The last line counts the edits.
set -eu
export LC_ALL=C
top=$(cd "$(dirname "$0")/.." && pwd)

# look CRATE EDIT: says which old texts don't stand once in what the pairs above them made of their file.
look() {
    awk -v crate="$1" -v name="${2#"$top"/}" '
        function read(path,    line, whole) {
            while ((getline line < path) > 0) whole = whole line "\n"
            close(path)
            return whole
        }
        function count(text, part,    at, number) {
            while ((at = index(text, part)) > 0) { number++; text = substr(text, at + length(part)) }
            return number + 0
        }
        /^file: / { file = substr($0, 7); if (!(file in texts)) texts[file] = read(crate "/" file) }
        /^old: / { old = substr($0, 6) }
        /^new: / {
            stands = count(texts[file], old)
            if (stands != 1) print name ": stands " stands " times in " file ": " old
            at = index(texts[file], old)
            if (at > 0) texts[file] = substr(texts[file], 1, at - 1) substr($0, 6) substr(texts[file], at + length(old))
        }' "$2"
}

# look_at_all NAME..: looks at the edits of these crates.
look_at_all() {
    local name edit bad passed=0 failed=0
    for name in "$@"; do
        for edit in "$top/crates/$name"/edits/*.edit; do
            bad=$(look "$top/crates/$name" "$edit")
            if [ -z "$bad" ]; then passed=$((passed + 1)); else failed=$((failed + 1)); echo "$bad"; fi
        done
    done
    echo "old texts of further edits: $passed passed, $failed failed"
    [ "$failed" = 0 ]
}

# try_all NAME..: tries the edits of these crates, in a copy in which they are the only ones.
try_all() {
    local name
    room=$(mktemp -d)
    trap 'rm -rf "$room"' EXIT
    tar -C "$top" --exclude=out --exclude=must-fail -cf - HANDLES crates.txt crates | tar -C "$room" -xf -
    for name in "$@"; do mv "$room/crates/$name/edits" "$room/crates/$name/must-fail"; done
    (cd "$room" && rt must-fail "$@")
}

how=try_all
names=()
for word in "$@"; do
    if [ "$word" = --old-texts ]; then how=look_at_all; else names+=("$word"); fi
done
if [ "${#names[@]}" = 0 ]; then
    for folder in "$top"/crates/*/edits; do
        if [ -d "$folder" ]; then folder=${folder%/edits}; names+=("${folder##*/}"); fi
    done
fi
for name in "${names[@]}"; do
    if [ ! -d "$top/crates/$name/edits" ]; then echo "there is no folder crates/$name/edits" >&2; exit 2; fi
done
"$how" "${names[@]}"
