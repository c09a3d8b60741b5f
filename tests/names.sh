#!/usr/bin/env bash
# Names that stand in more than one crate: of definitions that contracts cite, and of public types.
#
#   bash tests/names.sh           each with its crates, definitions first, and at the end how many there are
#   bash tests/names.sh --count   only how many there are
set -eu
export LC_ALL=C
cd "$(dirname "$0")/../crates"

# CRATE NAME of each definition.
definitions() {
    grep -roE '^(abbrev |unfoldable )?pub (abbrev |unfoldable |record |data )?[A-Za-z_][A-Za-z0-9_]*' --include='*.antt' */specs |
        grep -vE ':pub (mod|use)$' | sed -E 's/^([a-z_]+)\/.* ([A-Za-z_][A-Za-z0-9_]*)$/\1 \2/'
}

# CRATE NAME of each public type.
types() {
    grep -roE '^pub(\(crate\))? (struct|enum|trait|type) [A-Za-z_]+' --include='*.rt' */src |
        sed -E 's/^([a-z_]+)\/.* ([A-Za-z_]+)$/\1 \2/'
}

# The names of a list of CRATE NAME that stand in more than one crate, with these.
twice() {
    sort -u | awk '{ count[$2]++; crates[$2] = crates[$2] " " $1 } END { for (name in count) if (count[name] > 1) print name ":" crates[name] }' | sort
}

if [ "${1:-}" != --count ]; then
    definitions | twice
    echo "types"
    types | twice
fi
echo "$(definitions | twice | wc -l) definitions and $(types | twice | wc -l) types have a name that stands in more than one crate"
