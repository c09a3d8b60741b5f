#!/usr/bin/env bash
# Whether what the pages of docs/proof rest on is there. In a table of claims the last column names functions, laws and clauses: a crate
# that the column itself, the row's first column, or else the heading names has to define each. In a table of definitions some crate has
# to define each word of the first column. In the README of a crate this crate has to define each name, or another one that the README
# names. Prints the names that none does.
#
#   tests/page_names.sh
set -eu
cd "$(dirname "$0")/.."
{ find crates -path '*/out' -prune -o \( -path '*/src/*.rt' -o -path '*/specs/*.antt' \) -print; ls crates/*/README.md docs/proof/*.md; } | xargs awk -f tests/programs/page_names.awk
