#!/usr/bin/env bash
# The picture of which crate stands on which, drawn from crates.txt: docs/crates.svg is what this prints.
#
#   bash tests/crates_graph.sh > docs/crates.svg
#
# A crate stands above all that it uses, and a line goes to those that it doesn't use through another one. Its colour is
# that of its heading in crates.txt. Crates of tests are left out.
set -eu
export LC_ALL=C
cd "$(dirname "$0")/.."
awk -f tests/programs/crates_graph.awk crates.txt
