#!/usr/bin/env bash
# A million jobs of an engine, while root keys move from one partition to four in three stages and back in one, ten times: each job is
# answered once, and each root key's numbers are 1, 2, 3 and so on.
#
#   tests/million.sh
#
# The program is the one that `rt ci` leaves in crates/sq_million/out, as LLVM builds it; it judges what it is answered.
# MILLION=PATH takes another one.
set -eu
cd "$(dirname "$0")/.."
program=${MILLION:-crates/sq_million/out/sq_million}
wanted='1000000 jobs are answered, each once, in 40 stages of moves'
SECONDS=0
ended=0
got=$(timeout 90 "$program" 1000000 2>&1) || ended=$?
if [ "$ended" != 0 ] || [ "$got" != "$wanted" ]; then
    echo "a million jobs: status $ended, and not '$wanted' but '$got'"
    exit 1
fi
echo "a million jobs: $got, in $SECONDS seconds"
