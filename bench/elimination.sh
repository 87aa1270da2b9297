#!/bin/sh
# Times `speed_bench elimination`: one column of 40 rows of 9 columns goes, a thousand times.
set -eu
here=$(CDPATH='' cd -- "$(dirname -- "$0")/.." && pwd)
crate=$here/crates/speed_bench
rounds=1000

"$here/bench/build.sh" speed_bench

begin=$(date +%s%N)
"$crate/out/speed_bench" elimination
end=$(date +%s%N)
awk -v begin="$begin" -v end="$end" -v rounds="$rounds" 'BEGIN {
    printf "%.0f microseconds each\n", (end - begin) / 1000 / rounds
}'
