#!/bin/sh
# Times `speed_bench step` on one processor: one gap of a model of two locations is taken ten thousand times. What counts is the time
# of the processor, and not that of the clock, so that other work on the machine does not.
set -eu
here=$(CDPATH='' cd -- "$(dirname -- "$0")/.." && pwd)
crate=$here/crates/speed_bench
rounds=10000

"$here/bench/build.sh" speed_bench

# The last line of `times` has the minutes and seconds of the program, and of the system for it.
told=$("$crate/out/speed_bench" step && times)
printf '%s\n' "$told" | awk -v rounds="$rounds" '
    NR == 1 { print }
    { split($1 $2, parts, "[ms]") }
    END {
        seconds = 60 * (parts[1] + parts[3]) + parts[2] + parts[4]
        printf "%.1f microseconds each\n", 1000000 * seconds / rounds
    }'
