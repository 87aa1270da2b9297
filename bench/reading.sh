#!/bin/sh
# Times `speed_bench reading` on one processor: a log of 1,000 short rows is read and parsed a thousand times. What counts is the time
# of the processor, and not that of the clock, so that other work on the machine does not.
set -eu
here=$(CDPATH='' cd -- "$(dirname -- "$0")/.." && pwd)
crate=$here/crates/speed_bench
rows=1000000

"$here/bench/build.sh" speed_bench

# The last line of `times` has the minutes and seconds of the program, and of the system for it.
told=$("$crate/out/speed_bench" reading && times)
printf '%s\n' "$told" | awk -v rows="$rows" '
    NR == 1 { print }
    { split($1 $2, parts, "[ms]") }
    END {
        seconds = 60 * (parts[1] + parts[3]) + parts[2] + parts[4]
        printf "%.2f seconds of the processor, %.0f rows per second\n", seconds, rows / seconds
    }'
