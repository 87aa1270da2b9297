#!/bin/sh
# Times `hamon check` on four kinds of logs, and says how much memory it held at the most, as far as was seen every hundredth of a
# second: a long log of two variables that are always observed, one of many cells without a value, and those of the examples.
set -eu
here=$(CDPATH='' cd -- "$(dirname -- "$0")/.." && pwd)
rows=20000

folder=$(mktemp -d)
trap 'rm -rf "$folder"' EXIT
trap 'exit 130' HUP INT TERM

# A cabin: a row every 0.02 units of time, each value fixed.
cat >"$folder/cabin.lha" <<'END'
lha 1
automaton D
var temp, level
loc normal
init temp = 20, level = 50
inv temp <= 90, level >= 5
flow temp in [-1, 1], level in [-1/2, 1/2]
loc hot unsafe
inv temp >= 80
flow temp in [-1, 1], level in [-1/2, 1/2]
trans normal -> hot as heat when temp >= 80
trans hot -> normal as cool when temp <= 85
end
END
awk -v rows="$rows" 'BEGIN {
    print "time,temp,level"
    for (i = 0; i < rows; i++) printf "%d.%02d,%.6f,%.6f\n", i / 50, i % 50 * 2, 20 + i * 0.000150, 50 - i * 0.000100
}' >"$folder/cabin.csv"

# A level that is observed once, and then forty times not.
cat >"$folder/level.lha" <<'END'
lha 1
automaton T
var x
loc ok
init x = 0
inv x <= 10
flow x in [-1, 2]
loc high unsafe
inv x >= 8
flow x in [-1, 1]
trans ok -> high as up when x >= 8
trans high -> ok as down when x <= 9
end
END
awk 'BEGIN { print "time,x"; print "0,0"; for (i = 1; i <= 40; i++) printf "%d,\n", i }' >"$folder/level.csv"

# Runs the program on a model and a log; prints the rows a second, the seconds, and the most memory that was seen.
measure() {
    name=$1 model=$2 log=$3
    count=$(($(wc -l <"$log") - 1))
    begin=$(date +%s%N)
    "$program" check "$model" <"$log" >"$folder/answers" &
    pid=$!
    peak=0
    while kill -0 "$pid" 2>/dev/null; do
        seen=$(awk '/^VmHWM/ { print $2 }' "/proc/$pid/status" 2>/dev/null || true)
        if [ -n "$seen" ] && [ "$seen" -gt "$peak" ]; then peak=$seen; fi
        sleep 0.01
    done
    wait "$pid" || test $? -eq 1
    end=$(date +%s%N)
    awk -v name="$name" -v rows="$count" -v begin="$begin" -v end="$end" -v peak="$peak" 'BEGIN {
        seconds = (end - begin) / 1000000000
        printf "%-18s %7d rows %9.3f s %10.0f rows a second %8d KB\n", name, rows, seconds, rows / seconds, peak
    }'
}

# The first call builds the program, if it must be built.
"$here/hamon" check "$folder/level.lha" </dev/null
program=$here/crates/hamon/out/hamon

measure 'cabin' "$folder/cabin.lha" "$folder/cabin.csv"
measure '40 blanks' "$folder/level.lha" "$folder/level.csv"
for plant in tanks platoon battery; do
    for log in "$here/examples/$plant"/*.csv; do
        measure "$plant $(basename "$log" .csv)" "$here/examples/$plant/$plant.lha" "$log"
    done
done
