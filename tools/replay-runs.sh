#!/bin/sh
# Replays each run that stands behind an alarm of `check`: it must be a run of its log that visits an unsafe location.
#
#     tools/replay-runs.sh [FOLDER ..]
#
# Without a folder: the logs of examples/ whose report stands beside them. A folder holds cases, each a folder with the files `args`
# (the words of the command line, one a line), `stdin` and `stdout`.
set -u
here=$(CDPATH='' cd -- "$(dirname -- "$0")/.." && pwd) || exit 2
hamon=$here/crates/hamon/out/hamon
[ -x "$hamon" ] || { echo "replay-runs: the program is not built: run .ci/run" >&2; exit 2; }
work=$(mktemp -d) || exit 2
trap 'rm -rf "$work"' EXIT
failed=0
runs=0

# Splits a report into its runs, one a file.
split_runs() {
    rm -f "$work"/run.*
    awk -v out="$work/run." '/^\+ run /{n++} /^\+ /{ if ($2 != "overflow") print > (out sprintf("%04d", n)) }' "$1"
}

# Replays the runs of a report: the jumps, the model, the log, the report.
replay() {
    split_runs "$4"
    for run in "$work"/run.*; do
        [ -f "$run" ] || continue
        answer=$("$hamon" --jumps "$1" replay "$2" "$3" <"$run")
        case $answer in
        replay,alarm | replay,passes,*) ;;
        *) echo "replay-runs: $4: $answer"; failed=1 ;;
        esac
        runs=$((runs + 1))
    done
}

if [ $# -eq 0 ]; then
    cd "$here" || exit 2
    for log in examples/*/*.csv; do
        case $(head -n 1 "$log") in open,*) continue ;; esac
        [ -f "${log%.csv}.out" ] && replay 2 "$(echo "$(dirname "$log")"/*.lha)" "$log" "${log%.csv}.out"
    done
fi
for folder in "$@"; do
    for case in "$folder"/*/; do
        [ -f "$case/args" ] && grep -q '^check$' "$case/args" || continue
        model=$(sed -n '/^check$/{n;p;}' "$case/args")
        jumps=$(sed -n '/^--jumps$/{n;p;}; s/^--jumps=//p' "$case/args" | head -n 1)
        replay "${jumps:-2}" "$case/$model" "$case/stdin" "$case/stdout"
    done
done
echo "replay-runs: $runs runs, $([ "$failed" -eq 0 ] && echo "each one of its log that visits an unsafe location" || echo "some are none")"
exit "$failed"
