#!/bin/sh
# Runs the program over the examples, and compares what it writes with what stands beside each log.
#
#     tools/run-examples.sh [write]
#
# Each folder of examples/ has one model, NAME.lha. Each log beside it, LOG.csv, is checked, or watched where it begins with a row
# that opens a session; LOG.out is the report, kept on a line of its own by `write`. A log without one is not run.
set -u
here=$(CDPATH='' cd -- "$(dirname -- "$0")/.." && pwd) || exit 2
cd "$here" || exit 2
hamon=crates/hamon/out/hamon
[ -x "$hamon" ] || { echo "run-examples: the program is not built: run .ci/run" >&2; exit 2; }
told=$(mktemp) || exit 2
trap 'rm -f "$told"' EXIT
failed=0
runs=0
for log in examples/*/*.csv; do
    out=${log%.csv}.out
    [ "${1:-}" = write ] || [ -f "$out" ] || continue
    model=$(echo "$(dirname "$log")"/*.lha)
    command=check
    case $(head -n 1 "$log") in open,*) command=watch ;; esac
    "$hamon" "$command" "$model" <"$log" >"$told"
    status=$?
    if [ "$status" -gt 1 ]; then
        echo "run-examples: $log ended with status $status"
        failed=1
    elif [ "${1:-}" = write ]; then
        cp "$told" "$out"
    elif ! cmp -s "$told" "$out"; then
        echo "run-examples: the report of $log is another one"
        failed=1
    fi
    runs=$((runs + 1))
done
echo "run-examples: $runs examples, $([ "$failed" -eq 0 ] && echo "all as they stand" || echo "some differ")"
exit "$failed"
