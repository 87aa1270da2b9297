#!/bin/sh
# Makes one allocation after the other fail in the program's stored run, and says what came of it. It is no part of the gate.
#
#     tools/fail-allocations.sh [FIRST [LAST]]
#
# In each round one allocation fails: the first, then the second, and so on from FIRST to LAST (1 to 60 if left out). The run must
# end with status 6 and have written a beginning of the stored output. The first round in which nothing failed ends it: the status
# and the output are then the stored ones. Each round builds the program anew, and proves nothing.
set -u
here=$(CDPATH='' cd -- "$(dirname -- "$0")/.." && pwd) || exit 2
first=${1:-1}
last=${2:-60}

told=$(mktemp) || exit 2
trap 'rm -f "$told" "$told.out"' EXIT
trap 'exit 130' HUP INT TERM
cd "$here/crates/hamon" || exit 2

# Whether the first file's bytes begin the second's.
begins() {
    size=$(wc -c <"$1")
    head -c "$size" "$2" | cmp -s - "$1"
}

wanted=$(cat status 2>/dev/null || echo 0)
number=$first
while [ "$number" -le "$last" ]; do
    rt try --fail-alloc "$number" -- check data/level.lha <stdin >"$told" 2>&1
    status=$?
    # What the program wrote stands before the lines of the kit's own.
    grep -v -e '^allocations: ' -e '^checked: ' -e '^interpreter: ' -e '^run=' -e '^hamon: ' "$told" >"$told.out"
    size=$(wc -c <"$told.out")
    if [ "$status" -eq "$wanted" ] && cmp -s "$told.out" stdout; then
        echo "allocation $number: none failed; the whole output was written"
        exit 0
    elif [ "$status" -eq 6 ] && begins "$told.out" stdout; then
        echo "allocation $number: status 6 after $size bytes of the output"
    else
        echo "allocation $number: status $status, to be read:"
        cat "$told"
        exit 1
    fi
    number=$((number + 1))
done
