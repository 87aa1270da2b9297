#!/bin/sh
# Proves and builds the program of a crate where that is owed, and runs it once; it tells something only where that fails.
set -eu
here=$(CDPATH='' cd -- "$(dirname -- "$0")/.." && pwd)
if ! told=$(cd "$here/crates/$1" && rt run 2>&1); then
    printf '%s\n' "$told" >&2
    exit 1
fi
