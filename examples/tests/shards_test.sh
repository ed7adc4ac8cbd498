#!/bin/sh
# Four parts of a listing, made at the same time on this machine, are the listing: examples/tests/shards_test.sh [PROGRAM]
set -eu
cd "$(dirname "$0")/../.."
SGB=${1:-./sgb}
export SGB
there=$(mktemp -d)
trap 'rm -rf "$there"' EXIT
for expression in "board(30,30,0,0,1,0,0)" "simplex(12,-3,0,0,0,0,1)" "petersen()" "board(1,0,0,0,1,1,0)"; do
    rm -f "$there"/part.*
    examples/parts/shards.sh "$expression" 4 "$there/part" | xargs -d '\n' -P 4 -I{} sh -c {}
    cat "$there"/part.1 "$there"/part.2 "$there"/part.3 "$there"/part.4 > "$there/all"
    "$SGB" list "$expression" | cmp - "$there/all"
done
