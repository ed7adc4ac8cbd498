#!/bin/sh
# Prints the listing of a generator's graph, its parts made on several hosts by GNU parallel:
#
#   examples/parts/hosts.sh "board(3000,3000,0,0,1,0,0)" 40 anna,berta,: > listing
#
# HOSTS are names with commas between them, : being this machine; ssh has to reach them without a password. Each needs
# sgb on its path, and the folder in which this is called, with examples/ in it, under the same name. Nothing is
# printed unless all parts were whole: the listing is kept in TMPDIR, or /tmp, until then, and has to have room there twice.
set -eu
[ $# -eq 3 ] || { echo "usage: hosts.sh EXPR PARTS HOSTS" >&2; exit 2; }
commands=$("$(dirname "$0")/shards.sh" "$1" "$2")
there=$(mktemp -d)
trap 'rm -rf "$there"' EXIT
trap 'exit 1' HUP INT TERM
printf '%s\n' "$commands" |
    parallel --will-cite --keep-order --halt now,fail=1 --sshlogin "$3" --workdir "$PWD" > "$there/listing"
cat "$there/listing"
