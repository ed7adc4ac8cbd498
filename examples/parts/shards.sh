#!/bin/sh
# Writes commands, one a line, whose outputs, one after another, are the listing of a generator's graph: each begins at its
# own vertex, with none before it, so they can run anywhere, in any order, at the same time.
#
#   examples/parts/shards.sh "board(3000,3000,0,0,1,0,0)" 4             the commands
#   examples/parts/shards.sh "board(3000,3000,0,0,1,0,0)" 4 part        each writes a file: part.1, part.2, ..
#
#   examples/parts/shards.sh EXPR 4 part | xargs -d '\n' -P 4 -I{} sh -c {} && cat part.1 part.2 part.3 part.4
#   examples/parts/shards.sh EXPR 4 | parallel -k
#   sh -c "$(examples/parts/shards.sh EXPR 4 part | sed -n "${SLURM_ARRAY_TASK_ID}p")"
#
#   examples/parts/shards.sh --retry EXPR 4 part      those of the parts that are not there yet
#
# With --retry a part gets its name when it is whole, so that one with its name is there and is not made again: its command
# is `:`. What was made without --retry, and may be cut off, is to be removed before.
#
# A command fails where its part is not whole (part.sh). SGB names the program, if it is not the one on the path. EXPR is a
# board, a simplex, subsets or one of their short names: any other graph would be made anew by each command.
set -eu
LC_ALL=C
export LC_ALL
refuse() { echo "shards.sh: $*" >&2; exit 2; }
retry=
if [ "${1:-}" = --retry ]; then retry=1; shift; fi
[ $# -eq 3 ] || { [ $# -eq 2 ] && [ -z "$retry" ]; } || { echo "usage: shards.sh [--retry] EXPR PARTS [FILES]" >&2; exit 2; }
expression=$1 parts=$2 files=${3:-}
sgb=${SGB:-sgb}
here=$(dirname "$0")

# an expression as it stands here needs no more than double quotes
case $expression in
    *[!a-zA-F0-9_,\(\)-]*) refuse "no expression of a generator: $expression" ;;
    board\(* | simplex\(* | subsets\(* | complete\(* | transitive\(* | empty\(* | circuit\(* | cycle\(*) ;;
    disjoint_subsets\(* | petersen\(*) ;;
    *) refuse "no expression of a generator: $expression" ;;
esac
case $parts in *[!0-9]*) refuse "PARTS is a number from 1 on: $parts" ;; esac
while :; do case $parts in 0*) parts=${parts#0} ;; *) break ;; esac; done
case $parts in '' | ??????????*) refuse "PARTS is a number from 1 to 999999999: $2" ;; esac
case $files$here$sgb in *"
"*) refuse "a line cannot name a file with a line's end in its name" ;; esac

# a word as the shell reads it
quoted() {
    case $1 in
        *[!a-zA-Z0-9_./,:=@%+-]*) printf "'%s'" "$(printf '%s' "$1" | sed "s/'/'\\\\''/g")" ;;
        *) printf '%s' "$1" ;;
    esac
}

# Whether there is a vertex after the first $1. The names go to a full device, so that the program ends at the first of
# them with a write fault, and with no fault where there is none. This makes no head, which may take long.
has_more() {
    status=0
    said=$("$sgb" names "$expression" --skip "$1" 2>&1 > /dev/full) || status=$?
    [ "$status" -ne 0 ] || return 1
    [ "$status" -eq 3 ] && [ "$said" = "sgb: write fault" ] || { printf '%s\n' "$said" >&2; exit "$status"; }
}

# How many vertices there are: n at least, and at most as many as have to be skipped until there are no more.
n=0 most=1 limit=1000000000
while [ "$most" -lt "$limit" ] && has_more "$most"; do n=$((most + 1)) most=$((4 * most)); done
[ "$most" -le "$limit" ] || most=$limit
while [ "$n" -lt "$most" ]; do
    middle=$(((n + most) / 2))
    if has_more "$middle"; then n=$((middle + 1)); else most=$middle; fi
done

# the program that the commands name, and the one that runs it with blocks.awk
named=$(quoted "$sgb")
if [ "$sgb" = sgb ]; then part=; else part="SGB=$named "; fi
part=$part$(quoted "$here/part.sh")
given=$files
files=$(quoted "$files")

# Part k has the blocks from this one, counted from 0, up to that one. Some have none where there are more parts than
# blocks; the last that has any, or the only one, ends with the listing.
k=0 this=0
while [ "$k" -lt "$parts" ]; do
    k=$((k + 1))
    that=$(((n * k + parts - 1) / parts))
    if [ "$k" -eq 1 ]; then skip=; else skip=" --skip $this"; fi
    if [ "$k" -gt 1 ] && [ "$this" -eq "$that" ]; then
        command=:
    elif [ "$that" -eq "$n" ]; then
        command="$named list \"$expression\"$skip"
    else
        command="$part \"$expression\" $this $((that - this))"
    fi
    if [ -z "$retry" ]; then
        echo "$command${files:+ > $files.$k}"
    elif [ -e "$given.$k" ]; then
        echo :
    else
        echo "$command > $files.$k.begun && mv $files.$k.begun $files.$k"
    fi
    this=$that
done
