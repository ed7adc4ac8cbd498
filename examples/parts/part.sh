#!/bin/sh
# One part of the listing of a generator's graph: COUNT blocks after the first FROM vertices, with the head where FROM
# is 0:
#
#   examples/parts/part.sh "board(30,30,0,0,1,0,0)" 225 225 > part.2
#
# There has to be a vertex after them: blocks.awk looks for it, since it shows that the last block is whole, and closes
# the pipe then. That the program could not write on is no fault, and that line of its is left out; so is what
# blocks.awk says of a head that is not there where the program has said why. All else that either of them says is
# shown, and makes the status of this command. SGB names the program, if it is not the one on the path.
set -u
[ $# -eq 3 ] || { echo "usage: part.sh EXPR FROM COUNT" >&2; exit 2; }
for number in "$2" "$3"; do
    case $number in '' | *[!0-9]* | ???????????????????*) echo "part.sh: no number: $number" >&2; exit 2 ;; esac
done
expression=$1 from=$2 count=$3
blocks=$(dirname "$0")/blocks.awk

case $from in *[1-9]*) resumed=1 ;; *) resumed=0 ;; esac

# What the program says goes to place 3, and its status after it.
list() {
    if [ "$resumed" -eq 1 ]; then set -- --skip "$from"; else set --; fi
    "${SGB:-sgb}" list "$expression" "$@" 2>&3 3>&- 4>&-
    echo "status $?" >&3
}

# A pipe has the status of its last command alone: so both statuses are written down.
exec 4>&1
said=$(
    {
        list | awk -v resumed="$resumed" -v blocks="$count" -f "$blocks" 2>&3 >&4 3>&-
        echo "blocks $?" >&3
    } 3>&1
)
of_list=$(printf '%s\n' "$said" | sed -n 's/^status \([0-9]*\)$/\1/p')
of_blocks=$(printf '%s\n' "$said" | sed -n 's/^blocks \([0-9]*\)$/\1/p')
lines=$(printf '%s\n' "$said" | sed -e '/^status [0-9]*$/d' -e '/^blocks [0-9]*$/d')

if [ "$of_blocks" = 0 ] && [ "$of_list" = 3 ] && [ "$lines" = "sgb: write fault" ]; then
    of_list=0 lines=
fi
# where there is no head, nothing was resumed here: the program has said why, or what it wrote is no listing
others=$(printf '%s\n' "$lines" | sed '/^blocks\.awk: no head of a listing/d')
if [ "$others" != "$lines" ]; then
    case "$of_list $others" in
        "0 " | "3 sgb: write fault")
            of_list=0 lines="part.sh: no listing with its head, as sgb list EXPR begins, comes from the program" ;;
        *) lines=$others ;;
    esac
fi
[ -z "$lines" ] || printf '%s\n' "$lines" >&2
[ "$of_list" = 0 ] || exit "${of_list:-1}"
exit "${of_blocks:-1}"
