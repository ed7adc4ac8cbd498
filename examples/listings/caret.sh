#!/bin/sh
# Runs sgb, and shows the byte at which a bad expression goes wrong under its text.
#
#   examples/listings/caret.sh list "board(3, 3,0,0,1,0,0)"
#   sgb: bad expression at byte 8
#     board(3, 3,0,0,1,0,0)
#             ^ here
#
# The words are those of sgb, and so are output, status and lines; the text and the mark come on standard error too. SGB names
# the program, if it is not the one on the path. Of a long text what stands about the byte is shown; a byte that is no
# printable ASCII character is shown as `?`.
set -u
said=$(mktemp) || exit 3
trap 'rm -f "$said"' EXIT
"${SGB:-sgb}" "$@" 2> "$said"
status=$?
cat "$said" >&2
byte=$(sed -n 's/^sgb: bad expression at byte \([0-9]*\)$/\1/p' "$said")
[ -n "$byte" ] || exit "$status"

# the expression is the word after the command that is no option
shift
while [ $# -gt 0 ]; do
    case $1 in
        --after | --skip) shift 2 ;;
        --after=* | --skip=*) shift ;;
        *) break ;;
    esac
done
# newlines are turned into other bytes, so that the text is one line; the last is the one behind it
printf '%s\n' "${1-}" | LC_ALL=C tr '\n' '\001' | LC_ALL=C awk -v byte="$byte" '
    {
        text = substr($0, 1, length($0) - 1)
        gsub(/[^ -~]/, "?", text)
        from = byte > 60 ? byte - 39 : 1
        before = from > 1 ? "  .. " : "  "
        print before substr(text, from, 78) (length(text) >= from + 78 ? " .." : "")
        mark = before
        gsub(/./, " ", mark)
        for (k = from; k <= byte; k++) mark = mark " "
        print mark "^ " (byte < length(text) ? "here" : "more is wanted here")
    }' >&2
exit "$status"
