#!/bin/sh
# Runs sgb, and says below its line what a refusal means: of codes 30, 40 and 60 which part of the expression is refused, and why.
#
#   examples/listings/explain.sh list "lines(board(40000,40000,0,0,1,0,0),0)"
#   Something went wrong (panic code 40)!
#     board(40000,40000,0,0,1,0,0): 1600000000 vertices, 40000 * 40000; there may be 1000000000
#
# The words are those of sgb, and so are output, status and first line. A bad expression is shown with its byte, as by caret.sh.
# To find the part, the parts before it are made once more. SGB names the program, if it is not the one on the path.
set -u
here=$(dirname "$0")
said=$(mktemp) || exit 3
kept=$(mktemp) || exit 3
trap 'rm -f "$said" "$kept"' EXIT

# the expression is the first word after the command that is no option
command=${1-}
expression=
skipped=1
for word in "$@"; do
    case $skipped$word in
        1*) skipped= ;;
        --after | --skip) skipped=1 ;;
        --after=* | --skip=*) ;;
        *) expression=$word; break ;;
    esac
done

# standard input is kept where the expression reads it, since its parts are read again
case $expression in
    *stdin*) cat > "$kept"; "$here/caret.sh" "$@" < "$kept" 2> "$said" ;;
    *) "$here/caret.sh" "$@" 2> "$said" ;;
esac
status=$?
cat "$said" >&2
line=$(head -n 1 "$said")

# what a line is about
meaning() {
    case $line in
        "usage: "*) echo "the command is not there, words are missing or too many, or both options stand, or K is no number" ;;
        "sgb: expression too large") echo "a text has at most 65536 bytes, and parentheses at most 64 deep in one another" ;;
        "sgb: no such vertex") echo "no vertex has that name; the first ones are:"; "${SGB:-sgb}" names "$expression" < "$kept" 2> /dev/null | head -n 3 ;;
        "sgb: read fault") echo "standard input is closed, a folder, or fails" ;;
        "sgb: write fault") echo "standard output is closed, full, or nobody reads it any more" ;;
        *"(panic code 1)!") echo "out of memory: nothing was written" ;;
        *"(panic code 10)!") echo "standard input is no .gb file: its first line, '* GraphBase graph (util_types ..', is not there" ;;
        *"(panic code 11)!") echo "the last line, '* Checksum ..', is missing or wrong: '* Checksum -1' is not compared" ;;
        *"(panic code 20)!") echo "a record of the file is wrong or not finished, or a list of arcs does not end" ;;
        *"(panic code "[346]0")!") refused ;;
    esac
}

# The parts of the expression in the order in which they are made, each with its form and what stands in its parentheses.
parts() {
    printf '%s\n' "$expression" | awk '
        # prints the parts that begin at place i, and gives the place after them
        function part(i,    from) {
            from = i
            while (substr(text, i, 1) ~ /[a-z_]/) i++
            name = substr(text, from, i - from)
            return substr(text, i, 1) == "(" ? arguments(from, name, i + 1) : i
        }
        function arguments(from, name, i) {
            while (substr(text, i, 1) != ")")
                i = substr(text, i, 1) ~ /[a-z_]/ ? part(i) : i + 1
            print name "\t" substr(text, from, i - from + 1)
            return i + 1
        }
        { text = $0; part(1) }'
}

# the first part that is refused by itself
refused() {
    if [ "$command" = flip ]; then
        echo "$expression: SKIP and COUNT are from 0 to 1000000000, M from 0 to 2147483648"
        return
    fi
    parts | while IFS='	' read -r form text; do
        made=$("${SGB:-sgb}" names "$text" --skip 999999999999999999 < "$kept" 2>&1 > /dev/null)
        if [ "$made" = "$line" ]; then
            vertices=
            case $form in
                lines | induced | product)
                    operand=$(printf '%s' "$text" | sed "s/^$form(//" | awk '{ print operand($0) }
                        function operand(text,    i, depth, letter) {
                            for (i = 1; i <= length(text); i++) {
                                letter = substr(text, i, 1)
                                depth += (letter == "(" || letter == "[") - (letter == ")" || letter == "]")
                                if (!depth && letter == ",") return substr(text, 1, i - 1)
                            }
                        }')
                    vertices=$("${SGB:-sgb}" names "$operand" < "$kept" 2> /dev/null | wc -l) ;;
            esac
            printf '%s\n' "$text" | awk -v form="$form" -v code="${line##*code }" -v vertices="$vertices" -f "$here/explain.awk"
            return
        fi
    done
}

meaning | sed 's/^/  /' >&2
exit "$status"
