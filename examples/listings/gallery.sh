#!/bin/sh
# Makes the pictures of docs/GALLERY.md by the commands of that page, and compares them with those in docs/gallery/.
#
#   examples/listings/gallery.sh [-u] [PROGRAM]     -u keeps what is made in docs/gallery/
#
# PROGRAM is ./sgb if none is named. The status is 1, with a line for each, where a picture differs, or is not there, or is
# made by no command.
set -eu
top=$(cd "$(dirname "$0")/../.." && pwd)
keep=
if [ "${1:-}" = -u ]; then keep=1; shift; fi
program=$(realpath "${1:-$top/sgb}")
[ -x "$program" ] || { echo "gallery.sh: no such program: $program" >&2; exit 2; }
there=$(mktemp -d)
trap 'rm -rf "$there"' EXIT
ln -s "$program" "$there/sgb"
ln -s "$top/examples" "$there/examples"
sed -n 's/^    \$ //p' "$top/docs/GALLERY.md" > "$there/commands"

status=0
count=0
while IFS= read -r command; do
    name=${command##*> }
    case $name in
        *[!a-z.]* | *.svg.* | .svg) echo "gallery.sh: a command that makes no picture: $command" >&2; exit 1 ;;
        *.svg) ;;
        *) echo "gallery.sh: a command that makes no picture: $command" >&2; exit 1 ;;
    esac
    if ! (cd "$there" && PATH="$there:$PATH" sh -c "$command") < /dev/null || [ ! -s "$there/$name" ]; then
        echo "gallery.sh: no picture came of: $command" >&2
        exit 1
    fi
    count=$((count + 1))
    if [ -n "$keep" ]; then cp "$there/$name" "$top/docs/gallery/$name"
    elif ! cmp "$there/$name" "$top/docs/gallery/$name" >&2; then status=1
    fi
    grep -q "(gallery/$name)" "$top/docs/GALLERY.md" || { echo "gallery.sh: the page does not show $name" >&2; status=1; }
done < "$there/commands"
for picture in "$top"/docs/gallery/*.svg; do
    [ -e "$there/${picture##*/}" ] || { echo "gallery.sh: no command makes ${picture##*/}" >&2; status=1; }
done
[ "$count" -ge 8 ] || { echo "gallery.sh: only $count pictures" >&2; status=1; }
echo "$count pictures"
exit "$status"
