#!/bin/sh
# Copies what is here below a folder:  ./install.sh PREFIX, as ~/.local, or /usr/local by root
# ./install.sh --remove PREFIX takes these files away again.
set -eu
remove=
if [ "${1:-}" = --remove ]; then remove=1; shift; fi
[ $# -eq 1 ] && [ -n "$1" ] || { echo "usage: install.sh [--remove] PREFIX" >&2; exit 2; }
mkdir -p "$1"
prefix=$(cd "$1" && pwd)
cd "$(dirname "$0")"
find bin include lib share ! -type d | LC_ALL=C sort | while IFS= read -r file; do
    rm -f "$prefix/$file"
    [ -z "$remove" ] || continue
    mkdir -p "$prefix/$(dirname "$file")"
    cp -P "$file" "$prefix/$file"
done
# of the folders that are left empty, those that are this project's own
[ -z "$remove" ] || find "$prefix/share/sgb" "$prefix/share/doc/sgb" "$prefix/include/graphbase" -depth -type d -exec rmdir {} \;
