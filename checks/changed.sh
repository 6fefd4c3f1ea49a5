#!/bin/sh
# Prints a source of the crates that is newer than FILE, if there is one, or a file of FOLDER at the
# top:
#
#     changed.sh FILE [FOLDER]
set -eu
root=$(dirname "$(dirname "$(readlink -f "$0")")")
find "$root/crates" "$root/crates.txt" -name out -prune -o \
    \( -name '*.rt' -o -name '*.antt' -o -name crates.txt \) -newer "$1" -print -quit
[ $# -eq 1 ] || find "$root/$2" \( -name out -o -name __pycache__ \) -prune -o \
    -type f -newer "$1" -print -quit
