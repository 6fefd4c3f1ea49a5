#!/bin/sh
# Whether FILE is a program or library that a proof made, byte for byte, and no source of the crates
# has changed since. FILE.proved has its checksum, so that no other program can take its place.
#
#     proved.sh FILE
#     proved.sh --record BEGAN FILE..     notes that a proof made these, which began with BEGAN
set -eu
checks=$(dirname "$(readlink -f "$0")")

if [ "$1" = --record ]; then
    began=$2
    shift 2
    for file in "$@"; do
        touch -c -r "$began" "$file"
        (cd "$(dirname "$file")" && sha256sum "${file##*/}" >"${file##*/}.proved")
    done
    exit
fi
[ -f "$1" ] && [ -f "$1.proved" ] || exit
(cd "$(dirname "$1")" && sha256sum --check --status "${1##*/}.proved")
[ -z "$(sh "$checks/changed.sh" "$1")" ]
