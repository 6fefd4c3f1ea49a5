#!/bin/sh
# Normalises each section of the examples, and shows that its normal form is accepted, has the same rows to the byte, is `same`
# as its source, starts no more rows, and does not change when it is normalised again. Other folders with sections may be named.
set -eu
root=$(cd "$(dirname "$0")/.." && pwd)
program=${DWFRAME:-$root/dwframe}
folder=$(mktemp -d)
trap 'rm -r "$folder"' EXIT
[ $# -gt 0 ] || set -- "$root/examples"
find "$@" -name '*.target' | sort >"$folder/targets"
while IFS= read -r target; do
    source=${target%.target}.bin
    read -r size order <"$target"
    run() { subcommand=$1 && shift && "$program" "$subcommand" --size "$size" --order "$order" "$@"; }
    run normal "$source" >"$folder/normal"
    run check "$folder/normal" >"$folder/counts"
    run rows "$source" >"$folder/rows"
    run rows "$folder/normal" | cmp - "$folder/rows"
    run normal "$folder/normal" | cmp - "$folder/normal"
    [ "$(run same "$source" "$folder/normal")" = same ]
    run cost "$source" >"$folder/cost"
    [ "$(sed -n 's/^bytes [0-9]* //p' "$folder/cost")" = "$(wc -c <"$folder/normal" | tr -d ' ')" ]
    echo "$(basename "$source"): $(tr '\n' ' ' <"$folder/cost")$(cat "$folder/counts")"
done <"$folder/targets"
