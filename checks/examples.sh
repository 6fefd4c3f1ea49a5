#!/bin/sh
# Runs dwframe on the examples, and compares what it prints with the files beside them. DWFRAME may
# name the program.
set -eu
cd "$(dirname "$0")/../examples"
program=${DWFRAME:-../dwframe}
for wanted in *.entries *.check *.rows; do
    name=${wanted%.*}
    subcommand=${wanted##*.}
    read -r size order <"$name.target"
    "$program" "$subcommand" --size "$size" --order "$order" "$name.bin" | cmp - "$wanted"
    echo "$subcommand $name.bin: as wanted"
done
for wanted in *.unwind; do
    name=${wanted%.*}
    read -r size order <"$name.target"
    "$program" unwind --size "$size" --order "$order" --default same "$name.bin" "$name.dump" |
        cmp - "$wanted"
    echo "unwind $name.bin: as wanted"
done
