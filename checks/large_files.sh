#!/usr/bin/env bash
# Runs a built dwframe on files that are too long or do not end: a section is refused as too large, and a dump cannot be
# read, in no more memory than 2,147,483,648 bytes and a little take. A rise to twice that would be past this limit.
# A pipe, which is said to have no bytes, is read to its end.
#
#     large_files.sh PROGRAM
set -u
program=$1
folder=$(mktemp -d)
trap 'rm -r "$folder"' EXIT
truncate -s 100G "$folder/section"
wrong=0

# Compares the status and the line of a run: STATUS LINE WORDS..
run() {
    status=$1
    line=$2
    shift 2
    told=$( (ulimit -v 3000000 && "$program" "$@" 2>&1) )
    if [ $? -eq "$status" ] && [ "$told" = "$line" ]; then
        echo "$*: $line"
    else
        echo "$*: $told"
        wrong=1
    fi
}

for file in "$folder/section" /dev/zero; do
    run 2 "refused: SectionTooLarge at 0x0" check --size 8 --order little "$file"
    run 4 "cannot read $file" eval --size 8 --order little 31 "$file"
done
run 0 "ok cies=0 fdes=0 bytes=100000" check --size 8 --order little <(head -c 100000 /dev/zero)
exit "$wrong"
