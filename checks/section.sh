#!/bin/sh
# Runs ./section over files of each kind, and compares its status, its words and the section it writes. What needs a
# tool that is missing is left out, and named.
set -eu
for tool in gcc objcopy readelf; do
    command -v "$tool" >/dev/null || { echo "section: left out, for there is no $tool"; exit 0; }
done
root=$(cd "$(dirname "$0")/.." && pwd)
folder=$(mktemp -d)
trap 'rm -r "$folder"' EXIT
cd "$folder"
source=$root/examples/sum.c

# compiled COMPILER WORDS..: a program that has a .debug_frame alone.
compiled() {
    compiler=$1
    shift
    "$compiler" -g -ffreestanding -nostdlib -static -fno-asynchronous-unwind-tables -fno-unwind-tables "$@"
}

program=${DWFRAME:-$root/dwframe}

# section STATUS WORDS BINARY OUT, where WORDS are those that are printed.
section() {
    status=0
    told=$("$root/section" "$3" "$4" 2>told) || status=$?
    if [ "$status" != "$1" ] || [ "$told" != "$2" ] || { [ "$1" != 0 ] && [ "$(wc -l <told)" != 1 ]; }; then
        echo "section '$3' '$4': status $status and '$told', not $1 and '$2': $(cat told)"
        exit 1
    fi
}

compiled gcc -o linked "$source"
objcopy -O binary --only-section=.debug_frame --set-section-flags .debug_frame=alloc linked wanted
section 0 "--size 8 --order little out" linked out
cmp out wanted
compiled gcc -Wl,--compress-debug-sections=zlib -o compressed "$source"
section 0 "--size 8 --order little out" compressed out
cmp out wanted
cp linked "a name with blanks"
section 0 "--size 8 --order little out" "a name with blanks" out
cmp out wanted
cp linked ./-x
section 0 "--size 8 --order little ./-y" -x -y
cmp ./-y wanted

echo kept >kept
section 1 "" linked "a name with blanks"
section 1 "" linked linked
section 1 "" nowhere kept
section 2 "" "$source" kept
compiled gcc -c -o object.o "$source"
section 3 "" object.o kept
ar rc archive.a object.o
section 2 "" archive.a kept
gcc -ffreestanding -nostdlib -static -o plain "$source"
section 4 "" plain kept
mkdir tools
ln -s "$(command -v sh)" "$(command -v readelf)" tools
status=0
told=$(PATH="$folder/tools" "$root/section" linked kept 2>&1) || status=$?
[ "$status $told" = "5 section: objcopy is not on the path; it comes with GNU binutils" ]
[ "$(cat kept)" = kept ]

"$root/section" --help | grep -q '^usage: section '

# ---- functions that the linker threw away

# bytes HEX: what these digits say, blanks apart.
bytes() {
    env printf "$(printf '%s' "$1" | tr -d ' []\n' | sed 's/../\\x&/g')"
}

# drops HEX [PLACES]: a section in which the digits in brackets, and nothing else, become zeros, with a line for each FDE.
drops() {
    bytes "$1" >given
    bytes "$(printf '%s' "$1" | sed ':zero; s/\(\[[0 ]*\)[1-9a-f]/\10/; t zero')" >wanted
    objcopy --update-section .debug_frame=given linked dead
    "$root/section" --drop-dead dead out >words 2>told || :
    sed -n 's/^section: dropped the FDE at \([^,]*\), which begins at .*/\1/p' told | tr '\n' ' ' >places
    if [ "$(cat words)" != "--size 8 --order little out" ] || ! cmp out wanted || [ "$(cat places)" != "${2:+$2 }" ]; then
        echo "section drops $(cat places), and not $2, of $1: $(cat told)"
        exit 1
    fi
}

# refused HEX WORDS: a section that is left as it is, and said why.
left() {
    drops "$1"
    [ "$(cat told)" = "section: nothing is dropped, for the entry at $2" ] || { echo "section says of $1: $(cat told)" && exit 1; }
}

# What `linked` has at 0x401000 is code.
begin=0010400000000000
cie="14000000 ffffffff 01 00 01 78 10 0c0708 9001 00000000 0000"
drops "$cie 14000000 00000000 $begin 0100000000000000" ""
drops "$cie 14000000 00000000 0000000000000000 [0100000000000000]" 0x18
drops "$cie 14000000 00000000 0000000000000000 0000000000000000" ""
drops "$cie 14000000 00000000 $begin 0000000000000000 14000000 00000000 $begin 0100000000000000 14000000 00000000 $begin [0200000000000000]" 0x48
drops "$cie 14000000 00000000 0c00000000000000 [0110000000000000]" 0x18
drops "14000000 18000000 0000000000000000 [0100000000000001] $cie 00000000" 0x0
# The 64-bit form, version 3, and behind it one of version 4 with selectors of two bytes, two of which differ.
drops "ffffffff 1400000000000000 ffffffffffffffff 03 00 01 78 10 0c0708 9001 0000
    ffffffff 1800000000000000 0000000000000000 0000000000000000 [ff00000000000000]" 0x20
drops "14000000 ffffffff 04 6100 08 02 01 78 10 0c0708 9001 000000 16000000 00000000 0000 $begin 0300000000000000
    16000000 00000000 0100 $begin 0300000000000000 16000000 00000000 0100 $begin [0300000000000000]" 0x4c
dead="14000000 00000000 0000000000000000 0100000000000000"
left "$cie $dead 15000000 00000000 0000000000000000 0100000000000000" "0x30 is longer than the rest of the section"
left "$cie $dead 140000" "0x30 ends before its length does"
left "$cie $dead ffffffff 14000000" "0x30 ends before its length does"
left "$cie $dead f0ffffff 00000000" "0x30 has a reserved length"
left "$cie $dead 02000000 0000" "0x30 ends before its CIE pointer does"
left "$cie $dead 13000000 00000000 $begin 01000000000000" "0x30 ends before its range does"
left "$cie $dead 14000000 18000000 $begin 0100000000000000" "0x30 has no CIE of version 1, 3 or 4"
left "14000000 ffffffff 02 00 01 78 10 0c0708 9001 00000000 0000 $dead" "0x18 has no CIE of version 1, 3 or 4"

# Two units that share functions, with some that nobody calls, and one that nobody needs.
cat >shared.h <<'SOURCE'
template <class T> __attribute__((noinline)) T twice(T n) { volatile T kept = n; return kept + n; }
__attribute__((noinline)) inline int shared(int n) { volatile int kept = n; return kept * twice(n); }
SOURCE
cat >one.cc <<'SOURCE'
#include "shared.h"
int other(int n);
int unused(int n) { volatile int kept = n; return kept + 1; }
int unused_too(int n) { volatile int kept = n; return kept + unused(n); }
extern "C" void _start() { volatile int n = shared(1) + other(2); for (;;) n = n; }
SOURCE
cat >two.cc <<'SOURCE'
#include "shared.h"
int never(int n) { volatile int kept = n; return kept + shared(3); }
int other(int n) { return shared(n) + twice(n); }
SOURCE
sed 's/unused/alone/g' one.cc | sed -n '/alone/p' >three.cc

# tables COMPILER WORDS..: without its dead functions the program's table is accepted, and has the functions that it has, each once.
# shellcheck disable=SC2046 # the printed words are taken apart
tables() {
    "$@" -g -O1 -ffreestanding -fno-exceptions -nostdlib -static -o linked-cxx one.cc two.cc three.cc
    readelf -sW linked-cxx | awk '$4 == "FUNC" { print $2, $3 }' | sort -u |
        while read -r at size; do printf '0x%x 0x%x\n' $((0x$at)) $((0x$at + size)); done >wanted
    if "$program" check $("$root/section" linked-cxx out) >/dev/null 2>&1; then echo "section: $*: no function is dead" && exit 1; fi
    "$program" rows $("$root/section" --drop-dead linked-cxx out 2>told) | sed -n 's/^fde \(.*\) ra=.*/\1/p' >found
    cmp found wanted || { echo "section: $*: $(cat told)" && exit 1; }
    echo "section: $*: $(wc -l <found) functions, and $(wc -l <told) that are dropped"
}

for linker in bfd gold lld; do
    for flags in "" "-Wl,--gc-sections" "-ffunction-sections -Wl,--gc-sections"; do
        for compiler in "g++ -fno-dwarf2-cfi-asm" "clang++ -fforce-dwarf-frame"; do
            if ! command -v "${compiler%% *}" >/dev/null || ! command -v ld.$linker >/dev/null; then
                echo "section, dead functions by $compiler and $linker: left out, for one of them is not there"
            else
                # shellcheck disable=SC2086 # words
                tables $compiler -fuse-ld=$linker $flags
            fi
        done
    done
done

if command -v clang >/dev/null && command -v ld.lld >/dev/null; then
    compiled clang --target=powerpc-linux-gnu -fuse-ld=lld -o big "$source"
    section 0 "--size 4 --order big out" big out
    [ -s out ]
    tables clang++ -fforce-dwarf-frame --target=powerpc-linux-gnu -fuse-ld=lld -Wl,--gc-sections
else
    echo "section of a big-endian file: left out, for there is no clang or no lld"
fi
echo "section: as wanted"
