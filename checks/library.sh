#!/bin/bash
# Builds the library for C and its examples, and compares what they print with the command, on the sections of the examples, on made
# ones, and on those of the folders that are named:
#
#     library.sh [FOLDER]..
#
# A section of a folder is NAME.bin with NAME.target beside it, or a line `NAME SIZE ORDER ..` of its sections.tsv. Then each request
# for memory is counted and refused once, and damaged sections, indexes and windows are given. DWFRAME may name the program, and LIBRARY
# a libdwframe.a that is built.
#
# The address sanitizer sees what the C beside the library does, and what is not given back. It does not see the loads and stores of
# libdwframe.a, which is not built with it: those see valgrind, and the pages that cannot be reached around what damage.c lends. What needs
# a tool that is missing is left out, and named.
set -euo pipefail
root=$(cd "$(dirname "$0")/.." && pwd)
program=$(realpath "${DWFRAME:-$root/dwframe}")
export DWFRAME=$program
python3 "$root/checks/header.py"
command -v gcc >/dev/null || { echo "library: all but the header is left out, for there is no gcc"; exit 0; }
[ -n "${LIBRARY:-}" ] || "$root/library"
library=$(realpath "${LIBRARY:-$root/libdwframe.a}")
folders=("$root/examples")
for folder in "$@"; do folders+=("$(realpath "$folder")"); done
folder=$(mktemp -d)
trap 'rm -r "$folder"' EXIT
cd "$folder"
flags=(-std=c11 -Wall -Wextra -Werror -pedantic -O2 -g "-I$root/include")
sanitize=("-fsanitize=address,undefined" -fno-sanitize-recover=all)

# has TOOL..: whether all are there; else what is left out is told, in the variable `without`.
has() {
    for tool in "$@"; do
        command -v "$tool" >/dev/null || { without="left out, for there is no $tool" && return 1; }
    done
}

# side_by_side: runs the lines of standard input as commands, as many at once as there are processors.
side_by_side() {
    # shellcheck disable=SC2016 # the line is the other shell's
    xargs -d '\n' -P "$(nproc)" -I{} bash -c 'eval "$1" || { echo "library: $1: status $?" >&2; exit 255; }' bash {}
}

# ---- the examples, each as EXAMPLE-BUILD

names=()
# built NAME COMMAND..: compiles the examples.
built() {
    name=$1
    shift
    for example in library frames lookup; do "$@" "${flags[@]}" -o "$example-$name" "$root/examples/$example.c" "$library"; done
    names+=("$name")
}

built gcc gcc
built sanitized gcc "${sanitize[@]}"
if has clang; then built clang clang; else echo "library by clang: $without"; fi
for compiler in g++ clang++; do
    if has $compiler; then
        $compiler -std=c++11 -Wall -Wextra -Werror -pedantic -I"$root/include" -o "header-$compiler" "$root/checks/header.cpp" "$library"
    else
        echo "library, the header by $compiler: $without"
    fi
done

# ---- what they print

# told OUT COMMAND..: what a command prints, with its status; standard error up to its first line, behind the program's name.
told() {
    out=$1
    shift
    status=0
    "$@" >"$out" 2>"$out.err" || status=$?
    sed -n '1s/^dwframe: //p;1s/^\(refused: .*\|fault: .*\)$/\1/p' "$out.err" | sort -u >>"$out"
    echo "status $status" >>"$out"
}

compared=0
# is_as_wanted COMMAND..: a program prints what the command did.
is_as_wanted() {
    told found "$@"
    cmp wanted found || { echo "library: $* is not as the command"; exit 1; }
    compared=$((compared + 1))
}

# as_command EXAMPLE WORDS.. -- WORDS..: the words of the command, and those of each build of the example.
as_command() {
    example=$1
    shift
    command=()
    while [ "$1" != -- ]; do command+=("$1") && shift; done
    shift
    told wanted "$program" "${command[@]}"
    for name in "${names[@]}"; do is_as_wanted "./$example-$name" "$@"; done
}

# Sections of each size and order, with expressions among their rules.
mkdir made small
for size in 4 8; do
    for order in little big; do
        python3 "$root/bench/synth.py" "made/$size-$order.bin" 200 --size "$size" --order "$order" >/dev/null
        python3 "$root/bench/synth.py" "small/$size-$order.bin" 20 --size "$size" --order "$order" >/dev/null
        echo "$size $order" | tee "made/$size-$order.target" >"small/$size-$order.target"
    done
done

# sections FOLDER..: a line of each section: its size, its order and its path, which may have blanks.
sections() {
    for of in "$@"; do
        found=$({
            find -L "$of" -name '*.target' | while IFS= read -r target; do echo "$(cat "$target") ${target%.target}.bin"; done
            find -L "$of" -name sections.tsv | while IFS= read -r list; do awk -v at="$(dirname "$list")" 'NR > 1 { print $2, $3, at "/" $1 ".bin" }' "$list"; done
        } | sort -u)
        [ -n "$found" ] || { echo "library: there is no section in $of" >&2 && exit 1; }
        echo "$found"
    done
}

sections "${folders[@]}" "$folder/made" >all
mapfile -t stopped_examples < <(grep -l '^pc ' "$root"/examples/*.dump)
declare -A frames
looked=0
while read -r size order section; do
    on=(--size "$size" --order "$order")
    head -c $(($(wc -c <"$section") * 2 / 3)) "$section" >shorter
    for file in "$section" shorter /dev/null; do
        as_command library check "${on[@]}" "$file" -- check "$size" "$order" "$file"
        as_command library normal "${on[@]}" "$file" -- normal "$size" "$order" "$file"
        as_command library same "${on[@]}" "$section" "$file" -- same "$size" "$order" "$section" "$file"
        as_command library same "${on[@]}" "$file" "$section" -- same "$size" "$order" "$file" "$section"
        told wanted "$program" check "${on[@]}" "$file"
        for header in header-*; do [ ! -x "$header" ] || is_as_wanted "./$header" "$size" "$order" "$file"; done
    done

    # The rows of each address. A section that the command refuses is refused.
    if "$program" rows "${on[@]}" "$section" >rows.txt 2>rows.err; then
        for name in "${names[@]}"; do "$root/checks/rows.py" "./lookup-$name" "$size" "$order" "$section" rows.txt; done
        looked=$((looked + 1))
    else
        as_command lookup rows "${on[@]}" "$section" -- "$size" "$order" "$section"
    fi

    # Machines that stopped in it, and the dumps of the examples.
    rm -rf stops && mkdir stops
    "$root/checks/stops.py" "$size" "$order" rows.txt stops 8
    for dump in stops/*.dump "${stopped_examples[@]}"; do
        [ -f "$dump" ] || continue
        as_command frames unwind "${on[@]}" --default same "$section" "$dump" -- "$size" "$order" "$section" "$dump"
        ! grep -q '^cfa ' wanted || frames[$size,$order]=$((${frames[$size,$order]:-0} + 1))
    done
done <all
for size in 4 8; do
    for order in little big; do
        [ "${frames[$size,$order]:-0}" -gt 0 ] || { echo "library: no frame of size $size, $order"; exit 1; }
        echo "library: size $size, $order: $(grep -c "^$size $order " all) sections, ${frames[$size,$order]} frames"
    done
done
echo "library: the rows of $looked sections by one call for each FDE, by ${names[*]}"
echo "library: $compared answers as the command's"

# A real program that stopped: the walk of its stack is that of examples/backtrace.py. chain.c knows two processors.
case $(uname -m) in
x86_64) stack_pointer=7 ;;
aarch64) stack_pointer=31 ;;
*) stack_pointer='' ;;
esac
stopped=()
if [ -z "$stack_pointer" ]; then
    echo "library, the stack of a stopped program: left out on this processor"
elif has objcopy readelf; then
    gcc -g -O2 -no-pie -fno-asynchronous-unwind-tables -fno-unwind-tables -o chain "$root/examples/chain.c"
    read -r _ size _ order _ <<<"$("$root/section" chain chain.bin)"
    ./chain >chain.dump
    "$root/examples/backtrace.py" --size "$size" --order "$order" --stack-pointer $stack_pointer chain.bin chain.dump >wanted
    stopped=("$size" "$order" chain.bin chain.dump "$stack_pointer")
    for name in "${names[@]}"; do "./frames-$name" "${stopped[@]}" | cmp - wanted; done
    echo "library: $(wc -l <wanted) frames of a stopped program by ${names[*]}"
else
    echo "library, the stack of a stopped program: $without"
fi

# goes_round COMMAND..: the walk of a frame that is its own caller ends, and says why.
goes_round() {
    ! "$@" >found 2>found.err || { echo "library: $* does not fail"; exit 1; }
    grep -q 'does not stand above the one before' found.err || { cat found.err; exit 1; }
    printf '#0 0x401004\n#1 0x401005\n' | cmp - found
}
printf 'pc 0x401004\nr6 0x7ffe00\nmem 0x7ffe00 00fe7f00000000000510400000000000\n' >ring.dump
goes_round "$root/examples/backtrace.py" "$root/examples/plain.bin" ring.dump
for name in "${names[@]}"; do goes_round "./frames-$name" 8 little "$root/examples/plain.bin" ring.dump 7; done

# ---- requests for memory, each refused once: out of memory, and nothing is lost

requests=0
# each_refused COMMAND..: with each request refused in turn the status is 4 (a file) or 5, and what is printed is a beginning of the
# ordinary answer, until none is left to refuse.
each_refused() {
    REFUSE=0 COUNT=$folder/count "$@" >ordinary
    for ((refused = 1; ; refused++)); do
        status=0
        REFUSE=$refused COUNT=$folder/count "$@" >found 2>found.err || status=$?
        [ "$(cat count)" -ge "$refused" ] || break
        cmp -s found <(head -c "$(wc -c <found)" ordinary) || { echo "library: $* with request $refused refused printed another answer" && exit 1; }
        case $status in
        4 | 5) ;;
        0) cmp found ordinary ;;
        *) echo "library: $* with request $refused refused: status $status: $(cat found.err)" && exit 1 ;;
        esac
        requests=$((requests + 1))
    done
    if [ "$status" != 0 ] || ! cmp found ordinary; then echo "library: $*: status $status" && exit 1; fi
}

names=()
built refused gcc "${sanitize[@]}" -Wl,--wrap=malloc,--wrap=realloc "$root/checks/refuse_linked.c"
for build in "${names[@]}"; do
    for name in plain rules many big-endian; do
        read -r size order <"$root/examples/$name.target"
        section=$root/examples/$name.bin
        address=$(sed -n 's/^ \(0x[0-9a-f]*\) .*/\1/p' "$root/examples/$name.rows" | head -1)
        for call in check normal; do each_refused "./library-$build" $call "$size" "$order" "$section"; done
        each_refused "./library-$build" same "$size" "$order" "$section" "$section"
        each_refused "./lookup-$build" "$size" "$order" "$section" "$address"
    done
    for name in plain rules; do
        each_refused "./lookup-$build" 8 little "$root/examples/$name.bin"
        each_refused "./frames-$build" 8 little "$root/examples/$name.bin" "$root/examples/$name.dump"
    done
done
echo "library: $requests requests for memory refused, each once, by ${names[*]}"

# Call by call, and what each leaves.
wrapped=("-Wl,--wrap=malloc,--wrap=realloc,--wrap=free" "$root/checks/refused.c" "$library")
gcc "${flags[@]}" "${sanitize[@]}" -o refused-sanitized "${wrapped[@]}"
gcc "${flags[@]}" -o refused "${wrapped[@]}"
sections "$root/examples" "$folder/small" >few
while read -r size order section; do ./refused-sanitized "$size" "$order" "$section"; done <few >requests
echo "library: $(awk '{ calls += $1; requests += $3 } END { print calls " calls, " requests " requests for memory refused, each once" }' requests)"

# ---- requests for memory that are made: none by a look-up or a frame in a plain FDE, also behind up to four rows that are remembered one
# above the other, with 6 to 64 registers changed behind each

gcc "${flags[@]}" -o requests -Wl,--wrap=malloc,--wrap=realloc "$root/checks/requests.c" "$library"
mkdir remembered
"$root/checks/remembered.py" remembered
sections "$folder/remembered" >nested
cat all nested >plain
while read -r size order section; do
    status=0
    counts=$(./requests "$size" "$order" "$section") || status=$?
    # A refused section has no index.
    [ "$status" = 0 ] || [ "$status" = 2 ] || { echo "library: requests $section: status $status" >&2 && exit 1; }
    echo "${counts:-0 0 0 0} $section"
done <plain >counted
awk '
    { look_ups += $1; frames += $3 }
    $2 || $4 { print "library: with requests for memory: " $2 " of " $1 " look-ups, " $4 " of " $3 " frames: " $5; wrong = 1 }
    # Each address of these has a row, and three quarters have a frame: 64 registers and that of the return address are too many.
    $5 ~ /remembered-/ && (!$1 || 4 * $3 < 3 * $1) { print "library: " $1 " look-ups, " $3 " frames: " $5; wrong = 1 }
    END {
        if (wrong || !frames) exit 1
        print "library: " look_ups " look-ups and " frames " frames in plain FDEs, none of them with a request for memory"
    }' counted

# ---- damaged sections, indexes, registers and windows: a status each time

gcc "${flags[@]}" "${sanitize[@]}" -o damage-sanitized "$root/checks/damage.c" "$library"
gcc "${flags[@]}" -o damage "$root/checks/damage.c" "$library"
{
    for name in plain rules many big-endian; do echo "$(cat "$root/examples/$name.target") $root/examples/$name.bin"; done
    sections "$folder/small"
} >damaged
while read -r size order section; do echo "./damage-sanitized $size $order ${section@Q} 10000 >$(basename "$section").counts"; done <damaged | side_by_side
for counts in *.counts; do echo "library: 10000 damaged copies of ${counts%.counts}: $(cat "$counts")"; done

# ---- all of it under valgrind

if has valgrind; then
    run="valgrind --quiet --error-exitcode=99 --leak-check=full --show-leak-kinds=all --errors-for-leak-kinds=all"
    while read -r size order section; do
        "$program" rows --size "$size" --order "$order" "$section" >rows.txt
        stop=stop-$(basename "$section")
        mkdir "$stop"
        "$root/checks/stops.py" "$size" "$order" rows.txt "$stop" 8
        for dump in "$stop"/*; do ! ./frames-gcc "$size" "$order" "$section" "$dump" >/dev/null 2>&1 || break; done
        echo "$run ./library-gcc normal $size $order ${section@Q} >/dev/null"
        echo "$run ./library-gcc same $size $order ${section@Q} ${section@Q} >/dev/null"
        echo "$run ./lookup-gcc $size $order ${section@Q} >/dev/null"
        echo "$run ./frames-gcc $size $order ${section@Q} ${dump@Q} >/dev/null"
        echo "$run ./damage $size $order ${section@Q} 1000 >/dev/null"
        echo "$run ./refused $size $order ${section@Q} >/dev/null"
    done <damaged >runs
    [ ${#stopped[@]} -eq 0 ] || echo "$run ./frames-gcc ${stopped[*]} >/dev/null" >>runs
    side_by_side <runs
    echo "library: no error and no leak in $(wc -l <runs) runs under valgrind"
else
    echo "library under valgrind: $without"
fi
