#!/bin/bash
# Installs dwframe into a folder of its own, whose path has blanks, and compares what is there with
# what it has to be: the command answers, programs in C and C++ are built by pkg-config over the
# static and the shared library and answer, these export the calls of the header and no more, and
# nothing is left once it is taken away. What needs a tool that is missing is left out, and named.
#
#     install.sh [--edition]      --edition: the Rust edition in place of what is proved
set -euo pipefail
root=$(cd "$(dirname "$0")/.." && pwd)
folder=$(mktemp -d)
trap 'rm -r "$folder"' EXIT
prefix=$folder/$'a prefix,\tä'
cd "$folder"

fail() {
    printf 'install: %s\n' "$*"
    exit 1
}

# has TOOL..: whether all are there; else what is left out is told.
has() {
    for tool in "$@"; do
        command -v "$tool" >/dev/null || { echo "install: without $tool something is left out" && return 1; }
    done
}

"$root/install" "$@" --prefix "$prefix"
export PATH=$prefix/bin:$PATH PKG_CONFIG_PATH=$prefix/lib/pkgconfig
examples=$root/examples

# ---- the command: the program itself, and not a script beside the sources

version=$(dwframe --version)
program=$root/crates/dwframe/out/dwframe proved=yes
[ $# -eq 0 ] || program=$root/edition/out/target/release/dwframe proved=no
cmp "$prefix/bin/dwframe" "$program"
dwframe rows --size 8 --order little "$examples/plain.bin" | cmp - "$examples/plain.rows"
dwframe-section --help | grep -q '^usage: dwframe-section '
for completion in "$root"/completions/*; do
    [ ! -f "$completion" ] || [ "$(find "$prefix/share" -type f -exec cmp -s "$completion" {} \; -print)" ] || fail "$completion is not installed"
done
! has man || for page in "$prefix"/share/man/man*/*; do
    [ -z "$(MANWIDTH=80 man --warnings -E UTF-8 -l -Tutf8 -Z "$page" 2>&1 >/dev/null)" ] || fail "$page has warnings"
done

# ---- the library

has gcc objcopy readelf nm || exit 0
calls=$(sed -n 's/^[a-z_]* \(dwframe_[a-z_]*\)(.*/\1/p' "$prefix/include/dwframe.h" | sort)
page=$prefix/share/man/man3/dwframe.3
for call in $calls; do grep -q "fB$call.fP(" "$page" || fail "$page does not have $call"; done
[ "$(nm -g --defined-only "$prefix/lib/libdwframe.a" | awk 'NF == 3 { print $3 }' | sort)" = "$calls" ] || fail "libdwframe.a has other global symbols"
[ "$(nm -D --defined-only "$prefix/lib/libdwframe.so" | awk '{ print $3 }' | sort)" = "$calls" ] || fail "libdwframe.so exports other symbols"
readelf -dW "$prefix/lib/libdwframe.so" | grep -q 'SONAME.*\[libdwframe.so.0\]'
! readelf -dW "$prefix/lib/libdwframe.so" | grep -q TEXTREL || fail "libdwframe.so has text relocations"
! readelf -lW "$prefix/lib/libdwframe.so" | grep -q 'GNU_STACK.*RWE' || fail "libdwframe.so wants an executable stack"

# answers COMMAND..: whether a program checks each section of the examples as the command does.
answers() {
    for target in "$examples"/*.target; do
        read -r size order <"$target"
        section=${target%.target}.bin
        "$@" "$size" "$order" "$section" >found
        dwframe check --size "$size" --order "$order" "$section" | cmp - found
    done
}

# The example of the manual page, over a section whose answer is known.
is_example_right() {
    {
        printf '#include <dwframe.h>\n#include <stdio.h>\nint main(void)\n{\n    static uint8_t bytes[1000];\n    size_t len = fread(bytes, 1, sizeof bytes, stdin);\n'
        sed -n '/^\.EX/,/^\.EE/p' "$page" | sed '/^\./d; s/\\e/\\/g; s/\\-/-/g'
        echo '}'
    } >example.c
    eval "gcc -Wall -Wextra -Werror -o example example.c $(pkg-config --cflags --libs dwframe)"
    found=$(LD_LIBRARY_PATH=$prefix/lib ./example <"$examples/plain.bin")
    [ "$found" = r6+16 ] || fail "the example of $page says $found"
}

if has pkg-config; then
    is_example_right
    [ "dwframe $(pkg-config --modversion dwframe)" = "$version" ] || fail "dwframe.pc has another version than the command"
    [ "$(pkg-config --variable=proved dwframe)" = $proved ] || fail "dwframe.pc does not say proved=$proved"
    for compiler in gcc clang g++ clang++; do
        has "$compiler" || continue
        case $compiler in
        *++) source=$root/checks/header.cpp words=() ;;
        *) source=$examples/library.c words=(check) ;;
        esac
        # A path with blanks is quoted for the shell.
        eval "$compiler -Wall -Wextra -Werror -O2 -o shared $(printf %q "$source") $(pkg-config --cflags --libs dwframe)"
        readelf -dW shared | grep -q 'NEEDED.*\[libdwframe.so.0\]'
        LD_LIBRARY_PATH=$prefix/lib answers ./shared ${words[@]+"${words[@]}"}
        echo "install: by $compiler and the shared library as the command"
        [ -f "$($compiler -print-file-name=libc.a)" ] || { echo "install: there is no static C library" && continue; }
        eval "$compiler -Wall -Wextra -Werror -O2 -static -o static $(printf %q "$source") $(pkg-config --static --cflags --libs dwframe)"
        answers ./static ${words[@]+"${words[@]}"}
        echo "install: by $compiler and the static library as the command"
    done
fi

# ---- and away with it

DESTDIR=$folder/stage "$root/install" "$@" --prefix /usr >/dev/null
grep -qx 'prefix=/usr' "$folder/stage/usr/lib/pkgconfig/dwframe.pc"
[ "$(cd "$folder/stage/usr" && find . | sort)" = "$(cd "$prefix" && find . | sort)" ] || fail "other files below a DESTDIR"
DESTDIR=$folder/stage "$root/install" --prefix /usr --uninstall
"$root/install" --prefix "$prefix" --uninstall
[ -z "$(find "$folder/stage/usr" "$prefix" -mindepth 1)" ] || fail "files are left: $(find "$folder/stage/usr" "$prefix" -mindepth 1)"
echo "install: $version"
