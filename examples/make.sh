#!/bin/sh
# Makes the sections of the examples anew: a small program, linked by three toolchains, and its .debug_frame.
# It needs gcc, clang, lld and binutils. The sections that do not begin with sum- are written by hand. The answers beside
# a section (NAME.entries, NAME.check, NAME.rows) are compared with a second reader by checks/answers.py.
set -eu
cd "$(dirname "$0")"
folder=$(mktemp -d)
trap 'rm -r "$folder"' EXIT

# Links the program with a compiler and its options, takes its section out by an objcopy, and names it.
make() {
    name=$1 objcopy=$2
    shift 2
    "$@" -g -O2 -ffreestanding -nostdlib -static -fno-pic -fno-asynchronous-unwind-tables -fno-stack-protector \
        -o "$folder/$name" sum.c
    "$objcopy" -O binary --only-section=.debug_frame --set-section-flags .debug_frame=alloc "$folder/$name" "$name.bin"
}

make sum-gcc-x86_64 objcopy gcc
make sum-clang-x86_64 objcopy clang --target=x86_64-linux-gnu -fuse-ld=lld
make sum-clang-powerpc llvm-objcopy clang --target=powerpc-linux-gnu -fuse-ld=lld
chmod 644 ./*.bin
