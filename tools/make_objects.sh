#!/bin/sh
# Makes objects with public tools, one a file, in the folder that is named.
set -eu
out=${1-}
[ -n "$out" ] || { echo "usage: tools/make_objects.sh FOLDER" >&2; exit 2; }
for command in riscv64-linux-gnu-as riscv64-linux-gnu-gcc clang; do
    command -v $command >/dev/null || { echo "$command isn't installed: it is in Debian's packages binutils-riscv64-linux-gnu, gcc-riscv64-linux-gnu, clang" >&2; exit 2; }
done
here=$(cd "$(dirname "$0")" && pwd)
mkdir -p "$out"
as="riscv64-linux-gnu-as -march=rv64im -mabi=lp64 -mno-relax"
for source in "$here"/../examples/*.s "$here"/objects/*.s; do
    [ -e "$source" ] || continue
    $as -o "$out/as-$(basename "$source" .s).o" "$source"
    $as -g -o "$out/as-$(basename "$source" .s)-g.o" "$source"
    $as -mrelax -o "$out/as-$(basename "$source" .s)-relax.o" "$source"
done
for source in "$here"/objects/*.c; do
    name=$(basename "$source" .c)
    for level in 0 2; do
        for debug in "" -g; do
            riscv64-linux-gnu-gcc -march=rv64im -mabi=lp64 -mno-relax -mcmodel=medany -ffreestanding \
                -fno-pic -O$level $debug -c -o "$out/gcc-$name-O$level$debug.o" "$source"
            clang --target=riscv64 -march=rv64im -mabi=lp64 -mno-relax -mcmodel=medany -ffreestanding \
                -O$level $debug -c -o "$out/clang-$name-O$level$debug.o" "$source"
        done
    done
done
