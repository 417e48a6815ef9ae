#!/bin/sh
# Builds the library for other languages: packaging/library.sh [TARGET [FOLDER]] leaves libzangjulf.a to link, libzangjulf.so to load,
# the header, and verdict.txt, what the prover says of the archive, in the folder, which is build/ where none is named. Targets are
#
#   x86_64      every processor of x86-64
#   x86_64-v2   those since about 2009, with SSE4.2 and POPCNT; it is built where no target is named
#   aarch64     every 64-bit processor of ARM
#
# each of Linux with glibc. hc_c is checked by it and the libraries below it aren't, where `rt ci` or another check has left them;
# where one is missing, `rt lib` proves them all. It wants the Rattle kit, gcc, ar and objcopy, and the target's own.
set -eu
cd "$(dirname "$0")/.."
target=${1:-x86_64-v2}
mkdir -p "${2:-build}"
folder=$(cd "${2:-build}" && pwd)
case $target in
x86_64) prefix= flags="--cpu x86-64" ;;
x86_64-v2) prefix= flags="--cpu x86-64-v2" ;;
aarch64) prefix=aarch64-linux-gnu- flags="--target aarch64-unknown-linux-gnu" ;;
*)
    echo "library: $target is no target: x86_64, x86_64-v2 and aarch64 are" >&2
    exit 2
    ;;
esac
cc=${prefix}gcc ar=${prefix}ar objcopy=${prefix}objcopy
for needed in rt $cc $ar $objcopy; do
    command -v "$needed" >/dev/null || { echo "library: $needed is missing"; exit 1; }
done
kit=$(dirname "$(dirname "$(readlink -f "$(command -v rt)")")")
. packaging/version

# are_below: whether the libraries below hc_c are there
are_below() {
    for library in $(sed -n 's/^hc_c staticlib: *//p' ../../crates.txt); do
        [ ! -d "../$library" ] || [ -e "../$library/out/rlib/$library.rlib" ] || return 1
    done
}

# build_over_them: the archive over the libraries that are there
build_over_them() {
    set -- --crate-name hc_c src/lib.rt --crate-type staticlib --links hc_c= -L "dependency=$kit/rlibs"
    for library in std $(sed -n 's/^hc_c staticlib: *//p' ../../crates.txt); do
        place=$kit/rlibs/$library.rlib
        [ ! -d "../$library" ] || place=../$library/out/rlib/$library.rlib
        set -- "$@" --extern "$library=$place"
    done
    for below in ../*/out/rlib; do
        set -- "$@" -L "dependency=$below"
    done
    # a first check is shared among four processors at most; later ones find in out/incremental what earlier ones kept
    jobs=1
    [ -d out/incremental ] || jobs=$(nproc)
    [ "$jobs" -le 4 ] || jobs=4
    mkdir -p out
    "$kit/bin/rattle" build "$@" --antt-project "$kit/rattle/logic/antt-project.json" --logic-built "$kit/logic_built" \
        --jobs "$jobs" --incremental out/incremental --toolchain "$kit/toolchain" --backend llvm $flags -o "$folder/libhc_c.a"
}

(cd crates/hc_c && { are_below || rt lib; } && build_over_them) >"$folder/said.txt" 2>&1 ||
    { cat "$folder/said.txt"; exit 1; }
grep -E '^(axioms|logic=)' "$folder/said.txt" >"$folder/verdict.txt"
cat "$folder/verdict.txt"
# the functions round malloc: the kit's own, where it has them for the processor
heap=$kit/c/liblibc_c.a
if [ "$target" = aarch64 ]; then
    heap=$folder/libheap.a
    $cc -std=c11 -O2 -fPIC -Wall -Wextra -Werror -c packaging/heap.c -o "$folder/heap.o"
    rm -f "$heap"
    $ar rcD "$heap" "$folder/heap.o"
fi
# One object, from which only the header's calls can be seen: so a program may link two libraries that this kit made.
$cc -r -nostdlib -o "$folder/zangjulf.o" -Wl,--whole-archive "$folder/libhc_c.a" -Wl,--no-whole-archive "$heap"
$objcopy --wildcard --keep-global-symbol='zangjulf_*' "$folder/zangjulf.o"
rm -f "$folder/libzangjulf.a"
$ar rcD "$folder/libzangjulf.a" "$folder/zangjulf.o"
# The code is position independent, so the archive makes a shared object. It exports the header's calls and nothing else, and its
# name has the number of the binary interface: programs look for it by that name.
sed "s|@ABI@|$abi|" packaging/zangjulf.map.in >"$folder/zangjulf.map"
$cc -shared -Wl,-z,text,-z,relro,-z,now,-z,noexecstack -Wl,-soname,"libzangjulf.so.$abi" \
    -Wl,--version-script="$folder/zangjulf.map" \
    -Wl,--whole-archive "$folder/libzangjulf.a" -Wl,--no-whole-archive -o "$folder/libzangjulf.so"
cp include/zangjulf.h "$folder/"
