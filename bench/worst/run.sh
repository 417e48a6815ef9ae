#!/bin/sh
# Counts the instructions of each call of a cycle in drawn states of the largest line, call by call, by callgrind: the median and
# the worst of each; and prints what memory a line of one slave takes. The library is built first, unless LIBRARY is a folder
# that has it. STATES is how many states, 10,000 where it isn't set.
set -eu
here=$(cd "$(dirname "$0")" && pwd)
top=$(cd "$here/../.." && pwd)
library=${LIBRARY:-$top/build}
states=${STATES:-10000}
scratch=$(mktemp -d)
trap 'rm -rf "$scratch"' EXIT
[ -n "${LIBRARY:-}" ] || "$top/packaging/library.sh" > "$scratch/lib.txt" 2>&1 || { cat "$scratch/lib.txt"; exit 1; }
# The library is made for x86-64-v2, so the program beside it is too.
for name in main room; do
    gcc -std=c11 -D_POSIX_C_SOURCE=200809L -O2 -march=x86-64-v2 -Wall -Wextra -Wpedantic -Werror -I"$top/include" "$here/$name.c" \
        "$library/libzangjulf.a" -o "$scratch/$name"
done
"$scratch/room"
# callgrind writes a part of its counts wherever `end_count` is called, and it would be gigabytes: the totals are taken from a
# pipe, whose second writer keeps it open between two parts
mkfifo "$scratch/parts"
sed -n 's/^totals: //p' < "$scratch/parts" > "$scratch/totals" &
exec 3> "$scratch/parts"
valgrind --tool=callgrind --combine-dumps=yes --zero-before=begin_count --dump-before=end_count \
    --callgrind-out-file="$scratch/parts" "$scratch/main" "$states" "$scratch/names" > "$scratch/said" 2>&1 \
    || { cat "$scratch/said"; exit 1; }
exec 3>&-
wait
paste "$scratch/totals" "$scratch/names" | python3 "$here/listing.py"
