#!/bin/sh
# Counts the instructions of a cycle through the library for C beside plain C with the same duties, line by line, the wire taken
# off, and times both. The library is built first, unless LIBRARY is a folder that has it. Counting needs valgrind.
set -eu
here=$(cd "$(dirname "$0")" && pwd)
top=$(cd "$here/../.." && pwd)
library=${LIBRARY:-$top/build}
scratch=$(mktemp -d)
trap 'rm -rf "$scratch"' EXIT
[ -n "${LIBRARY:-}" ] || "$top/packaging/library.sh" > "$scratch/lib.txt" 2>&1 || { cat "$scratch/lib.txt"; exit 1; }
# The library is made for x86-64-v2, so the program beside it is too.
gcc -std=c11 -O2 -march=x86-64-v2 -Wall -Wextra -Wpedantic -Werror -I"$top/include" "$here"/*.c "$library/libzangjulf.a" -o "$scratch/cycle"
"$scratch/cycle" > "$scratch/times"
# counted SIDE LINE CYCLES: the instructions of a run
counted() {
    valgrind --tool=callgrind --callgrind-out-file=/dev/null "$scratch/cycle" count "$1" "$2" "$3" 2>&1 | sed -n 's/.*Collected : //p'
}
# instructions SIDE LINE: those of a cycle, the difference of two runs
instructions() { echo $((($(counted "$1" "$2" 300) - $(counted "$1" "$2" 100)) / 200)); }
echo '| Line | Library | Plain C | Ratio | Ratio of times |'
echo '|---|---|---|---|---|'
line=0
while IFS='	' read -r name times; do
    wire=$(instructions wire $line)
    own=$(($(instructions library $line) - wire)) plain=$(($(instructions plain $line) - wire))
    echo "$name	$own	$plain	$times" | awk -F '\t' '{ printf "| %s | %d | %d | %.2f | %s |\n", $1, $2, $3, $2 / $3, $4 }'
    line=$((line + 1))
done < "$scratch/times"
echo "measured at $(git -C "$top" rev-parse --short HEAD)"
