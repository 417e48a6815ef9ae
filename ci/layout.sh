#!/bin/sh
# Checks that the files of each crate have the layout of `rt fmt`, so that a slip shows before anything is proved. A file with
# another layout is planted, and must be found. The last line is 'N passed, M failed'. It needs the Rattle kit.
set -u
cd "$(dirname "$0")/.."
rattle=$(dirname "$(readlink -f "$(command -v rt)")")/rattle
scratch=$(mktemp -d)
trap 'rm -rf "$scratch"' EXIT
passed=0
failed=0

# has_layout FOLDER: whether each file below a folder has it
has_layout() {
    find "$1" \( -name '*.rt' -o -name '*.antt' \) -print0 | xargs -0 "$rattle" fmt --check >"$scratch/said" 2>&1
}

for crate in crates/*; do
    if (cd "$crate" && for part in src specs proofs; do [ ! -d $part ] || has_layout $part || exit 1; done); then
        passed=$((passed + 1))
    else
        echo "layout: run rt fmt in $crate"
        failed=$((failed + 1))
    fi
done
mkdir "$scratch/planted"
printf 'fn one( ) -> u8 {\n  1\n}\n' >"$scratch/planted/lib.rt"
if has_layout "$scratch/planted"; then
    echo "layout: a planted file with another layout isn't found"
    failed=$((failed + 1))
else
    passed=$((passed + 1))
fi
echo "$passed passed, $failed failed"
[ $failed -eq 0 ]
