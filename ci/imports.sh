#!/bin/sh
# Refuses what one crate takes of another's proofs but for the lemmas in its proofs/lemmas/: everything else there is that
# crate's own. The last line is 'N passed, M failed', a crate each.
set -u
cd "$(dirname "$0")/.."
passed=0
failed=0

# inner_imports CRATE: the lines of a crate that name inner proofs of another crate of this repository.
inner_imports() {
    others=$(ls crates | grep -vx "$1" | paste -sd '|' -)
    find "crates/$1" -name out -prune -o \( -name '*.antt' -o -name '*.rt' \) -print | sort | xargs awk -v others="($others)" '
        {
            left = $0
            gsub("Rattle[.]" others "[.]proofs[.]lemmas[.]", "", left)
            gsub(others "::proofs::lemmas::", "", left)
        }
        left ~ "Rattle[.]" others "[.]([{]|proofs([^A-Za-z0-9_]|$))" || left ~ "(^|[^A-Za-z0-9_])" others "::proofs([^A-Za-z0-9_]|$)" {
            print FILENAME ":" FNR ": " $0
        }'
}

for folder in crates/*/; do
    crate=$(basename "$folder")
    found=$(inner_imports "$crate")
    if [ -z "$found" ]; then
        passed=$((passed + 1))
    else
        echo "imports: $crate takes inner proofs of another crate:"
        echo "$found"
        failed=$((failed + 1))
    fi
done
echo "$passed passed, $failed failed"
[ "$passed" -gt 0 ] && [ "$failed" -eq 0 ]
