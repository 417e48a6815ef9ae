#!/bin/sh
# Refuses a public word of a crate's specs/ that has no comment above it. A comment is on the line above the word, or
# above the words directly before it, with no blank line between, so that one comment may explain words that belong
# together. Worked examples are no words. The last line is 'N passed, M failed', a crate each.
set -u
cd "$(dirname "$0")/.."
passed=0
failed=0

# untold CRATE: the places and words of its specs without a comment.
without_comment() {
    find "crates/$1/specs" -name declared -prune -o -name '*.antt' ! -name 'Worked*' -print | sort | xargs -r awk '
        FNR == 1 { commented = 0 }
        /^[ \t]*$/ { commented = 0 }
        /^--/ { commented = 1 }
        /^((abbrev|opaque|unfoldable|pub|data|record) )+[^ ]+ *(:|\(|$)/ && !/^pub (mod|use) / && / ?pub / {
            if (!commented) print FILENAME ":" FNR ": " $0
        }'
}

for folder in crates/*/; do
    crate=$(basename "$folder")
    [ -d "$folder/specs" ] || continue
    found=$(without_comment "$crate")
    if [ -z "$found" ]; then
        passed=$((passed + 1))
    else
        echo "definitions: $crate has words without a comment:"
        echo "$found"
        failed=$((failed + 1))
    fi
done
echo "$passed passed, $failed failed"
[ "$passed" -gt 0 ] && [ "$failed" -eq 0 ]
