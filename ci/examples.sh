#!/bin/sh
# Compares what the program that `rt ci` has built prints with what is written of it: each examples/NAME.in with
# examples/NAME.out, and the sessions of docs/use/HOT_CONNECT.md, whose commands are the lines that begin with `> `, with the
# lines below them. The last line is 'N passed, M failed'.
set -u
cd "$(dirname "$0")/.."
program=crates/hotline/out/hotline
scratch=$(mktemp -d)
trap 'rm -rf "$scratch"' EXIT
passed=0
failed=0

# fail WORDS..
fail() {
    echo "examples: $*"
    failed=$((failed + 1))
}

# compare LABEL INPUT EXPECTED
compare() {
    timeout 60 "$program" <"$2" >"$scratch/printed"
    status=$?
    if [ "$status" -ne 0 ]; then
        fail "$1: status $status"
    elif ! diff "$3" "$scratch/printed" >"$scratch/difference"; then
        fail "$1: < is written, > is printed"
        cat "$scratch/difference"
    else
        passed=$((passed + 1))
    fi
}

for input in examples/*.in; do
    compare "$input" "$input" "${input%.in}.out"
done
for output in examples/*.out; do
    [ -f "${output%.out}.in" ] || fail "$output has no input"
done

sessions=docs/use/HOT_CONNECT.md
sed -n 's/^    > //p' "$sessions" >"$scratch/commands"
awk '/^    > / { inside = 1; next } !/^    / { inside = 0 } inside { print substr($0, 5) }' "$sessions" >"$scratch/written"
if [ -s "$scratch/commands" ] && [ -s "$scratch/written" ]; then
    { cat examples/tool_changer.toml; echo %%; cat "$scratch/commands"; } >"$scratch/session"
    compare "$sessions" "$scratch/session" "$scratch/written"
else
    fail "$sessions has no session"
fi
echo "$passed passed, $failed failed"
[ "$failed" -eq 0 ]
