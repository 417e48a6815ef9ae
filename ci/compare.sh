#!/bin/sh
# Compares what the program that `rt ci` has built prints for drawn scripts with what the plain models of compare/ work out
# of them, and what `projectcheck` prints of spoilt projects with what was spoilt. Each comparison is also shown wrong
# programs, and must find the wrong line of each: one with another byte in a line, one that leaves a line out, and of
# `hotline` one that prints the epoch before, one that leaves the last line of a declared group out, and four that are
# wrong where tasks post and view. Scripts that were written by hand must be answered as they are written, by the model
# and by the program. The last line is 'N passed, M failed'. Words after its name are a program to be compared in place of
# the built `hotline`.
set -u
cd "$(dirname "$0")/.."
[ "$#" -gt 0 ] || set -- crates/hotline/out/hotline
check=crates/projectcheck/out/projectcheck
for needed in rustc "$1" "$check"; do
    if ! command -v "$needed" >/dev/null; then
        echo "compare: $needed is missing"
        exit 1
    fi
done
scratch=$(mktemp -d)
trap 'rm -rf "$scratch"' EXIT
passed=0
failed=0

# build NAME SOURCE
build() {
    rustc -O --edition 2021 -o "$scratch/$1" "$2" || {
        echo "compare: $2 isn't built"
        exit 1
    }
}

# pass LABEL, fail LABEL
pass() {
    echo "compare: $*"
    passed=$((passed + 1))
}
fail() {
    echo "compare: $*"
    cat "$scratch/said"
    failed=$((failed + 1))
}

# compare NAME WAYS PROGRAM..: a comparison, and with each wrong program
compare() {
    name=$1 ways=$2
    shift 2
    build "$name" "compare/$name/main.rs"
    if "$scratch/$name" "$@" >"$scratch/said" 2>&1; then
        cat "$scratch/said"
        pass "$name: the program prints what the model says"
    else
        fail "$name: the program prints something else"
    fi
    for way in $ways; do
        "$scratch/$name" "$scratch/wrong" "$way" "$@" >"$scratch/said" 2>&1
        if [ "$?" -eq 1 ] && grep -q 'is wanted' "$scratch/said"; then
            pass "$name: refused, wrong by \`$way\`"
        else
            fail "$name: not refused, wrong by \`$way\`"
        fi
    done
}

# play LABEL INPUTS PROGRAM..: a program over each script that was written by hand, by the pattern of their names
play() {
    label=$1 inputs=$2
    shift 2
    for input in $inputs; do
        timeout 60 "$@" <"$input" >"$scratch/printed" 2>/dev/null
        if diff "${input%.in}.out" "$scratch/printed" >"$scratch/said"; then
            pass "$input: the $label prints what is written"
        else
            fail "$input: < is written, > is what the $label prints"
        fi
    done
}

build wrong compare/wrong_program.rs
compare edits "byte line epoch document" "$@"
compare events "byte line epoch document view judged counted dropped" "$@"
play model "compare/played/*.in examples/*.in ci/scripts/*.in" "$scratch/events" --answer
play program "compare/played/*.in" "$@"
compare places "byte line" "$check"
echo "$passed passed, $failed failed"
[ "$passed" -gt 0 ] && [ "$failed" -eq 0 ]
