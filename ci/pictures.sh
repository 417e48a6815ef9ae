#!/bin/sh
# Makes the picture and the report of each example and of a drawn line of 2,048 slaves, reads all numbers back out of
# them and compares these with what the program that `rt ci` has built prints; compares the stored pictures of examples/
# with new ones; and shows the comparison wrong pictures and reports, and it must refuse each. It prints the seconds
# that each took, and does not judge them. The last line is 'N passed, M failed'. It wants python3, 3.11 or later; where
# they are installed, xmllint and tidy look at the documents.
set -u
cd "$(dirname "$0")/.."
program=crates/hotline/out/hotline
check=ci/pictures
scratch=$(mktemp -d)
trap 'rm -rf "$scratch"' EXIT
passed=0
failed=0
for needed in python3 "$program"; do
    if ! command -v "$needed" >/dev/null; then
        echo "pictures: $needed is missing"
        exit 1
    fi
done
for judge in xmllint tidy; do
    command -v "$judge" >/dev/null || echo "pictures: $judge isn't installed, and doesn't look at the documents"
done

# verdict LABEL STATUS: counts, and shows what was said where it failed.
verdict() {
    if [ "$2" -eq 0 ]; then
        passed=$((passed + 1))
    else
        echo "pictures: $1 failed"
        cat "$scratch/said"
        failed=$((failed + 1))
    fi
}

# well_formed DOCUMENT
well_formed() {
    case $1 in
    *.svg) judge="xmllint --noout" ;;
    *) judge="tidy -e -q" ;;
    esac
    command -v "${judge%% *}" >/dev/null || return 0
    $judge "$1" >"$scratch/said" 2>&1
}

# timed LABEL COMMAND..: runs it into $scratch/LABEL, and prints the seconds.
timed() {
    document=$1
    shift
    begun=$(date +%s.%N)
    "$@" >"$scratch/$document" 2>"$scratch/said"
    status=$?
    echo "$begun $(date +%s.%N) $(wc -c <"$scratch/$document")" |
        awk -v of="$document" '{ printf "pictures: %s of %d bytes made in %.1f seconds\n", of, $3, $2 - $1 }'
    return "$status"
}

# make NAME INPUT [OPTION..]: its picture and its report, each looked at, and both read back.
make() {
    name=$1
    input=$2
    shift 2
    timed "$name.svg" tools/picture "$input" "$@" && well_formed "$scratch/$name.svg"
    verdict "$name.svg" $?
    timed "$name.html" tools/picture --report "$input" "$@" && well_formed "$scratch/$name.html"
    verdict "$name.html" $?
    "$check/read_back.py" "$program" "$input" "$scratch/$name.svg" "$scratch/$name.html" "$@" >"$scratch/said" 2>&1
    verdict "$name, read back," $?
}

# stored PICTURE PROJECT COMMANDS
stored() {
    printf '%s\n' "$3" >"$scratch/commands"
    tools/picture "$2" "$scratch/commands" >"$scratch/now" 2>"$scratch/said"
    cmp "$1" "$scratch/now" >>"$scratch/said" 2>&1
    verdict "$1, as it is stored," $?
}

# refuse WAY INPUT DOCUMENT: a wrong document must be refused by a difference.
refuse() {
    wrong=$scratch/wrong.${3##*.}
    "$check/wrong_picture.py" "$1" "$3" >"$wrong" 2>"$scratch/said" &&
        "$check/read_back.py" "$program" "$2" "$wrong" >"$scratch/said" 2>&1
    [ "$?" -eq 1 ] && grep -q 'is wanted' "$scratch/said"
    verdict "a wrong ${3##*.}, $1, to be refused," $?
}

for input in examples/*.in; do
    make "$(basename "$input" .in)" "$input"
done
"$check/drawn_line.py" 2048 >"$scratch/drawn.in"
make drawn "$scratch/drawn.in"

make declared ci/scripts/declared.in
make named "$check/named.in"
make since examples/tool_changer_day.in --since 0
make declared_since ci/scripts/declared.in --since 1

stored examples/tool_changer.svg examples/tool_changer.toml ''
stored examples/tool_changer_gripper.svg examples/tool_changer.toml 'connect 100'

changed=$scratch/changed.in
{ cat examples/tool_changer.toml; printf '%%%%\nconnect 100\n'; } >"$changed"
make changed "$changed"
make swapped examples/tool_changer_day.in --against "$changed"
make other examples/bit_terminals.in --against "$changed"
for way in carried written shifted left-out exchanged; do
    refuse "$way" "$changed" "$scratch/changed.svg"
done
for way in carried cell unmarked row; do
    refuse "$way" "$changed" "$scratch/changed.html"
done
echo "$passed passed, $failed failed"
[ "$passed" -gt 0 ] && [ "$failed" -eq 0 ]
