#!/bin/sh
# A first test, unproved. It builds each test crate with run-time checks and runs its tests, and it builds the program so and
# compares what it prints with examples/ and with the other scripts whose output is stored. Nothing is proved here: `.ci/run`
# does that. A test that doesn't end within five minutes, since run-time checks slow it down, is named and not counted. It
# wants the Rattle kit alone. The last line is 'N passed, M failed'.
set -u
cd "$(dirname "$0")/.."
command -v rt >/dev/null || { echo "quick: rt, the Rattle kit's command, is missing"; exit 1; }
scratch=$(mktemp -d)
trap 'rm -rf "$scratch"' EXIT
mkdir "$scratch/cases"

# Each case is a script and what the program must print for it.
for output in examples/*.out ci/scripts/*.out compare/played/*.out; do
    name=$(echo "${output%.out}" | tr / -)
    cp "${output%.out}.in" "$scratch/cases/$name"
    cp "$output" "$scratch/cases/$name.stdout"
done

# The program comes first, since its build takes longest, and then the crate with the most tests; as many run at a time as there
# are processors.
{ echo program; du -s crates/worked_*/src | sort -rn | sed 's|.*crates/||; s|/src$||'; } >"$scratch/jobs"
export scratch
xargs -P "$(nproc)" -I NAME sh -c '
    if [ NAME = program ]; then
        cd crates/hotline && rt try --cases "$scratch/cases"
    else
        cd crates/NAME && rt try --test --seconds 300
    fi >"$scratch/NAME.log" 2>&1
    echo "quick: NAME has run"' <"$scratch/jobs"

passed=0
failed=0
while read -r name; do
    log=$scratch/$name.log
    if [ "$name" = program ]; then
        good=$(grep -ac '^case=.* run=ended .*output=expected' "$log")
        bad=$(($(ls "$scratch"/cases/*.stdout | wc -l) - good))
    else
        result=$(sed -n 's/^test result: [a-zA-Z]*\. \([0-9]*\) passed; \([0-9]*\) failed;.*/\1 \2/p' "$log")
        good=${result% *}
        slow=$(grep -a -B 1 'the program did not end within the time limit' "$log" | sed -n 's/^test \(.*\) \.\.\. FAILED$/\1/p')
        for test in $slow; do
            echo "quick: $name: $test didn't end in time"
        done
        bad=$((${result#* } - $(echo $slow | wc -w)))
    fi
    if [ "${good:-0}" -eq 0 ] || [ "$bad" -ne 0 ]; then
        tail -n 20 "$log"
        bad=$((${bad:-0} > 0 ? bad : 1))
    fi
    echo "quick: $name: ${good:-0} passed, $bad failed"
    passed=$((passed + ${good:-0}))
    failed=$((failed + bad))
done <"$scratch/jobs"
echo "quick: nothing of this is proved; .ci/run proves it"
echo "$passed passed, $failed failed"
[ "$failed" -eq 0 ]
