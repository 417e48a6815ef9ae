# For the scripts that try the library from other languages: what passed and failed is counted, what is missing is named, and
# scripts are played. They set `scratch`, a folder of their own, before they read this file.
passed=0
failed=0

# report STATUS WORDS..: counts one more that passed, or failed and is named; its status is that status
report() {
    was=$1
    shift
    if [ "$was" -eq 0 ]; then
        passed=$((passed + 1))
    else
        echo "$(basename "$0" .sh): $*"
        failed=$((failed + 1))
    fi
    return "$was"
}

# report_run STATUS WORDS..: likewise, and the end of what was printed is shown where it failed
report_run() {
    report "$@" && return
    tail -n 20 "$scratch/printed"
    return 1
}

# has COMMAND: whether it is there; one that is missing counts as failed
has() {
    command -v "$1" >/dev/null && return
    report 1 "$1 is missing"
    return 1
}

# play LABEL COMMAND..: plays each example that has no command of a simulated line, which the library hasn't
play() {
    label=$1
    shift
    for input in examples/*.in; do
        sed '1,/^%%$/d' "$input" | grep -qE '^(scan|name|program|cycle|poke|peek)' && continue
        timeout 120 "$@" <"$input" >"$scratch/played" 2>"$scratch/printed" && diff "${input%.in}.out" "$scratch/played" >"$scratch/printed"
        report_run $? "$label, $input: < is written, > is printed"
    done
}

# finish: the last line, and the status
finish() {
    echo "$passed passed, $failed failed"
    [ "$passed" -gt 0 ] && [ "$failed" -eq 0 ]
}
