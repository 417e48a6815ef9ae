#!/bin/sh
# Refuses growths of memory, in tests and in the program that `rt ci` has built: each growth in turn alone, and each with
# every later one. Every such run must end by itself: with its own answer, or out of memory and with nothing else. A case
# without a refused growth fails. The last line is 'N passed, M failed'.
#   ci/sweep.sh                every case, as many at a time as there are processors
#   ci/sweep.sh CASE TOOLS     one case, a line of `cases`, with what the folder TOOLS has; its last line is the same
set -u
cd "$(dirname "$0")/.."
scratch=$(mktemp -d)
trap 'rm -rf "$scratch"' EXIT
tools=${2:-$scratch}
program=crates/hotline/out/hotline
passed=0
failed=0

# Whether a growth was refused in the last run.
has_refused() {
    grep -q '^refused growth$' "$scratch/errors"
}

# refuse_each LABEL JUDGE MODE INPUT COMMAND..: runs a command with its first growth refused, then its second, until a run
# meets no refusal; MODE is `alone`, or `lasting` where every later growth is refused as well. What it wrote is in
# `said`, its errors in `errors`; `JUDGE STATUS` says whether it ended well.
refuse_each() {
    label=$1 judge=$2 mode=$3 input=$4
    shift 4
    plus=
    [ "$mode" = lasting ] && plus=+
    number=0
    : >"$scratch/errors"
    while [ "$number" -eq 0 ] || has_refused; do
        number=$((number + 1))
        timeout 60 env REFUSE_GROWTH="$number$plus" LD_PRELOAD="$tools/refuse.so" "$@" <"$input" >"$scratch/said" 2>"$scratch/errors"
        status=$?
        if [ "$number" -gt 5000 ] || ! "$judge" "$status"; then
            echo "sweep: $label with growth $number$plus refused: status $status"
            cat "$scratch/said" "$scratch/errors"
            failed=$((failed + 1))
            return
        fi
    done
    if [ "$number" -eq 1 ]; then
        echo "sweep: $label: no growth was refused, $mode"
        failed=$((failed + 1))
        return
    fi
    echo "sweep: $label: $((number - 1)) growths refused in turn, each $mode"
    passed=$((passed + 1))
}

# A test without a refused growth passes. With one it passes by its own answer, or ends out of memory and with no failed
# assertion.
test_ended_well() {
    if ! has_refused || [ "$1" -eq 0 ]; then
        [ "$1" -eq 0 ] && grep -qx 'test result: ok' "$scratch/said"
        return
    fi
    cat "$scratch/said" "$scratch/errors" >"$scratch/all"
    grep -Eq '^error: (Memory|AllocError|AllocFailed|Project\(Memory\)|Opening\(Memory\))' "$scratch/all" &&
        ! grep -q 'assert' "$scratch/all"
}

# sweep_test CRATE TEST
sweep_test() {
    for mode in alone lasting; do
        refuse_each "$1 $2" test_ended_well "$mode" /dev/null "crates/$1/out/$1_tests" "$2"
    done
}

# sweep_steady CRATE FEW MANY [MORE]: the same test with few cycles and with many. The many have to meet so many growths more, by
# hand; 0 unless MORE is given.
sweep_steady() {
    sweep_test "$1" "$2"
    few=$number
    refuse_each "$1 $3" test_ended_well alone /dev/null "crates/$1/out/$1_tests" "$3"
    if [ "$number" -eq "$((few + ${4:-0}))" ]; then
        passed=$((passed + 1))
    else
        echo "sweep: $1 $2 met $((few - 1)) growths, and $3 met $((number - 1))"
        failed=$((failed + 1))
    fi
}

# run_unrefused LINES NAME: what the program prints for the lines, and its status.
run_unrefused() {
    timeout 60 "$program" <"$1" >"$scratch/$2"
    echo $? >"$scratch/$2.status"
}

# turns_of INPUT: the first and the last line of each command after the project; a `declare` ends with its document.
turns_of() {
    awk '!begun { begun = $0 == "%%"; next }
        first && $0 != "%%" { next }
        first { print first, NR; first = 0; next }
        $0 == "declare" { first = NR; next }
        { print NR, NR }' "$1"
}

# goes_along_line COMMAND ANSWER: whether the command's frames go along the line, by the first line of its answer: a command
# that is refused sends none, and a task may have none.
goes_along_line() {
    case $2 in
    refused* | 'no frame') return 1 ;;
    esac
    case $1 in
    scan | name | program | cycle*) true ;;
    *) false ;;
    esac
}

# expect_refusals INPUT: numbers the commands that a run reaches from 1, and writes what the program must print where growths
# are refused for command I: in `alone.I` what it prints with blank lines in place of the command, but for the refusal in
# its place; in `lasting.I` what it prints before the command, and the refusal for it and each later command. Where the
# command's frames go along the line, `alone.I.chain` and `lasting.I.chain` have the line of a refused chain in its place.
expect_refusals() {
    rm -f "$scratch"/alone.* "$scratch"/lasting.*
    turns_of "$1" >"$scratch/turns"
    commands=$(wc -l <"$scratch/turns")
    count=0
    while read -r first last; do
        head -n $((first - 1)) "$1" >"$scratch/lines"
        run_unrefused "$scratch/lines" front
        [ "$(cat "$scratch/front.status")" -eq 0 ] || return
        sed "${first},${last}s/.*//" "$1" >"$scratch/lines"
        run_unrefused "$scratch/lines" without
        count=$((count + 1))
        size=$(wc -c <"$scratch/front")
        { cat "$scratch/front"; echo refused 28 Memory; tail -c +$((size + 1)) "$scratch/without"; } >"$scratch/alone.$count"
        cp "$scratch/without.status" "$scratch/alone.$count.status"
        { cat "$scratch/front"; yes refused 28 Memory | head -n $((commands - count + 1)); } >"$scratch/lasting.$count"
        echo 0 >"$scratch/lasting.$count.status"
        place=$(($(wc -l <"$scratch/front") + 1))
        goes_along_line "$(sed -n "${first}p" "$1")" "$(sed -n "${place}p" "$text")" || continue
        for kind in alone lasting; do
            sed "${place}s/.*/chain fault 1 Memory/" "$scratch/$kind.$count" >"$scratch/$kind.$count.chain"
        done
    done <"$scratch/turns"
}

# said_refusal EXPECTED: whether the run printed the refusal of a growth, or of the chain where the command's frames go
# along the line. It notes which, in `EXPECTED.met_growth` or `EXPECTED.met_chain`.
said_refusal() {
    if cmp -s "$scratch/said" "$1"; then
        : >"$1.met_growth"
    else
        [ -f "$1.chain" ] && cmp -s "$scratch/said" "$1.chain" && : >"$1.met_chain"
    fi
}

# met_both MODE LABEL: each command whose frames go along the line met both refusals.
met_both() {
    for chain in "$scratch/$1".*.chain; do
        [ -f "$chain" ] || continue
        expected=${chain%.chain}
        if [ -f "$expected.met_growth" ] && [ -f "$expected.met_chain" ]; then
            passed=$((passed + 1))
        else
            echo "sweep: $2: command ${expected##*.} didn't meet both refusals, $1"
            failed=$((failed + 1))
        fi
    done
}

# Whether the run ended as one does for which a growth is refused in a phase of it: while the input is read, which prints
# nothing, while the project is opened, or for a command.
ended_in_phase() {
    case $2 in
    reading) [ "$1" -eq 4 ] && [ ! -s "$scratch/said" ] ;;
    0) [ "$1" -eq 3 ] && grep -Eqx 'project fault 11 Memory|open fault 2 Memory' "$scratch/said" && [ "$(wc -l <"$scratch/said")" -eq 1 ] ;;
    *) [ -f "$scratch/$refusals.$2" ] && said_refusal "$scratch/$refusals.$2" && [ "$1" -eq "$(cat "$scratch/$refusals.$2.status")" ] ;;
    esac
}

# Whether the run printed the whole text. So it does too where a growth was refused to a publishing, which prints nothing, and
# nobody looks before the next one.
said_all() {
    cmp -s "$scratch/said" "$text" && [ "$1" -eq "$text_status" ]
}

# A run without a refusal prints the whole text. Later growths are refused in the same phase as earlier ones or in the next
# one, and the last in the last command or in what is published after it.
run_ended_well() {
    if ! has_refused; then
        said_all "$1" && [ "$phase" = "$count" ]
        return
    fi
    said_all "$1" && return
    ended_in_phase "$1" "$phase" && return
    case $phase in
    reading) phase=0 ;;
    *) phase=$((phase + 1)) ;;
    esac
    ended_in_phase "$1" "$phase"
}

# sweep_program MODES LABEL INPUT TEXT STATUS
sweep_program() {
    text=$4 text_status=$5
    expect_refusals "$3"
    for mode in $1; do
        refusals=$mode phase=reading
        refuse_each "hotline, $2" run_ended_well "$mode" "$3" "$program"
        met_both "$mode" "hotline, $2"
    done
}

# expect_unpublished INPUT: writes what a run prints where one publishing is refused, for each publishing, as the model of
# compare/ has it.
expect_unpublished() {
    rm -f "$scratch"/unpublished.*
    number=0
    status=0
    while [ "$status" -ne 64 ]; do
        number=$((number + 1))
        "$tools/model" --answer "$number" <"$1" >"$scratch/unpublished.$number" 2>"$scratch/errors"
        status=$?
        if [ "$status" -eq 101 ]; then
            echo "sweep: the model has no answer to $1"
            failed=$((failed + 1))
            return
        fi
    done
    rm "$scratch/unpublished.$number"
}

# Whether so many lines of what was said are what the run prints, where no publishing is refused or one is.
begins_well() {
    head -n "$1" "$scratch/said" >"$scratch/front"
    for whole in "$text" "$scratch"/unpublished.*; do
        [ -f "$whole" ] && head -n "$1" "$whole" | cmp -s - "$scratch/front" && return
    done
    return 1
}

# A run whose frames go along the line prints the whole text, also where a thread isn't made and its segment is run by the
# caller's; or the text of a run with a refused publishing; else a front of these and then the refusal. What a stopped
# command had done before stays, so that later lines may differ.
line_ended_well() {
    said_all "$1" && return
    has_refused || return
    ended_in_phase "$1" reading && return
    ended_in_phase "$1" 0 && return
    [ "$1" -eq "$text_status" ] || return
    front=$(grep -nEx 'refused 28 Memory|chain fault 1 Memory' "$scratch/said" | head -n 1 | cut -d : -f 1)
    lines=$(wc -l <"$text")
    if [ -n "$front" ]; then
        begins_well $((front - 1))
    else
        [ "$(wc -l <"$scratch/said")" -eq "$lines" ] && begins_well "$lines"
    fi
}

# sweep_line MODES LABEL INPUT TEXT STATUS: an input that the model of compare/ answers
sweep_line() {
    text=$4 text_status=$5
    expect_unpublished "$3"
    for mode in $1; do
        refuse_each "hotline, $2" line_ended_well "$mode" "$3" "$program"
    done
}

# A run of `projectcheck` ends with its whole text, with nothing where its input isn't read, or with the out-of-memory line.
check_ended_well() {
    if ! has_refused; then
        cmp -s "$scratch/said" crates/projectcheck/stdout && [ "$1" -eq "$(cat crates/projectcheck/status)" ]
        return
    fi
    case $1 in
    3) [ "$(cat "$scratch/said")" = 'project fault 11 Memory' ] ;;
    4) [ ! -s "$scratch/said" ] ;;
    *) false ;;
    esac
}

# sweep_check
sweep_check() {
    for mode in alone lasting; do
        refuse_each projectcheck check_ended_well "$mode" crates/projectcheck/stdin crates/projectcheck/out/projectcheck
    done
}

# The cases: calls of the functions above.
cases() {
    cat <<'END'
sweep_test worked_lines pieces::project_texts::projects::project_or_memory
sweep_test worked_lines pieces::project_texts::groups::group_or_memory
sweep_test worked_lines lines::edits_say_what_they_change
sweep_test worked_lines lines::a_list_of_edits_is_answered_in_its_order
sweep_test worked_lines found::a_group_is_found_by_its_alias
sweep_test worked_lines declared::a_declared_group_comes_when_it_is_connected
sweep_test worked_events values::values_are_sent_where_their_variables_are
sweep_steady worked_events buffers::four_sendings buffers::ten_sendings 12
sweep_test worked_threads buffers::a_buffer_begins_anew
sweep_test worked_threads posts::posts_come_as_they_were_posted
sweep_test worked_threads frames::frames_go_in_order
sweep_test worked_threads chains::machines_stay_where_a_chain_is_refused
sweep_test worked_views shown::a_view_shows_what_was_published
sweep_steady worked_views steady::few_cycles steady::many_cycles
sweep_test worked_conductor growths::refused_growths_change_nothing
sweep_steady worked_conductor steady::few_cycles steady::many_cycles
sweep_test worked_conductor one_thread::growths::refused_growths_change_nothing
sweep_test worked_program exchange::rows::machines_stay_where_an_exchange_is_refused
sweep_test worked_program exchange::ready::machines_stay_where_a_ready_exchange_is_refused
sweep_program "alone lasting" "its first run" crates/hotline/stdin crates/hotline/stdout 0
sweep_program "alone lasting" "every command" ci/scripts/commands.in ci/scripts/commands.out 2
sweep_program "alone lasting" "frames" ci/scripts/frames.in ci/scripts/frames.out 0
sweep_program "alone lasting" "declarations" ci/scripts/declared.in ci/scripts/declared.out 0
sweep_program "alone lasting" "the tool changer with frames" examples/tool_changer_frames.in examples/tool_changer_frames.out 0
sweep_program alone "two groups" examples/two_groups.in examples/two_groups.out 0
sweep_line "alone lasting" "the day of the tool changer" examples/tool_changer_day.in examples/tool_changer_day.out 0
sweep_line alone "a tool that is declared" examples/declared_tool.in examples/declared_tool.out 0
sweep_check
END
    for input in compare/played/*.in; do
        echo "sweep_line 'alone lasting' $input $input ${input%.in}.out 0"
    done
}

# sweep_all: runs each case by itself, and prints what they say. Each must end with its count.
sweep_all() {
    gcc -O2 -Wall -shared -fPIC -o "$tools/refuse.so" ci/refuse_growth.c -ldl || exit 1
    rustc -O --edition 2021 -o "$tools/model" compare/events/main.rs || exit 1
    cases | tr '\n' '\0' | xargs -0 -P "$(nproc)" -I '{}' sh -c 'said=$("$0" "$1" "$2"); echo "$said"' ci/sweep.sh '{}' "$tools" >"$tools/all"
    count='^[0-9]+ passed, [0-9]+ failed$'
    grep -vE "$count" "$tools/all"
    grep -E "$count" "$tools/all" | awk '{ passed += $1; failed += $3 } END { print NR, passed + 0, failed + 0 }' >"$tools/counts"
    read -r ended passed failed <"$tools/counts"
    failed=$((failed + $(cases | wc -l) - ended)) # those that ended without their count
}

if [ $# -eq 2 ]; then
    eval "$1"
else
    sweep_all
fi
echo "$passed passed, $failed failed"
[ "$failed" -eq 0 ]
