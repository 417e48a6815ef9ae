# Callers of the library in C, C++, Rust and Python, over build/; for ci/embed.sh, which reads checks.sh first.
wrapped=-Wl,--wrap=malloc,--wrap=realloc,--wrap=free
warnings="-Wall -Wextra -Wpedantic -Werror"

# compiled NAME WORDS..: a C caller of ci/embed, with what else it is made of
compiled() {
    caller=$1
    shift
    gcc -std=c11 -g -O1 $warnings "$@" -Iinclude "ci/embed/$caller.c" build/libzangjulf.a -o "$scratch/$caller"
}

# compiled_fuzz WORDS..: the caller that draws, likewise, over the plain models or those that `model`, `readiness`, `seated` and
# `task_epochs` name
compiled_fuzz() {
    compiled fuzz -Ici/embed ci/embed/drawn_lines.c ci/embed/drawn_blocks.c ci/embed/draws.c ci/embed/growths.c ci/embed/judge.c "${model:-ci/embed/model.c}" \
        "${readiness:-ci/embed/readiness.c}" "${seated:-ci/embed/seated.c}" "${task_epochs:-ci/embed/task_epochs.c}" \
        ci/embed/words.c $wrapped "$@"
}

# edges CALLER LABEL FLAGS..: what a caller may do wrong
edges() {
    wrong=$1 label=$2
    shift 2
    compiled "$wrong" "$@" && timeout 60 "$scratch/$wrong" examples/tool_changer.toml >"$scratch/printed"
    report_run $? "$label"
}

# threads LABEL FLAGS..: threads that meet at one handle
threads() {
    label=$1
    shift
    compiled threads -D_POSIX_C_SOURCE=200809L -pthread "$@" && timeout 60 "$scratch/threads" examples/tool_changer.toml >"$scratch/printed" 2>&1
    report_run $? "$label"
}

# seats_at_speed SHOWS LABEL FLAGS..: an owner that shows so often and two tasks, at full speed
seats_at_speed() {
    shows=$1 label=$2
    shift 2
    compiled seat_threads -pthread "$@" && timeout 300 "$scratch/seat_threads" "$shows" >"$scratch/printed" 2>&1
    report_run $? "$label"
}

# monitor: a thread that looks at a low priority, and is preempted inside a view, where SCHED_FIFO is allowed
monitor() {
    compiled monitor -O2 -pthread && timeout 60 "$scratch/monitor" >"$scratch/printed" 2>&1
    status=$?
    [ $status -ne 77 ] || { cat "$scratch/printed"; return; }
    report_run $status "a monitor that is preempted inside a view"
}

# header: alone, as C11 and as C++17; and a C++ program that asks what it is linked with
header() {
    echo '#include "zangjulf.h"' >"$scratch/alone.c"
    gcc -std=c11 $warnings -Wconversion -Wsign-conversion -Iinclude -fsyntax-only "$scratch/alone.c"
    report $? "the header isn't C11 without warnings"
    g++ -std=c++17 $warnings -Wconversion -Wsign-conversion -Iinclude -fsyntax-only -x c++ "$scratch/alone.c"
    report $? "the header isn't C++17 without warnings"
    gcc -std=c11 $warnings -Iinclude ci/embed/layout.c -o "$scratch/layout" && "$scratch/layout" >"$scratch/layout.txt"
    report $? "the header's structs aren't printed"
    g++ -std=c++17 $warnings -Iinclude ci/embed/linked.cpp build/libzangjulf.a -o "$scratch/linked" &&
        "$scratch/linked" >"$scratch/printed"
    report_run $? "the library is another version than the header's"
    ! nm -g --defined-only build/libzangjulf.a | grep ' [A-Z] ' | grep -qv ' zangjulf_'
    report $? "the archive exports more than the header's calls"
}

# master NAME FILES..: an example of a master over raw frames
master() {
    name=$1
    shift
    gcc -std=c11 -O2 $warnings -pthread -Iinclude "examples/master/$name.c" examples/master/wire.c "$@" build/libzangjulf.a -o "$scratch/$name"
    report $? "the example $name isn't built"
}

# axes_beside_tools WORDS..: axes that keep their cycles while tools come, go and fail, on a simulated wire between two network
# namespaces, where these can be made. A run in which the machine woke the owner late too often is made again, twice at most
axes_beside_tools() {
    for try in 1 2 3; do
        timeout 60 "$scratch/changes" examples/own_tasks.toml "$@" >"$scratch/printed" 2>&1
        status=$?
        [ $status -eq 75 ] || break
    done
    [ $status -ne 77 ] || { cat "$scratch/printed"; return; }
    report_run $status "axes that lose a cycle while tools come, go and fail"
}

# callers_of_seats SHOWS EVERY: callers that do wrong, a line and eight seats that are closed in every so many-th order, a monitor that is
# preempted, and so many images that are shown at full speed
callers_of_seats() {
    edges seats "C callers of seats that do wrong" -fsanitize=address,undefined
    edges seats "growths refused to a C caller of seats" -DWRAPPED ci/embed/growths.c $wrapped
    compiled closings -fsanitize=address,undefined && timeout 2400 "$scratch/closings" "$2" >"$scratch/printed" 2>&1
    report_run $? "a line and eight seats that are closed"
    monitor
    seats_at_speed "$1" "tasks at full speed" -O2
    seats_at_speed 100000 "tasks at full speed, under the address sanitizer" -fsanitize=address,undefined
    export TSAN_OPTIONS=suppressions=examples/master/thread_sanitizer.txt
    seats_at_speed 100000 "tasks at full speed, under the thread sanitizer, but for calls of the library" -fsanitize=thread
}

# callers_in_c CALLS: players, callers that do wrong, the page's cycle, and so many drawn calls over each of two projects
callers_in_c() {
    compiled play ci/embed/words.c -fsanitize=address,undefined
    report $? "the C player isn't built"
    play C "$scratch/play"
    edges edges "C callers that do wrong" ci/embed/edges_line.c -fsanitize=address,undefined
    edges edges "growths refused to a C caller" -DWRAPPED ci/embed/edges_line.c ci/embed/growths.c $wrapped
    compiled steady ci/embed/growths.c $wrapped && timeout 60 "$scratch/steady" >"$scratch/printed"
    report_run $? "a cycle that takes memory"
    threads "threads that meet at one handle" -O2
    threads "threads that meet at one handle, under the address sanitizer" -fsanitize=address,undefined
    compiled gripper -fsanitize=address,undefined && timeout 60 "$scratch/gripper" examples/own_tasks.toml >"$scratch/printed"
    report_run $? "axes that keep their cycles while a tool comes, is silent and stays plugged"
    compiled_fuzz
    report $? "the caller that draws isn't built"
    for project in examples/tool_changer ci/embed/small_edits; do
        timeout 900 "$scratch/fuzz" $project.toml "$1" 1 >"$scratch/printed"
        report_run $? "$1 drawn calls from C over $project.toml"
    done
    master master
    master changes
    ! { has ip && has unshare; } || axes_beside_tools $changes
    master tasks examples/master/tool.c
    gcc -std=c11 -g -O1 $warnings -fsanitize=address,undefined -Iinclude examples/cycle/cycle.c build/libzangjulf.a -o "$scratch/cycle" &&
        timeout 60 "$scratch/cycle" examples/own_tasks.toml >"$scratch/printed" && diff examples/cycle/cycle.out "$scratch/printed"
    report_run $? "the cycle of docs/use/EMBEDDING.md: < is written, > is printed"
}

# callers_in_rust: the crate's player, and the examples in its pages
callers_in_rust() {
    export CARGO_TARGET_DIR=$scratch/target ZANGJULF_LIB_DIR=$PWD/build ZANGJULF_LAYOUT=$scratch/layout.txt
    cargo build --quiet --offline --release --manifest-path bindings/rust/Cargo.toml --example play >"$scratch/printed" 2>&1
    report_run $? "the Rust player isn't built"
    play Rust "$scratch/target/release/examples/play"
    cargo test --quiet --offline --manifest-path bindings/rust/Cargo.toml >"$scratch/printed" 2>&1
    report_run $? "an example in the crate's pages fails, or its structs are laid out in another way"
}

# callers_in_python: the package's player, what it refuses, threads that share a line, and the tools over the library
callers_in_python() {
    play Python python3 bindings/python/play.py
    timeout 60 python3 bindings/python/refusals.py examples/tool_changer.toml "$scratch/layout.txt" >"$scratch/printed" 2>&1
    report_run $? "what the Python package refuses, or how its structs are laid out"
    timeout 120 python3 bindings/python/sharing.py examples/own_tasks.toml >"$scratch/printed" 2>&1
    report_run $? "threads that share a line in Python"
    timeout 300 python3 -B ci/tools/main.py "${hotline:-crates/hotline/out/hotline}" live >"$scratch/printed" 2>&1
    report_run $? "sessions of tools/line and captures of tools/capture over the library"
}
