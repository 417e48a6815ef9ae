#!/bin/sh
# Builds the library, its header and its bindings, and calls it from C, with the address and the undefined behaviour
# sanitizer, from C++, Rust and Python: players play examples/*.in, and what they print is compared with *.out, byte for byte.
# The C callers also try what a caller may do wrong, each growth of memory refused in turn, seats that are closed in every order, ten
# million images that are shown at full speed, a monitor that is preempted inside a view, and two million drawn calls. The cycle of docs/use/EMBEDDING.md and the examples
# in the pages of the Rust crate are run. A session of tools/line keeps its line in the library, and tools/capture simulates lines
# with its slaves. What drawn calls are answered is compared, byte for byte, with what the program hotline prints of the same
# commands; the comparison is shown wrong programs, wrong libraries and wrong models, and must find each. The library is installed
# below a folder, and programs outside the repository find it: in C by pkg-config and by CMake, in Rust by cargo, in Python by
# pip. Each target of packaging/release.sh is packed, and plays the examples on the processor that it is made for. A master and its
# slaves run for five seconds, and tools come, go and fail beside two axes, where network namespaces can be made; tshark reads a
# capture; where none can be made, that is said. What is missing is named, and counts as failed: ci/embed.packages has the Debian packages. The last line is 'N passed, M
# failed'. A word after its name is a program to be compared with in place of the built hotline.
#
# ci/embed.sh --short, which the gate runs, takes the callers alone, with 20,000 drawn calls, a tenth of the orders, a tenth of the
# images and fewer changes beside the axes: what gcc, g++, cargo and Python can see, in some three minutes over a built library.
set -u
cd "$(dirname "$0")/.."
scratch=$(mktemp -d)
trap 'rm -rf "$scratch"' EXIT
. packaging/version
. ci/embed/checks.sh
. ci/embed/callers.sh
. ci/embed/drawn.sh
. ci/embed/outside.sh
calls=2000000
shows=10000000
every=1
changes=
if [ "${1:-}" = --short ]; then
    calls=20000
    shows=1000000
    every=10
    changes="abcde 1000 short"
    shift
fi
hotline=${1:-crates/hotline/out/hotline}

# captured FILTER CAPTURE: how many frames of a capture tshark finds by a filter
captured() {
    tshark -r "$scratch/$2.pcap" -Y "$1" 2>"$scratch/tshark" | wc -l
}

# read_capture NAME: tshark reads the frames of a capture, 5,000 cycles as they are sent and as they return, and marks
# none malformed
read_capture() {
    [ "$(captured 'ecat.cmd == 12' "$1")" -eq 10000 ]
    report $? "tshark doesn't read the frames of 5,000 cycles in the capture of $1"
    [ "$(captured _ws.malformed "$1")" -eq 0 ]
    report $? "tshark reads a malformed frame in the capture of $1"
}

# read_malformed: tshark marks a frame that is malformed
read_malformed() {
    # a datagram of 16 bytes in a frame that ends after four of them
    echo "000000 ff ff ff ff ff ff 02 00 00 00 00 00 88 a4 1c 10 0c 00 00 00 00 01 10 00 00 00 01 02 03 04" |
        text2pcap -q - "$scratch/malformed.pcap" 2>"$scratch/tshark"
    tshark -r "$scratch/malformed.pcap" -Y _ws.malformed 2>"$scratch/tshark" | grep -q .
    report $? "tshark marks no malformed frame"
}

# soak: 100,000 cycles with a thread for each task, in which only openings and edits take memory
soak() {
    alone=-Wl,--wrap=malloc,--wrap=realloc,--wrap=zangjulf_open,--wrap=zangjulf_seat_open,--wrap=zangjulf_connect,--wrap=zangjulf_disconnect
    gcc -std=c11 -O2 $warnings -pthread -Iinclude examples/master/tasks.c examples/master/tool.c examples/master/wire.c \
        ci/embed/edits_alone.c $alone build/libzangjulf.a -o "$scratch/soak" &&
        timeout 120 "$scratch/soak" examples/own_tasks.toml 100000 5000 >"$scratch/printed"
    report_run $? "100,000 cycles with a thread for each task"
}

# masters: a master and its slaves, two processes, for five seconds; a master with a thread for each task; then the first in Python
masters() {
    timeout 60 "$scratch/master" examples/tool_changer.toml 5 1000 "$scratch/master.pcap"
    status=$?
    [ $status -ne 77 ] || return
    report $status "the master"
    timeout 60 "$scratch/tasks" examples/own_tasks.toml 5000 1000 >"$scratch/printed"
    report_run $? "a thread for each task"
    soak
    ! { has tshark && has text2pcap; } || { read_capture master; read_malformed; }
    timeout 60 unshare -n python3 examples/master/master.py examples/tool_changer.toml 5
    report $? "the master in Python"
}

packaging/version.sh >"$scratch/printed"
report_run $? "the version is told in two ways"
packaging/library.sh >"$scratch/printed" 2>&1
report_run $? "the library isn't built" || { finish; exit 1; }
! { has gcc && has g++; } || { header; callers_in_c $calls; callers_of_seats $shows $every; }
! has cargo || callers_in_rust
! has python3 || callers_in_python
if [ $calls -lt 2000000 ]; then
    finish
    exit
fi

[ -e $hotline ] || (cd crates/hotline && rt run <stdin) >"$scratch/printed" 2>&1
[ -e $hotline ]
report_run $? "the program isn't built"
ci/embed/races.sh >"$scratch/printed" 2>&1
report_run $? "the thread sanitizer over the library's own code"
! { has gcc && has rustc && rustc -O --edition 2021 -o "$scratch/wrong" compare/wrong_program.rs; } || compare_drawn
! { has gcc && has readelf; } || installed
! has cargo || rust_outside
! has python3 || python_outside
packaging/release.sh >"$scratch/printed" 2>&1
report_run $? "a release isn't made"
! { has gcc && has ip && has unshare; } || masters
finish
