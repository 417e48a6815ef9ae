# What the benches share. A run.sh sets `here`, its own folder, and sources this: it makes the scratch folder, where the
# bench is proved. KIT is the toolchain's folder, if it is not /opt/rattle; with KEPT=1 the work that earlier checks kept in
# out/ is taken over.
kit=${KIT:-/opt/rattle}
top=$here/../..
scratch=$(mktemp -d)
trap 'rm -rf "$scratch"' EXIT
mkdir "$scratch/crates"
cp "$top/HANDLES" "$scratch/"

# take CRATE: takes a crate over, and the crates below it.
take() {
    [ -d "$top/crates/$1" ] && [ ! -e "$scratch/crates/$1" ] || return 0
    mkdir "$scratch/crates/$1"
    for part in src specs proofs ${KEPT:+out}; do
        [ ! -e "$top/crates/$1/$part" ] || cp -rp "$top/crates/$1/$part" "$scratch/crates/$1/"
    done
    grep -E "^$1[: ]" "$top/crates.txt" >> "$scratch/crates.txt"
    for below in $(sed -n "s/^$1[^:]*://p" "$top/crates.txt"); do
        take "$below"
    done
}

# crate LINE FOLDER: makes the bench's own crate, $own, of a folder with src/, specs/ and proofs/. The line is that of crates.txt.
# Rattle code ends in .rattle here, since the gate refuses other endings outside a crate.
crate() {
    own=$scratch/crates/${1%%[: ]*}
    echo "$1" >> "$scratch/crates.txt"
    for below in ${1#*:}; do
        take "$below"
    done
    mkdir "$own"
    (cd "$2" && find . -name '*.rattle') | while read -r file; do
        case $file in ./src/*) end=.rt ;; *) end=.antt ;; esac
        mkdir -p "$own/$(dirname "$file")"
        cp "$2/$file" "$own/${file%.rattle}$end"
    done
}

# build COMMAND..: builds the bench's own crate; if that fails, it prints what was said and ends.
build() {
    (cd "$own" && "$@" < /dev/null) > "$scratch/said" 2>&1 || {
        cat "$scratch/said"
        exit 1
    }
}

# plain WORD..: builds plain Rust for x86-64-v2, as what is proved is built.
plain() {
    rustc --edition 2024 -O -C target-cpu=x86-64-v2 "$@"
}

# measure: proves the library of the benches, links main.rs to it, counts the instructions of what it measures, and runs it.
# callgrind ends a part of its counts where the clock is read; the totals of the parts come through a pipe, since the parts are
# gigabytes.
measure() {
    crate 'library_bench staticlib: hc_records hc_project hc_registers hc_bits hc_places hc_frames hc_plan hc_events hc_core hc_segment libc' \
        "$top/bench/library"
    build rt lib
    plain "$here/main.rs" -o "$scratch/bench" -L "$own/out" -l static=library_bench -C link-arg="$kit/c/liblibc_c.a"
    mkfifo "$scratch/parts"
    sed -n 's/^totals: //p' < "$scratch/parts" > "$scratch/counts" &
    exec 3> "$scratch/parts"
    valgrind --tool=callgrind --combine-dumps=yes --dump-before='*clock_gettime*' \
        --callgrind-out-file="$scratch/parts" "$scratch/bench" --count > "$scratch/said" 2>&1 || {
        cat "$scratch/said"
        exit 1
    }
    exec 3>&-
    wait
    COUNTS="$scratch/counts" "$scratch/bench"
    echo "measured at $(git -C "$top" rev-parse --short HEAD)"
}
