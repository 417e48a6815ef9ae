#!/bin/sh
# Makes a release: packaging/release.sh [--log LOG] [TARGET..], of all targets where none is named (packaging/library.sh has them). For
# each target build/release/ then has an archive with what packaging/install.sh installs, the verdict, the checksums of the sources and
# a page with the commands that check them, and what packaging/contents.sh adds; SHA256SUMS has the archives' checksums. What is in
# an archive plays examples/*.in, linked from the static library and from the shared one, on the processor that it is made for: aarch64
# and the first x86-64 by qemu. Each example is built from it in an empty folder. Made twice, it is the same byte for byte. It wants what packaging/library.sh wants, qemu-user and pkg-config (ci/embed.packages). What is missing is named, and
# counts as failed. The last line is 'N passed, M failed'.
#
# LOG is what `rt ci --anew` printed of these sources: the verdicts of the crates below the library are then its lines, by which
# nothing was taken from an earlier check. Without one each crate is checked over what earlier checks have left.
set -u
cd "$(dirname "$0")/.."
scratch=$(mktemp -d)
trap 'rm -rf "$scratch"' EXIT
. ci/embed/checks.sh
. packaging/version
. packaging/contents.sh
kit=$(dirname "$(dirname "$(readlink -f "$(command -v rt)")")")
stamp=$(git log -1 --format=%ct)
release=$PWD/build/release
mkdir -p "$release"

# below CRATE: the crate and those that it uses, of this repository
below() {
    for name in $(sed -n "s/^$1\( [^:]*\)\{0,1\}: *//p" crates.txt); do
        [ ! -d "crates/$name" ] || below "$name"
    done
    echo "$1"
}

# target TARGET: sets what differs between targets; the first processors of x86-64 have no SSSE3, SSE4 and POPCNT
target() {
    cc=gcc ar=ar run=
    case $1 in
    x86_64) processors="every processor of x86-64" run="qemu-x86_64 -cpu qemu64" ;;
    x86_64-v2) processors="processors of x86-64-v2, with SSE4.2 and POPCNT (since about 2009)" ;;
    aarch64) processors="every 64-bit processor of ARM" cc=aarch64-linux-gnu-gcc ar=aarch64-linux-gnu-ar run="qemu-aarch64 -L /usr/aarch64-linux-gnu" ;;
    *) return 1 ;;
    esac
}

# verdict_of CRATE: the last line of its check, in the log where one is named, else of a check now
verdict_of() {
    if [ -n "$log" ]; then
        awk -v crate="$1" '/^== /{name = $2} /^logic=proved/ && name == crate' "$log" >"$scratch/printed"
    else
        (cd "crates/$1" && rt check) >"$scratch/printed" 2>&1
    fi
    report_run $? "$1 isn't proved"
    echo "$1: $(grep '^logic=proved' "$scratch/printed" | tail -n 1)"
}

# proved_crates: the verdict of each crate that the library uses
proved_crates() {
    for name in $(below hc_c | awk '!seen[$0]++' | grep -vx hc_c); do
        verdict_of "$name"
    done >"$release/verdicts.txt"
    ! grep -v ': logic=proved' "$release/verdicts.txt"
    report $? "a crate has no verdict"
}

# sources: the checksums of all that the library is made of
sources() {
    git ls-files $(below hc_c | sed 's|^|crates/|' | sort -u) crates.txt HANDLES include packaging/library.sh packaging/install.sh packaging |
        xargs -d '\n' sha256sum >"$release/sources.sha256"
    report $? "a source has no checksum"
}

# documents TARGET: the verdict and the page, in the folder that is packed
documents() {
    about=$packed/share/doc/zangjulf
    objects=$scratch/objects
    rm -rf "$objects"
    mkdir "$objects"
    (cd "$objects" && $ar x "$packed/lib/libzangjulf.a")
    {
        echo "kit $(rt version)"
        echo "commit $commit"
        echo "target $1"
        sed 's/^/hc_c: /' "$release/$1/verdict.txt"
        cat "$release/verdicts.txt"
        (cd "$objects" && sha256sum -- *.o)
        (cd "$packed" && sha256sum lib/libzangjulf.a "lib/libzangjulf.so.$version" include/zangjulf.h)
    } >"$about/verdict.txt"
    cp "$release/sources.sha256" "$about/"
    sed "s|@VERSION@|$version|g; s|@TARGET@|$1|g; s|@PROCESSORS@|$processors|; s|@COMMIT@|$commit|; s|@KIT@|$(rt version)|; s|@AR@|$ar|" \
        packaging/CHECK.md.in >"$about/CHECK.md"
}

# play_packed: what is in the archive, unpacked at another place, plays the examples
play_packed() {
    unpacked=$scratch/unpacked
    rm -rf "$unpacked"
    mkdir "$unpacked"
    tar -xzf "$release/$name.tar.gz" -C "$unpacked"
    export PKG_CONFIG_PATH="$unpacked/$name/lib/pkgconfig"
    flags="-std=c11 -O2 -Wall -Wextra -Werror ci/embed/play.c ci/embed/words.c $(pkg-config --cflags zangjulf)"
    $cc $flags "$unpacked/$name/lib/libzangjulf.a" -o "$scratch/static_$1"
    report $? "$1: no player is linked from the archive"
    play "$1, linked" $run "$scratch/static_$1"
    $cc $flags $(pkg-config --libs zangjulf) -Wl,-rpath,"$unpacked/$name/lib" -o "$scratch/shared_$1"
    report $? "$1: no player is linked with the shared object"
    play "$1, loaded" $run "$scratch/shared_$1"
}

# pack TARGET
pack() {
    name=zangjulf-$version-$1-linux-gnu
    packed=$release/$name
    rm -rf "$packed"
    packaging/library.sh "$1" "$release/$1" >"$scratch/printed" 2>&1
    report_run $? "the library for $1 isn't built" || return
    packaging/install.sh "$packed" "$release/$1" >"$scratch/printed" 2>&1
    report_run $? "the library for $1 isn't installed" || return
    documents "$1"
    contents "$1" "$release/$1" $(below hc_c | sort -u) >"$scratch/printed" 2>&1
    report_run $? "$1: the pages, examples, wheel, notices or lists aren't packed"
    grep -q '^hc_c: logic=proved ' "$packed/share/doc/zangjulf/verdict.txt"
    report $? "$1: the verdict doesn't say that the library is proved"
    archive >"$release/$name.tar.gz"
    report $? "$1: no archive is packed"
    play_packed "$1"
    build_packed "$name"
    repeat "$1"
    rm -rf "$packed"
}

# archive: the folder as an archive, which is the same for the same files
archive() {
    tar --sort=name --owner=0 --group=0 --numeric-owner --mode=u+rw,go+r,go-w --mtime="@$stamp" -C "$release" -c "$name" | gzip -n9
}

# repeat TARGET: built and packed once more, the archive is the same, byte for byte
repeat() {
    rm -rf "$packed"
    packaging/library.sh "$1" "$release/$1" >"$scratch/printed" 2>&1 && packaging/install.sh "$packed" "$release/$1" >>"$scratch/printed" 2>&1 &&
        documents "$1" && contents "$1" "$release/$1" $(below hc_c | sort -u) >>"$scratch/printed" 2>&1 &&
        archive | cmp - "$release/$name.tar.gz" >>"$scratch/printed" 2>&1
    report_run $? "$1: built twice, the archive is another one"
}

# refuse_first_processor: what is built for later processors doesn't run on the first ones, so that running there shows something
refuse_first_processor() {
    [ -e "$scratch/static_x86_64" ] && [ -e "$scratch/static_x86_64-v2" ] || return
    sh -c '"$@"; exit $?' - qemu-x86_64 -cpu qemu64 "$scratch/static_x86_64-v2" <examples/tool_changer.in >"$scratch/printed" 2>&1
    [ $? -gt 128 ]
    report $? "what is built for x86-64-v2 runs on the first processors too"
}

log=
if [ "${1:-}" = --log ]; then
    log=$2
    shift 2
fi
commit=$(git rev-parse HEAD)
git diff --quiet HEAD || commit="$commit and changes that aren't committed"
[ $# -gt 0 ] || set -- x86_64 x86_64-v2 aarch64
sources
proved_crates
for word in "$@"; do
    target "$word"
    report $? "$word is no target" || continue
    needed=true
    for command in $cc $ar ${run%% *} pkg-config; do
        has "$command" || needed=false
    done
    ! $needed || pack "$word"
done
! command -v qemu-x86_64 >/dev/null || refuse_first_processor
(cd "$release" && sha256sum -- *.tar.gz >SHA256SUMS)
finish
