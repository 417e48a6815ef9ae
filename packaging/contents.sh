# What a release has beside the installed library, for someone without the toolchain: pages, examples, the Rust crate, a wheel, the
# notices of the crates that are linked, a list of parts (SPDX) and checksums. packaging/release.sh reads it; `kit` is the Rattle kit,
# `version`, `commit` and `stamp` are the release's, `packed` is the folder that is packed.

# linked_below NAME: adds a crate of the kit and those that its library names to `linked`
linked_below() {
    case " $linked " in *" $1 "*) return ;; esac
    linked="$linked $1"
    for below in $(sed -n 's/^dep //p' "$kit/rlibs/$1.rlib/format"); do
        linked_below "$below"
    done
}

# linked_crates CRATES..: the crates of the kit that these crates of the repository use, in `linked`
linked_crates() {
    linked=
    for crate in "$@"; do
        for used in $(sed -n "s/^$crate\( [^:]*\)\{0,1\}: *//p" crates.txt); do
            [ -d "crates/$used" ] || linked_below "$used"
        done
    done
}

# licence_of CRATE: the licence in SPDX's words, by the notices that the kit has of a crate
licence_of() {
    case $(cd "$kit/rattle/$1" && echo LICENSE*) in
    "LICENSE-APACHE LICENSE-MIT") echo "MIT OR Apache-2.0" ;;
    LICENSE-MIT) echo MIT ;;
    LICENSE-UNICODE) echo Unicode-3.0 ;;
    *) echo NOASSERTION ;;
    esac
}

# version_of CRATE: the version that a crate of the kit says that it follows, or none
version_of() {
    [ ! -e "$kit/rattle/$1/README.md" ] || sed -n "s/.*\`$1\` \([0-9][0-9.]*[0-9]\).*/\1/p" "$kit/rattle/$1/README.md" | head -n 1
}

# part NAME VERSION LICENCE: a part of the list
part() {
    echo
    echo "PackageName: $1"
    echo "SPDXID: SPDXRef-Package-$(echo "$1" | tr _ -)"
    [ -z "$2" ] || echo "PackageVersion: $2"
    echo "PackageDownloadLocation: NOASSERTION"
    echo "FilesAnalyzed: false"
    echo "PackageLicenseConcluded: NOASSERTION"
    echo "PackageLicenseDeclared: $3"
    echo "PackageCopyrightText: NOASSERTION"
}

# parts TARGET: the list of parts, in SPDX's form of tags and values
parts() {
    echo "SPDXVersion: SPDX-2.3"
    echo "DataLicense: CC0-1.0"
    echo "SPDXID: SPDXRef-DOCUMENT"
    echo "DocumentName: zangjulf-$version-$1-linux-gnu"
    echo "DocumentNamespace: https://zangjulf.example/spdx/$version/$1/${commit%% *}"
    echo "Creator: Tool: zangjulf-packaging/release.sh"
    echo "Created: $(date -u -d "@$stamp" +%Y-%m-%dT%H:%M:%SZ)"
    part zangjulf "$version" "MIT OR Apache-2.0"
    for crate in $linked; do
        part "$crate" "$(version_of "$crate")" "$(licence_of "$crate")"
    done
    echo
    echo "Relationship: SPDXRef-DOCUMENT DESCRIBES SPDXRef-Package-zangjulf"
    for crate in $linked; do
        echo "Relationship: SPDXRef-Package-zangjulf STATIC_LINK SPDXRef-Package-$(echo "$crate" | tr _ -)"
    done
}

# notices: the notices of the linked crates, each in a folder of its own
notices() {
    for crate in $linked; do
        for notice in "$kit/rattle/$crate"/LICENSE*; do
            [ ! -e "$notice" ] || { mkdir -p "$1/$crate" && cp "$notice" "$1/$crate/"; }
        done
    done
}

# wheel FOLDER MACHINE: the Python wheel with the library of a folder, for a machine, in the folder that is packed
wheel() {
    mkdir -p "$packed/share/zangjulf/python"
    (cd bindings/python && ZANGJULF_LIBRARY=$1/libzangjulf.so SOURCE_DATE_EPOCH=$stamp _PYTHON_HOST_PLATFORM=linux-$2 \
        python3 -B -c "import backend; backend.build_wheel('$packed/share/zangjulf/python')")
}

# contents TARGET FOLDER CRATES..: all of it; the library lies in the folder, and is made of these crates
contents() {
    target=$1 library=$2
    shift 2
    mkdir -p "$packed/share/zangjulf"
    git ls-files README.md CHANGELOG.md docs examples bindings/rust bindings/python/player.py bindings/python/play.py |
        tar -c --owner=0 --group=0 --numeric-owner -T - | tar -x -C "$packed/share/zangjulf"
    linked_crates "$@"
    notices "$packed/share/doc/zangjulf/notices"
    parts "$target" >"$packed/share/doc/zangjulf/zangjulf.spdx"
    wheel "$library" "${target%-v2}"
    # the last, since it is of all others
    (cd "$packed" && find . -type f ! -name SHA256SUMS -print0 | LC_ALL=C sort -z | xargs -0 sha256sum >share/doc/zangjulf/SHA256SUMS)
}

# build_packed NAME: each example is built in an empty folder from what an archive has, and runs if it is made for this machine
build_packed() {
    given=$unpacked/$1/share/zangjulf
    (cd "$unpacked/$1" && sha256sum --check --quiet share/doc/zangjulf/SHA256SUMS) >"$scratch/printed" 2>&1
    report_run $? "$1: a file has another checksum"
    grep -q '^PackageName: toml$' "$unpacked/$1/share/doc/zangjulf/zangjulf.spdx" && [ -e "$unpacked/$1/share/doc/zangjulf/notices/rtrb/LICENSE-MIT" ]
    report $? "$1: a linked crate is in no list, or has no notice"
    empty=$scratch/empty
    rm -rf "$empty"
    mkdir "$empty"
    for files in cycle/cycle.c "master/master.c master/wire.c" "master/changes.c master/wire.c" \
        "master/tasks.c master/wire.c master/tool.c"; do
        first=$(basename "${files%%.c*}")
        (cd "$given/examples" && $cc -std=c11 -O2 -Wall -Wextra -Werror -pthread $files $(pkg-config --cflags zangjulf) \
            "$unpacked/$1/lib/libzangjulf.a" -o "$empty/$first") >"$scratch/printed" 2>&1
        report_run $? "$1: the example $first isn't built from the archive"
    done
    [ "$cc" = gcc ] || return 0
    (cd "$empty" && ./cycle "$given/examples/own_tasks.toml") >"$scratch/printed" 2>&1 && diff "$given/examples/cycle/cycle.out" "$scratch/printed"
    report $? "$1: the cycle from the archive prints something else"
    (cd "$given/bindings/rust" && CARGO_TARGET_DIR=$empty/target cargo run --quiet --offline --example play) \
        <"$given/examples/tool_changer.in" >"$scratch/printed" 2>&1 && diff "$given/examples/tool_changer.out" "$scratch/printed"
    report $? "$1: the example of the Rust crate isn't built from the archive, or prints something else"
    python3 -m venv "$empty/venv" && "$empty/venv/bin/pip" install --quiet --no-index --disable-pip-version-check "$given"/python/*.whl &&
        "$empty/venv/bin/python" "$given/bindings/python/play.py" <"$given/examples/tool_changer.in" >"$scratch/printed" 2>&1 &&
        diff "$given/examples/tool_changer.out" "$scratch/printed"
    report $? "$1: the wheel isn't installed from the archive, or answers something else"
}
