#!/bin/sh
# Compares the version and the number of the binary interface in packaging/version with each place that has them: header,
# library, Rust crate and changelog. The Python package and what is installed take them from there. The last line is
# 'N passed, M failed'.
set -u
cd "$(dirname "$0")/.."
. packaging/version
passed=0
failed=0

# has_line FILE LINE: whether the file has exactly this line
has_line() {
    if grep -qxF -e "$2" "$1"; then
        passed=$((passed + 1))
    else
        echo "version: $1 hasn't the line: $2"
        failed=$((failed + 1))
    fi
}

# numbers FORM FILE: the three numbers of the version, each in a line of a form
numbers() {
    rest=$version.
    for name in MAJOR MINOR PATCH; do
        has_line "$2" "$(printf "$1" "$name" "${rest%%.*}")"
        rest=${rest#*.}
    done
}

has_line include/zangjulf.h "#define ZANGJULF_VERSION \"$version\""
numbers '#define ZANGJULF_VERSION_%s %s' include/zangjulf.h
has_line include/zangjulf.h "#define ZANGJULF_ABI $abi"
numbers 'pub const %s: u32 = %s;' crates/hc_c/src/version.rt
has_line crates/hc_c/src/version.rt "pub const ABI: u32 = $abi;"
has_line bindings/rust/Cargo.toml "version = \"$version\""
has_line bindings/rust/Cargo.lock "version = \"$version\""
has_line bindings/rust/src/ffi.rs "pub const ABI: u32 = $abi;"
has_line bindings/python/zangjulf/library.py "ABI = $abi"
grep -qE "^## $version( |\$)" CHANGELOG.md
if [ $? -eq 0 ]; then
    passed=$((passed + 1))
else
    echo "version: CHANGELOG.md has no section $version"
    failed=$((failed + 1))
fi
echo "$passed passed, $failed failed"
[ "$passed" -gt 0 ] && [ "$failed" -eq 0 ]
