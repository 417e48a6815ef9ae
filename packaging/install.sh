#!/bin/sh
# Installs the library below a folder: packaging/install.sh PREFIX [FOLDER]. The folder then has the header, the archive, the shared
# object, what pkg-config and CMake find it by, the verdict and the licences; the whole may be moved afterwards. The library is
# what packaging/library.sh has left in the folder, build/ if none is named. If there is none, nothing is installed and the status is 1.
# The version is in packaging/version.
set -eu
if [ $# -ne 1 ] && [ $# -ne 2 ]; then
    echo "usage: packaging/install.sh PREFIX [FOLDER]" >&2
    exit 2
fi
top=$(cd "$(dirname "$0")/.." && pwd)
folder=${2:-$top/build}
if [ ! -e "$folder/libzangjulf.so" ]; then
    echo "install: there is no library in $folder; packaging/library.sh builds it there" >&2
    exit 1
fi
folder=$(cd "$folder" && pwd)
mkdir -p "$1"
prefix=$(cd "$1" && pwd)
cd "$top"
. packaging/version
major=${version%%.*}
minor=${version#*.}
minor=${minor%%.*}

# filled TEMPLATE FILE: a file of packaging with the version in place
filled() {
    sed "s|@VERSION@|$version|; s|@MAJOR@|$major|; s|@MINOR@|$minor|; s|@ABI@|$abi|" "packaging/$1" >"$2"
}

cmake=$prefix/lib/cmake/Zangjulf
about=$prefix/share/doc/zangjulf
mkdir -p "$prefix/include" "$prefix/lib/pkgconfig" "$cmake" "$about"
cp include/zangjulf.h "$prefix/include/"
cp "$folder/libzangjulf.a" "$prefix/lib/"
cp "$folder/libzangjulf.so" "$prefix/lib/libzangjulf.so.$version"
ln -sf "libzangjulf.so.$version" "$prefix/lib/libzangjulf.so.$abi"
ln -sf "libzangjulf.so.$abi" "$prefix/lib/libzangjulf.so"
filled zangjulf.pc.in "$prefix/lib/pkgconfig/zangjulf.pc"
filled ZangjulfConfig.cmake.in "$cmake/ZangjulfConfig.cmake"
filled ZangjulfConfigVersion.cmake.in "$cmake/ZangjulfConfigVersion.cmake"
cp "$folder/verdict.txt" CHANGELOG.md LICENSE-MIT LICENSE-APACHE "$about/"
echo "zangjulf $version is installed below $prefix"
