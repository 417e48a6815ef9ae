# The installed library, found by programs outside the repository; for ci/embed.sh, which reads checks.sh first.

# by_pkg_config: a C program in an empty folder that finds the library by pkg-config
by_pkg_config() {
    (cd "$outside" && export PKG_CONFIG_PATH="$scratch/prefix/lib/pkgconfig" &&
        gcc -std=c11 -Wall -Wextra -Werror play.c words.c $(pkg-config --cflags --libs zangjulf) -o by_pkg_config)
    report $? "no C program is built by pkg-config"
    play "C by pkg-config" env LD_LIBRARY_PATH="$scratch/prefix/lib" "$outside/by_pkg_config"
    [ "$(PKG_CONFIG_PATH="$scratch/prefix/lib/pkgconfig" pkg-config --modversion zangjulf)" = "$version" ]
    report $? "pkg-config tells another version than $version"
}

# by_cmake: likewise by CMake, the shared library and the archive; a version that is too new isn't found
by_cmake() {
    cat >"$outside/CMakeLists.txt" <<END
cmake_minimum_required(VERSION 3.16)
project(outside C)
find_package(Zangjulf 0.2 REQUIRED)
find_package(Zangjulf 99 QUIET)
if(Zangjulf_FOUND)
    message(FATAL_ERROR "version 99 is found")
endif()
add_executable(shared play.c words.c)
target_link_libraries(shared Zangjulf::zangjulf)
add_executable(archive play.c words.c)
target_link_libraries(archive Zangjulf::static)
END
    (cd "$outside" && cmake -B made -DCMAKE_PREFIX_PATH="$scratch/prefix" . && cmake --build made) >"$scratch/printed" 2>&1
    report_run $? "no C program is built by CMake"
    play "C by CMake" "$outside/made/shared"
    play "C by CMake, the archive" "$outside/made/archive"
}

# installed: the library below a folder of its own, which is moved then, and C programs that find it there in two ways
installed() {
    outside=$scratch/outside
    mkdir "$outside"
    packaging/install.sh "$scratch/before" >"$scratch/printed" 2>&1
    report_run $? "the library isn't installed"
    mv "$scratch/before" "$scratch/prefix"
    readelf -d "$scratch/prefix/lib/libzangjulf.so" | grep -q "soname: \[libzangjulf.so.$abi\]"
    report $? "the shared object has another name than libzangjulf.so.$abi"
    ! nm -D --defined-only "$scratch/prefix/lib/libzangjulf.so" | grep -v " A ZANGJULF_$abi\$" | grep -qv ' zangjulf_'
    report $? "the shared object exports more than the header's calls"
    cp ci/embed/play.c ci/embed/words.c ci/embed/words.h ci/embed/ignore.h "$outside/"
    ! has pkg-config || by_pkg_config
    ! { has cmake && has make; } || by_cmake
}

# rust_outside: the crate's pages; a project in an empty folder that finds the installed library
rust_outside() {
    export CARGO_TARGET_DIR=$scratch/target
    RUSTDOCFLAGS='-D warnings' cargo doc --quiet --offline --no-deps --manifest-path bindings/rust/Cargo.toml >"$scratch/printed" 2>&1
    report_run $? "cargo doc warns"
    mkdir -p "$scratch/rust/src"
    cp bindings/rust/examples/play.rs "$scratch/rust/src/main.rs"
    cat >"$scratch/rust/Cargo.toml" <<END
[package]
name = "outside"
version = "0.0.0"
edition = "2021"

[dependencies]
zangjulf = { path = "$PWD/bindings/rust" }
END
    (cd "$scratch/rust" && env -u ZANGJULF_LIB_DIR PKG_CONFIG_PATH="$scratch/prefix/lib/pkgconfig" \
        cargo build --quiet --offline --release) >"$scratch/printed" 2>&1
    report_run $? "no Rust program is built outside the repository"
    play "Rust outside the repository" "$scratch/target/release/outside"
}

# python_outside: the package, installed by pip without a network into an environment of its own; without a library it isn't
python_outside() {
    pip="$scratch/venv/bin/pip install --quiet --no-index --disable-pip-version-check ./bindings/python"
    python3 -m venv "$scratch/venv" >"$scratch/printed" 2>&1 && ! ZANGJULF_LIBRARY=$scratch/none $pip >>"$scratch/printed" 2>&1 &&
        grep -q "zangjulf: $scratch/none is missing: run packaging/library.sh first" "$scratch/printed"
    report_run $? "pip installs the package without a library, or does not say how to build it"
    $pip >"$scratch/printed" 2>&1
    report_run $? "pip doesn't install the package"
    mkdir "$scratch/python"
    cp bindings/python/play.py bindings/python/player.py "$scratch/python/"
    play "Python outside the repository" "$scratch/venv/bin/python" "$scratch/python/play.py"
    (cd "$scratch/python" && "$scratch/venv/bin/python" -m zangjulf) >"$scratch/printed"
    grep -qx "zangjulf $version" "$scratch/printed" && grep -q "^library $scratch/venv/" "$scratch/printed" &&
        grep -q '^logic=proved ' "$scratch/printed"
    report_run $? "python -m zangjulf tells another version, another library than the installed one, or no verdict"
}
