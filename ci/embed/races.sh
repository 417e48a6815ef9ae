#!/bin/sh
# Looks for races in the library's own code: gcc's thread sanitizer sees only what it has instrumented, and the library is made
# by the kit. So the kit's clang is stood in for by a script that also keeps the LLVM module of the library; the module is
# instrumented and linked with two callers, which must run with no report: threads that meet at one handle (threads.c), and tasks at
# their seats (seat_threads.c). Then the same with the order of the library's atomic steps taken away, which must be reported. It
# builds over the libraries that `rt lib` has left in crates/.
#   ci/embed/races.sh
set -eu
cd "$(dirname "$0")/../.."
kit=$(dirname "$(dirname "$(readlink -f "$(command -v rt)")")")
scratch=$(mktemp -d)
trap 'rm -rf "$scratch"' EXIT

# a toolchain that keeps the module
mkdir -p "$scratch/toolchain/bin"
ln -s "$kit/toolchain/lib" "$scratch/toolchain/lib"
for tool in "$kit"/toolchain/bin/*; do
    [ "$(basename "$tool")" = clang ] || ln -s "$tool" "$scratch/toolchain/bin/"
done
cat >"$scratch/toolchain/bin/clang" <<END
#!/bin/sh
for word in "\$@"; do
    case \$word in *.bc) cp "\$word" "$scratch/module.bc" ;; esac
done
exec "$kit/toolchain/bin/clang" "\$@"
END
chmod +x "$scratch/toolchain/bin/clang"

# the library by it
cd crates/hc_c
set -- --crate-name hc_c src/lib.rt --crate-type staticlib --links hc_c= -L "dependency=$kit/rlibs"
for library in std $(sed -n 's/^hc_c staticlib: *//p' ../../crates.txt); do
    place=$kit/rlibs/$library.rlib
    [ ! -d "../$library" ] || place=../$library/out/rlib/$library.rlib
    set -- "$@" --extern "$library=$place"
done
for folder in ../*/out/rlib; do
    set -- "$@" -L "dependency=$folder"
done
"$kit/bin/rattle" build "$@" --antt-project "$kit/rattle/logic/antt-project.json" --logic-built "$kit/logic_built" --jobs 1 \
    --incremental out/incremental --toolchain "$scratch/toolchain" --backend llvm -o "$scratch/library.a" >"$scratch/log" 2>&1 ||
    { tail -n 20 "$scratch/log"; exit 1; }
cd ../..

# instrumented, with its orders and without
clang="$kit/toolchain/bin/clang --target=x86_64-unknown-linux-gnu -Wno-override-module"
$clang -x ir "$scratch/module.bc" -S -emit-llvm -O0 -o "$scratch/module.ll"
sed 's/^\(attributes #[0-9]* = { .*\)nounwind/\1nounwind sanitize_thread/' "$scratch/module.ll" >"$scratch/ordered.ll"
sed '/atomicrmw\|cmpxchg\|load atomic\|store atomic/s/seq_cst/monotonic/g' "$scratch/ordered.ll" >"$scratch/unordered.ll"
for form in ordered unordered; do
    $clang -fsanitize=thread -O1 -fPIC -c -x ir "$scratch/$form.ll" -o "$scratch/$form.o"
    objcopy --redefine-sym __tsan_memcpy=memcpy --redefine-sym __tsan_memmove=memmove --redefine-sym __tsan_memset=memset \
        "$scratch/$form.o"
    for caller in threads seat_threads; do
        gcc -std=c11 -D_POSIX_C_SOURCE=200809L -O1 -g -pthread -fsanitize=thread -Iinclude "ci/embed/$caller.c" \
            "$scratch/$form.o" "$kit/c/liblibc_c.a" -o "$scratch/$form.$caller"
    done
done

# races CALLER WORD: none with the orders, and some without. On a busy machine the threads may not meet, so both are run again, ten
# times at most, until one is reported without the orders.
races() {
    for run in 1 2 3 4 5 6 7 8 9 10; do
        timeout 300 "$scratch/ordered.$1" "$2" || { echo "races: $1 is reported"; exit 1; }
        timeout 300 "$scratch/unordered.$1" "$2" >"$scratch/reports" 2>&1 || true
        count=$(grep -c 'WARNING: ThreadSanitizer' "$scratch/reports" || true)
        [ "$count" -eq 0 ] || break
    done
    echo "races: $1, none in the library in run $run; without the order of its atomic steps $count are reported"
    [ "$count" -gt 0 ]
}
races threads examples/tool_changer.toml
races seat_threads 100000
