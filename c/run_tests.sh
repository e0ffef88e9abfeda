#!/bin/sh
# Tests the C library that c/build.sh built, or where it built none the one in prebuilt/, and runs the examples in C
# and C++.
#
#     c/run_tests.sh [--target TARGET]
#
# The header is compiled by each standard; the tests run as they are, with sanitizers, and under valgrind, and with sanitizers
# over c/heap.c in the place of the toolchain's part that asks for memory. A compiler that is missing is an error, said in a
# line. CC, CXX and VALGRIND may name other commands. The large texts of the tests take 2 GB of memory and some seconds.
#
# TARGET is that of this machine's processor, as x86_64-linux, where none is named. What is for another one is compiled by
# Debian's compilers for it, as aarch64-linux-gnu-gcc, and run by qemu's user mode, as qemu-aarch64-static, with small texts
# and without sanitizers and valgrind. Where one of these commands or the library is missing a line says what was left out.
set -eu
[ "${1:-}" != --help ] || { sed -n '2,${/^#/!q;s/^# \{0,1\}//p}' "$0"; exit; }

top=$(cd "$(dirname "$0")/.." && pwd)
target=$(uname -m)-linux
[ "${1:-}" != --target ] || target=${2:-}
processor=${target%-linux}
out=$top/c/out
[ "$target" = x86_64-linux ] || out=$out/$target
folder=$out
[ -f "$folder/libweedle.a" ] || folder=$top/prebuilt/$target
library=$folder/libweedle.a
sample=$top/examples/pages.webidl
warnings="-Wall -Wextra -Wpedantic -Werror"
is_foreign=
[ "$processor" = "$(uname -m)" ] || is_foreign=yes

failed() {
    echo "run_tests.sh: $1" >&2
    exit 1
}

# Says that a command isn't there: it is an error, but of a foreign processor.
lacks() {
    [ -n "$is_foreign" ] || failed "there is no $1"
    echo "left out: the tests of the C library for $target, since there is no $1"
    exit
}

if [ -n "$is_foreign" ]; then
    CC=$processor-linux-gnu-gcc CXX=$processor-linux-gnu-g++
    emulator=qemu-$processor-static
    command -v "$emulator" >/dev/null || lacks "$emulator"
    # Where the loader and the C library for that processor are.
    export QEMU_LD_PREFIX="/usr/$processor-linux-gnu" WEEDLE_EMULATED=1
fi
[ -f "$library" ] || lacks "$library, and none in $out; c/build.sh builds it"
mkdir -p "$out"
echo "the library $library"
command -v "${CC:=cc}" >/dev/null || lacks "C compiler $CC"
command -v "${CXX:=c++}" >/dev/null || lacks "C++ compiler $CXX"
[ -n "$is_foreign" ] || command -v "${VALGRIND:=valgrind}" >/dev/null || failed "there is no $VALGRIND"

echo "the header, by each standard"
for standard in c99 c11 c17; do
    "$CC" -std=$standard $warnings -x c -fsyntax-only "$top/include/weedle.h"
done
for standard in c++98 c++11 c++17; do
    "$CXX" -std=$standard $warnings -x c++ -fsyntax-only "$top/include/weedle.h"
done

# The texts of tests/ that the calls with a dialect are given.
texts=$(mktemp -d)
trap 'rm -rf "$texts"' EXIT
python3 -m tarfile -e "$top/tests/tests.tar.xz" "$texts"

# Builds the programs of tests, with these flags more. All but the last refuse requests for memory, so their functions stand
# before the C library's own.
build_tests() {
    for name in test_weedle test_recovery test_dialects; do
        "$CC" -std=c11 $warnings "$@" -I"$top/include" -o "$out/$name" \
            "$top/c/tests/$name.c" "$library" -pthread -Wl,--wrap=malloc,--wrap=realloc
    done
    "$CC" -std=c11 $warnings "$@" -I"$top/include" -o "$out/test_hostile" \
        "$top/c/tests/test_hostile.c" "$library" -pthread
}

# Runs them, behind these words.
run_tests() {
    "$@" "$out/test_weedle"
    "$@" "$out/test_recovery"
    "$@" "$out/test_dialects" "$texts"/*.webidl
    "$@" "$out/test_hostile" "$top/tests/families.txt"
}

if [ -n "$is_foreign" ]; then
    echo "the tests, by $emulator"
    build_tests -O2
    run_tests env WEEDLE_SMALL=1 "$emulator"
else
    echo "the tests, with sanitizers"
    build_tests -g -O1 -fsanitize=address,undefined -fno-sanitize-recover=all
    run_tests env WEEDLE_SMALL=1 ASAN_OPTIONS=allocator_may_return_null=1
    echo "the tests over c/heap.c, with sanitizers"
    build_tests -g -O1 -fsanitize=address,undefined -fno-sanitize-recover=all "$top/c/heap.c"
    WEEDLE_SMALL=1 ASAN_OPTIONS=allocator_may_return_null=1 "$out/test_weedle"
    echo "the tests"
    build_tests -O2
    run_tests env
    echo "the tests, under valgrind"
    run_tests env WEEDLE_SMALL=1 "$VALGRIND" -q --error-exitcode=1 --leak-check=full
fi

echo "the examples"
"$CC" -std=c99 -O2 $warnings -I"$top/include" -o "$out/count_c" "$top/examples/c/count_interfaces.c" "$library"
"$CC" -std=c99 -O2 $warnings -I"$top/include" -o "$out/read_rule" "$top/examples/c/read_rule.c" "$library"
"$CXX" -std=c++11 -O2 $warnings -I"$top/include" -o "$out/count_cpp" \
    "$top/examples/cpp/count_interfaces.cpp" "$library"
# Runs an example.
run() {
    program=$1
    shift
    ${emulator:-} "$out/$program" "$@"
}

[ "$(run count_c "$sample")" = "$(printf 'Window\nStorage\n2 interfaces')" ] || failed "the example in C"
[ "$(run count_cpp <"$sample")" = "2 interfaces" ] || failed "the example in C++"
[ "$(run read_rule type "long? x" | sed -n '1p;$p')" = "$(printf 'type `long? `\nrest: x')" ] ||
    failed "the example of a rule in C"
refusal=$(run count_c "$top/crates/weedle_check/data/slip.webidl" 2>&1) && failed "the example in C reads a slip"
case $refusal in
*"slip.webidl:2:37: expected "*) ;;
*) failed "the example in C says otherwise: $refusal" ;;
esac
echo "all passed"
