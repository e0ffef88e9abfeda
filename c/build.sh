#!/bin/sh
# Builds the C library anew: c/out/libweedle.a, all that a program has to be linked with.
#
#     c/build.sh [--target TARGET]
#
# A built one stands in prebuilt/ already. c/prove.sh proves and builds the crate weedle_c, and c/join.sh joins its
# archive with the part in C that asks for memory. It is for every x86-64 processor, as the one in prebuilt/ is. Then the
# same is done for aarch64: c/out/aarch64-linux/libweedle.a. With --target x86_64-linux or aarch64-linux one of them is built
# alone. A word behind goes on to `rt lib`, as --jobs 2; --cpu x86-64-v3, for newer processors alone, wants --target.
set -eu
[ "${1:-}" != --help ] || { sed -n '2,${/^#/!q;s/^# \{0,1\}//p}' "$0"; exit; }

top=$(cd "$(dirname "$0")/.." && pwd)
targets="x86_64-linux aarch64-linux"
[ "${1:-}" != --target ] || { targets=${2:-}; shift 2; }

for target in $targets; do
    out=$top/c/out/$target
    [ "$target" != x86_64-linux ] || out=$top/c/out
    "$top/c/prove.sh" --target "$target" "$@"
    "$top/c/join.sh" --target "$target" "$top/crates/weedle_c/out/libweedle_c.a" "$out/libweedle.a"
    echo "built $out/libweedle.a"
done
