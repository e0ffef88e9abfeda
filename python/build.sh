#!/bin/sh
# Builds the shared object of the Python package anew: python/weedle/libweedle.so.
#
#     python/build.sh
#
# A built one stands in prebuilt/ already, and the package takes it where python/weedle has none. c/build.sh proves and
# builds the archive, and c/link_shared.sh links it. It needs the toolchain's command rt on PATH, and a C compiler: cc,
# or what CC names. A word behind the command goes on to `rt lib`, as --jobs 2.
set -eu
[ "${1:-}" != --help ] || { sed -n '2,${/^#/!q;s/^# \{0,1\}//p}' "$0"; exit; }

top=$(cd "$(dirname "$0")/.." && pwd)
"$top/c/build.sh" --target x86_64-linux "$@"
"$top/c/link_shared.sh" "$top/c/out/libweedle.a" "$top/python/weedle/libweedle.so"
echo "built $top/python/weedle/libweedle.so"
