#!/bin/sh
# Brings into the package what it takes from the repository, before `cargo package`, and takes it away behind.
#
#     rust/pack.sh [--clean]
#
# These are LICENSE, and in native/ for each target of prebuilt/ a folder with its archive libweedle.a: for x86_64-linux that
# of c/out/, where it is there, or else that of prebuilt/.
set -eu
[ "${1:-}" != --help ] || { sed -n '2,${/^#/!q;s/^# \{0,1\}//p}' "$0"; exit; }

here=$(cd "$(dirname "$0")" && pwd)
top=$(dirname "$here")
rm -rf "$here/LICENSE" "$here/native"
[ "${1:-}" != --clean ] || exit 0

mkdir -p "$here/native"
cp "$top/LICENSE" "$here/LICENSE"
for prebuilt in "$top"/prebuilt/*-linux; do
    target=$(basename "$prebuilt")
    archive=$prebuilt/libweedle.a
    if [ "$target" = x86_64-linux ] && [ -f "$top/c/out/libweedle.a" ]; then
        archive=$top/c/out/libweedle.a
    fi
    mkdir "$here/native/$target"
    cp "$archive" "$here/native/$target/libweedle.a"
done
