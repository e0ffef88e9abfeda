#!/bin/sh
# Brings into the package what it takes from the repository, before `npm pack` and `npm publish`, and takes it away behind.
#
#     js/pack.sh [--clean]
#
# These are LICENSE, and in native/ weedle.h and for each target of prebuilt/ a folder with the addon weedle.node and the
# library libweedle.a, which builds one elsewhere. For x86_64-linux they are the built ones of js/ and c/out/, where they are
# there, or else those of prebuilt/.
set -eu
[ "${1:-}" != --help ] || { sed -n '2,${/^#/!q;s/^# \{0,1\}//p}' "$0"; exit; }

here=$(cd "$(dirname "$0")" && pwd)
top=$(dirname "$here")
rm -rf "$here/LICENSE" "$here/native/weedle.h" "$here"/native/*-linux
[ "${1:-}" != --clean ] || exit 0

# Copies the first of some files that is there.
bring() {
    out=$1
    shift
    for it in "$@"; do
        [ ! -f "$it" ] || { cp "$it" "$out"; return; }
    done
    echo "pack.sh: there is no $*" >&2
    exit 1
}

bring "$here/LICENSE" "$top/LICENSE"
bring "$here/native/weedle.h" "$top/include/weedle.h"
for prebuilt in "$top"/prebuilt/*-linux; do
    native=$here/native/$(basename "$prebuilt")
    mkdir -p "$native"
    case $native in
    */x86_64-linux)
        bring "$native/libweedle.a" "$top/c/out/libweedle.a" "$prebuilt/libweedle.a"
        bring "$native/weedle.node" "$here/weedle.node" "$prebuilt/weedle.node"
        ;;
    *)
        bring "$native/libweedle.a" "$prebuilt/libweedle.a"
        bring "$native/weedle.node" "$prebuilt/weedle.node"
        ;;
    esac
done
