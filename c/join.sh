#!/bin/sh
# Joins the archive that `rt lib` builds of the crate weedle_c with the part in C that asks for memory.
#
#     c/join.sh [--target TARGET] ARCHIVE OUT
#
# OUT is libweedle.a, all that a program has to be linked with. TARGET is x86_64-linux, where none is named, for which the
# toolchain has that part built, or aarch64-linux, for which the toolchain's own clang compiles c/heap.c. The toolchain's
# own archiver writes it, so the same kit gives the same bytes on each machine.
set -eu
[ "${1:-}" != --help ] || { sed -n '2,${/^#/!q;s/^# \{0,1\}//p}' "$0"; exit; }

failed() {
    echo "join.sh: $1" >&2
    exit 1
}

target=x86_64-linux
[ "${1:-}" != --target ] || { target=${2:-}; shift 2; }
[ $# = 2 ] || failed "usage: c/join.sh [--target TARGET] ARCHIVE OUT"
[ -f "$1" ] || failed "there is no $1"
command -v rt >/dev/null || failed "the toolchain's command rt isn't on PATH"
kit=$(dirname "$(rt doc)")
here=$(cd "$(dirname "$0")" && pwd)
for file in c/liblibc_c.a toolchain/bin/llvm-ar toolchain/bin/clang; do
    [ -f "$kit/$file" ] || failed "the toolchain has no $kit/$file"
done

room=$(mktemp -d)
trap 'rm -rf "$room"' EXIT
cp "$1" "$room/crate.a"
case $target in
x86_64-linux) cp "$kit/c/liblibc_c.a" "$room/part.a" ;;
aarch64-linux)
    cp "$here/heap.c" "$room/heap.c"
    (cd "$room" &&
        "$kit/toolchain/bin/clang" --target=aarch64-unknown-linux-gnu -std=c11 -O2 -fPIC -ffreestanding -c heap.c &&
        "$kit/toolchain/bin/llvm-ar" rcD part.a heap.o)
    ;;
*) failed "there is no target $target" ;;
esac
(cd "$room" && printf 'create whole.a\naddlib crate.a\naddlib part.a\nsave\nend\n' | "$kit/toolchain/bin/llvm-ar" -M)
mkdir -p "$(dirname "$2")"
cp "$room/whole.a" "$2"
