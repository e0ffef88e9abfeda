#!/bin/sh
# Packs the library for C as it stands in prebuilt/: header, archive, shared object, weedle.pc, examples and a Makefile.
#
#     c/pack.sh [--target TARGET] FOLDER
#
# It writes FOLDER/libweedle-VERSION-TARGET.tar.gz, with the same bytes each time, and prints that name. TARGET is a folder
# of prebuilt/: x86_64-linux where none is named. What is unpacked serves as it is, by pkg-config, and `make install`
# installs it. It needs GNU tar.
set -eu
[ "${1:-}" != --help ] || { sed -n '2,${/^#/!q;s/^# \{0,1\}//p}' "$0"; exit; }

failed() {
    echo "pack.sh: $1" >&2
    exit 1
}

target=x86_64-linux
[ "${1:-}" != --target ] || { target=${2:-}; shift 2; }
[ $# = 1 ] || failed "usage: c/pack.sh [--target TARGET] FOLDER"
[ -d "$1" ] || failed "there is no folder $1"
out=$(cd "$1" && pwd)
top=$(cd "$(dirname "$0")/.." && pwd)
built=$top/prebuilt/$target
version=$(sed -n 's/^# weedle //p' "$built/SUMS")
[ -n "$version" ] || failed "$built/SUMS names no version"
processor=${target%-linux}
[ "$processor" != x86_64 ] || processor=x86-64
soname=libweedle.so.${version%.*}
name=libweedle-$version-$target
room=$(mktemp -d)
trap 'rm -rf "$room"' EXIT
package=$room/$name

# Copies a text of c/package/, with the version put in.
fill() {
    sed -e "s/@VERSION@/$version/g" -e "s/@SONAME@/$soname/g" -e "s/@PROCESSOR@/$processor/g" "$top/c/package/$1" >"$2"
}

mkdir -p "$package/include" "$package/lib/pkgconfig" "$package/examples"
fill Makefile "$package/Makefile"
fill README.md "$package/README.md"
fill weedle.pc "$package/lib/pkgconfig/weedle.pc"
cp "$top/LICENSE" "$package/LICENSE"
cp "$top/include/weedle.h" "$package/include/weedle.h"
cp "$top"/examples/c/*.c "$package/examples"
cp "$built/libweedle.a" "$package/lib/libweedle.a"
cp "$built/libweedle.so" "$package/lib/libweedle.so.$version"
ln -s "libweedle.so.$version" "$package/lib/$soname"
ln -s "$soname" "$package/lib/libweedle.so"
find "$package" -type f -exec chmod 644 {} +
find "$package" -type d -exec chmod 755 {} +
tar -C "$room" --sort=name --mtime=@0 --owner=0 --group=0 --numeric-owner -cf - "$name" | gzip -9n >"$out/$name.tar.gz"
echo "$name.tar.gz"
