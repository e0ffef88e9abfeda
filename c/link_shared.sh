#!/bin/sh
# Links the shared object libweedle.so from the archive libweedle.a.
#
#     c/link_shared.sh ARCHIVE OUT
#
# It exports the calls of include/weedle.h and nothing else. Its soname has the first two numbers of that header's
# version, as libweedle.so.0.11: a program that is linked with it loads no other. It needs a C compiler: cc, or what CC
# names.
set -eu
[ "${1:-}" != --help ] || { sed -n '2,${/^#/!q;s/^# \{0,1\}//p}' "$0"; exit; }

failed() {
    echo "link_shared.sh: $1" >&2
    exit 1
}

[ $# = 2 ] || failed "usage: c/link_shared.sh ARCHIVE OUT"
[ -f "$1" ] || failed "there is no $1"
command -v "${CC:=cc}" >/dev/null || failed "there is no C compiler $CC; CC may name another"
header=$(cd "$(dirname "$0")/.." && pwd)/include/weedle.h
version=$(sed -n 's/^#define WEEDLE_VERSION \(0x[0-9a-f]\{6\}\)$/\1/p' "$header")
[ -n "$version" ] || failed "$header has no version"

room=$(mktemp -d)
trap 'rm -rf "$room"' EXIT
echo '{ global: weedle_*; local: *; };' >"$room/exports"
"$CC" -shared -o "$room/libweedle.so" -Wl,--whole-archive "$1" -Wl,--no-whole-archive \
    -Wl,-soname,"libweedle.so.$((version >> 16)).$((version >> 8 & 255))" \
    -Wl,--version-script="$room/exports" -Wl,--no-undefined -Wl,--build-id=none -Wl,-z,noexecstack
cp "$room/libweedle.so" "$2"
