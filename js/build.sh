#!/bin/sh
# Builds the addon weedle.node from native/addon.c and the library for C, by one call of a C compiler.
#
#     js/build.sh [--if-needed] [ARCHIVE [OUT]]
#
# ARCHIVE is the library, and OUT the addon: where none is named js/weedle.node, which the package takes in place of the
# prebuilt one. The library is then the first of these that is there, for this machine's processor: the one in native/, as a
# published package has it, the one in c/out/, which c/build.sh builds, and the one in prebuilt/. With --if-needed nothing is
# done where an addon is there that this Node can load. It needs a C compiler (cc, or what CC names), and Node with its
# headers, beside it or where NODE_INCLUDE says.
set -eu
[ "${1:-}" != --help ] || { sed -n '2,${/^#/!q;s/^# \{0,1\}//p}' "$0"; exit; }

failed() {
    echo "build.sh: $1" >&2
    exit 1
}

here=$(cd "$(dirname "$0")" && pwd)
command -v node >/dev/null || failed "there is no node"
if [ "${1:-}" = --if-needed ]; then
    shift
    ! node -e "require('$here/index.js')" 2>/dev/null || exit 0
fi

# The first of some files that is there.
first_of() {
    for it in "$@"; do
        [ ! -f "$it" ] || { echo "$it"; return; }
    done
    failed "there is no $*"
}

target=$(uname -m)-linux
built=$here/../c/out/$target
[ "$target" != x86_64-linux ] || built=$here/../c/out
archive=${1:-$(first_of "$here/native/$target/libweedle.a" "$built/libweedle.a" "$here/../prebuilt/$target/libweedle.a")}
out=${2:-$here/weedle.node}
header=$(first_of "$here/native/weedle.h" "$here/../include/weedle.h")
headers=${NODE_INCLUDE:-$(node -p "require('path').resolve(process.execPath, '../../include/node')")}
[ -f "$archive" ] || failed "there is no $archive"
[ -f "$headers/node_api.h" ] || failed "there is no $headers/node_api.h; NODE_INCLUDE may name the folder of Node's headers"
command -v "${CC:=cc}" >/dev/null || failed "there is no C compiler $CC; CC may name another"

room=$(mktemp -d)
trap 'rm -rf "$room"' EXIT
echo '{ global: napi_register_module_v*; node_api_module_get_api_version_v*; local: *; };' >"$room/exports"
"$CC" -shared -fPIC -std=c11 -O2 -Wall -Wextra -Werror -DNAPI_VERSION=8 -I"$headers" -I"$(dirname "$header")" \
    -o "$room/weedle.node" "$here/native/addon.c" "$archive" \
    -Wl,--version-script="$room/exports" -Wl,--gc-sections -Wl,--build-id=none -Wl,-z,noexecstack -s
cp "$room/weedle.node" "$out"
echo "built $out"
