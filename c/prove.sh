#!/bin/sh
# Proves and builds the crate weedle_c: crates/weedle_c/out/libweedle_c.a.
#
#     c/prove.sh [--target TARGET]
#
# TARGET is x86_64-linux, where none is named, or aarch64-linux: every processor of that kind, where no --cpu names others.
# `rt lib` proves one library after another, and some have a function that takes one processor for long. So what is said
# of a refused text is proved at the same time, in a copy of the crates: `rt` takes over what it has proved in another
# copy on the machine. With ALONE=1 that is left out: it takes longer, and half the memory. Once it is built for one target
# the other takes a minute or two. A word behind the command goes on to `rt lib`, as --jobs 2.
set -eu
[ "${1:-}" != --help ] || { sed -n '2,${/^#/!q;s/^# \{0,1\}//p}' "$0"; exit; }

top=$(cd "$(dirname "$0")/.." && pwd)
copy=$(mktemp -d)
beside=
target=x86_64-linux cpu=x86-64
[ "${1:-}" != --target ] || { target=${2:-}; shift 2; }
case $target in
x86_64-linux) ;;
aarch64-linux) cpu=generic ;;
*)
    echo "prove.sh: there is no target $target" >&2
    exit 1
    ;;
esac
case " $* " in
*" --cpu"*) ;;
*) set -- "$@" --cpu "$cpu" ;;
esac

end() {
    [ -z "$beside" ] || kill -- "-$beside" 2>/dev/null || :
    rm -rf "$copy"
}
trap end EXIT

command -v rt >/dev/null || {
    echo "prove.sh: the toolchain's command rt isn't on PATH" >&2
    exit 1
}
if [ -z "${ALONE:-}" ] && [ ! -d "$top/crates/weedle_refusal/out/rlib" ]; then
    tar -C "$top" --exclude=out -cf - HANDLES crates.txt crates | tar -C "$copy" -xf -
    COPY=$copy setsid sh -c '
        cd "$COPY/crates/weedle_refusal" && rt lib "$@"' prove.sh "$@" >/dev/null 2>&1 </dev/null &
    beside=$!
fi
cd "$top/crates/weedle_c"
rt lib "$@" --target "${target%-linux}-unknown-linux-gnu"
