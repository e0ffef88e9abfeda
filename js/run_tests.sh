#!/bin/sh
# Tests the JavaScript package, by node: over the addon that WEEDLE_NODE names, or js/weedle.node, or the prebuilt one.
#
#     js/run_tests.sh [--build]
#
# With --build the addon is built first, from c/out/libweedle.a where that is there, and goes when the tests are done. A
# line says how many tests ran. The last lines say what was left out: where there is no node, all of them, and else the
# tests for which something is missing, as tsc or npm. The status is 0 where none failed.
set -eu
[ "${1:-}" != --help ] || { sed -n '2,${/^#/!q;s/^# \{0,1\}//p}' "$0"; exit; }

here=$(cd "$(dirname "$0")" && pwd)
room=$(mktemp -d)
trap 'rm -rf "$room"' EXIT

command -v node >/dev/null || {
    echo "left out: the tests of the JavaScript package, since there is no node"
    exit
}
if [ "${1:-}" = --build ]; then
    archive=$here/../c/out/libweedle.a
    [ -f "$archive" ] || archive=$here/../prebuilt/$(uname -m)-linux/libweedle.a
    "$here/build.sh" "$archive" "$room/weedle.node"
    export WEEDLE_NODE="$room/weedle.node"
fi
(cd "$here" && node --test --test-reporter=tap test/*.test.mjs) >"$room/log" 2>&1 || {
    grep -v -e '^ok ' -e '^# Subtest' "$room/log"
    echo "run_tests.sh: tests failed by Node $(node --version)" >&2
    exit 1
}
sed -n "s/^# pass /Node $(node --version): passed /p" "$room/log"
sed -n 's/^ok [0-9]* - \(.*\) # SKIP \(.*\)$/left out: \1, since \2/p' "$room/log"
