#!/bin/sh
# Tests the Python package: by python3, and by the oldest and the newest Python that it is for, 3.9 and 3.13.
#
#     python/run_tests.sh
#
# These two are looked for on PATH and among the versions of pyenv. Of each Python a line says how many tests ran. The last
# lines say what was left out: a Python that isn't there, and tests for which something is missing. The status is 0 where
# none failed.
set -eu
[ "${1:-}" != --help ] || { sed -n '2,${/^#/!q;s/^# \{0,1\}//p}' "$0"; exit; }

top=$(cd "$(dirname "$0")/.." && pwd)
room=$(mktemp -d)
trap 'rm -rf "$room"' EXIT
left=$room/left
: >"$left"

# A Python of version 3.$1, if there is one.
python_of() {
    for it in "python3.$1" "${PYENV_ROOT:-$HOME/.pyenv}/versions/3.$1".*/bin/python3; do
        if "$it" -c "import sys; sys.exit(sys.version_info[:2] != (3, $1))" 2>/dev/null; then
            "$it" -c 'import sys; print(sys.executable)'
            return
        fi
    done
}

# Runs all tests by a Python.
run_tests() {
    name=$("$1" -c 'import platform; print("Python", platform.python_version())')
    "$1" -m unittest discover -v -s "$top/python/tests" >"$room/log" 2>&1 || {
        cat "$room/log"
        echo "run_tests.sh: tests failed by $name" >&2
        exit 1
    }
    sed -n "s/^Ran /$name: /p" "$room/log"
    sed -n "s/^\([^ ]*\) .*skipped [\"']\(.*\)[\"']$/left out by $name: \1, since \2/p" "$room/log" >>"$left"
}

command -v python3 >/dev/null || {
    echo "run_tests.sh: there is no python3" >&2
    exit 1
}
run_tests python3
usual=$(python3 -c 'import sys; print(sys.version_info[1])')
for minor in 9 13; do
    [ "$minor" != "$usual" ] || continue
    other=$(python_of "$minor")
    if [ -n "$other" ]; then
        run_tests "$other"
    else
        echo "left out: the tests by Python 3.$minor, which isn't here" >>"$left"
    fi
done
cat "$left"
