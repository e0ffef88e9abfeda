#!/usr/bin/env bash
# Runs the tests of every crate that has some, and proves nothing: the quick check, in minutes.
#
#     tools/try_tests.sh [-j N] [CRATE..]
#
# A crate has tests where a file below its src/ has `#[test]`; names of crates limit the run to
# these. Each is run by `rt try --test` in its folder, without the check that `rt` runs beside a try
# (tools/run/try_alone.py). Beside them 50 kB of the texts in tests/ are run through weedle_check, which
# is compiled once for that, by `tools/run cases`: that is called `cases`, and may be named as a
# crate is. N crates run at once, or as many as the variable TRY_JOBS says; else one for every
# processor, and for every 3,000 MB of free memory. Runs side by side share nothing but the sources.
#
# It needs bash 5.1, Python 3.11, the toolchain's command `rt` on PATH, and 3,000 MB. It leaves
# nothing behind.
#
# When a crate is done it prints a line, as `weedle_rows: 31 passed, 0 failed, 92 s`, and where not
# all is well, all that the crate's run wrote. A crate that gives no count, as one that doesn't
# compile, counts as one failed. The last line is `N passed, M failed`.
#
# The status is 0 where none failed and one at least passed, 1 where one failed, 2 where the tests
# could not be run.
set -u

MEGABYTES_EACH=3000
# For all tests of a crate. A test of 10,000 values takes minutes on a machine that is at work.
SECONDS_EACH=1800
# Of the cases. A text that is refused takes 5 ms a byte where a program is only tried.
CASES=cases
CASE_BYTES=50000

stop() {
    echo "try_tests: $1" >&2
    exit 2
}

# In the order of crates.txt, where the one that takes longest comes first.
crates_with_tests() {
    local crate
    while IFS=': ' read -r crate _; do
        if grep -rqF --include='*.rt' '#[test]' "crates/$crate/src"; then
            echo "$crate"
        fi
    done < <(grep -v '^#' crates.txt)
}

jobs_that_fit() {
    local free jobs
    free=$(awk '/^MemAvailable:/ { print int($2 / 1024) }' /proc/meminfo)
    [ "$free" -ge "$MEGABYTES_EACH" ] ||
        stop "$free MB of memory are free, and a crate's tests need $MEGABYTES_EACH"
    jobs=$(nproc)
    echo $((free / MEGABYTES_EACH < jobs ? free / MEGABYTES_EACH : jobs))
}

# In the place of the shell, so that it can be ended.
try_crate() {
    if [ "$1" = "$CASES" ]; then
        exec python3 tools/run cases --try crates/weedle_check --most "$CASE_BYTES"
    fi
    cd "crates/$1" && exec python3 ../../tools/run/try_alone.py --test --seconds "$SECONDS_EACH"
}

start() {
    try_crate "$1" >"$logs/$1" 2>&1 </dev/null &
    crate_of[$!]=$1
    began_at[$!]=$SECONDS
}

# Waits for one of the crates that run, prints how it went, and adds its counts.
collect() {
    local process status crate seconds result passed=0 failed=0
    wait -n -p process "${!crate_of[@]}"
    status=$?
    crate=${crate_of[$process]}
    seconds=$((SECONDS - began_at[$process]))
    unset "crate_of[$process]"
    result=$(grep -E '^test result: |^[0-9]+ passed, ' "$logs/$crate" | tail -n 1)
    if [[ $result =~ ([0-9]+)\ passed[\;,]\ ([0-9]+)\ failed ]]; then
        passed=${BASH_REMATCH[1]} failed=${BASH_REMATCH[2]}
    fi
    if [ "$failed" -eq 0 ] && { [ "$status" -ne 0 ] || [ "$passed" -eq 0 ]; }; then
        failed=1
    fi
    echo "$crate: $passed passed, $failed failed, $seconds s"
    [ "$failed" -eq 0 ] || cat "$logs/$crate"
    all_passed=$((all_passed + passed)) all_failed=$((all_failed + failed))
}

end_all() {
    [ "${#crate_of[@]}" -eq 0 ] || kill "${!crate_of[@]}" 2>/dev/null
    wait
    rm -rf "$logs"
}

# Sets `jobs` and `crates` from the arguments, or from what the machine and the repository have.
read_arguments() {
    local crate option
    jobs=${TRY_JOBS:-}
    while getopts ':j:' option; do
        [ "$option" = j ] || stop "usage: tools/try_tests.sh [-j N] [CRATE..]"
        jobs=$OPTARG
    done
    shift $((OPTIND - 1))
    command -v rt >/dev/null || stop "the toolchain's command rt isn't on PATH"
    [ -f crates.txt ] && [ -d crates ] || stop "$PWD has no crates.txt and crates/"
    crates=${*:-$CASES $(crates_with_tests)}
    [ "$crates" != "$CASES " ] || stop "no crate has a test"
    for crate in $crates; do
        [ "$crate" = "$CASES" ] || [ -d "crates/$crate/src" ] || stop "there is no crate $crate"
    done
    [ -n "$jobs" ] || jobs=$(jobs_that_fit) || exit 2
    [[ $jobs =~ ^[1-9][0-9]*$ ]] || stop "$jobs is no number of crates to run at once"
}

main() {
    local crate crates jobs logs all_passed=0 all_failed=0
    local -A crate_of=() began_at=()
    read_arguments "$@"
    logs=$(mktemp -d)
    trap end_all EXIT
    trap 'exit 130' INT
    trap 'exit 143' TERM
    for crate in $crates; do
        [ "${#crate_of[@]}" -lt "$jobs" ] || collect
        start "$crate"
    done
    while [ "${#crate_of[@]}" -gt 0 ]; do
        collect
    done
    echo "$all_passed passed, $all_failed failed"
    [ "$all_failed" -eq 0 ]
    exit
}

if [ "${1:-}" = --help ]; then
    sed -n '2,${/^#/!q;s/^# \{0,1\}//p}' "$0"
    exit
fi
cd "$(dirname "$0")/.." || exit 2
main "$@"
