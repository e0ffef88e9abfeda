#!/bin/sh
# Makes a release from the built library in prebuilt/, and tries each of its parts as it is installed.
#
#     tools/release/make.sh [--draft] [FOLDER]
#
# FOLDER, or else dist/, is made anew. It gets the sources of the Python package, for each target of prebuilt/ a wheel and the
# library for C as c/pack.sh has it, the Rust package as `cargo package` has it and the Node package as `npm pack` has it, both
# for all targets, the programs weedle_check and weedle_format with man pages, stripped, as the gate built them for any x86-64
# processor (crates/NAME/out/NAME.x86-64), CHANGES.md and SUMS. The same files and the same tools give the same bytes. Then
# tools/release/try.sh installs and runs all of it, in empty folders.
#
# Nothing is downloaded: Cargo has nom from Debian's librust-nom-dev, or from the folder that NOM_REGISTRY names. A release has
# all of these, and tools/release/next_version.py has to agree with the version's number. With --draft it only says what the
# number has to become, and what the machine lacks a tool for is left out, and a line says so. The status is 0 where all that
# was made passes.
set -eu
[ "${1:-}" != --help ] || { sed -n '2,${/^#/!q;s/^# \{0,1\}//p}' "$0"; exit; }

failed() {
    echo "make.sh: $1" >&2
    exit 1
}

is_draft=
[ "${1:-}" != --draft ] || { is_draft=yes; shift; }
[ $# -le 1 ] || failed "usage: tools/release/make.sh [--draft] [FOLDER]"
top=$(cd "$(dirname "$0")/../.." && pwd)
out=${1:-$top/dist}
case $out in
/*) ;;
*) out=$PWD/$out ;;
esac
room=$(mktemp -d)
trap 'rm -rf "$room"' EXIT
copy=$room/weedle
built=$top/prebuilt/x86_64-linux
system=x86_64-linux
: "${NOM_REGISTRY:=/usr/share/cargo/registry}"
export NOM_REGISTRY
unset WEEDLE_SO WEEDLE_NODE WEEDLE_LIBRARY PYTHONPATH

# Says what is left out of a draft, and why; a release has all.
leave_out() {
    [ -n "$is_draft" ] || failed "no release without $1: $2; --draft makes one"
    echo "left out: $1 of the release, since $2"
}

# Whether there is a command; a line says what is left out where there isn't.
has() {
    command -v "$1" >/dev/null || {
        leave_out "$2" "there is no $1"
        return 1
    }
}

# Copies what is packed, without what was built beside it.
copy_sources() {
    mkdir "$copy"
    (cd "$top" && tar -cf - --exclude=target --exclude=node_modules --exclude=__pycache__ --exclude=.mypy_cache \
        --exclude=python/weedle/libweedle.so --exclude=js/weedle.node --exclude=rust/native --exclude=rust/LICENSE \
        --exclude=js/LICENSE --exclude='js/native/*-linux' --exclude='js/native/weedle.*' --exclude=Cargo.lock \
        LICENSE include man prebuilt python rust js) | tar -C "$copy" -xf -
}

# Has the backend make something of the Python package: `pack_python WHAT [SHARED_OBJECT]`.
pack_python() {
    (cd "$copy/python" && WEEDLE_SO=${2:-} python3 -c "import build_backend as it; print(it.$1('$out'))")
}

pack_rust() {
    has cargo "the Rust package" || return 0
    if ! ls -d "$NOM_REGISTRY"/nom-7.* >/dev/null 2>&1; then
        leave_out "the Rust package" "there is no nom in $NOM_REGISTRY"
        return 0
    fi
    printf '[source.crates-io]\nreplace-with = "here"\n[source.here]\ndirectory = "%s"\n' "$NOM_REGISTRY" >"$room/nom.toml"
    "$copy/rust/pack.sh"
    (cd "$copy/rust" && CARGO_TARGET_DIR=$room/target cargo package --offline --quiet --no-verify --config "$room/nom.toml")
    cp "$room"/target/package/weedle2-*.crate "$out"
    ls "$room/target/package" | grep '\.crate$'
}

pack_node() {
    has npm "the Node package" || return 0
    (cd "$copy/js" && HOME=$room npm pack --offline --silent --no-update-notifier --pack-destination "$out")
}

# Strips a program into the folder that is packed, where the gate has built it.
take_program() {
    program=$top/crates/$1/out/$1.x86-64
    if [ ! -f "$program" ]; then
        leave_out "$1" "the gate hasn't built $program"
        return 0
    fi
    # What is built for newer processors asks glibc for this as it starts.
    ! grep -q __x86_get_cpuid_feature_leaf "$program" || failed "$program isn't for every x86-64 processor"
    strip -o "$room/$programs/bin/$1" "$program"
    chmod 755 "$room/$programs/bin/$1"
    cp "$top/man/$1.1" "$room/$programs/share/man/man1"
}

pack_programs() {
    programs=weedle-programs-$version-$system
    mkdir -p "$room/$programs/bin" "$room/$programs/share/man/man1"
    has strip "the programs" || return 0
    for name in weedle_check weedle_format; do
        take_program "$name"
    done
    [ -n "$(ls "$room/$programs/bin")" ] || return 0
    cp "$top/LICENSE" "$room/$programs"
    tar -C "$room" --sort=name --mtime=@0 --owner=0 --group=0 --numeric-owner -cf - "$programs" |
        gzip -9n >"$out/$programs.tar.gz"
    echo "$programs.tar.gz"
}

command -v python3 >/dev/null || failed "there is no python3"
[ -z "$(ls -A "$out" 2>/dev/null)" ] || [ -f "$out/SUMS" ] || failed "$out holds other things than a release"
python3 "$top/tools/release/prebuilt.py" --check
python3 "$top/tools/release/next_version.py" || {
    [ $? = 1 ] || failed "the last version can't be compared"
    [ -n "$is_draft" ] || failed "the version's number has to be another first"
}
version=$(sed -n 's/^# weedle //p' "$built/SUMS")
rm -rf "$out"
mkdir -p "$out"
# So that a run which fails is no other thing for the next one.
: >"$out/SUMS"
copy_sources
pack_python build_sdist
pack_rust
pack_node
for folder in "$top"/prebuilt/*-linux; do
    target=$(basename "$folder")
    pack_python build_wheel "$folder/libweedle.so"
    "$top/c/pack.sh" --target "$target" "$out"
done
pack_programs
python3 "$top/tools/release/texts.py" "$out" "$top"/prebuilt/*-linux/libweedle.so "$top"/prebuilt/*-linux/weedle.node \
    $(find "$room/$programs/bin" -type f | sort)
"$top/tools/release/try.sh" "$out"
echo "made $out"
