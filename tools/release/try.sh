#!/bin/sh
# Tries what tools/release/make.sh made as it is installed: in empty folders, with no repository at hand and no network.
#
#     tools/release/try.sh FOLDER
#
# The sums have to be those of SUMS. The wheel and the sources are each installed into a virtual environment, the Rust package
# is a dependency of a new Cargo project, the Node package of a new project, the library for C is found by pkg-config, unpacked
# and installed, and the programs run: each reads a text, and refuses another. The library for C for another processor is
# compiled by Debian's compiler for it, and run by qemu's user mode; of a wheel for one it is looked that pip takes it. Where
# the release or the machine lacks something a line says what was left out. NOM_REGISTRY may name another folder of nom than
# Debian's. The status is 0 where all that was tried passes.
set -eu
[ "${1:-}" != --help ] || { sed -n '2,${/^#/!q;s/^# \{0,1\}//p}' "$0"; exit; }

failed() {
    echo "try.sh: $1" >&2
    exit 1
}

[ $# = 1 ] && [ -f "$1/SUMS" ] || failed "usage: tools/release/try.sh FOLDER, and FOLDER has SUMS"
room=$(mktemp -d)
trap 'rm -rf "$room"' EXIT
cp -r "$1" "$room/dist"
: "${NOM_REGISTRY:=/usr/share/cargo/registry}"
machine=$(uname -m)
unset WEEDLE_SO WEEDLE_NODE WEEDLE_LIBRARY PYTHONPATH PKG_CONFIG_PATH

# Makes an empty folder and goes there.
begin() {
    mkdir "$room/$1"
    cd "$room/$1"
    echo 'interface Window { readonly attribute Storage store; }; A includes B;' >good.webidl
    echo 'interface Window {' >bad.webidl
}

# The file of the release that a pattern names, or none.
file_of() {
    for it in "$room"/dist/$1; do
        [ ! -f "$it" ] || echo "$it"
    done
}

# Whether there is a command, or a file; a line says what is left out where there isn't.
has() {
    command -v "$1" >/dev/null || {
        echo "left out: $2 as it is installed, since there is no $1"
        return 1
    }
}

# Holds what a command prints, and its status, to what is wanted.
gives() {
    wanted=$1
    shift
    found=$("$@" 2>&1) && status=0 || status=$?
    [ "$status: $found" = "$wanted" ] || failed "in $PWD: $*
wanted $wanted
found  $status: $found"
}

# Holds the status and the last line of a program that checks files to what is wanted.
checks() {
    gives '0: 1 file, 0 refused' "$@" good.webidl
    found=$("$@" bad.webidl) && failed "in $PWD: $* reads bad.webidl" || status=$?
    case "$status: $found" in
    1:\ bad.webidl:*"1 file, 1 refused") ;;
    *) failed "in $PWD: $* says of bad.webidl $status: $found" ;;
    esac
}

try_python() {
    [ -n "$2" ] || return 0
    begin "$1"
    python3 -m venv --without-pip env
    if ! python3 -m pip --python env/bin/python install --quiet --no-index --disable-pip-version-check "$2" >said 2>&1; then
        cat said
        failed "pip doesn't install $2"
    fi
    gives "0: 2 $PWD/env" env/bin/python -c \
        'import sys, weedle; print(len(weedle.parse(open("good.webidl").read())), sys.prefix)'
    checks env/bin/python -m weedle
    checks env/bin/weedle
    [ -f env/share/man/man1/weedle.1 ] || failed "$2 has no man page"
    gives '0: ' env/bin/weedle lint --ignore undefined-type --ignore undefined-mixin --ignore undefined-name good.webidl
    echo "tried $1"
}

# Has pip put the wheels for other processors into a folder, which runs nothing of them.
try_other_wheels() {
    for wheel in $(file_of 'weedle-*.whl'); do
        platform=${wheel##*-none-}
        case $platform in
        *"_$machine.whl") continue ;;
        esac
        begin "wheel for ${platform%.whl}"
        python3 -m pip install --quiet --no-index --disable-pip-version-check --no-deps --only-binary=:all: \
            --platform "${platform%.whl}" --target there "$wheel"
        [ -f there/weedle/libweedle.so ] || failed "$wheel has no shared object"
        echo "tried that pip takes the wheel for ${platform%.whl}"
    done
}

try_rust() {
    crate=$(file_of 'weedle2-*.crate')
    [ -n "$crate" ] && has cargo "the Rust package" || return 0
    begin rust
    tar -xzf "$crate"
    mkdir -p app/src
    printf '[source.crates-io]\nreplace-with = "here"\n[source.here]\ndirectory = "%s"\n' "$NOM_REGISTRY" >nom.toml
    printf '[package]\nname = "app"\nversion = "1.0.0"\nedition = "2021"\n[dependencies]\nweedle2 = { path = "../%s" }\n' \
        "$(basename "$crate" .crate)" >app/Cargo.toml
    cat >app/src/main.rs <<'END'
fn main() {
    for name in ["../good.webidl", "../bad.webidl"] {
        let text = std::fs::read_to_string(name).unwrap();
        let nodes = weedle::syntax(&text).map(|it| it.len() > 9);
        println!("{:?} {nodes:?}", weedle::parse(&text).map(|it| it.len()).ok());
    }
}
END
    cd app
    gives "0: Some(2) Ok(true)
None Err(Refused(0))" env CARGO_TARGET_DIR="$room/rust/target" cargo run --offline --quiet --config ../nom.toml
    echo "tried rust"
}

try_node() {
    package=$(file_of 'weedle-*.tgz')
    [ -n "$package" ] && has npm "the Node package" || return 0
    begin node
    echo '{}' >package.json
    HOME=$room npm install --offline --silent --no-audit --no-fund --no-update-notifier "$package"
    cat >app.mjs <<'END'
import fs from "node:fs";
import { parse } from "weedle";
console.log(parse(fs.readFileSync("good.webidl", "utf8")).length, import.meta.resolve("weedle").includes("/node_modules/"));
END
    gives '0: 2 true' node app.mjs
    checks env HOME="$room" npx --no-install weedle
    echo "tried node"
}

# Builds an example by pkg-config with a shared object and with the archive, and runs both: `try_c_in FOLDER`. $compiler
# compiles, and $emulator runs what isn't for this machine.
try_c_in() {
    export PKG_CONFIG_PATH=$1/lib/pkgconfig
    gives "0: $(basename "$package" "-$target.tar.gz" | sed 's/^libweedle-//')" pkg-config --modversion weedle
    source=$unpacked/examples/count_interfaces.c
    "$compiler" -o shared "$source" $(pkg-config --cflags --libs weedle)
    "$compiler" -o whole "$source" $(pkg-config --cflags weedle) $(pkg-config --variable=archive weedle)
    gives "0: Window
1 interfaces" env LD_LIBRARY_PATH="$1/lib" $emulator ./shared good.webidl
    gives "0: Window
1 interfaces" $emulator ./whole good.webidl
}

# Tries one package of the library for C.
try_c() {
    package=$1
    target=$(basename "$package" .tar.gz | sed 's/^libweedle-[0-9.]*-//')
    compiler=${CC:-cc} emulator=
    if [ "$target" != "$machine-linux" ]; then
        compiler=${target%-linux}-linux-gnu-gcc emulator=qemu-${target%-linux}-static
        # Where the loader and the C library for that processor are.
        export QEMU_LD_PREFIX="/usr/${target%-linux}-linux-gnu"
        has "$emulator" "the library for C for $target" || return 0
    fi
    has "$compiler" "the library for C for $target" && has pkg-config "the library for C" || return 0
    begin "c for $target"
    tar -xzf "$package"
    unpacked=$room/c
    mv "$(basename "$package" .tar.gz)" "$unpacked"
    try_c_in "$unpacked"
    echo "tried c for $target"
    has make "the library for C by make install" || return 0
    there=$room/there
    make -s -C "$unpacked" install PREFIX="$there"
    try_c_in "$there"
    make -s -C "$unpacked" install PREFIX=/usr LIBDIR="/usr/lib/$target-gnu" DESTDIR="$room/staged"
    grep -q "^libdir=/usr/lib/$target-gnu\$" "$room/staged/usr/lib/$target-gnu/pkgconfig/weedle.pc" ||
        failed "weedle.pc doesn't name LIBDIR"
    make -s -C "$unpacked" uninstall PREFIX="$there"
    [ -z "$(find "$there" -type f -o -type l)" ] || failed "make uninstall leaves $(find "$there" -type f -o -type l)"
    echo "tried c for $target as make installs it"
    rm -rf "$unpacked"
}

try_programs() {
    package=$(file_of 'weedle-programs-*.tar.gz')
    [ -n "$package" ] || return 0
    begin programs
    tar -xzf "$package"
    bin=$(basename "$package" .tar.gz)/bin
    if [ -f "$bin/weedle_check" ]; then
        checks "$bin/weedle_check"
        echo "tried weedle_check"
    fi
    if [ -f "$bin/weedle_format" ]; then
        gives '1: good.webidl
1 file, 1 to be laid out, 0 refused' "$bin/weedle_format" --check good.webidl
        echo "tried weedle_format"
    fi
}

(cd "$room/dist" && sha256sum --quiet -c SUMS) || failed "the files aren't those of SUMS"
if python3 -m pip --python /nowhere --version 2>&1 | grep -q 'no such option'; then
    echo "left out: the Python package as it is installed, since there is no pip from 22.3 on"
elif has python3 "the Python package"; then
    try_python wheel "$(file_of "weedle-*_$machine.whl")"
    try_other_wheels
    try_python sources "$(file_of 'weedle-[0-9]*.[0-9]*.[0-9]*.tar.gz')"
fi
try_rust
try_node
for package in $(file_of 'libweedle-*.tar.gz'); do
    try_c "$package"
done
try_programs
