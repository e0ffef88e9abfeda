#!/bin/sh
# Tests the Rust package over the library that c/build.sh built, or where it built none over the one in prebuilt/.
#
#     rust/run_tests.sh
#
# `cargo fmt`, clippy and `cargo doc` have nothing to say; the tests of the package and of examples/rust run; the texts of
# tests/ go through the program of compare/, which is written for weedle2 and is built over the package in its place; and
# `cargo package` packs the package, with its archive and the LICENSE, and builds what it packed.
#
# No network is asked: nom is Debian's librust-nom-dev. Where that isn't installed, or clippy or rustfmt isn't there, a line
# says what was left out. CARGO may name another command. The tests of deep texts take 2 GB of memory.
set -eu
[ "${1:-}" != --help ] || { sed -n '2,${/^#/!q;s/^# \{0,1\}//p}' "$0"; exit; }

top=$(cd "$(dirname "$0")/.." && pwd)
room=$(mktemp -d)
trap 'rm -rf "$room"; "$top/rust/pack.sh" --clean' EXIT
registry=/usr/share/cargo/registry
WEEDLE_LIBRARY=$top/c/out
[ -f "$WEEDLE_LIBRARY/libweedle.a" ] || WEEDLE_LIBRARY=$top/prebuilt/$(uname -m)-linux
CARGO_TARGET_DIR=$top/rust/target
RUSTDOCFLAGS="-D warnings"
export WEEDLE_LIBRARY CARGO_TARGET_DIR RUSTDOCFLAGS

failed() {
    echo "run_tests.sh: $1" >&2
    exit 1
}

# Calls Cargo in a folder: `cargo_in FOLDER COMMAND WORD..`. It has nom, and no network.
cargo_in() {
    folder=$1 command=$2
    shift 2
    (cd "$folder" && "$CARGO" "$command" --offline --quiet --config "$room/nom.toml" "$@")
}

command -v "${CARGO:=cargo}" >/dev/null || failed "there is no $CARGO"
[ -f "$WEEDLE_LIBRARY/libweedle.a" ] || failed "there is no $WEEDLE_LIBRARY/libweedle.a; c/build.sh builds it"
echo "the library $WEEDLE_LIBRARY/libweedle.a"

if "$CARGO" fmt --version >/dev/null 2>&1; then
    for folder in rust examples/rust compare; do
        (cd "$top/$folder" && "$CARGO" fmt --check) || failed "cargo fmt has $folder otherwise"
    done
    rustfmt --edition 2021 --check "$top/compare/types/main.rs" || failed "rustfmt has compare/types otherwise"
else
    echo "left out: the layout of the Rust package, since there is no cargo fmt"
fi

if ! ls -d "$registry"/nom-7.* >/dev/null 2>&1; then
    echo "left out: the tests of the Rust package, since Debian's librust-nom-dev isn't installed"
    exit 0
fi
cat >"$room/nom.toml" <<END
[source.crates-io]
replace-with = "debian"
[source.debian]
directory = "$registry"
END

if "$CARGO" clippy --version >/dev/null 2>&1; then
    for folder in rust examples/rust; do
        cargo_in "$top/$folder" clippy --all-targets -- -D warnings
    done
else
    echo "left out: clippy over the Rust package, since it isn't here"
fi

echo "the tests"
cargo_in "$top/rust" test
cargo_in "$top/rust" doc --no-deps
cargo_in "$top/examples/rust" test

echo "the texts of tests/ through compare/ over the package"
cp -r "$top/compare/Cargo.toml" "$top/compare/src" "$room"
cargo_in "$room" build --release --config "patch.crates-io.weedle2.path=\"$top/rust\""
python3 "$top/tools/run" rust "$CARGO_TARGET_DIR/release/compare"

echo "the package as it is packed"
"$top/rust/pack.sh"
(unset WEEDLE_LIBRARY && cargo_in "$top/rust" package --allow-dirty)
"$top/rust/pack.sh" --clean
packed=$(tar -tzf "$CARGO_TARGET_DIR"/package/weedle2-*.crate)
for file in LICENSE README.md $(cd "$top/prebuilt" && ls -d *-linux | sed 's|.*|native/&/libweedle.a|'); do
    case $packed in
    *"/$file"*) ;;
    *) failed "the package has no $file" ;;
    esac
done
echo "all passed"
