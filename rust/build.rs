//! Links the archive of the proved reader.
//!
//! WEEDLE_LIBRARY names the folder of a `libweedle.a`, from the root on. Without it the archive is the one in the
//! package, or in the repository, for the target's processor and system.

use std::env;
use std::path::PathBuf;

/// The file of the archive.
const ARCHIVE: &str = "libweedle.a";

fn main() {
    println!("cargo:rerun-if-changed=build.rs");
    println!("cargo:rerun-if-env-changed=WEEDLE_LIBRARY");
    let folder = env::var_os("WEEDLE_LIBRARY").map_or_else(folder_for_target, PathBuf::from);
    let archive = folder.join(ARCHIVE);
    assert!(
        folder.is_absolute() && archive.is_file(),
        "WEEDLE_LIBRARY has to name the folder of a {ARCHIVE}, from the root on; there is no {}",
        archive.display()
    );
    println!("cargo:rerun-if-changed={}", archive.display());
    println!("cargo:rustc-link-search=native={}", folder.display());
    println!("cargo:rustc-link-lib=static=weedle");
}

/// The folder of the archive that comes with the package, or with the repository.
fn folder_for_target() -> PathBuf {
    let package = PathBuf::from(of_cargo("CARGO_MANIFEST_DIR"));
    let target = format!(
        "{}-{}",
        of_cargo("CARGO_CFG_TARGET_ARCH"),
        of_cargo("CARGO_CFG_TARGET_OS")
    );
    let places = ["native", "../prebuilt"].map(|it| package.join(it).join(&target));
    let found = places.iter().find(|it| it.join(ARCHIVE).is_file());
    found.cloned().unwrap_or_else(|| {
        panic!("no {ARCHIVE} comes with this package for {target}; WEEDLE_LIBRARY names the folder of one")
    })
}

/// What Cargo tells a build script.
fn of_cargo(name: &str) -> String {
    env::var(name).unwrap_or_else(|_| panic!("Cargo sets {name}"))
}
