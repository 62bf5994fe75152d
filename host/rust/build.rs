// Says where the archive stands, and whether the compiler is older than `unsafe extern`.
use std::env;
use std::path::{Path, PathBuf};
use std::process::Command;

const ARCHIVE: &str = "libpointer_desk.a";

// The folder that POINTER_DESK_LIB_DIR names; else a release's, else the repository's.
fn folder() -> PathBuf {
    if let Some(given) = env::var_os("POINTER_DESK_LIB_DIR") {
        return given.into();
    }
    let own = PathBuf::from(env::var_os("CARGO_MANIFEST_DIR").expect("cargo sets CARGO_MANIFEST_DIR"));
    let release = own.join("../lib");
    if release.join(ARCHIVE).exists() {
        return release;
    }
    own.join("../../crates/pointer_desk/out")
}

fn has_archive(folder: &Path) {
    if !folder.join(ARCHIVE).exists() {
        panic!("no {} in {}: `rt lib` in crates/pointer_desk makes it; POINTER_DESK_LIB_DIR names another folder", ARCHIVE, folder.display());
    }
}

// Which 1.x the compiler is; none where it does not say.
fn minor() -> Option<u32> {
    let said = Command::new(env::var_os("RUSTC")?).arg("--version").output().ok()?;
    let words = String::from_utf8(said.stdout).ok()?;
    words.split_whitespace().nth(1)?.split('.').nth(1)?.parse().ok()
}

fn main() {
    let folder = folder();
    has_archive(&folder);
    println!("cargo:rerun-if-env-changed=POINTER_DESK_LIB_DIR");
    println!("cargo:rerun-if-changed={}", folder.join(ARCHIVE).display());
    println!("cargo:rustc-link-search=native={}", folder.display());
    match minor() {
        Some(minor) if minor < 82 => println!("cargo:rustc-cfg=before_1_82"),
        _ => println!("cargo:rustc-check-cfg=cfg(before_1_82)"),
    }
}
