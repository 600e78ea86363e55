//! Links the proved archive `librabbitsteel.a`, from the folder that `RABBITSTEEL_LIB_DIR` names or
//! else from where `tools/archive` writes it.

use std::env;
use std::path::{Path, PathBuf};

const VARIABLE: &str = "RABBITSTEEL_LIB_DIR";

fn main() {
    println!("cargo::rerun-if-env-changed={VARIABLE}");
    let folder = folder();
    let archive = folder.join("librabbitsteel.a");
    println!("cargo::rerun-if-changed={}", archive.display());
    if !archive.is_file() {
        println!("cargo::error=there is no archive {}", archive.display());
        println!("cargo::error=make it with `tools/library` or `tools/archive` in the repository, or name its folder in {VARIABLE}");
        return;
    }
    println!("cargo::rustc-link-search=native={}", folder.display());
    println!("cargo::rustc-link-lib=static=rabbitsteel");
}

/// The archive's folder; a relative one starts at this package.
fn folder() -> PathBuf {
    let named = env::var_os(VARIABLE).unwrap_or_else(|| "../../target/staticlib".into());
    Path::new(env!("CARGO_MANIFEST_DIR")).join(named)
}
