//! Links the proved archive from the folder that RABBITSTEEL_LIB_DIR names, or else from ../target/staticlib; into the
//! bench, where it is there, the archive of the other search for repeats; and where RE2's header is found compiles the
//! bench's way to it.

use std::env;
use std::path::{Path, PathBuf};
use std::process::Command;

const LIB_DIR: &str = "RABBITSTEEL_LIB_DIR";
const ARCHIVE: &str = "librabbitsteel.a";
const BY_RULE: &str = "libread_by_rule.a";

fn main() {
    println!("cargo::rerun-if-changed=build.rs");
    if env::var_os("CARGO_FEATURE_ARCHIVE").is_some() {
        link_archive();
        link_re2();
    }
}

fn link_archive() {
    println!("cargo::rerun-if-env-changed={LIB_DIR}");
    let folder =
        env::var_os(LIB_DIR).map_or_else(|| PathBuf::from("../target/staticlib"), PathBuf::from);
    let archive = folder.join(ARCHIVE);
    println!("cargo::rerun-if-changed={}", archive.display());
    let Ok(archive) = archive.canonicalize() else {
        println!("cargo::error=the archive {} is missing", archive.display());
        println!("cargo::error=make it with `tools/archive` in the repository's root,");
        println!("cargo::error=or set {LIB_DIR} to the folder that holds {ARCHIVE};");
        println!("cargo::error=`cargo test --release --no-default-features` tries the plain engine without it");
        return;
    };
    let folder = archive.parent().expect("a file stands in a folder");
    println!("cargo::rustc-link-search=native={}", folder.display());
    println!("cargo::rustc-link-lib=static=rabbitsteel");
    link_by_rule(&folder.join(BY_RULE));
}

fn link_by_rule(archive: &Path) {
    println!("cargo::rustc-check-cfg=cfg(by_rule)");
    if archive.exists() {
        println!("cargo::rerun-if-changed={}", archive.display());
        println!("cargo::rustc-cfg=by_rule");
        println!("cargo::rustc-link-arg-benches={}", archive.display());
    }
}

fn link_re2() {
    println!("cargo::rustc-check-cfg=cfg(re2)");
    println!("cargo::rerun-if-changed=shim/re2.cc");
    let folders = ["/usr/include", "/usr/local/include"];
    if !folders
        .iter()
        .any(|folder| Path::new(folder).join("re2/re2.h").exists())
    {
        return;
    }
    let object = Path::new(&env::var_os("OUT_DIR").expect("cargo names a folder")).join("re2.o");
    let compiled = Command::new("c++")
        .args(["-std=c++17", "-O2", "-c", "shim/re2.cc", "-o"])
        .arg(&object)
        .status();
    if !compiled.is_ok_and(|status| status.success()) {
        println!("cargo::warning=shim/re2.cc does not compile: no rows beside RE2");
        return;
    }
    println!("cargo::rustc-cfg=re2");
    for word in [&*object.to_string_lossy(), "-lre2", "-lstdc++"] {
        println!("cargo::rustc-link-arg-benches={word}");
    }
}
