//! Links libjatshegi.a: that of the folder JATSHEGI_LIB_DIR, else the one in the package for this target, lib/TARGET/, else in a clone of the repository the
//! one that tools/libraries made, or the released one.
use std::env;
use std::path::PathBuf;

fn main() {
    println!("cargo:rerun-if-env-changed=JATSHEGI_LIB_DIR");
    let target = env::var("TARGET").expect("cargo names the target");
    let here = PathBuf::from(env::var("CARGO_MANIFEST_DIR").expect("cargo names the crate's folder"));
    let mut folders = vec![here.join("lib").join(&target)];
    if let Some(named) = env::var_os("JATSHEGI_LIB_DIR") {
        folders = vec![PathBuf::from(named)];
    } else if target == "x86_64-unknown-linux-gnu" {
        folders.push(here.join("../out"));
        folders.push(here.join("../release/x86_64-linux/lib"));
    } else if target == "aarch64-unknown-linux-gnu" {
        folders.push(here.join("../out/aarch64-linux"));
        folders.push(here.join("../release/aarch64-linux/lib"));
    }
    let found = folders.iter().find(|folder| folder.join("libjatshegi.a").exists());
    let folder = found.unwrap_or_else(|| panic!("jatshegi: there is no libjatshegi.a for {target} in {folders:?}: set JATSHEGI_LIB_DIR to its folder"));
    println!("cargo:rerun-if-changed={}", folder.join("libjatshegi.a").display());
    println!("cargo:rustc-link-search=native={}", folder.display());
    println!("cargo:rustc-link-lib=static=jatshegi");
}
