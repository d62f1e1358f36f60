//! Links `libbtree_range_map.a`, which lies in `lib/` of the crate that is handed on, or in the folder that
//! `RANGE_MAP_LIB` names.
use std::path::{Path, PathBuf};

fn main() {
    println!("cargo:rerun-if-env-changed=RANGE_MAP_LIB");
    let folder = match std::env::var_os("RANGE_MAP_LIB") {
        Some(folder) => PathBuf::from(folder),
        None => Path::new(&std::env::var_os("CARGO_MANIFEST_DIR").unwrap_or_default()).join("lib"),
    };
    let archive = folder.join("libbtree_range_map.a");
    println!("cargo:rerun-if-changed={}", archive.display());
    if !archive.exists() {
        println!("cargo::error={} is missing", archive.display());
        println!(
            "cargo::error=take the .crate that bindings/package makes, or set RANGE_MAP_LIB to the archive's folder"
        );
        return;
    }
    println!("cargo:rustc-link-search=native={}", folder.display());
    println!("cargo:rustc-link-lib=static=btree_range_map");
}
