//! Links the static library of the C interface.

use std::env;
use std::path::PathBuf;
use std::process::exit;

/// The folder named by ARVUMNAO_LIB_DIR, else target/staticlib two levels above the package, where `tools/build capi` writes it.
fn directory() -> PathBuf {
    match env::var_os("ARVUMNAO_LIB_DIR") {
        Some(named) if !named.is_empty() => PathBuf::from(named),
        _ => PathBuf::from(env::var_os("CARGO_MANIFEST_DIR").unwrap()).join("../../target/staticlib"),
    }
}

fn main() {
    let directory = directory();
    let file = directory.join("libcapi.a");
    println!("cargo:rerun-if-env-changed=ARVUMNAO_LIB_DIR");
    println!("cargo:rerun-if-changed=build.rs");
    println!("cargo:rerun-if-changed={}", file.display());
    if !file.exists() {
        eprintln!("{} is missing: that is the library which this crate links.", file.display());
        eprintln!("Build it by `tools/build capi` in the repository, or name the folder that has it in ARVUMNAO_LIB_DIR.");
        exit(1);
    }
    println!("cargo:rustc-link-search=native={}", directory.display());
    println!("cargo:rustc-link-lib=static=capi");
}
