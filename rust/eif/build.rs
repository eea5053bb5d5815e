//! Finds the proved library: in the folder that EIF_LIB_DIR names, or else where `make staticlib`
//! writes it.

use std::env;
use std::path::PathBuf;

fn main() {
    println!("cargo:rerun-if-env-changed=EIF_LIB_DIR");
    let folder = match env::var_os("EIF_LIB_DIR") {
        Some(folder) => PathBuf::from(folder),
        None => {
            PathBuf::from(env::var_os("CARGO_MANIFEST_DIR").unwrap()).join("../../target/staticlib")
        }
    };
    let archive = folder.join("libeif_c.a");
    println!("cargo:rerun-if-changed={}", archive.display());
    // Documentation and lints need no archive, so that it is not there is no error here.
    if !archive.exists() {
        println!(
            "cargo:warning=no {}: run `make staticlib`, or set EIF_LIB_DIR",
            archive.display()
        );
    }
    println!("cargo:rustc-link-search=native={}", folder.display());
    println!("cargo:rustc-link-lib=static=eif_c");
}
