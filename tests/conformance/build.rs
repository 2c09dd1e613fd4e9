//! Links librota.a from the directory in ROTA_LIBRARY, by default target/staticlib of the repository.

use std::env;
use std::path::PathBuf;

fn main() {
    println!("cargo:rerun-if-changed=build.rs");
    println!("cargo:rerun-if-env-changed=ROTA_LIBRARY");
    let here = PathBuf::from(env::var_os("CARGO_MANIFEST_DIR").expect("cargo sets CARGO_MANIFEST_DIR"));
    let library = match env::var_os("ROTA_LIBRARY") {
        Some(directory) => here.join(directory),
        None => here.join("../../target/staticlib"),
    };
    println!("cargo:rerun-if-changed={}", library.join("librota.a").display());
    println!("cargo:rustc-link-search=native={}", library.display());
    println!("cargo:rustc-link-lib=static=rota");
}
