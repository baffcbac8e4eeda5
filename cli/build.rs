//! Tells the linker where the proved library, `libexports.a`, lies.

use std::env;
use std::path::PathBuf;

fn main() {
    let folder = match env::var_os("ACCESS_LIB_DIR") {
        Some(folder) => PathBuf::from(folder),
        None => {
            let manifest = env::var_os("CARGO_MANIFEST_DIR").expect("set by cargo");
            PathBuf::from(manifest).join("../target/staticlib")
        }
    };
    println!("cargo:rustc-link-search=native={}", folder.display());
    // A new library must be linked again, though no source here has changed.
    let library = folder.join("libexports.a");
    println!("cargo:rerun-if-changed={}", library.display());
    println!("cargo:rerun-if-changed=build.rs");
    println!("cargo:rerun-if-env-changed=ACCESS_LIB_DIR");
}
