//! Links the proved library, libcapi.a, which `tools/library` writes. SOKDRIB_LIB_DIR names its folder, else it is
//! target/staticlib of the repository.
use std::env;
use std::path::PathBuf;

fn main() {
    println!("cargo::rerun-if-env-changed=SOKDRIB_LIB_DIR");
    println!("cargo::rerun-if-changed=build.rs");
    let here = PathBuf::from(env::var_os("CARGO_MANIFEST_DIR").unwrap_or_default());
    let folder = env::var_os("SOKDRIB_LIB_DIR").map_or_else(|| here.join("../target/staticlib"), PathBuf::from);
    let library = folder.join("libcapi.a");
    println!("cargo::rerun-if-changed={}", library.display());
    if !library.is_file() {
        println!("cargo::error=there is no {}: run tools/library, or name its folder in SOKDRIB_LIB_DIR", library.display());
    }
    println!("cargo::rustc-link-search=native={}", folder.display());
    println!("cargo::rustc-link-lib=static=capi");
}
