//! Links target/staticlib/libdiftanew.a, which `tests/build` writes; DIFTANEW_LIB_DIR names another folder (absolute, or from the
//! repository's root).
use std::path::Path;

fn main() {
    println!("cargo:rerun-if-env-changed=DIFTANEW_LIB_DIR");
    let given = std::env::var("DIFTANEW_LIB_DIR").unwrap_or("target/staticlib".into());
    // This crate is two below the root.
    let root = Path::new(&std::env::var("CARGO_MANIFEST_DIR").unwrap()).join("../..");
    let folder = root.join(given).canonicalize().expect("the folder of libdiftanew.a: run `tests/build diftanew`, or set DIFTANEW_LIB_DIR");
    let archive = folder.join("libdiftanew.a");
    assert!(archive.exists(), "no libdiftanew.a there: run `tests/build diftanew`");
    println!("cargo:rerun-if-changed={}", archive.display());
    println!("cargo:rustc-link-search=native={}", folder.display());
    println!("cargo:rustc-link-lib=static=diftanew");
}
