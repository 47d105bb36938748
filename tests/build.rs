//! Links the static library `libcapi.a`.
//! The folder comes from SIMJORAD_LIB_DIR, else it is `../target/staticlib` beside this package.

use std::env;
use std::path::PathBuf;

fn main() {
    println!("cargo:rerun-if-changed=build.rs");
    println!("cargo:rerun-if-env-changed=SIMJORAD_LIB_DIR");
    let manifest =
        PathBuf::from(env::var_os("CARGO_MANIFEST_DIR").expect("cargo sets the manifest folder"));
    let folder = match env::var_os("SIMJORAD_LIB_DIR") {
        Some(given) => manifest.join(given),
        None => manifest.join("../target/staticlib"),
    };
    let library = folder.join("libcapi.a");
    println!("cargo:rerun-if-changed={}", library.display());
    if !library.is_file() {
        panic!(
            "{} is missing: build it or set SIMJORAD_LIB_DIR",
            library.display()
        );
    }
    println!("cargo:rustc-link-search=native={}", folder.display());
    println!("cargo:rustc-link-lib=static=capi");
}
