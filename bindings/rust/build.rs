//! Finds the library that the crate wraps: in the folder that FIRNOLVAG_LIB names, else where bindings/build puts it.

use std::env;
use std::path::PathBuf;

const LIBRARY: &str = "libfirnolvag.a";

fn main() {
    println!("cargo::rerun-if-env-changed=FIRNOLVAG_LIB");
    let folder = folder();
    let library = folder.join(LIBRARY);
    println!("cargo::rerun-if-changed={}", library.display());
    if !library.is_file() {
        println!("cargo::error=there is no {}", library.display());
        println!("cargo::error=run bindings/build, or name the folder that holds {LIBRARY} in FIRNOLVAG_LIB");
        return;
    }
    println!("cargo::rustc-link-search=native={}", folder.display());
    println!("cargo::rustc-link-lib=static=firnolvag");
}

/// The folder of the library, made absolute: a relative one is meant from this package's folder.
fn folder() -> PathBuf {
    let package = PathBuf::from(env::var_os("CARGO_MANIFEST_DIR").expect("cargo names the package's folder"));
    let named = env::var_os("FIRNOLVAG_LIB").filter(|named| !named.is_empty()).unwrap_or_else(|| "../lib".into());
    let folder = package.join(named);
    folder.canonicalize().unwrap_or(folder)
}
