//! Links libsid_filter.a: from the folder that SID_FILTER_LIB names, or else from target/staticlib of the repository.
use std::env;
use std::path::{Path, PathBuf};
use std::process::exit;

fn main() {
    println!("cargo:rerun-if-env-changed=SID_FILTER_LIB");
    let package = PathBuf::from(env::var("CARGO_MANIFEST_DIR").expect("cargo sets CARGO_MANIFEST_DIR"));
    // A relative SID_FILTER_LIB is seen from this package.
    let folder = match env::var_os("SID_FILTER_LIB") {
        Some(folder) => package.join(folder),
        None => package.ancestors().nth(2).expect("host/rust stands in the repository").join("target/staticlib"),
    };
    let library = folder.join("libsid_filter.a");
    println!("cargo:rerun-if-changed={}", library.display());
    if !library.is_file() {
        tell_how(&library);
        exit(1);
    }
    println!("cargo:rustc-link-search=native={}", folder.display());
    println!("cargo:rustc-link-lib=static=sid_filter");
}

fn tell_how(library: &Path) {
    eprintln!("sid-filter: the library is missing: {}", library.display());
    eprintln!("sid-filter: build it with `tools/library` in the repository's root, which needs the Rattle kit,");
    eprintln!("sid-filter: or set SID_FILTER_LIB to the folder that holds libsid_filter.a");
}
