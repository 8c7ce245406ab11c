//! Links the static library: the folder that POMARISCO_LIBRARY names, else the repository's crates/c_api/out.

use std::env;
use std::path::PathBuf;

fn main() {
    let here = PathBuf::from(env::var("CARGO_MANIFEST_DIR").expect("set by cargo"));
    let folder = match env::var("POMARISCO_LIBRARY") {
        Ok(folder) => PathBuf::from(folder),
        Err(_) => here.join("../../crates/c_api/out"),
    };
    let library = folder.join("libc_api.a");
    assert!(library.is_file(), "no {}: build it by host/build", library.display());
    println!("cargo:rerun-if-env-changed=POMARISCO_LIBRARY");
    println!("cargo:rerun-if-changed={}", library.display());
    println!("cargo:rustc-link-search=native={}", folder.display());
    println!("cargo:rustc-link-lib=static=c_api");
}
