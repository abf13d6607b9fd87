//! Links libflourscoop.a, from the folder that FLOURSCOOP_LIB names or else from target/host, where host/build.sh puts it.

use std::env;
use std::path::PathBuf;

fn main() {
    println!("cargo:rerun-if-env-changed=FLOURSCOOP_LIB");
    let folder = env::var_os("FLOURSCOOP_LIB").map_or_else(
        || PathBuf::from(env::var_os("CARGO_MANIFEST_DIR").unwrap()).join("../../target/host"),
        PathBuf::from,
    );
    let archive = folder.join("libflourscoop.a");
    println!("cargo:rerun-if-changed={}", archive.display());
    assert!(archive.exists(), "{} is not there: run host/build.sh first", archive.display());
    println!("cargo:rustc-link-search=native={}", folder.display());
    println!("cargo:rustc-link-lib=static=flourscoop");
}
