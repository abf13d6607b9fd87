//! Links libother.a and libthis.a, another version's archive and this one's, each with its functions renamed, from the folder
//! that FLOURSCOOP_TURNS names, where host/measure.sh puts them. Without them nothing more is linked.

use std::env;

fn main() {
    println!("cargo:rustc-check-cfg=cfg(other)");
    println!("cargo:rerun-if-env-changed=FLOURSCOOP_TURNS");
    if let Ok(folder) = env::var("FLOURSCOOP_TURNS") {
        println!("cargo:rustc-cfg=other");
        println!("cargo:rustc-link-search=native={folder}");
        for archive in ["other", "this"] {
            println!("cargo:rerun-if-changed={folder}/lib{archive}.a");
            println!("cargo:rustc-link-lib=static={archive}");
        }
    }
}
