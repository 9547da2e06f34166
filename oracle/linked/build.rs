//! Links the proved libraries. `CROCKTENDRIL_LIB_DIR` names another folder to
//! take `libcrocktendril.a` and `libwear.a` from.

use std::env;
use std::path::Path;

fn main() {
    let usual = concat!(env!("CARGO_MANIFEST_DIR"), "/../../target/staticlib");
    let folder = env::var("CROCKTENDRIL_LIB_DIR").unwrap_or_else(|_| usual.to_string());
    println!("cargo:rerun-if-env-changed=CROCKTENDRIL_LIB_DIR");
    println!("cargo:rustc-link-search=native={folder}");
    for library in ["wear", "crocktendril"] {
        let archive = Path::new(&folder).join(format!("lib{library}.a"));
        println!("cargo:rerun-if-changed={}", archive.display());
        assert!(archive.exists(), "there is no {}: run `make lib`", archive.display());
        println!("cargo:rustc-link-lib=static={library}");
    }
}
