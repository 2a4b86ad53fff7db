//! Links the library with the host calls: that of BARRIEROSE_HOST, by default the proved one.

use std::path::Path;

fn main() {
    let named = std::env::var("BARRIEROSE_HOST").unwrap_or("crates/host/out/libhost.a".to_string());
    let library = Path::new("../..").join(&named).canonicalize().unwrap_or_else(|fault| panic!("{named}: {fault}"));
    println!("cargo:rerun-if-env-changed=BARRIEROSE_HOST");
    println!("cargo:rerun-if-changed={}", library.display());
    println!("cargo:rustc-link-arg={}", library.display());
}
