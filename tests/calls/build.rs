//! Links the library with the proved calls: that of BARRIEROSE_MEASURE, by default the one that rt makes.

use std::path::Path;

fn main() {
    let named = std::env::var("BARRIEROSE_MEASURE").unwrap_or("crates/measure/out/libmeasure.a".to_string());
    let library = Path::new("../..").join(&named).canonicalize().unwrap_or_else(|fault| panic!("{named}: {fault}"));
    let (folder, file) =
        (library.parent().expect("a file is in a folder"), library.file_name().expect("it has a name"));
    println!("cargo:rerun-if-env-changed=BARRIEROSE_MEASURE");
    println!("cargo:rerun-if-changed={}", library.display());
    println!("cargo:rustc-link-search=native={}", folder.display());
    println!("cargo:rustc-link-lib=static:+verbatim={}", file.display());
}
