//! With the feature `proved`, links the static library of the proved checker.

use std::path::Path;

fn main() {
    println!("cargo::rerun-if-changed=build.rs");
    if std::env::var_os("CARGO_FEATURE_PROVED").is_none() {
        return;
    }
    let folder = Path::new(env!("CARGO_MANIFEST_DIR")).join("../target/staticlib");
    let library = folder.join("libtruppidane.a");
    println!("cargo::rerun-if-changed={}", library.display());
    if library.exists() {
        println!("cargo::rustc-link-search=native={}", folder.display());
        println!("cargo::rustc-link-lib=static=truppidane");
    } else {
        println!(
            "cargo::error=the proved library is not built: \
             first run `tools/build.sh` at the top of the repository"
        );
    }
}
