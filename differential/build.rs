//! Links libquanta_check.a, which `scripts/library` writes.

use std::env;
use std::path::PathBuf;

const DEFAULT_FOLDER: &str = "../target/staticlib";

fn main() {
    println!("cargo:rerun-if-env-changed=QUANTA_CHECK_LIB");
    let manifest = env::var_os("CARGO_MANIFEST_DIR").expect("cargo sets CARGO_MANIFEST_DIR");
    let folder = env::var_os("QUANTA_CHECK_LIB").unwrap_or(DEFAULT_FOLDER.into());
    let folder = PathBuf::from(manifest).join(folder);
    let library = folder.join("libquanta_check.a");
    assert!(
        library.is_file(),
        "{} isn't there.\nWrite it by `scripts/library`, or set QUANTA_CHECK_LIB to its folder.",
        library.display(),
    );
    println!("cargo:rerun-if-changed={}", library.display());
    println!("cargo:rustc-link-search=native={}", folder.display());
    println!("cargo:rustc-link-lib=static=quanta_check");
}
