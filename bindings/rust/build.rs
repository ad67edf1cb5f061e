//! Links the static library that `rt lib` in crates/matigelo writes. MATIGELO_LIB names another folder to find it in.
use std::path::PathBuf;

fn main() {
    let folder = std::env::var_os("MATIGELO_LIB").map_or_else(
        || {
            PathBuf::from(std::env::var_os("CARGO_MANIFEST_DIR").unwrap())
                .join("../../crates/matigelo/out")
        },
        PathBuf::from,
    );
    let library = folder.join("libmatigelo.a");
    assert!(
        library.is_file(),
        "{} is missing: `rt lib` in crates/matigelo writes it",
        library.display()
    );
    println!("cargo:rustc-link-search=native={}", folder.display());
    println!("cargo:rustc-link-lib=static=matigelo");
    println!("cargo:rerun-if-changed={}", library.display());
    println!("cargo:rerun-if-env-changed=MATIGELO_LIB");
}
