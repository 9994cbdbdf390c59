//! Links the library: the archive that JT_LIB names, else the one that `scripts/build-archive` writes.

use std::path::Path;

fn main() {
    let built = Path::new(env!("CARGO_MANIFEST_DIR")).join("../target/staticlib/libhost.a");
    let archive = std::env::var("JT_LIB").unwrap_or(built.display().to_string());
    println!("cargo:rerun-if-env-changed=JT_LIB");
    println!("cargo:rerun-if-changed={archive}");
    println!("cargo:rustc-link-arg-bins={archive}");
}
