//! Links the proved library, which is built before.

use std::path::Path;

const ARCHIVE: &str = "target/staticlib/libpanel.a";

fn main() {
    let archive = Path::new(env!("CARGO_MANIFEST_DIR"))
        .join("../..")
        .join(ARCHIVE);
    println!("cargo::rerun-if-changed={}", archive.display());
    match archive.canonicalize() {
        Ok(archive) => {
            let folder = archive.parent().unwrap_or(Path::new("/"));
            println!("cargo::rustc-link-search=native={}", folder.display());
            println!("cargo::rustc-link-lib=static=panel");
        }
        Err(error) => println!("cargo::error={ARCHIVE}: {error}; `tools/build panel` builds it"),
    }
}
