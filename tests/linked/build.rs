//! Links libnpa.a from the folder NPA_ARCHIVE_DIR, or from where `tools/build` puts it.

use std::env;
use std::path::PathBuf;

fn main() {
    println!("cargo:rerun-if-env-changed=NPA_ARCHIVE_DIR");
    let folder = env::var_os("NPA_ARCHIVE_DIR").unwrap_or("../../target/staticlib".into());
    let archive = PathBuf::from(folder).join("libnpa.a");
    let archive = archive
        .canonicalize()
        .unwrap_or_else(|error| panic!("{}: {error}", archive.display()));
    let folder = archive.parent().expect("a file has a folder");
    println!("cargo:rerun-if-changed={}", archive.display());
    println!("cargo:rustc-link-search=native={}", folder.display());
    println!("cargo:rustc-link-lib=static=npa");
}
