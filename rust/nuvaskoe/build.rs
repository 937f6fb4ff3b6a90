//! Links the library's static archive.

use std::{env, path::PathBuf};

const ARCHIVE: &str = "libnuvaskoe.a";
/// Names another directory that holds the archive.
const OVERRIDE: &str = "NUVASKOE_LIB_DIR";

fn main() {
    println!("cargo:rerun-if-env-changed={OVERRIDE}");
    let directory = match env::var_os(OVERRIDE) {
        Some(directory) => PathBuf::from(directory),
        None => {
            let manifest = env::var_os("CARGO_MANIFEST_DIR").expect("cargo names the manifest");
            PathBuf::from(manifest).join("../../target/staticlib")
        }
    };
    let archive = directory.join(ARCHIVE);
    let Ok(archive) = archive.canonicalize() else {
        panic!(
            "no {}: run make in the root of the repository",
            archive.display()
        );
    };
    println!("cargo:rerun-if-changed={}", archive.display());
    let directory = archive.parent().expect("an archive lies in a directory");
    println!("cargo:rustc-link-search=native={}", directory.display());
    println!("cargo:rustc-link-lib=static=nuvaskoe");
}
