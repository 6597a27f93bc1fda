//! Links the archive `librilthoss.a` from the repository's output folder, or from the folder in
//! the environment variable RILTHOSS_LIBRARY.

use std::env;
use std::path::{Path, PathBuf};

fn main() {
    println!("cargo::rerun-if-env-changed=RILTHOSS_LIBRARY");
    let folder = match env::var_os("RILTHOSS_LIBRARY") {
        Some(folder) => PathBuf::from(folder),
        None => Path::new(env!("CARGO_MANIFEST_DIR")).join("../../target/staticlib"),
    };
    let folder = folder.canonicalize().unwrap_or(folder);
    let archive = folder.join("librilthoss.a");
    println!("cargo::rerun-if-changed={}", archive.display());
    if !archive.is_file() {
        let path = archive.display();
        println!(
            "cargo::error=there is no archive {path}: run `host/library`, or name its folder in \
             RILTHOSS_LIBRARY"
        );
        return;
    }
    println!("cargo::rustc-link-search=native={}", folder.display());
    println!("cargo::rustc-link-lib=static=rilthoss");
}
