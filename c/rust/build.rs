//! Links liblockfree.a. It lies in the folder that LOCKFREE_LIB names; else where c/build puts it, beside this crate in
//! the repository; else in the package that this crate came in.
use std::env;
use std::path::{Path, PathBuf};
use std::process::exit;

fn main() {
    println!("cargo:rerun-if-env-changed=LOCKFREE_LIB");
    let here = PathBuf::from(env::var_os("CARGO_MANIFEST_DIR").expect("cargo sets CARGO_MANIFEST_DIR"));
    let folders = match env::var_os("LOCKFREE_LIB") {
        Some(folder) => vec![PathBuf::from(folder)],
        None => vec![here.join("../out"), here.join("../../../lib")],
    };
    let Some(folder) = folders.iter().find(|folder| archive(folder).is_file()) else {
        eprintln!("there is no liblockfree.a in {folders:?}: run c/build, or name its folder in LOCKFREE_LIB");
        exit(1);
    };
    println!("cargo:rerun-if-changed={}", archive(folder).display());
    println!("cargo:rustc-link-search=native={}", folder.display());
    println!("cargo:rustc-link-lib=static=lockfree");
}

fn archive(folder: &Path) -> PathBuf {
    folder.join("liblockfree.a")
}
