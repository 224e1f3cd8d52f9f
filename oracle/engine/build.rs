//! Links the engine's archive: the one that `./build library` writes, or that of the folder
//! `HOLDLIST_LIB_DIR`. Tests get the one of `./build view` too.

use std::env;
use std::path::{Path, PathBuf};

fn main() {
    println!("cargo:rerun-if-env-changed=HOLDLIST_LIB_DIR");
    let folder = match env::var_os("HOLDLIST_LIB_DIR") {
        Some(folder) => PathBuf::from(folder),
        None => {
            let here = env::var_os("CARGO_MANIFEST_DIR").expect("cargo says where the package is");
            Path::new(&here).join("../../target/staticlib")
        }
    };
    let archive = folder.join("libholdlist.a");
    assert!(
        archive.exists(),
        "there is no {}: make it with './build library'",
        archive.display()
    );
    println!("cargo:rerun-if-changed={}", archive.display());
    println!("cargo:rustc-link-search=native={}", folder.display());
    println!("cargo:rustc-link-lib=static=holdlist");
    let view = folder.join("libtest_view.a");
    println!("cargo:rerun-if-changed={}", view.display());
    println!("cargo:rustc-link-arg-tests={}", view.display());
}
