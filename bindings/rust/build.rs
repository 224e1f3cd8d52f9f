//! Links the archive of the proved code.

use std::{env, path::PathBuf, process::exit};

fn main() {
    println!("cargo:rerun-if-env-changed=HOLDLIST_LIB_DIR");
    let dir = match env::var_os("HOLDLIST_LIB_DIR") {
        Some(dir) => PathBuf::from(dir),
        None => {
            let here = env::var_os("CARGO_MANIFEST_DIR").expect("cargo sets CARGO_MANIFEST_DIR");
            PathBuf::from(here).join("../../target/staticlib")
        }
    };
    let target = |part: &str| env::var(format!("CARGO_CFG_TARGET_{part}")).unwrap_or_default();
    if (target("ARCH"), target("OS"), target("POINTER_WIDTH"))
        != ("x86_64".into(), "linux".into(), "64".into())
    {
        stop("the archive is compiled for x86-64 Linux with 64-bit pointers, and this build is for another target.");
    }
    let archive = dir.join("libholdlist.a");
    println!("cargo:rerun-if-changed={}", archive.display());
    if !archive.is_file() {
        stop(&format!(
            "there is no {}.\n\
             Make it with `./build library` at the top of the repository,\n\
             or name the folder that has it in the environment variable HOLDLIST_LIB_DIR.",
            archive.display()
        ));
    }
    println!("cargo:rustc-link-search=native={}", dir.display());
    println!("cargo:rustc-link-lib=static=holdlist");
}

fn stop(why: &str) -> ! {
    eprintln!("holdlist: {why}");
    exit(1)
}
