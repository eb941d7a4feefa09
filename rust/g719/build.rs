//! Finds the proved library, `libg719.a`: in the folder that `G719_LIB_DIR` names, else where the repository
//! builds it.

use std::env;
use std::path::PathBuf;
use std::process::exit;

const ARCHIVE: &str = "libg719.a";

fn stop(why: &str) -> ! {
    eprintln!("g719: {why}");
    exit(1)
}

fn main() {
    println!("cargo:rerun-if-env-changed=G719_LIB_DIR");
    println!("cargo:rerun-if-changed=build.rs");
    let target = env::var("TARGET").unwrap_or_default();
    if !target.starts_with("x86_64-") || !target.contains("-linux-") {
        stop(&format!(
            "the library is for x86-64 Linux, and this build is for {target}: \
             run cargo with --target x86_64-unknown-linux-gnu"
        ));
    }
    let named = env::var_os("G719_LIB_DIR").map(PathBuf::from);
    let built = PathBuf::from(env!("CARGO_MANIFEST_DIR")).join("../../target/staticlib");
    let folder = named.clone().unwrap_or(built);
    let archive = folder.join(ARCHIVE);
    println!("cargo:rerun-if-changed={}", archive.display());
    if !archive.is_file() {
        stop(&match named {
            Some(_) => format!("G719_LIB_DIR is set, but there is no {}", archive.display()),
            None => format!(
                "there is no {}: run `tools/build g719` in the repository, \
                 or set G719_LIB_DIR to the folder that has {ARCHIVE}",
                archive.display()
            ),
        });
    }
    println!("cargo:rustc-link-search=native={}", folder.display());
    println!("cargo:rustc-link-lib=static=g719");
    println!("cargo:lib_dir={}", folder.display());
}
