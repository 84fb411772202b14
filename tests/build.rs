//! Finds libpool.a, in target/staticlib or in the folder that POOL_LIB names, and compiles the sizes of the header.

use std::env;
use std::path::{Path, PathBuf};
use std::process::Command;

fn run(command: &mut Command) {
    let status = command.status().unwrap_or_else(|error| panic!("{command:?}: {error}"));
    assert!(status.success(), "{command:?}: {status}");
}

/// Compiles a C file with the header's folder and puts it into a library.
fn compile(root: &Path, out: &Path) {
    let object = out.join("sizes.o");
    run(Command::new("cc")
        .args(["-std=c99", "-pedantic", "-Wall", "-Wextra", "-Werror", "-O1", "-c", "-I"])
        .arg(root.join("include"))
        .arg(root.join("tests/src/sizes.c"))
        .arg("-o")
        .arg(&object));
    run(Command::new("ar").arg("crs").arg(out.join("libsizes.a")).arg(&object));
}

fn main() {
    let here = PathBuf::from(env::var("CARGO_MANIFEST_DIR").expect("set by cargo"));
    let out = PathBuf::from(env::var("OUT_DIR").expect("set by cargo"));
    let root = here.parent().expect("a folder above").to_path_buf();
    let folder = env::var("POOL_LIB").map_or(root.join("target/staticlib"), PathBuf::from);
    compile(&root, &out);
    println!("cargo:rerun-if-env-changed=POOL_LIB");
    println!("cargo:rerun-if-changed={}", folder.join("libpool.a").display());
    println!("cargo:rerun-if-changed={}", root.join("include/pool.h").display());
    println!("cargo:rerun-if-changed=src/sizes.c");
    println!("cargo:rustc-link-search=native={}", out.display());
    println!("cargo:rustc-link-search=native={}", folder.display());
    println!("cargo:rustc-link-lib=static=sizes");
}
