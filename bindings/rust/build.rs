//! Links the proved archive, which stands outside this crate.
use std::env;
use std::path::PathBuf;
use std::process::exit;

const DIR: &str = "PUMPFENNEL_LIB_DIR";

fn main() {
    println!("cargo::rerun-if-env-changed={DIR}");
    let folder = match env::var_os(DIR) {
        Some(folder) => PathBuf::from(folder),
        None => PathBuf::from(env::var_os("CARGO_MANIFEST_DIR").unwrap()).join("../../target/staticlib"),
    };
    let archive = folder.join("libpumpfennel.a");
    println!("cargo::rerun-if-changed={}", archive.display());
    if !archive.is_file() {
        println!("cargo::error=there is no {}", archive.display());
        println!(
            "cargo::error=run 'tools/build library' in the project's folder, or set {DIR} to the archive's folder"
        );
        exit(1);
    }
    println!("cargo::rustc-link-search=native={}", folder.display());
    println!("cargo::rustc-link-lib=static=pumpfennel");
}
