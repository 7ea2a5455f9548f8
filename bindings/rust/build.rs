// Links liblattrugone.a: from the folder that LATTRUGONE_LIB names, or from where it stands beside this crate, lib where both were
// unpacked together, target/staticlib in the repository.
use std::{env, path::PathBuf};

const ARCHIVE: &str = "liblattrugone.a";

fn main() {
    println!("cargo:rerun-if-env-changed=LATTRUGONE_LIB");
    let root = PathBuf::from(concat!(env!("CARGO_MANIFEST_DIR"), "/../.."));
    let folder = match env::var_os("LATTRUGONE_LIB") {
        Some(folder) => PathBuf::from(folder),
        None if root.join("lib").join(ARCHIVE).exists() => root.join("lib"),
        None => root.join("target/staticlib"),
    };
    let archive = folder.join(ARCHIVE);
    if !archive.exists() {
        panic!(
            "{} isn't there: `make`, run at the repository's root, makes it in target/staticlib; LATTRUGONE_LIB names another folder \
             that has it",
            archive.display()
        );
    }
    println!("cargo:rerun-if-changed={}", archive.display());
    println!("cargo:rustc-link-search=native={}", folder.display());
    println!("cargo:rustc-link-lib=static=lattrugone");
}
