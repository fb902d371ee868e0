//! Finds libjinthuol.a: in the folder that JINTHUOL_LIB_DIR names, else in target/staticlib of the
//! repository.

use std::{env, path::PathBuf, process};

fn main() {
    // cargo runs this in the crate's folder, and needs a full path for the linker.
    let crate_folder = env::current_dir().expect("the crate's folder");
    let named = env::var_os("JINTHUOL_LIB_DIR").map(PathBuf::from);
    let folder = crate_folder.join(named.unwrap_or("../../target/staticlib".into()));
    let archive = folder.join("libjinthuol.a");
    println!("cargo::rerun-if-env-changed=JINTHUOL_LIB_DIR");
    println!("cargo::rerun-if-changed={}", archive.display());
    if !archive.is_file() {
        eprintln!("There is no {}.", archive.display());
        eprintln!("`tools/build jinthuol` writes it to target/staticlib.");
        eprintln!("JINTHUOL_LIB_DIR can name another folder, by its full path.");
        process::exit(1);
    }
    println!("cargo::rustc-link-search=native={}", folder.display());
    println!("cargo::rustc-link-lib=static=jinthuol");
}
