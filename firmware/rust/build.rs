//! Links `target/staticlib/libpezhkadu.a` of the repository, which `firmware/test` makes; the folder may be named in
//! `PEZHKADU_LIB` instead.
use std::env;
use std::path::PathBuf;

fn main() {
    let folder = match env::var_os("PEZHKADU_LIB") {
        Some(named) => PathBuf::from(named),
        None => PathBuf::from(env::var_os("CARGO_MANIFEST_DIR").expect("cargo names the package's folder"))
            .join("../../target/staticlib"),
    };
    let archive = folder.join("libpezhkadu.a");
    if !archive.exists() {
        panic!("{} is not there: run `firmware/test` first", archive.display());
    }
    println!("cargo:rustc-link-search=native={}", folder.display());
    println!("cargo:rustc-link-lib=static=pezhkadu");
    println!("cargo:rerun-if-env-changed=PEZHKADU_LIB");
    println!("cargo:rerun-if-changed={}", archive.display());
}
