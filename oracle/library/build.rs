//! Links the proved library where its archive is; without it `library` answers nothing.

use std::{env, path::PathBuf};

fn main() {
    let here = PathBuf::from(env::var("CARGO_MANIFEST_DIR").unwrap());
    let archive = match env::var_os("BOKWINGI_ARCHIVE") {
        Some(path) => PathBuf::from(path),
        None => here.join("../../target/staticlib/libbokwingi.a"),
    };
    println!("cargo:rerun-if-env-changed=BOKWINGI_ARCHIVE");
    println!("cargo:rerun-if-changed={}", archive.display());
    println!("cargo:rustc-check-cfg=cfg(archive)");
    if archive.is_file() {
        println!("cargo:rustc-cfg=archive");
        println!("cargo:rustc-link-search=native={}", archive.parent().unwrap().display());
        println!("cargo:rustc-link-lib=static=bokwingi");
    }
}
