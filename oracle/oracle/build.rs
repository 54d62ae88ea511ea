//! Puts validation.rs, unchanged, and our child modules beside it into OUT_DIR, and a line that declares the module.

use std::{env, fs, path::PathBuf};

fn main() {
    let here = PathBuf::from(env::var("CARGO_MANIFEST_DIR").unwrap());
    let file = match env::var_os("BOKWINGI_VALIDATION_RS") {
        Some(path) => PathBuf::from(path),
        None => here.join("../../../shared/docs/src/src/validation.rs"),
    };
    println!("cargo:rerun-if-env-changed=BOKWINGI_VALIDATION_RS");
    println!("cargo:rerun-if-changed={}", file.display());

    let out = PathBuf::from(env::var("OUT_DIR").unwrap());
    let text = fs::read(&file).unwrap_or_else(|e| panic!("{}: {e}", file.display()));
    fs::write(out.join("validation.rs"), text).unwrap();
    fs::create_dir_all(out.join("shader_io_deductions")).unwrap();
    for child in ["shader_io_deductions.rs", "shader_io_deductions/populate.rs"] {
        let from = here.join("src").join(child);
        println!("cargo:rerun-if-changed={}", from.display());
        fs::write(out.join(child), fs::read(&from).unwrap()).unwrap();
    }
    fs::write(
        out.join("declare.rs"),
        format!(
            "#[allow(unused, dead_code, private_interfaces)]\n#[path = {:?}]\npub mod validation;\n",
            out.join("validation.rs")
        ),
    )
    .unwrap();
}
