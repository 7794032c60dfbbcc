//! Links the archive that `embed/build` made: in `MEADOWTRAY_LIB`, or beside this crate.
use std::path::PathBuf;

fn main() {
    println!("cargo:rerun-if-env-changed=MEADOWTRAY_LIB");
    let folder = match std::env::var_os("MEADOWTRAY_LIB") {
        Some(folder) => PathBuf::from(folder),
        None => PathBuf::from(std::env::var_os("CARGO_MANIFEST_DIR").unwrap()).join("../c/out"),
    };
    println!("cargo:rerun-if-changed={}", folder.join("libmeadowtray.a").display());
    println!("cargo:rustc-link-search=native={}", folder.display());
    println!("cargo:rustc-link-lib=static=meadowtray");
}
