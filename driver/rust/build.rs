//! Links the archive that `rt lib` in crates/driver writes. `KATAN_DRIVER` names another folder that holds it.

use std::path::PathBuf;

fn main() {
    println!("cargo:rerun-if-env-changed=KATAN_DRIVER");
    let folder = match std::env::var_os("KATAN_DRIVER") {
        Some(folder) => PathBuf::from(folder),
        None => PathBuf::from(std::env::var_os("CARGO_MANIFEST_DIR").unwrap())
            .join("../../crates/driver/out"),
    };
    let archive = folder.join("libdriver.a");
    if !archive.exists() {
        panic!(
            "{} is missing: run `rt lib` in crates/driver first",
            archive.display()
        );
    }
    println!("cargo:rerun-if-changed={}", archive.display());
    println!("cargo:rustc-link-search=native={}", folder.display());
    println!("cargo:rustc-link-lib=static=driver");
}
