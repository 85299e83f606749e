//! Links the archive that `host/build` writes. FULGWERZ_LIB names another folder that holds it.
use std::env;
use std::path::PathBuf;

fn main() {
    println!("cargo:rerun-if-env-changed=FULGWERZ_LIB");
    let folder = match env::var_os("FULGWERZ_LIB") {
        Some(folder) => PathBuf::from(folder),
        None => PathBuf::from(env::var_os("CARGO_MANIFEST_DIR").unwrap()).join("../../target/staticlib"),
    };
    println!("cargo:rerun-if-changed={}", folder.join("libfulgwerz.a").display());
    println!("cargo:rustc-link-search=native={}", folder.display());
    println!("cargo:rustc-link-lib=static=fulgwerz");
}
