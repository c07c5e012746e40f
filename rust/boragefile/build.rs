//! Links the proved desk. The archive stands in `target/staticlib` of the repository, or where `BORAGEFILE_LIB_DIR` says.
use std::env;
use std::path::PathBuf;

fn main() {
    println!("cargo:rerun-if-env-changed=BORAGEFILE_LIB_DIR");
    let directory = match env::var_os("BORAGEFILE_LIB_DIR") {
        Some(directory) => PathBuf::from(directory),
        None => PathBuf::from(env::var_os("CARGO_MANIFEST_DIR").expect("cargo names the crate's directory"))
            .join("../../target/staticlib"),
    };
    let archive = directory.join("libboragefile.a");
    println!("cargo:rerun-if-changed={}", archive.display());
    assert!(
        archive.is_file(),
        "{} is missing: run `tools/prove library boragefile` in the repository's root",
        archive.display()
    );
    println!("cargo:rustc-link-search=native={}", directory.display());
    println!("cargo:rustc-link-lib=static=boragefile");
}
