// Links the proved library: ROOMS_LIB names the archive, or it lies where `rt lib` in crates/rooms_c writes it.
use std::env;
use std::path::PathBuf;

fn main() {
    let here = PathBuf::from(env::var("CARGO_MANIFEST_DIR").unwrap());
    let archive = match env::var("ROOMS_LIB") {
        Ok(path) => PathBuf::from(path),
        Err(_) => here.join("../crates/rooms_c/out/librooms_c.a"),
    };
    assert!(
        archive.exists(),
        "no library {}: `rt lib` in crates/rooms_c writes it",
        archive.display()
    );
    println!("cargo:rerun-if-env-changed=ROOMS_LIB");
    println!("cargo:rerun-if-changed={}", archive.display());
    println!("cargo:rustc-link-arg={}", archive.display());
}
