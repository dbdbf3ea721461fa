//! Links the proved library: that of ROOMS_LIB, or what `rt lib` writes in crates/rooms_c.

use std::env;
use std::path::PathBuf;

fn main() {
    println!("cargo:rerun-if-env-changed=ROOMS_LIB");
    let library = match env::var_os("ROOMS_LIB") {
        Some(path) => PathBuf::from(path),
        None => PathBuf::from(env!("CARGO_MANIFEST_DIR")).join("../../crates/rooms_c/out/librooms_c.a"),
    };
    let library = library.canonicalize().unwrap_or_else(|_| {
        panic!("no {}: run `rt lib` in crates/rooms_c, or set ROOMS_LIB to the library's path", library.display())
    });
    println!("cargo:rerun-if-changed={}", library.display());
    let folder = library.parent().expect("a file stands in a folder");
    let name = library.file_name().expect("a library has a name").to_str().expect("its name is text");
    println!("cargo:rustc-link-search=native={}", folder.display());
    println!("cargo:rustc-link-lib=static:+verbatim={name}");
}
