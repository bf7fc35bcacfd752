//! Links the proved archive, crates/abi/out/libabi.a of the project (rt lib, in crates/abi);
//! SEAMTROUT_ARCHIVE names another folder.

use std::path::PathBuf;

fn main() {
    let beside = PathBuf::from(std::env::var("CARGO_MANIFEST_DIR").unwrap()).join("../crates/abi/out");
    let folder = std::env::var("SEAMTROUT_ARCHIVE").map(PathBuf::from).unwrap_or(beside);
    println!("cargo:rerun-if-env-changed=SEAMTROUT_ARCHIVE");
    println!("cargo:rerun-if-changed={}", folder.join("libabi.a").display());
    println!("cargo:rustc-link-search=native={}", folder.display());
    println!("cargo:rustc-link-lib=static=abi");
}
