//! Links the static library that `rt lib` writes in crates/c_interface.

fn main() {
    // Asked when it runs, so that a copy of the build links the library of its own tree.
    let package = std::env::var("CARGO_MANIFEST_DIR").expect("cargo says where the package is");
    let root = format!("{package}/../../..");
    println!("cargo:rustc-link-search=native={root}/crates/c_interface/out");
    println!("cargo:rustc-link-lib=static=c_interface");
    println!("cargo:rerun-if-changed={root}/crates/c_interface/out/libc_interface.a");
}
