//! Links libcart.a: from the folder that `CART_LIB` names, or from where `rt lib --cpu x86-64` in crates/cart writes it.

use std::path::PathBuf;

fn main() {
    let here = env!("CARGO_MANIFEST_DIR");
    let folder = std::env::var_os("CART_LIB").map_or_else(
        || PathBuf::from(here).join("../../crates/cart/out"),
        PathBuf::from,
    );
    let archive = folder.join("libcart.a");
    if !archive.is_file() {
        eprintln!("no libcart.a: run `rt lib --cpu x86-64` in crates/cart, or set CART_LIB to its folder");
        std::process::exit(1);
    }
    println!("cargo:rustc-link-search=native={}", folder.display());
    println!("cargo:rustc-link-lib=static=cart");
    println!("cargo:rerun-if-changed={}", archive.display());
    println!("cargo:rerun-if-env-changed=CART_LIB");
}
