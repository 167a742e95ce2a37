//! Tells the linker where libgateway.a is: GATEWAY_LIB_DIR, or
//! ../../target/staticlib from this package.

use std::path::PathBuf;

fn main() {
    let package = PathBuf::from(std::env::var_os("CARGO_MANIFEST_DIR").unwrap());
    let place = match std::env::var_os("GATEWAY_LIB_DIR") {
        Some(place) => PathBuf::from(place),
        None => package.join("../../target/staticlib"),
    };
    println!("cargo:rerun-if-env-changed=GATEWAY_LIB_DIR");
    println!(
        "cargo:rerun-if-changed={}",
        place.join("libgateway.a").display()
    );
    println!("cargo:rustc-link-search=native={}", place.display());
}
