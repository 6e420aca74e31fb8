//! With the feature `proved`, links the proved library that `rt lib` leaves in crates/capi/out.

use std::env::var;

fn main() {
    println!("cargo:rerun-if-changed=build.rs");
    println!("cargo:rerun-if-env-changed=STAKESTALK_LIB");
    if var("CARGO_FEATURE_PROVED").is_ok() {
        let package = var("CARGO_MANIFEST_DIR").expect("cargo names the package");
        let directory = var("STAKESTALK_LIB").unwrap_or(format!("{package}/../../crates/capi/out"));
        println!("cargo:rerun-if-changed={directory}/libcapi.a");
        println!("cargo:rustc-link-search=native={directory}");
        println!("cargo:rustc-link-lib=static=capi");
    }
}
