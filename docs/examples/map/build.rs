//! Links libgateway.a, from the directory that GATEWAY_LIB names, or else from where `tools/build gateway` puts it.

use std::{env, path::Path};

fn main() {
    let home = env::var("CARGO_MANIFEST_DIR").expect("cargo sets it");
    let library = env::var("GATEWAY_LIB").unwrap_or(format!("{home}/../../../target/staticlib"));
    println!("cargo:rerun-if-env-changed=GATEWAY_LIB");
    println!(
        "cargo:rerun-if-changed={}",
        Path::new(&library).join("libgateway.a").display()
    );
    println!("cargo:rustc-link-search=native={library}");
    println!("cargo:rustc-link-lib=static=gateway");
}
