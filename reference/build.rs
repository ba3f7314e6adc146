//! Links libccfb.a from the folder that CCFB_LIB_DIR names. Everything builds without it too, but
//! then `compare` and `bench` have only the baseline.

use std::env;
use std::path::Path;

fn main() {
    println!("cargo:rerun-if-changed=build.rs");
    println!("cargo:rerun-if-env-changed=CCFB_LIB_DIR");
    println!("cargo:rustc-check-cfg=cfg(product)");
    let Ok(folder) = env::var("CCFB_LIB_DIR") else {
        return;
    };
    let library = Path::new(&folder).join("libccfb.a");
    assert!(library.is_file(), "{}: not there", library.display());
    println!("cargo:rerun-if-changed={}", library.display());
    println!("cargo:rustc-link-search=native={folder}");
    println!("cargo:rustc-link-lib=static=ccfb");
    println!("cargo:rustc-cfg=product");
}
