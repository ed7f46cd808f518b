//! With the feature `exports`, links libexports.a from the folder that WISTERIA_LIB names.

use std::env;
use std::path::Path;

fn main() {
    println!("cargo:rerun-if-changed=build.rs");
    println!("cargo:rerun-if-env-changed=WISTERIA_LIB");
    if env::var_os("CARGO_FEATURE_EXPORTS").is_none() {
        return;
    }
    let folder = env::var("WISTERIA_LIB")
        .expect("the feature `exports` wants the folder of libexports.a in WISTERIA_LIB");
    let library = Path::new(&folder).join("libexports.a");
    assert!(library.is_file(), "there is no {}", library.display());
    println!("cargo:rerun-if-changed={}", library.display());
    println!("cargo:rustc-link-search=native={folder}");
    println!("cargo:rustc-link-lib=static=exports");
}
