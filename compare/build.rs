//! Finds the archive of the proved implementation when the feature `library` asks for it.

use std::env;

fn main() {
    println!("cargo:rerun-if-env-changed=PL022_ARCHIVE_DIR");
    println!("cargo:rerun-if-changed=build.rs");
    if env::var_os("CARGO_FEATURE_LIBRARY").is_none() {
        return;
    }
    let dir = env::var("PL022_ARCHIVE_DIR")
        .expect("feature `library` needs PL022_ARCHIVE_DIR, the folder that holds libpl022.a");
    println!("cargo:rerun-if-changed={dir}/libpl022.a");
    println!("cargo:rustc-link-search=native={dir}");
    println!("cargo:rustc-link-lib=static=pl022");
}
