//! Only for the feature `port`: where the port's archive is.

use std::path::PathBuf;

fn main() {
    println!("cargo:rerun-if-changed=build.rs");
    println!("cargo:rerun-if-env-changed=ELBOMAVUND_LIB");
    if std::env::var_os("CARGO_FEATURE_PORT").is_some() {
        let here = PathBuf::from(std::env::var("CARGO_MANIFEST_DIR").unwrap());
        let folder = here.join(std::env::var("ELBOMAVUND_LIB").unwrap_or("../target/staticlib".into()));
        let archive = folder.join("libreader.a");
        assert!(archive.is_file(), "{} is missing: oracle/lib builds it", archive.display());
        println!("cargo:rustc-link-search=native={}", folder.display());
        println!("cargo:rerun-if-changed={}", archive.display());
        println!("cargo:rustc-env=ELBOMAVUND_ARCHIVE={}", archive.display());
    }
}
