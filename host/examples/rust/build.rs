//! Links the archive that `host/archive.sh` writes; POZKERRIN_ARCHIVES names another folder.

use std::env;
use std::path::PathBuf;

fn main() {
    println!("cargo:rerun-if-env-changed=POZKERRIN_ARCHIVES");
    let folder = env::var_os("POZKERRIN_ARCHIVES").map_or_else(
        || {
            let here = env::var_os("CARGO_MANIFEST_DIR").expect("cargo sets it");
            PathBuf::from(here).join("../../../target/staticlib")
        },
        PathBuf::from,
    );
    println!(
        "cargo:rerun-if-changed={}",
        folder.join("libpozkerrin.a").display()
    );
    println!("cargo:rustc-link-search=native={}", folder.display());
    println!("cargo:rustc-link-lib=static=pozkerrin");
}
