//! Links the proved library where it exists: libengine.a, from target/staticlib of the repository or from the folder that LESUNGKAP_LIB
//! names.

use std::env;
use std::path::{Path, PathBuf};

fn main() {
    println!("cargo:rerun-if-env-changed=LESUNGKAP_LIB");
    println!("cargo:rustc-check-cfg=cfg(has_engine)");
    let here = env::var_os("CARGO_MANIFEST_DIR").expect("set by cargo");
    let default = Path::new(&here).join("../../target/staticlib");
    let folder = env::var_os("LESUNGKAP_LIB").map_or(default, PathBuf::from);
    let file = folder.join("libengine.a");
    println!("cargo:rerun-if-changed={}", file.display());
    if file.exists() {
        println!("cargo:rustc-cfg=has_engine");
        println!("cargo:rustc-link-search=native={}", folder.display());
        println!("cargo:rustc-link-lib=static:-bundle=engine");
    }
}
