//! Links the static library that `relay/build-lib` makes. `DBN_C_LIB` may name another folder that holds `libdbn_c.a`.
use std::{env, path::PathBuf};

fn main() {
    let own = PathBuf::from(env::var_os("CARGO_MANIFEST_DIR").expect("cargo names the package's folder"));
    let folder = env::var_os("DBN_C_LIB").map_or_else(|| own.join("../target/native"), PathBuf::from);
    let archive = folder.join("libdbn_c.a");
    println!("cargo:rerun-if-env-changed=DBN_C_LIB");
    println!("cargo:rerun-if-changed={}", archive.display());
    assert!(archive.is_file(), "{} is missing: run relay/build-lib first", archive.display());
    println!("cargo:rustc-link-search=native={}", folder.display());
    println!("cargo:rustc-link-lib=static=dbn_c");
    // Packages that depend on this one find the C header by DEP_DBN_C_INCLUDE.
    println!("cargo:include={}", own.join("../include").display());
}
