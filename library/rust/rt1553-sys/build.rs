//! RT1553_LIB_DIR names the folder of librt1553.a. If it is not set, this is the folder in which
//! `make library` leaves it.
use std::env;
use std::path::PathBuf;

fn main() {
    println!("cargo:rerun-if-env-changed=RT1553_LIB_DIR");
    let here = PathBuf::from(env::var_os("CARGO_MANIFEST_DIR").expect("cargo sets it"));
    let folder = env::var_os("RT1553_LIB_DIR").map_or(here.join("../../../bin/library/lib"), PathBuf::from);
    println!("cargo:rustc-link-search=native={}", folder.display());
    println!("cargo:rustc-link-lib=static=rt1553");
}
