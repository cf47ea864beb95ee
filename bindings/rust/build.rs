// Links the archive that `rt lib` writes in crates/capi. SASNUVARTH_LIB_DIR names another folder for it.
use std::env;
use std::path::PathBuf;

fn main() {
    let beside = PathBuf::from(env::var("CARGO_MANIFEST_DIR").unwrap()).join("../../crates/capi/out");
    let folder = env::var("SASNUVARTH_LIB_DIR").map(PathBuf::from).unwrap_or(beside);
    println!("cargo:rerun-if-env-changed=SASNUVARTH_LIB_DIR");
    println!("cargo:rerun-if-changed={}", folder.join("libcapi.a").display());
    println!("cargo:rustc-link-search=native={}", folder.display());
    println!("cargo:rustc-link-lib=static=capi");
}
