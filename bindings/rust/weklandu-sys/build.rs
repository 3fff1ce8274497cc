//! Links libweklandu: the variable WEKLANDU_LIB_DIR names the folder of its archive, where the linker does not find it itself.
fn main() {
    println!("cargo:rerun-if-env-changed=WEKLANDU_LIB_DIR");
    if let Ok(folder) = std::env::var("WEKLANDU_LIB_DIR") {
        println!("cargo:rustc-link-search=native={folder}");
    }
    println!("cargo:rustc-link-lib=static=weklandu");
}
