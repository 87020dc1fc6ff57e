//! Links `libsirmjold.a` of the folder that SIRMJOLD_LIB names.
fn main() {
    println!("cargo:rerun-if-env-changed=SIRMJOLD_LIB");
    let folder = std::env::var("SIRMJOLD_LIB").expect("SIRMJOLD_LIB names the folder of libsirmjold.a");
    println!("cargo:rerun-if-changed={folder}/libsirmjold.a");
    println!("cargo:rustc-link-search=native={folder}");
    println!("cargo:rustc-link-lib=static=sirmjold");
}
