//! Links `libsirmjold.a`, which `tools/library` makes in the repository's `target/library/lib`; `SIRMJOLD_LIB` names
//! another folder that has it.
use std::env;
use std::path::PathBuf;
use std::process::exit;

fn main() {
    println!("cargo:rerun-if-env-changed=SIRMJOLD_LIB");
    let here = PathBuf::from(env::var_os("CARGO_MANIFEST_DIR").unwrap());
    let named = env::var_os("SIRMJOLD_LIB");
    let folder = here.join(named.unwrap_or_else(|| "../../target/library/lib".into()));
    let archive = folder.join("libsirmjold.a");
    println!("cargo:rerun-if-changed={}", archive.display());
    if !archive.is_file() {
        eprintln!("there is no {}", archive.display());
        eprintln!("run tools/library, or set SIRMJOLD_LIB to the folder that has libsirmjold.a");
        exit(1);
    }
    println!("cargo:rustc-link-search=native={}", folder.display());
    println!("cargo:rustc-link-lib=static=sirmjold");
}
