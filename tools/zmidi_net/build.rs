//! Names the three files of the Rust in the folder that ZMIDI_NET_SOURCE gives. They are compiled where
//! they stand, unchanged.
use std::{env, fs, path::Path};

fn main() {
    println!("cargo:rerun-if-env-changed=ZMIDI_NET_SOURCE");
    let source = env::var("ZMIDI_NET_SOURCE").expect("ZMIDI_NET_SOURCE names the folder of packet.rs, command.rs and stream.rs");
    let mut text = String::new();
    for name in ["packet", "command", "stream"] {
        let file = Path::new(&source).join(format!("{name}.rs")).canonicalize().expect("a file of the Rust");
        println!("cargo:rerun-if-changed={}", file.display());
        text += &format!("#[allow(dead_code)]\n#[path = {:?}]\npub mod {name};\n", file.display().to_string());
    }
    fs::write(Path::new(&env::var("OUT_DIR").unwrap()).join("source.rs"), text).unwrap();
}
