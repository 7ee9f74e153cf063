//! Says where the static library is: in the folder that RILVATOK_LIB names, or where `rt lib` writes it in `crates/controller`.
use std::env;
use std::path::PathBuf;

fn main() {
    println!("cargo:rerun-if-env-changed=RILVATOK_LIB");
    let folder = match env::var_os("RILVATOK_LIB") {
        Some(folder) => PathBuf::from(folder),
        None => {
            PathBuf::from(env::var_os("CARGO_MANIFEST_DIR").unwrap()).join("../../crates/controller/out")
        }
    };
    println!(
        "cargo:rerun-if-changed={}",
        folder.join("libcontroller.a").display()
    );
    println!("cargo:rustc-link-search=native={}", folder.display());
    println!("cargo:rustc-link-lib=static=controller");
}
