//! Tells the linker where the static library stands.

use std::env;
use std::path::PathBuf;

fn main() {
    let project = PathBuf::from(env::var_os("CARGO_MANIFEST_DIR").expect("cargo sets it"));
    let folder = project.join("../target/staticlib");
    println!("cargo:rustc-link-search=native={}", folder.display());
    println!("cargo:rerun-if-changed={}", folder.join("libbattenlime.a").display());
}
