//! Links the static library whose path is in VESZTAMOR_LIBRARY: what `.ci/library` prints on its last line.
use std::env;
use std::path::Path;

fn main() {
    println!("cargo:rerun-if-env-changed=VESZTAMOR_LIBRARY");
    let library = env::var("VESZTAMOR_LIBRARY")
        .expect("VESZTAMOR_LIBRARY is to be the path of libvesztamor.a: see .ci/library");
    let folder = Path::new(&library)
        .parent()
        .expect("VESZTAMOR_LIBRARY has no folder");
    println!("cargo:rerun-if-changed={library}");
    println!("cargo:rustc-link-search=native={}", folder.display());
    println!("cargo:rustc-link-lib=static=vesztamor");
}
