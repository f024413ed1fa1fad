//! Links the static library that `rt lib` writes in `crates/fryskelom`.
use std::path::Path;

fn main() {
    let root = Path::new(env!("CARGO_MANIFEST_DIR")).parent().expect("host/ stands in the repository");
    let folder = root.join("crates/fryskelom/out");
    let archive = folder.join("libfryskelom.a");
    if !archive.exists() {
        panic!("crates/fryskelom/out/libfryskelom.a is missing: run `rt lib` in crates/fryskelom first");
    }
    println!("cargo:rustc-link-search=native={}", folder.display());
    println!("cargo:rustc-link-lib=static=fryskelom");
    println!("cargo:rerun-if-changed={}", archive.display());
}
