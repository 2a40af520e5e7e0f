//! Links the archive that `archive` makes.

use std::path::Path;

fn main() {
    let here = std::env::var("CARGO_MANIFEST_DIR").expect("cargo says where this package is");
    let folder = Path::new(&here).join("../target/lib");
    println!("cargo:rustc-link-search=native={}", folder.display());
    println!("cargo:rustc-link-lib=static=pulxarrid");
    println!(
        "cargo:rerun-if-changed={}",
        folder.join("libpulxarrid.a").display()
    );
}
