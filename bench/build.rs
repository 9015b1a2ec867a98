//! Links the kernel's archive, which `run` puts below `target/archive`.

use std::path::Path;

fn main() {
    let folder = Path::new(env!("CARGO_MANIFEST_DIR")).join("target/archive");
    println!("cargo:rustc-link-search=native={}", folder.display());
    println!("cargo:rustc-link-lib=static=kernel");
    println!(
        "cargo:rerun-if-changed={}",
        folder.join("libkernel.a").display()
    );
}
