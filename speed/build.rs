//! Links the proved end, which `rt lib` built in crates/end_c.

use std::path::Path;

fn main() {
    let out = Path::new(env!("CARGO_MANIFEST_DIR")).join("../crates/end_c/out");
    println!("cargo:rustc-link-search=native={}", out.display());
    println!("cargo:rustc-link-lib=static=end_c");
    println!(
        "cargo:rerun-if-changed={}",
        out.join("libend_c.a").display()
    );
}
