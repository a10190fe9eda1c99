//! Links the archive of the proved library, which `tools/archive.sh` makes.

use std::path::Path;
use std::process::exit;

fn main() {
    let root = Path::new(env!("CARGO_MANIFEST_DIR")).join("..");
    let archive = root.join("target/staticlib/libexports.a");
    println!("cargo:rerun-if-changed={}", archive.display());
    if !archive.exists() {
        eprintln!("target/staticlib/libexports.a is missing.");
        eprintln!("Make it in the root of the repository with: sh tools/archive.sh");
        exit(1);
    }
    println!(
        "cargo:rustc-link-search=native={}",
        root.join("target/staticlib").display()
    );
    println!("cargo:rustc-link-lib=static=exports");
}
