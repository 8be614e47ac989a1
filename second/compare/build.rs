//! Links the archive that `rt staticlib panel` writes.

fn main() {
    let archive = std::path::Path::new(env!("CARGO_MANIFEST_DIR")).join("../../target/staticlib");
    println!("cargo:rustc-link-search=native={}", archive.display());
    println!("cargo:rustc-link-lib=static=panel");
    println!(
        "cargo:rerun-if-changed={}",
        archive.join("libpanel.a").display()
    );
}
