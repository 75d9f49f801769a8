//! Links the proved libraries that `rt lib` writes.
fn main() {
    let crates = std::path::Path::new(env!("CARGO_MANIFEST_DIR")).join("../../crates");
    for name in ["leaves", "exports"] {
        let folder = crates.join(name).join("out");
        println!("cargo:rustc-link-search=native={}", folder.display());
        println!("cargo:rerun-if-changed={}", folder.join(format!("lib{name}.a")).display());
    }
}
