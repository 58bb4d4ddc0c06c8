// Links the proved static library, which scripts/bench builds first.
fn main() {
    let root = std::path::Path::new(env!("CARGO_MANIFEST_DIR")).join("../target/staticlib");
    println!("cargo:rustc-link-search=native={}", root.display());
    println!("cargo:rustc-link-lib=static=machine");
    println!("cargo:rerun-if-changed={}", root.join("libmachine.a").display());
}
