// Links the static libraries that `tests/build embed by_value` writes. Each has its own calls as its only global names, so they don't
// meet.
fn main() {
    for name in ["embed", "by_value"] {
        let library = std::path::Path::new(env!("CARGO_MANIFEST_DIR")).join(format!("../../target/staticlib/lib{name}.a"));
        println!("cargo:rustc-link-arg-bins={}", library.display());
        println!("cargo:rerun-if-changed={}", library.display());
    }
}
