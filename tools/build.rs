//! For cargo: where the judge's library is. tools/build needs rustc alone, and says the same by -L.
fn main() {
    let here = std::env::var("CARGO_MANIFEST_DIR").unwrap_or_else(|_| ".".to_string());
    println!("cargo:rustc-link-search=native={here}/../target/staticlib");
    println!("cargo:rerun-if-changed={here}/../target/staticlib/libexports.a");
}
