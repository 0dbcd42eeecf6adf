//! Links the archive of the proved code.
fn main() {
    let here = std::env::var("CARGO_MANIFEST_DIR").expect("cargo tells where the package is");
    let folder = format!("{here}/../target/lib");
    println!("cargo:rustc-link-search=native={folder}");
    println!("cargo:rustc-link-lib=static=benchplan");
    println!("cargo:rerun-if-changed={folder}/libbenchplan.a");
}
