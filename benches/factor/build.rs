//! Links the plain C, which benches/run compiles first.

fn main() {
    let package = std::env::var("CARGO_MANIFEST_DIR").unwrap();
    let folder = format!("{package}/../../target/benches");
    println!("cargo:rustc-link-search={folder}");
    println!("cargo:rustc-link-lib=static=plain");
    println!("cargo:rerun-if-changed={folder}/libplain.a");
}
