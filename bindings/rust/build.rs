// Tells cargo where liba5faces.a is: in the folder that A5_LIBRARY names, by default where `bindings/library` of
// this repository writes it.
fn main() {
    let written = concat!(env!("CARGO_MANIFEST_DIR"), "/../../target/staticlib");
    let folder = std::env::var("A5_LIBRARY").unwrap_or_else(|_| written.to_string());
    println!("cargo:rustc-link-search=native={folder}");
    println!("cargo:rerun-if-changed={folder}/liba5faces.a");
    println!("cargo:rerun-if-env-changed=A5_LIBRARY");
}
