//! Links the port's static library, which `tools/library` writes.
fn main() {
    let folder = std::env::var("PORT_LIBRARY").unwrap_or_else(|_| format!("{}/../target/staticlib", std::env::var("CARGO_MANIFEST_DIR").unwrap()));
    println!("cargo::rerun-if-env-changed=PORT_LIBRARY");
    println!("cargo::rerun-if-changed={folder}/libcapi.a");
    println!("cargo::rustc-link-search=native={folder}");
    println!("cargo::rustc-link-lib=static=capi");
}
