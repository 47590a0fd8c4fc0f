// Where the proved library lies, if it is to be linked.
fn main() {
    println!("cargo:rerun-if-changed=build.rs");
    println!("cargo:rerun-if-env-changed=KNELLGABLE_LIB");
    if std::env::var_os("CARGO_FEATURE_LIBRARY").is_some() {
        let here = std::env::var("CARGO_MANIFEST_DIR").unwrap();
        let folder = std::env::var("KNELLGABLE_LIB").unwrap_or(format!("{here}/../target/staticlib"));
        println!("cargo:rustc-link-search=native={folder}");
        println!("cargo:rerun-if-changed={folder}/libknellgable.a");
    }
}
