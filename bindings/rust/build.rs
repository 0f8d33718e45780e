//! Links libvcfh.a, which `bindings/build` makes: from the folder VCFH_LIB_DIR, or from target/bindings of this repository.
fn main() {
    println!("cargo:rerun-if-env-changed=VCFH_LIB_DIR");
    let folder = std::env::var("VCFH_LIB_DIR").unwrap_or_else(|_| {
        let here = std::env::var("CARGO_MANIFEST_DIR").expect("cargo names the package's folder");
        format!("{here}/../../target/bindings")
    });
    println!("cargo:rerun-if-changed={folder}/libvcfh.a");
    println!("cargo:rustc-link-search=native={folder}");
    println!("cargo:rustc-link-lib=static=vcfh");
}
