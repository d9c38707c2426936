//! Tells cargo where libzagvulem.a is: in ZAGVULEM_LIB_DIR, or in build/ of the repository.
fn main() {
    println!("cargo:rerun-if-env-changed=ZAGVULEM_LIB_DIR");
    let dir = std::env::var("ZAGVULEM_LIB_DIR").unwrap_or_else(|_| {
        let here = std::env::var("CARGO_MANIFEST_DIR").expect("cargo sets it");
        format!("{here}/../build")
    });
    println!("cargo:rustc-link-search=native={dir}");
    println!("cargo:rustc-link-lib=static=zagvulem");
    println!("cargo:rerun-if-changed={dir}/libzagvulem.a");
}
