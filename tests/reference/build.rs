// The library's archive: the folder in SSP_LIB, else ../../crates/ssp/out.
fn main() {
    println!("cargo:rerun-if-env-changed=SSP_LIB");
    let here = std::env::var("CARGO_MANIFEST_DIR").unwrap();
    let dir = std::env::var("SSP_LIB").unwrap_or(format!("{here}/../../crates/ssp/out"));
    println!("cargo:rerun-if-changed={dir}/libssp.a");
    println!("cargo:rustc-link-search=native={dir}");
    println!("cargo:rustc-link-lib=static=ssp");
}
