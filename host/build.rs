//! Tells where the proved replay's static archive stands, which the gate makes before the tests.

fn main() {
    let folder = concat!(env!("CARGO_MANIFEST_DIR"), "/../target/staticlib");
    println!("cargo:rustc-link-search=native={folder}");
    // A test that was linked with an earlier archive would test that.
    println!("cargo:rerun-if-changed={folder}/libport.a");
    println!("cargo:rerun-if-changed=build.rs");
}
