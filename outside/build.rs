// Links the archive that `rt lib` writes in crates/c_check.
fn main() {
    let archive = concat!(env!("CARGO_MANIFEST_DIR"), "/../crates/c_check/out");
    println!("cargo:rustc-link-search=native={archive}");
    println!("cargo:rustc-link-lib=static=c_check");
    println!("cargo:rerun-if-changed={archive}/libc_check.a");
}
