// Links the archives that `rt lib` writes in crates/c_check and crates/c_speed.
fn main() {
    for name in ["c_check", "c_speed"] {
        let archives = format!("{}/../crates/{name}/out", env!("CARGO_MANIFEST_DIR"));
        println!("cargo:rustc-link-search=native={archives}");
        println!("cargo:rustc-link-lib=static={name}");
        println!("cargo:rerun-if-changed={archives}/lib{name}.a");
    }
}
