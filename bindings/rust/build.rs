//! Links libyonaduvi.a, which `rt lib` makes in crates/yonaduvi. OUR_LIBS: the folder that it is in.

fn main() {
    let folder = std::env::var("OUR_LIBS").unwrap_or_else(|_| format!("{}/../../crates/yonaduvi/out", env!("CARGO_MANIFEST_DIR")));
    println!("cargo:rerun-if-env-changed=OUR_LIBS");
    println!("cargo:rerun-if-changed={folder}/libyonaduvi.a");
    println!("cargo:rustc-link-search=native={folder}");
    println!("cargo:rustc-link-lib=static=yonaduvi");
}
