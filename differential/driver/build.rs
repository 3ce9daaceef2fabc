// Links the static library; OUR_LIBS is the folder that it is in.
fn main() {
    let folder = std::env::var("OUR_LIBS").expect("OUR_LIBS: the folder with libyonaduvi.a");
    println!("cargo:rerun-if-env-changed=OUR_LIBS");
    println!("cargo:rerun-if-changed={folder}/libyonaduvi.a");
    println!("cargo:rustc-link-search=native={folder}");
    println!("cargo:rustc-link-lib=static=yonaduvi");
}
