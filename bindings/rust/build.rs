//! Links the archive that `scripts/build_library OUT` made: `VOLUME_LIBRARY` names its folder OUT.

fn main() {
    println!("cargo:rerun-if-env-changed=VOLUME_LIBRARY");
    if let Ok(folder) = std::env::var("VOLUME_LIBRARY") {
        println!("cargo:rustc-link-search=native={folder}");
    }
    println!("cargo:rustc-link-lib=static=volume_c");
}
