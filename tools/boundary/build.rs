//! Links the archive that `tools/build.sh` writes; VOSEMAQE_LIB names another folder.
fn main() {
    let folder = std::env::var("VOSEMAQE_LIB").unwrap_or("../../target/staticlib".into());
    let folder = std::fs::canonicalize(&folder).expect("no folder with libvosemaqe.a: run tools/build.sh");
    println!("cargo:rustc-link-search=native={}", folder.display());
    println!("cargo:rustc-link-lib=static=vosemaqe");
    println!("cargo:rerun-if-env-changed=VOSEMAQE_LIB");
    println!("cargo:rerun-if-changed={}/libvosemaqe.a", folder.display());
}
