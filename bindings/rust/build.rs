//! Finds the archive: in the folder that VOSEMAQE_LIB names, else where `make` leaves it in this
//! repository, else where pkg-config says that it is installed.
use std::{env, path::Path, process::Command};

fn installed() -> Option<String> {
    let out = Command::new("pkg-config")
        .args(["--variable=libdir", "vosemaqe"])
        .output()
        .ok()?;
    let folder = String::from_utf8(out.stdout).ok()?.trim().to_string();
    (out.status.success() && !folder.is_empty()).then_some(folder)
}

fn main() {
    println!("cargo:rerun-if-env-changed=VOSEMAQE_LIB");
    println!("cargo:rerun-if-env-changed=PKG_CONFIG_PATH");
    let built = concat!(env!("CARGO_MANIFEST_DIR"), "/../../target/staticlib");
    let holds = |folder: &String| Path::new(folder).join("libvosemaqe.a").is_file();
    let folder = env::var("VOSEMAQE_LIB").ok();
    let folder = folder
        .or_else(|| Some(built.to_string()).filter(holds))
        .or_else(installed)
        .filter(holds);
    let folder =
        folder.expect("no libvosemaqe.a: run make, install it, or name its folder in VOSEMAQE_LIB");
    println!("cargo:rerun-if-changed={folder}/libvosemaqe.a");
    println!("cargo:rustc-link-search=native={folder}");
    println!("cargo:rustc-link-lib=static=vosemaqe");
}
